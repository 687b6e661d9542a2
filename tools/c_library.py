#!/usr/bin/env python3
"""The library for C: its header, its programs, its store, and what it does when memory is refused.

Usage: c_library.py         what needs no proof: the store of c/store.c, and the heap of examples/c
       c_library.py BIN     all. BIN is the folder with `ocadev` and `ocactl`; the library is proved and built

Device and panel of examples/c are compiled strictly as C11 and as C++17 from what `make install` installs, by oca.pc
and by CMake, and run against each other, `ocadev` and `ocactl`, also under valgrind, for AArch64 under emulation, and
on the first x86-64; what is not installed here is named as NOT TRIED. The mixer is killed and started anew over losses,
also sanitized. Each call is tried on a closed handle and at its limits (c_library.c), in any order
(c_library_random.c), and the panel over a bad network and at wrong peers (c_library_panel.c). Each request for memory
is refused in turn. Header and library name the same functions. What is installed lies below its folder, one for each
kind of processor, and `make uninstall` leaves nothing. The file of a store is whole behind each failure (c_store.c):
each call of the system is wrapped (-Wl,--wrap) and can fail. The last line is 'N passed, M failed'."""
import contextlib
import fcntl
import filecmp
import itertools
import os
import re
import shlex
import shutil
import signal
import struct
import subprocess
import sys
import tempfile
import time
from pathlib import Path

sys.path.insert(0, str(Path(__file__).resolve().parent.parent / "gate"))
import reference
import c_figures
import c_rows
import oca_profile as oca
from c_flight import with_many_in_flight
from c_rows import LANGUAGES, SANITIZED, STRICT, compiled, ran
from checks import Ahead, Checks, bound, ended, free_port, lines_in, over_the_layer, port_said, read_until
from samples import bound_at, channels
from keep import Peer, over_kills
from peers import Lossy
from scenes import Scene, play_all, verbs_of_files, verbs_of_peer, verbs_of_run
from tables import TOP, data, whole

PANEL = "open channel 1: status 0\ngain to -6 dB: status 0\ngain: -60 dB/10\n"
RESULTS = {name: int(number) for name, number in re.findall(r"(OCA_\w+) = (\d+)", (TOP / "include/oca.h").read_text())}
DATA, VERSION = data("c_library"), reference.version_of(reference.HEADER.read_text())
CARELESS = [("unused-result", it) for it in DATA.unused] + [("nonnull", f"(void)!{it}") for it in DATA.null]
INSTALLED = [*DATA.installed]
CALLS = 1_500_000  # of a run of random ones
PARTS = ("panel", "kept", "objects", "store", "socket", "serve", "close")  # of c/, but the heap
FULL = oca.pdu(1, [oca.Command(handle, 4097, 4, 1).body() for handle in range(1, 87)])  # a datagram of 1,472 bytes
CAREFUL = ["valgrind", "-q", "--error-exitcode=99", "--leak-check=full"]
KINDS = (("", []), ("sanitized", SANITIZED))  # how a test in C is compiled


def library(target):
    """The library for a kind of processor, proved and built by one process, since other steps run beside this one."""
    run = ran(sys.executable, "gate/build.py", "--library", target, cwd=TOP, timeout=None, env=dict(os.environ, LIBRARY_JOBS="1"))
    if run.returncode:
        sys.exit(f"no library for {target}:\n{run.stdout[-2000:]}{run.stderr[-2000:]}")
    return TOP / f"crates/oca_c/out/{target}/liboca_c.a"


def flags(prefix, lib="lib"):
    if shutil.which("pkg-config"):
        env = dict(os.environ, PKG_CONFIG_PATH=f"{prefix}/{lib}/pkgconfig")
        return [shlex.split(ran("pkg-config", which, "oca", env=env, check=True).stdout) for which in ("--cflags", "--libs")]
    return [[f"-I{prefix}/include"], [f"-L{prefix}/{lib}", "-loca"]]


def compile_all(made, language, *words):
    """The device and the panel of the examples, and each call of the library, from copies of their sources."""
    for name, source in (("device", "examples/c/device.c"), ("panel", "examples/c/panel.c"), ("calls", made / "c_library.c")):
        text = shutil.copy(TOP / source, made / f"{name}.c")
        compiled(made / f"{name}-{language}", text, "-x", "none", *words, language=language)


def serving(words, **how):
    """A run of a program that serves, whose input stays open, and its port."""
    run = subprocess.Popen([*map(str, words)], stdin=subprocess.PIPE, stdout=subprocess.PIPE, stderr=subprocess.PIPE, text=True, **over_the_layer(how))
    return run, port_said(run)


def stop(run):
    run.kill()
    return run.communicate(timeout=120)[1]


def said_by(words, **how):
    run = ran(*words, **how)
    return run.stdout, run.returncode


def symbols(form, *words):
    """What a program that lists symbols says of them, by this form of its lines."""
    return set(re.findall(form, ran(*words, check=True).stdout, re.MULTILINE))


def both_ends(checks, made):
    """The device and the panel of the examples in each language; they, each call and the panel of the library under valgrind."""
    plays(checks, "ends", made, pairs=[*itertools.product(LANGUAGES, repeat=2)], seconds=3)
    if shutil.which("valgrind"):
        checks.same("each call under valgrind", said_by([*CAREFUL, made / "calls-c11"])[1], 0)
        checks.same("the panel of the library under valgrind", said_by([*CAREFUL, made / "network-c11"])[1], 0)
        plays(checks, "ends", made, CAREFUL, pairs=[("c11", "c11")], seconds=8)


def panels(checks, made, prefix, folder):
    """The panel of c/panel.c over its own network, strict and sanitized, and at `ocadev`."""
    test = c_rows.test("c_library_panel", made)
    for language, (kind, more) in itertools.product(LANGUAGES, KINDS):
        name = "-".join(filter(None, ("network", language, kind)))
        compiled(made / name, "-Wconversion", *more, f"-I{prefix}/include", "-Doca_link_datagram=handed", test, TOP / "c/panel.c",
                 "-x", "none", prefix / "lib/liboca.a", language=language)
        checks.counted(f"the panel of the library ({name})", *said_by([made / name]))
    plays(checks, "walk", made, folder=folder, stagebox=TOP / "examples/stagebox.tree")


def each_call(checks, made, prefix):
    """Each call in each language, under the sanitizers, over an arena, over a heap that counts its blocks, and on the first x86-64."""
    for language in LANGUAGES:
        checks.counted(f"each call ({language})", *said_by([made / f"calls-{language}"]))
    calls, core = made / "c_library.c", prefix / "lib/liboca_c.a"
    for what, words in (("under the sanitizers", [*SANITIZED, calls, *(TOP / f"c/{name}.c" for name in PARTS), prefix / "lib/liboca.a"]),
                        ("over an arena", ["-DARENA=(7u<<20)", calls, TOP / "examples/c/heap.c", core]),
                        ("whose blocks of memory are given back", ["-DCOUNTS_BLOCKS", calls, core])):
        checks.counted(f"each call {what}", *said_by([compiled(made / "calls", f"-I{prefix}/include", *words)]))
    if not shutil.which("qemu-x86_64"):
        return print("NOT TRIED: an x86-64 of the first kind, without qemu-x86_64")
    checks.same("each call on an x86-64 of the first kind", said_by(["qemu-x86_64", "-cpu", "Opteron_G1", made / "calls-c++17"])[1], 0)


def random_calls(checks, made, prefix):
    """Calls of devices, links and panels in any order, with any numbers, under the sanitizers: what each answers, and what it writes."""
    sources = c_rows.test("c_library_random", made), *(TOP / f"c/{name}.c" for name in ("panel", "kept", "objects"))
    for seed, language in enumerate(LANGUAGES, 1):
        program = compiled(made / f"random-{language}", *SANITIZED, f"-I{prefix}/include", *sources, "-x", "none",
                           prefix / "lib/liboca.a", language=language)
        out, status = said_by([program, CALLS, seed])
        counts = re.search(r"(\d+) passed, (\d+) failed\n$", out)
        checks.same(f"calls of anything ({language})", (counts is not None and int(counts[1]) > CALLS, counts and counts[2], status), (True, "0", 0))
        print(out, end="") if status else None
        for line in out.splitlines()[:-1] if not status else ():
            name, *results = line.split()
            unsaid = {int(it) for it in results} - {RESULTS[it] for it in reference.answers_of(name)}
            checks.same(f"what {name} answered and its page does not say", unsaid, set())


def of_a_socket(checks, made):
    """A socket asks for a send buffer of 4,000,000 bytes and is closed where another program is started; a send that finds no room does not wait; its
    clock counts sleep; and nothing has come where a signal interrupts a receive or a wait."""
    asked = made / "asked"
    asked.touch()
    for how, settings in (("at rest", {"STALL": 9, "SLEPT": 100}), ("interrupted", {"STALL": 9, "INTERRUPT": 1})):
        checks.counted(f"a socket, {how}", *said_by([made / "calls-c11", how], ASKED=asked, **settings))
    checks.same("the send buffers that are asked for", asked.read_text(), 2 * "4000000\n")


def large_datagrams(checks, made):
    """A datagram of 1,472 bytes, 86 commands, is answered as any other is. One of 1,473 bytes that begins with them is not executed, and the next command
    is answered."""
    for name, words in (("device", [made / "device-c11", 0, 3]), ("mixer", [made / "mixer-plain", made / "kept of a large datagram", 0, 3])):
        run, port = serving(words)
        with bound() as end:
            end.settimeout(30)
            end.connect(("127.0.0.1", port))
            counts = []
            end.send(FULL)
            while sum(counts) < 86:
                counts.append(oca.number(end.recv(2000)[8:10]))
            checks.same(f"what a full datagram gets from the {name}", (len(FULL), sum(counts)), (1472, 86))
            large = bytearray(FULL + b"\x3b")
            for at in range(14, 1472, 17):  # the handles of its commands, which were not sent before
                large[at:at + 4] = (100 + at).to_bytes(4, "big")
            for data in (large, oca.command(9999, 4097, 4, 1)):
                end.send(data)
            checks.same(f"the {name} behind a datagram that is too large", (len(large), end.recv(2000)), (1473, oca.response(9999, 0, 1, b"\1")))
        ended(run, 120)


def warnings(checks, made, prefix):
    """The compiler warns where a result is not looked at and where a pointer is null; else of nothing."""
    for language, compiler in LANGUAGES.items():
        for warning, call in [("", "(void)!oca_device_tick(&device, 1)"), *CARELESS]:
            (made / "call.c").write_text(DATA.one_call % call)
            words = ["-O2", "-Wall", "-Wextra", f"-I{prefix}/include", "-c", "-o", os.devnull, made / "call.c"]
            run = ran(*compiler, *words)
            told = sorted(set(re.findall(r"\[-W([\w-]+?)=?\]", run.stderr)))
            wanted = [warning] if warning else []
            checks.same(f"what the compiler ({language}) warns of at {call}", (run.returncode, told), (0, wanted))


def for_every_processor(checks, archive):
    """The library has no instruction of later processors than the first x86-64: none of AVX, BMI, ABM, SSE3 or above."""
    if not shutil.which("objdump"):
        return print("NOT TRIED: the library's instructions, without objdump")
    text = ran("objdump", "-d", "--no-show-raw-insn", archive, check=True).stdout
    used = set(re.findall(r"^ +[0-9a-f]+:\t(\w+)", text, re.M))
    later = r"v[a-z]\w+|popcnt\w?|lzcnt\w?|andn\w?|bextr\w?|bls\w+|bzhi\w?|mulx\w?|pdep\w?|pext\w?|rorx\w?|s[ahr][lr]x\w?|movbe\w?|crc32\w?|cmpxchg16b" \
            r"|lddqu|p(shufb|hadd\w+|alignr|abs[bwd]|mulld|(min|max)(s[bd]|u[wd])|insr[bdq]|extr[bdq]|mov[sz]x\w+|test|blend\w+|cmpeqq|cmpgtq)|round[ps][sd]"
    checks.same("instructions of later processors", {it for it in used if re.fullmatch(later, it)} - {"verr", "verw"}, set())
    checks.same("instructions", len(used) > 50, True)


class Trial(Scene):
    """A scene of the rows: a program that is made here, and who speaks to it. A mixer may run within another program."""

    def __init__(self, checks, made, before=(), **names):
        self.made, self.before, self.run, self.port, self.peer, self.way = made, before, None, 0, None, None
        self.open = contextlib.ExitStack()
        silent = self.open.enter_context(bound())
        super().__init__(checks, {
            **verbs_of_run(self), **verbs_of_peer(self), **verbs_of_files(lambda name: made / name),
            "runs": self.runs,
            "runs over": lambda settings, calls, *words: self.runs(*words, CALLS=calls, **settings),
            "says": lambda program, *words: said_by([made / program, *words]),
            "starts": self.starts,
            "ocactl": lambda *words: said_by([f"{names['folder']}/ocactl", words[0], "--device", f"127.0.0.1:{self.port}", "--port", free_port(),
                                              *" ".join(words[1:]).split()]),
            "finds objects": lambda told: told[0].startswith("100 1.1.3 0 root\n") and told[0].count("\n") > 5 and told[1] == 0,
            "loses": self.loses,
            "peer": self.begins_peer,
            "has lost": lambda: self.way.lost > 0,
            "notes": lambda: sorted({*stop(self.run).splitlines()}),
            "stops": lambda: stop(self.run),
            "signals": lambda number: self.run.send_signal(number),
            "listens at": lambda: bound_at(self.port),
            "looks at the channels": lambda: channels(checks, self.peer, (4096, 4112), -600),
            "stored by": lambda name: [f"fsync {made}/{name}.new", f"rename {name}.new {name}", f"fsync {made}"],
            "one after another": lambda *lists: [*itertools.chain(*lists)],
            "calls of": lambda name: lines_in(made / name),
            "turned": lambda whole, at: f"{whole[:2 * at]}{int(whole[2 * at:2 * at + 2], 16) ^ 1:02x}{whole[2 * at + 2:]}",
            "cut": lambda whole: whole[:-2],
            "locks": lambda name: fcntl.flock(self.open.enter_context(open(made / name)), fcntl.LOCK_EX),
            "make": lambda goal, prefix, settings: make(goal, prefix, names["archive"], **settings),
            "files below": lambda place: files_below(made / place),
            "looks at what was made": lambda place: installed_as_made(checks, made, names["archive"], made / place),
            "unlike": lambda place, own, files: [*itertools.chain(*filecmp.cmpfiles(made / place, TOP / own, files, shallow=False)[1:])],
            "wrong modes": lambda place: modes_below(made / place),
            "panel by flags": lambda place: panel_below(made, made / place)}, made=made, before=before,
            silent=silent.getsockname()[1], panel=PANEL, python=sys.executable, mute=TOP / "examples/c/mute.py", **names)

    def runs(self, program, *words, **how):
        self.run, self.port = serving([*self.before, self.made / program, *words], **how)
        self.names["port"] = self.port

    def starts(self, program, *words):
        """What a run prints, what it says of faults, and its status."""
        run = ran(*self.before, self.made / program, *words)
        return run.stdout, run.stderr, run.returncode

    def begins_peer(self, gain, port=0):
        self.peer = Peer(port or self.port, gain)

    def loses(self):
        self.way = self.open.enter_context(Lossy(self.port))
        self.names["way"] = self.way.port


def plays(checks, kind, made, before=(), **how):
    """Plays the scenes of this kind of the rows."""
    play_all(checks, lambda checks: Trial(checks, made, before, **how), "c_library", kind)


def mixers(checks, made, prefix, folder):
    """The mixer as it is, over addresses and undefined behaviour, over threads, and under valgrind; as C++; killed at random moments."""
    compiled(made / "mixer.o", f"-I{prefix}/include", "-c", TOP / "examples/c/mixer.c", language="c++17")
    (made / "held.c").write_text(DATA.held)
    mixer, parts = [TOP / "examples/c/mixer.c"], [TOP / "examples/c/mixer.c", *(TOP / f"c/{name}.c" for name in PARTS)]
    for name, more, of in (("plain", [], mixer), ("sanitized", SANITIZED, parts), ("threads", ["-O1", "-g", "-fsanitize=thread"], parts),
                           ("held", [f"-I{TOP}"], [made / "held.c"])):
        compiled(made / f"mixer-{name}", "-Wpedantic", *more, f"-I{prefix}/include", *of, f"{prefix}/lib/liboca.a", "-pthread")
        plays(checks, "mixer", made, name=name, short=2, long=6)
    plays(checks, "scene", made, folder=folder, library=prefix / "lib/liboca.so")

    def serve():
        run, port = serving([made / "mixer-plain", made / "kept over kills", 0, 600])
        return run, port, Peer(port, 4114) if port else None

    over_kills(checks, serve)
    if shutil.which("valgrind"):
        shutil.copy(made / "mixer-plain", made / "mixer-valgrind")
        plays(checks, "mixer", made, CAREFUL, name="valgrind", short=12, long=12)


def standstill(checks, what, words, begins, lasts):
    """A device in C stands still for so many seconds, while copies of a mute, and a set of one that gives up, wait in its socket."""
    ahead = Ahead()
    run, port = serving(words, **ahead.settings, **begins.settings)
    one, other = Peer(port, 4098), Peer(port, 4098)
    said = {"the mute": one.status(*MUTED), "the unmute of another": other.status(*UNMUTED), "a lock": one.status(4114, 1, 3), "a gain": other.trims(-5)}
    begins(run, other)
    for _ in range(3):
        one.copy(1, *MUTED)
    one.send(4098, 5, 2, struct.pack(">h", -77))
    ahead.set(lasts)
    begins.ends(run)
    said |= {"the gain": other.trim(), "the state": other.ask(4113, 4, 1), "what is locked, to another": other.status(4114, 5, 2, b"\0\0")}
    one.copy(1, *MUTED)
    said |= {"the state behind one copy more": other.ask(4113, 4, 1), "the unlock": one.status(4114, 1, 4), "a gain again": (one.trims(-78), other.trim())}
    for name, wanted in (STOOD if lasts <= 60 else OVER_A_MINUTE).items():
        checks.same(f"{what}, {lasts} s: {name}", said[name], wanted)
    stop(run)


class Stopped:
    """A device that is stopped."""
    settings = {}

    def __call__(self, run, peer):
        run.send_signal(signal.SIGSTOP)

    def ends(self, run):
        run.send_signal(signal.SIGCONT)


class Hung:
    """A device whose store hangs, from the next command of another peer on."""

    def __init__(self, refusing):
        self.refusing, self.settings = refusing, {"REFUSING": refusing}

    def __call__(self, run, peer):
        self.refusing.write_text("slow 700")
        peer.copy(99, 4097, 4, 2, b"\2")
        time.sleep(0.3)

    def ends(self, run):
        self.refusing.unlink()


MUTED, UNMUTED = (4113, 4, 2, b"\1"), (4113, 4, 2, b"\2")
STOOD = {"the mute": 0, "the unmute of another": 0, "a lock": 0, "a gain": (0, b""), "the gain": -5, "the state": (0, b"\2"),
         "what is locked, to another": 3, "the state behind one copy more": (0, b"\2"), "the unlock": 0,
         "a gain again": ((0, b""), -78)}
# The clock counts it: the lock is released. No controller sends a copy so late.
OVER_A_MINUTE = {name: wanted for name, wanted in STOOD.items() if "copy" not in name} | {"what is locked, to another": 0, "the unlock": 9}


def standstills(checks, made):
    """A device that stood still, stopped or in a store, executes nothing that waited meanwhile, and up to a minute it loses no lock and no session."""
    for lasts in DATA.standstills:
        standstill(checks, "a stopped device", [made / "device-c11", 0, 900], Stopped(), lasts)
        standstill(checks, "a stopped mixer", [made / "mixer-plain", made / f"kept over {lasts} s", 0, 900], Stopped(), lasts)
        standstill(checks, "a mixer whose store hangs", [made / "mixer-plain", made / f"kept over {lasts} s of a store", 0, 900],
                   Hung(made / "refusing of a store"), lasts)


def groups(checks, made):
    """Three panels with 16 sets in flight, at a store that takes 100 ms: no link is lost, and what waits is stored together."""
    counts = made / "fsyncs"
    run, port = serving([made / "mixer-plain", made / "kept together", 0, 900], REFUSING=made / "slow store", CALLS=counts)
    (made / "slow store").write_text("slow 50")
    confirmed, _, lost = with_many_in_flight(port, 4114, least=2000)
    stores = sum(it.startswith("rename") for it in lines_in(counts))
    stop(run)
    checks.same("links that were lost over a slow store", lost, 0)
    checks.same(f"{confirmed} sets in {stores} stores", confirmed >= 2000 and stores * 8 <= confirmed, True)


def stacks(checks, made, prefix):
    """The most stack that a call of the library takes; tools/c_figures.py prints what each takes."""
    for name, used in c_figures.stacks(made, prefix / "lib/liboca.a", prefix / "include").items():
        most = DATA.stack_of_a_start if name.startswith("oca_device_start") else DATA.stack
        checks.expect(f"the stack of {name} is at most {most} bytes", used <= most, used)


def refused_memory(checks, made):
    """Each request for memory refused in turn: the program says so and ends, or does without."""
    for words, refused in (([made / "device-c11", 0, 0], "not started: 8\n"), ([made / "panel-c11", 9], "not opened: 8\n")):
        counts, times = made / "counts", 0
        quick = {"COUNTS": counts, "FAIL_SEND": 1000, "ERRNO": 101}
        ran(*words, **quick)
        requests = int(counts.read_text().split()[0])
        for number in range(1, min(requests, 200) + 1):
            run = ran(*words, **quick, REFUSE=number)
            times += run.stderr == refused and run.returncode == 1
            checks.same(f"{words[0].name}: request {number} refused", run.returncode in (0, 1), True)
        checks.same(f"{words[0].name}: it says that memory was refused", times > 0, True)
        print(f"  {words[0].name}: {requests} requests for memory, {times} of them the library's")


def arenas(checks, made):
    """The heap of examples/c over arenas of each size, in both languages, under the sanitizers."""
    for language in LANGUAGES:
        out, status = said_by([compiled(made / f"heap-{language}", *SANITIZED, TOP / "tools/heap.c", language=language)])
        checks.same(f"arenas of each size ({language})", (re.fullmatch(r"[1-9]\d{6} passed, 0 failed\n", out) is not None, status), (True, 0))


PROGRAMS = ["ocadev", "ocactl", "ocapanel"]
UNITS = [f"lib/systemd/system/{it}.service" for it in ("ocadev", "ocapanel")]


def make(goal, prefix, archive, **more):
    words = [f"{name}={value}" for name, value in dict(PREFIX=prefix, LIBRARY=archive, **more).items()]
    subprocess.run(["make", "-s", "-C", TOP, goal, *words], cwd=TOP, check=True)


def files_below(room):
    """The files below a folder; the manual pages of the calls are counted as one."""
    there = (str(it.relative_to(room)) for it in room.rglob("*") if not it.is_dir())
    return sorted({re.sub(r"man3/oca_\w+\.3$", "man3/oca_*.3", it) for it in there})


def installed_as_made(checks, made, archive, place):
    """What is installed is what was made: archives, pages; and what names a folder names the prefix's."""
    texts = lambda folder: {it.name: it.read_text() for it in folder.glob("*.3") if it.stem != "another"}
    reference.write(made / "pages")
    pages, there = texts(made / "pages"), texts(place / "share/man/man3")
    checks.same("the manual pages", (len(pages) > 90, sorted(there)), (True, sorted(pages)))
    checks.same("their texts", there == pages, True)
    members = lambda file: ran("ar", "t", file, check=True).stdout.split()
    for name, more in (("liboca_c.a", []), ("liboca.a", ["malloc.o"])):
        checks.same(f"what {name} has", members(place / "lib" / name), [*members(archive), *(f"{it}.o" for it in PARTS), *more])
    said = (place / "lib/pkgconfig/oca.pc").read_text() + (place / "lib/cmake/oca/oca-config.cmake").read_text()
    named = re.findall(r"^prefix=(.*)$|^set\(oca_include \"(.*)\"\)$", said, re.MULTILINE)
    checks.same("the folders that are named", named, [("/opt/oca", ""), ("", "/opt/oca/include")])
    checks.same("nothing is left to be put in", re.findall(r"@\w+@", said), [])


def modes_below(room):
    """The files below a folder that may not be read or run as they are to be, with their modes."""
    runs = lambda it: it.parent.name == "bin" or ".so" in it.name
    return {it.name: oct(it.stat().st_mode & 0o777) for it in room.rglob("*") if it.is_file() and it.stem != "another"
            and it.stat().st_mode & 0o777 != (0o755 if runs(it) else 0o644)}


def panel_below(made, place):
    """What the panel that is compiled by the flags of this prefix says without a word."""
    cflags, libs = flags(place)
    panel = compiled(made / "panel-placed", *cflags, TOP / "examples/c/panel.c", *libs)
    return said_by([panel], env=os.environ | {"LD_LIBRARY_PATH": f"{place}/lib"})


def installs(checks, made, archive):
    """What is installed stays below DESTDIR; below odd prefixes the panel runs."""
    pages = [f"{name}.1" for name in PROGRAMS]
    every = [*INSTALLED, *(f"bin/{it}" for it in PROGRAMS), *(f"share/man/man1/{it}" for it in pages), *UNITS]
    below = lambda files: sorted(f"opt/oca/{it}" for it in files)
    before = os.umask(0o077)  # of one who keeps files from others
    plays(checks, "place", made, archive=archive, relative=os.path.relpath(made / "rel", TOP), installed=INSTALLED, own=below(INSTALLED),
          others=below(DATA.others), whole=below([*every, *DATA.others]), programs=PROGRAMS, pages=pages)
    os.umask(before)
    if shutil.which("pkg-config"):
        told = said_by(["pkg-config", "--modversion", "oca"], env=os.environ | {"PKG_CONFIG_PATH": f"{made}/rel/lib/pkgconfig"})
        checks.same("the version that pkg-config tells", told, (f"{VERSION}\n", 0))


def configured(made, folder, *words, version="1.1"):
    """A project of CMake that has the panel: the status, what is said of faults, and of each target of the library its file and its headers."""
    project = made / "project"
    project.mkdir(exist_ok=True)
    shutil.copy(TOP / "examples/c/panel.c", project)
    (project / "CMakeLists.txt").write_text(DATA.project.replace("oca 1.1", f"oca {version}"))
    run = ran("cmake", "-S", project, "-B", folder, *words, cwd=made)
    return run.returncode, run.stderr, re.findall(r"^-- (oca::.*)$", run.stdout, re.MULTILINE)


def targets_below(prefix, lib):
    kinds = {"oca": f"liboca.so.{VERSION}", "static": "liboca.a", "core": "liboca_c.a"}
    return [f"oca::{kind} {prefix}/{lib}/{file} {prefix}/include" for kind, file in kinds.items()]


def by_cmake(checks, made, prefix):
    """The panel as a project of CMake has it, with the shared library and with the static one; version 2 is not found."""
    if not shutil.which("cmake"):
        return print("NOT TRIED: CMake is not installed")
    *told, targets = configured(made, "cmade", f"-DCMAKE_PREFIX_PATH={prefix}")
    checks.same("cmake -S", told, [0, ""])
    checks.same("the files of each target", targets, targets_below(prefix, "lib"))
    run = ran("cmake", "--build", "cmade", cwd=made)
    checks.same("cmake --build", (run.returncode, run.stderr), (0, ""))
    run, port = serving([made / "device-c++17", 0, 3])
    for kind in ("oca", "static"):
        checks.same(f"the panel that CMake built with oca::{kind}", said_by([made / f"cmade/panel-{kind}", port])[1], 0)
    run.communicate(timeout=120)
    for form, more, is_kept in DATA.versions:
        version = form.format(*map(sum, zip(map(int, VERSION.split(".")), more)))
        status, said, _ = configured(made, "none", f"-DCMAKE_PREFIX_PATH={prefix}", version=version)
        checks.same(f"version {version}", (status == 0, "oca-config.cmake, version:" in said), (is_kept, not is_kept))


ARM, OF_ARM = "aarch64-unknown-linux-gnu", "lib/aarch64-linux-gnu"


def installs_for_arm(checks, made, prefix, archive, **settings):
    """What is installed for AArch64 has a folder of its own, by which oca.pc and CMake compile the panel."""
    make("install-library", prefix, archive, TARGET=ARM, **settings)
    wanted = [it.replace("lib/", f"{OF_ARM}/", 1) if it[:4] == "lib/" else it for it in INSTALLED]
    checks.same("what is installed for AArch64", files_below(prefix), wanted)
    said = re.findall(r"^(\w+)=(.*)$", (prefix / OF_ARM / "pkgconfig/oca.pc").read_text(), re.MULTILINE)
    folders = {"prefix": str(prefix), "includedir": "${prefix}/include", "libdir": f"${{prefix}}/{OF_ARM}"}
    checks.same("the folders that its oca.pc names", dict(said), folders)
    cflags, libs = flags(prefix, OF_ARM)
    path = settings.get("PATH", os.environ["PATH"])
    compiler = shutil.which("aarch64-linux-gnu-gcc", path=path)
    built = ran(compiler, "-std=c11", *STRICT, *cflags, "-o", made / "panel-by-flags", TOP / "examples/c/panel.c", *libs)
    checks.same("the panel for AArch64 by its oca.pc", (built.returncode, built.stderr), (0, ""))
    if shutil.which("cmake"):
        *_, targets = configured(made, f"for-{prefix.name}", f"-Doca_DIR={prefix}/{OF_ARM}/cmake/oca")
        checks.same("the files of each target for AArch64", targets, targets_below(prefix, OF_ARM))


def beside_another_kind(checks, made, archive):
    """The same with stand-ins for the compiler of AArch64, which are this machine's own: where there is none, too."""
    place, prefix = made / "stand-ins", made / "as-arm"
    place.mkdir()
    for name, own in (("gcc", "cc"), ("ar", "ar")):
        (place / f"aarch64-linux-gnu-{name}").symlink_to(shutil.which(own))
    path = f"{place}:{os.environ['PATH']}"
    make("install-library", prefix, archive)
    before = files_below(prefix)
    installs_for_arm(checks, made, made / "arm-alone", archive, PATH=path)
    make("install-library", prefix, archive, TARGET=ARM, PATH=path)
    wanted = sorted({*before, *files_below(made / "arm-alone")})
    checks.same("what is installed of two kinds", files_below(prefix), wanted)
    make("uninstall", prefix, "none", TARGET=ARM)
    checks.same("what `make uninstall` leaves of two", files_below(prefix), [it for it in before if it[:4] == "lib/"])
    make("uninstall", made / "arm-alone", "none", TARGET=ARM)
    checks.same("what `make uninstall` leaves of AArch64", files_below(made / "arm-alone"), [])


def cross_built(checks, made, archive):
    """A cross build as that of a distribution: its compiler, with words behind the name, its archiver and its flags are taken."""
    told = made / "said to the tools"
    for name in ("cc", "ar"):
        (made / f"poky-{name}").write_text(f'#!/bin/sh\necho "{name} $*" >> "{told}"\nexec {name} "$@"\n')
        (made / f"poky-{name}").chmod(0o755)
    make("install-library", made / "poky", archive, TARGET=ARM, **{name: text.format(made=made) for name, text in DATA.cross})
    lines = lines_in(told)
    compiles, links = [it for it in lines if " -c " in it], [it for it in lines if " -shared " in it]
    checks.same("what is compiled by a compiler of one's own", len(compiles), len(PARTS) + 1)
    for what, found, wanted in (("compiled", compiles, DATA.cross_compiled), ("linked", links, DATA.cross_linked)):
        for word in wanted:
            checks.same(f"what is {what} with {word}", [f" {word} " in it for it in found], [True] * len(found))
    checks.same("what is put together by an archiver of one's own", len(lines) - len(compiles) - len(links), len(PARTS) + 1)
    checks.same("what is linked once", len(links), 1)


def standards(checks, made):
    """The header and each part of c/ are C99 and C++11, the names of the header can be used in C++, and no sample has more than 120 lines."""
    long = [it.name for it in (TOP / "examples/c").glob("*.c") if it.read_text().count("\n") > 120]
    checks.same("samples of more than 120 lines", long, [])
    (made / "names.cc").write_text(DATA.names)
    sources = [*sorted((TOP / "c").glob("*.c"))]
    for words in (["cc", "-std=c99"], ["cc", "-std=c11"], ["c++", "-x", "c++", "-std=c++11"]):
        for source in [*sources, made / "names.cc"] if "c++" in words else sources:
            run = ran(*words, *STRICT, "-Wpedantic", "-Wshadow", f"-I{TOP}/include", "-c", "-o", os.devnull, source)
            checks.same(f"{source.name} by {words[-1]}", (run.returncode, run.stderr), (0, ""))


def on_the_line(digits, port):
    """A datagram as the bare device's serial line has it: behind its size and the address and the port of its peer; nothing for none."""
    data = bytes.fromhex(whole(digits, {}))
    return data and struct.pack(">HIH", len(data), 0x0a000001, port) + data


def without_a_system(checks, made, prefix):
    """The bare device, over 24,576 bytes, on an emulated board, answers one peer over its serial line, and no more."""
    if not shutil.which("qemu-system-aarch64"):
        return print("NOT TRIED: a board without an operating system, without qemu-system-aarch64")
    words = "-Wpedantic -ffreestanding -nostdlib -static -DARENA=24576 -Wl,-Ttext=0x40100000".split()
    program = compiled(made / "bare", *words, f"-I{prefix}/include", TOP / "examples/c/bare.c", TOP / "examples/c/heap.c",
                       f"{prefix}/{OF_ARM}/liboca_c.a", "-lgcc", language="arm")
    words = "qemu-system-aarch64 -M virt -cpu cortex-a53 -nic none -display none -monitor none -serial stdio -kernel".split()
    board = subprocess.Popen([*words, str(program)], stdin=subprocess.PIPE, stdout=subprocess.PIPE, bufsize=0)
    says = lambda wanted: read_until(board.stdout.fileno(), lambda said: len(said) >= max(1, len(wanted)), 60 if wanted else 1)
    checks.same("how the device without a system starts", says(b"\0\0"), b"\0\0")
    for what, port, asked, answer in DATA.bare:
        board.stdin.write(on_the_line(asked, port))
        wanted = on_the_line(answer, port)
        checks.same(f"its answer to {what}", says(wanted), wanted)
    board.kill()
    board.communicate()


def on_arm(checks, made):
    """For AArch64: device and panel against each other and each call, under emulation."""
    tools = [it for it in ("aarch64-linux-gnu-gcc", "qemu-aarch64") if not shutil.which(it)]
    if tools:
        return print(f"NOT TRIED: AArch64, without {' and '.join(tools)}")
    prefix = made / "arm"
    installs_for_arm(checks, made, prefix, library(ARM))
    compile_all(made, "arm", f"-I{prefix}/include", f"{prefix}/{OF_ARM}/liboca.a")
    emulated = ["qemu-aarch64", "-L", "/usr/aarch64-linux-gnu"]
    plays(checks, "ends", made, emulated, pairs=[("arm", "arm")], seconds=6)
    for kind in ([], ["-cpu", "cortex-a53"]):
        checks.same(f"each call on AArch64 {kind}", said_by([*emulated, *kind, made / "calls-arm"])[1], 0)
    without_a_system(checks, made, prefix)
    make("uninstall", prefix, "none", TARGET=ARM)
    checks.same("what `make uninstall` leaves for AArch64", files_below(prefix), [])


def names(checks, archive, prefix):
    """Each prototype has its symbol, and each symbol of the library its prototype."""
    declared = {*re.findall(r"^(?:(?:enum|struct) )?\w+ (oca_\w+)\(", reference.HEADER.read_text(), re.MULTILINE)}
    for name in ("liboca_c.a", "liboca.a"):
        exported = symbols(r" T (oca_\w+)$", "nm", "-g", "--defined-only", prefix / "lib" / name)
        checks.same(f"prototypes without a symbol in {name}", declared - exported, set())
        checks.same(f"symbols without a prototype in {name}", exported - declared, set())
    checks.same("what the library needs", sorted(symbols(r" U (\w+)$", "nm", "-u", archive)),
                ["memcpy", "memmove", "memset", "rattle_alloc", "rattle_dealloc", "rattle_realloc"])
    checks.same("what the shared library exports", symbols(r" T (\w+)$", "nm", "-D", "--defined-only", prefix / "lib/liboca.so"), declared)
    checks.same("its functions are bound at the start", symbols(r"(BIND_NOW|\bNOW\b)", "readelf", "-d", prefix / "lib/liboca.so") != set(), True)
    checks.same("its SONAME", symbols(r"SONAME.*\[(.*)\]", "readelf", "-d", prefix / "lib/liboca.so"), {"liboca.so.1"})


def stores(checks, made):
    """The store in each language: what each call answers, any call of the system failing; its example; and a program without it."""
    own, test, wraps = ["-Wconversion", f"-I{TOP}/include"], c_rows.test("c_store", made), [f"-Wl,--wrap={name}" for name in DATA.wrapped]
    needed = symbols(r" U (\w+)$", "nm", "-u", compiled(made / "store.o", *own, "-c", TOP / "c/store.c"))
    checks.same("the calls of the system that the store makes", sorted(needed - {*DATA.plain}), [*DATA.wrapped])
    (made / "without.c").write_text(DATA.without)
    for language, compiler in LANGUAGES.items():
        for kind, more in KINDS:
            place = made / f"place-{language}{kind}"
            place.mkdir()
            run = ran(compiled(made / f"store-{language}{kind}", *own, *more, test, TOP / "c/store.c", *wraps, language=language), cwd=place)
            checks.counted(f"the store ({f'{language} {kind}'.strip()})", run.stdout, run.returncode, run.stderr)
        run = ran(*compiler, *STRICT, *own, "-o", made / "without", made / "without.c")
        checks.same(f"a program without a store ({language})", (run.returncode, run.stderr), (0, ""))
        compiled(made / "stored", *own, TOP / "examples/c/stored.c", TOP / "c/store.c", language=language)
        plays(checks, "stored", made, kept=f"{made}/state-{language}", language=language)
    if shutil.which("valgrind"):
        told = said_by(["valgrind", "-q", "--error-exitcode=99", "--track-fds=no", made / "store-c11"], cwd=made)
        checks.same("the store under valgrind", told[1], 0)


def main():
    archive = library("x86_64-unknown-linux-gnu") if sys.argv[1:] else None
    checks = Checks()
    if not shutil.which(CAREFUL[0]):
        print("NOT TRIED: the library, the mixer and the store under valgrind, which is not installed")
    with tempfile.TemporaryDirectory() as place:
        made = Path(place)
        made.chmod(0o755)  # for the part of the store's test that is nobody's
        prefix, folder = made / "usr", os.path.abspath(sys.argv[1]) if archive else ""
        for part in (stores, arenas):
            part(checks, made)
        if not archive:
            return checks.verdict()
        make("install-library", prefix, archive)
        c_rows.test("c_library", made)
        cflags, shared = flags(prefix)
        compile_all(made, "c11", *cflags, *shared, f"-Wl,-rpath,{prefix}/lib")
        compile_all(made, "c++17", *cflags, f"{prefix}/lib/liboca.a")
        names(checks, archive, prefix)
        for_every_processor(checks, archive)
        for part, *given in ((panels, prefix, folder), (installs, archive), (beside_another_kind, archive), (cross_built, archive), (standards,), (warnings, prefix), (by_cmake, prefix),
                             (each_call, prefix), (random_calls, prefix), (mixers, prefix, folder), (on_arm,), (large_datagrams,),
                             (of_a_socket,), (standstills,), (groups,), (stacks, prefix), (refused_memory,), (both_ends,)):
            part(checks, made, *given)
    return checks.verdict()


if __name__ == "__main__":
    sys.exit(main())
