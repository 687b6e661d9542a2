#!/usr/bin/env python3
"""A device that keeps its state in a file (`ocadev serve --keep FILE`) is stopped and started again: by SIGTERM, by
`kill -9`, without room, with each step of a store refused or slow (`unreliable.c`), and over broken files. Whatever was
answered with OK is there, after a power cut too: the order of the calls of the system is looked at.

Usage: keep.py BIN     BIN is the folder with `ocadev` and `ocactl`

What is expected is built from docs/PROTOCOL.md, and not by the programs. The last line is 'N passed, M failed'."""
import contextlib
import errno
import os
import random
import re
import resource
import shutil
import signal
import struct
import sys
import tempfile
import threading
import time
from pathlib import Path

import checks
import peers
from checks import Serving, ended, free_port, lines_in, port_said
from scenes import Scene, play_all, verbs_of_files, verbs_of_peer
from tables import data, octets

TRIM = 4100
KILLS = 30
DONE = (0, b"")
NOT_KEPT, AGAIN = r"note: the state is not kept: [^\n]*\n", "note: the state is kept again: "
DATA = data("keep")


class Peer(peers.Peer):
    """A controller that sets and reads this gain."""

    def __init__(self, port, gain=TRIM, **how):
        super().__init__(port, **how)
        self.gain = gain

    def trims(self, value, **how):
        return self.ask(self.gain, 5, 2, struct.pack(">h", value), **how)

    def trim(self, **how):
        answer = self.ask(self.gain, 5, 1, **how)
        return answer and struct.unpack(">h", answer[1][:2])[0]


def limited(most):
    """How a run is started whose files have so many bytes at most."""
    limit = lambda: resource.setrlimit(resource.RLIMIT_FSIZE, (most, resource.RLIM_INFINITY))
    return {} if most is None else {"preexec_fn": limit, "restore_signals": False}


def layer_of(keep):
    """The settings of the layer for a device with this file: steps that are refused, and what is told of them."""
    return {"REFUSING": f"{keep}.refusing", "TOLD": f"{keep}.told"}


class Checks(checks.Checks):
    def serve(self, keep, *words, most=None, **layer):
        """A device with this file at a port of the system's, this port, and its peer. Where its files have so many bytes at most, a further
        write is refused, and does not end it: the signal is ignored, as by Python."""
        run = self.start("ocadev", "serve", "--port", 0, "--keep", keep, *words, **limited(most), **layer)
        port = port_said(run)
        self.began = run.stderr.readline() if port else ""
        return run, port, Peer(port) if port else None

    def has(self, what, keep, value):
        """A device that is started with this file has this trim."""
        run, _, peer = self.serve(keep)
        self.same(what, peer and peer.trim(), value)
        stop(run)

    def shown(self, keep):
        return self.ran("ocadev", "show", "--text", "--tree", keep, given=b"", text=False)[0]

    def kept(self, keep):
        """The trim in the file."""
        found = re.search(rb"\nobject 4100 .* int16 -600 600 (-?\d+) ", self.shown(keep))
        return found and int(found[1])

    def is_whole(self, what, keep):
        objects = self.shown(keep)
        self.same(what, Path(keep).read_bytes(), objects + f"# end of {objects.count(b'object ') + 1} objects\n".encode())


def stop(run, how=signal.SIGKILL):
    run.send_signal(how)
    return run.communicate(timeout=30)[1]


def over_kills(checks, serve):
    """Whenever a device is killed, its file is whole and has what was answered, and at most the next command besides."""
    held = asked = answered = refused = 0
    for turn in range(KILLS + 1):
        run, _, peer = serve()
        if peer is None:
            checks.expect(f"it starts after kill {turn}", False)
            return
        value = peer.trim()
        checks.same(f"what was there after kill {turn}, {value} of {held}", value in (held, asked), True)
        killer = threading.Timer(random.uniform(0.02, 0.25), run.kill)
        killer.start()
        held = value
        while (told := peer.trims(asked := (held + 601) % 700 - 600)) is not None:
            held, answered, refused = asked, answered + 1, refused + (told[0] != 0)
        killer.join()
        run.communicate()
    checks.same(f"some of {answered} numbers were answered, and none refused", (answered > 0, refused), (True, 0))


def kills(checks, folder):
    over_kills(checks, lambda: checks.serve(f"{folder}/killed", "--channels", "200"))


def put(path, words):
    """A file with these words takes the place of the one at this path."""
    Path(f"{path}.put").write_text(words)
    os.rename(f"{path}.put", path)


class Room(Scene):
    """A scene of the rows in a folder of its own: a run of the device over a file there, and its controller."""

    def __init__(self, checks):
        self.open, self.keep, self.run, self.peer, self.other = contextlib.ExitStack(), "", None, None, None
        self.folder = self.open.enter_context(tempfile.TemporaryDirectory())
        at = lambda name: Path(self.folder, name)
        super().__init__(checks, {
            "serve": self.serve,
            "stop": lambda how=signal.SIGKILL: stop(self.run, how),
            "tells": self.tells,
            "serve over the layer": lambda name: self.serve(name, **layer_of(at(name))),
            "began": lambda: self.checks.began,
            "serve beside it": self.serve_beside,
            "the other": self.turn_to_the_other,
            "serve with room": lambda name, most: self.serve(name, most=most),
            "has room": lambda most=resource.RLIM_INFINITY: resource.prlimit(self.run.pid, resource.RLIMIT_FSIZE, (most, resource.RLIM_INFINITY)),
            **verbs_of_peer(self), **verbs_of_files(at),
            "statuses of what is set": lambda: [self.does["asks"](*it) for it in DATA.sets],
            "sends": lambda value: self.peer.send(TRIM, 5, 2, struct.pack(">h", value)),
            "sends again": lambda handle, value: self.peer.copy(handle, TRIM, 5, 2, struct.pack(">h", value)),
            "answered of": lambda *handles: [it for it in self.peer.answered if it in handles],
            "refusing": lambda words: put(f"{self.keep}.refusing", words),
            "refuses no more": lambda: os.remove(f"{self.keep}.refusing"),
            "has refused": lambda step, count: lines_in(f"{self.keep}.told").count(f"refused {step}") >= count,
            "kept": lambda: checks.kept(self.keep), "kept one of": lambda *values: checks.kept(self.keep) in values,
            "shows": lambda text: text.encode() in checks.shown(self.keep),
            "is whole": lambda what, name: checks.is_whole(what, at(name)),
            "has": lambda what, name, value: checks.has(what, at(name), value),
            "put bytes": lambda name, text: at(name).write_bytes(octets(text)),
            "cut off": lambda name: cut_off(at(name).read_bytes()),
            "ends by itself": lambda name: self.ends(at(name)),
            "ends over the layer": lambda name: self.ends(at(name), **layer_of(at(name))),
            "ends with room": lambda name, most: self.ends(at(name), most=most),
        }, folder=self.folder, not_kept=NOT_KEPT, kept_again=f"{AGAIN}{self.folder}/")

    def serve(self, name, *words, **how):
        self.keep = f"{self.folder}/{name}"
        self.run, _, self.peer = self.checks.serve(self.keep, *words, **how)

    def serve_beside(self, name, *words):
        """A second device, to which the next steps are, and the first one as the other."""
        run, peer = self.run, self.peer
        self.serve(name, *words)
        self.other = run, peer

    def turn_to_the_other(self):
        self.other, (self.run, self.peer) = (self.run, self.peer), self.other

    def tells(self, form):
        said = stop(self.run)
        return re.fullmatch(form, said) is not None or said

    def ends(self, keep, most=None, **layer):
        """What a device with this file prints and says, and its status, where it ends by itself."""
        return self.checks.ran("ocadev", "serve", "--port", 0, "--keep", keep, seconds=30, **limited(most), **layer)


def cut_off(whole):
    """A file cut off where a line ends, at its beginning, and before its last byte: how long each is, the number of its last line, and its bytes."""
    ends = [at + 1 for at, byte in enumerate(whole[:-1]) if byte == 10]
    return [[size, max(1, len(whole[:size].splitlines())), whole[:size]] for size in [0, *ends, len(whole) - 1]]


def scenes(checks, _):
    play_all(checks, Room, "keep")


COMMANDS, STORES = 120, 10


def slow_store(checks, folder):
    """With an fsync of 300 ms, beside a panel that sets without pause, no reading waits for more than one store."""
    keep, what = f"{folder}/slow", "beside a slow store"
    run, port, reader = checks.serve(keep, **layer_of(keep))
    reader.socket.settimeout(60)
    put(f"{keep}.refusing", "slow 300")
    lines = "".join(f"{TRIM} 5 2 1 {value:04x}\n" for value in range(1, COMMANDS + 1))
    panel = checks.start("ocactl", "run", "--device", f"127.0.0.1:{port}", "--port", free_port(), "--ahead", 8, given=lines)
    stored, before = lambda: lines_in(f"{keep}.told").count("stored"), {}
    while panel.poll() is None:
        handle = reader.send(TRIM, 5, 1)
        before[handle] = stored()  # behind the sending: what is stored before it is counted, is no store that the reading waited for
        reader.socket.recv(2000)
        time.sleep(0.02)
    waits, stores = {}, 0  # for how many stores each reading waited, by the layer's lines, and how many there were
    for told, *its in map(str.split, lines_in(f"{keep}.told")):
        stores += told == "stored"
        if told == "sent" and int(its[0]) == reader.socket.getsockname()[1]:
            waits.setdefault(int(its[1]), stores - before[int(its[1])])
    checks.same(f"{what}: readings that are not answered", len(before) - len(waits), 0)
    checks.same(f"{what}: readings that wait for more than one store", [it for it in waits.items() if it[1] > 1], [])
    checks.same(f"{what}: some readings wait for one", 1 in waits.values(), True)
    checks.same(f"{what}: the answers to the commands", ended(panel), (COMMANDS * "answer 0 0 -\n", "", 0))
    checks.same(f"{what}: more commands than stores", COMMANDS > stores >= STORES, True)
    checks.same(f"{what}: what it says", stop(run), "")
    checks.has("behind a slow store: after a restart", keep, COMMANDS)


def unknown(checks, folder):
    """Of a file in a folder that may not be searched nobody knows whether it is there: that is told, and nothing is served."""
    os.mkdir(f"{folder}/closed")
    shutil.copy(f"{checks.folder}/ocadev", f"{folder}/ocadev")
    os.chmod(folder, 0o711)
    os.chmod(f"{folder}/closed", 0)
    other = {"user": 65534, "group": 65534, "extra_groups": []} if os.geteuid() == 0 else {}
    words = ["ocadev", "serve", "--port", 0, "--turns", 1, "--keep", f"{folder}/closed/state"]
    out, told, status = Checks(folder).ran(*words, seconds=30, **other)
    checks.same("a file of which nothing is known", (status, out, told.splitlines()[-1:]), (1, "", ["read failed"]))
    reason = os.strerror(errno.EACCES)
    checks.same(f"a file of which nothing is known: {reason}", reason in told.splitlines()[0], True)
    os.chmod(f"{folder}/closed", 0o700)


# What may change a file or a folder, and what sends; and what is done at the start and before each answer: a new file is made, written and flushed, it
# takes the place of the file, and the folder is flushed.
CHANGING = "openat,open,creat,write,writev,pwrite64,truncate,ftruncate,fsync,rename,renameat,renameat2,link,linkat,unlink,unlinkat,sendto"
STORE = ["openat cuts/state.new", "write cuts/state.new", "fsync cuts/state.new", "rename cuts/state.new cuts/state",
         "openat cuts", "fsync cuts"]


def changes_in(log, folder):
    """The calls of the system in a log of strace with -xx that did not fail, with the names in this folder's `cuts`: those with a name, of
    writes in a row one, and those that send; and what such writes write."""
    steps = [["", ""]]
    for name, words, size in re.findall(r"(\w+)\((.*)\) += (\d+)", log):
        words = re.sub(r"\\x(..)", lambda it: chr(int(it[1], 16)), words)
        step = " ".join([name, *re.findall(rf'["<]{re.escape(folder)}/(cuts[^">]*)[">]', words)])
        text = words.partition('>, "')[2][:int(size)] if name == "write" else ""
        if text and step == steps[-1][0]:
            steps[-1][1] += text
        elif " " in step or step == "sendto":
            steps.append([step, text])
    return [step for step, _ in steps[1:]], [text for _, text in steps if text]


def power_cuts(checks, folder):
    """Wherever the power is cut, what was answered OK is on the disk: by each call of the system that may change the file or its folder, in
    their order up to the end, and by what is written. The commands come without a pause, as a device may flush less often then."""
    if shutil.which("strace") is None:
        print("no strace here: the order of the calls was not looked at")
        return
    folder = os.path.realpath(folder)  # as strace names it
    keep, log = f"{folder}/cuts/state", f"{folder}/log"
    os.mkdir(f"{folder}/cuts")
    words = ["strace", "-f", "-y", "-xx", "-s", "1000000", "-o", log, "-e", f"trace={CHANGING}"]
    with Serving(*words, f"{checks.folder}/ocadev", "serve", "--port", "0", "--keep", keep) as device:
        peer, tracer = Peer(device.port, patience=10, copies=1), device.process.pid
        for value in range(1, 6):
            checks.same("a command before the power is cut", peer.trims(value), DONE)
        checks.same("its file", checks.kept(keep), value)
        os.kill(int(Path(f"/proc/{tracer}/task/{tracer}/children").read_text().split()[0]), signal.SIGTERM)
        device.process.communicate(timeout=30)
    done, texts = changes_in(Path(log).read_text(encoding="ascii", errors="replace"), folder)
    checks.same("the calls of the system by which it is stored", done, ["openat cuts/state.lock", *STORE, *5 * [*STORE, "sendto"]])
    for value, text in enumerate(texts):
        Path(keep).write_text(text, encoding="latin-1")
        checks.same("what is written to it", checks.kept(keep), value)
        checks.is_whole("what is written to it", keep)


def main():
    with tempfile.TemporaryDirectory() as folder:
        its = Checks(sys.argv[1])
        for part in (scenes, kills, slow_store, power_cuts, unknown):
            part(its, folder)
    return its.verdict()


if __name__ == "__main__":
    sys.exit(main())
