"""The checks of the gate's own test that are of the gate: of its steps, and of what builds, proves and installs, `make`,
.ci/run, build.py and install.sh, each tried over stand-ins of what it runs; and what selftest.py uses too."""
import contextlib
import functools
import io
import os
import re
import shutil
import signal
import subprocess
import sys
import tempfile
import threading
import time
from pathlib import Path
from types import SimpleNamespace
from unittest.mock import patch

import build
import kit
import run

sys.path.insert(0, str(run.TOP / "tools"))
import checks
import edits
import panel
import runs
from checks import waited
from tables import data

DATA, BUILDS = data("gate"), data("gate_of_builds")
CHECKS = []  # what is tried
OF_CALLERS = re.compile("MAKE.*|MFLAGS|PYTHONPATH|CI|RT_JOBS")  # settings of who runs this


def said(call, *given):
    """What a call answers, or by what it ends the process, and what it prints."""
    with contextlib.redirect_stdout(io.StringIO()) as told:
        try:
            answer = call(*given)
        except SystemExit as ended:
            answer = ended.code
    return answer, told.getvalue()


def is_same(wanted, got):
    if got != wanted:
        print(f"{got} in place of {wanted}")
    return got == wanted


def tried(gives, *given):
    """What this gives with a folder of its own; then the environment and the place of this process are as before."""
    with patch.dict(os.environ), contextlib.chdir("."):
        return gives(*given, Path(tempfile.mkdtemp()))


def check(what):
    """Enters a function among the checks: what it is called, and whether it is so, in a folder of its own."""
    return lambda is_so: CHECKS.append((what, is_so)) or is_so


def each(rows):
    """Enters a check for each of these rows: it is called by the first value, and is given the others, and its folder."""
    return lambda is_so: [check(what)(functools.partial(is_so, *given)) for what, *given in rows] and is_so


def of_rows(what, rows):
    """Enters one check: of all values of each row but the last, and of a folder, the function gives the last one."""
    given = lambda gives: [tried(gives, *given) for *given, _ in rows]
    return lambda gives: check(what)(lambda _: is_same([wanted for *_, wanted in rows], given(gives))) and gives


def laid(folder, texts):
    for name, text in texts.items():
        Path(folder, name).parent.mkdir(parents=True, exist_ok=True)
        Path(folder, name).write_text(text)


def stand_in(file, text):
    laid(file.parent, {file.name: f"#!/bin/sh\n{text}\n"})
    file.chmod(0o755)


def ran(*words, cwd=run.TOP, seconds=60, **settings):
    """How a command ends, and what it prints."""
    how = {"capture_output": True, "text": True, "timeout": seconds}
    return subprocess.run([*map(str, words)], cwd=cwd, env=os.environ | settings, **how)


def over_stand_ins(top, programs, *words, **how):
    """The same where these programs stand in for the system's."""
    for name, text in programs.items():
        stand_in(top / "path" / name, text)
    return ran(*words, PATH=f"{top}/path:{os.environ['PATH']}", **how)


def of_prover(lines):
    """What the prover says of a crate: these lines, which tell of what is not proved, if any is."""
    told = "\n".join([*lines, "logic=not-proved" if lines else "logic=proved"]) + "\n"
    return SimpleNamespace(returncode=int(bool(lines)), stdout=told)


def main_of(program, *words, tools=None):
    """How a program ends with these words, over these tools; its last line, and all that it prints."""
    with patch.object(kit, "toolchain", lambda: tools), patch.object(sys, "argv", [f"{program.__name__}.py", *map(str, words)]):
        status, told = said(program.main)
    return status, run.last_line(told), told


class FakeCrate(SimpleNamespace):
    """What a crate is asked for, in the folder of its name; it can stand in a set."""
    __hash__ = object.__hash__

    def __init__(self, name="", top="", below=(), **more):
        usual = {"count": lambda _: 1, "stamp": lambda: self.sources, "makes_rlib": lambda: True, "below": lambda: [*below]}
        super().__init__(name=name, **{"folder": str(Path(top, name)), "sources": "sources"} | usual | more)


def fake_tools(processors=2, free=9e9, crates=(), **more):
    """The toolchain's command, as far as a build asks it."""
    usual = {"crates_below": lambda _: [*crates], "lock": list, "guarded": list, "RATTLE": "rattle"}
    usual["sum_of"] = lambda file: Path(file).read_text() if Path(file).is_file() else "none"
    usual["files_of"] = lambda folder: [it for part in ("src", "specs") for it in Path(folder).glob(f"{part}/*")]
    return SimpleNamespace(free=lambda: free, processors=lambda: processors, **usual | more)


@contextlib.contextmanager
def memory_at(folder, flags=0, space=7e9):
    """While this lasts the folder is what lies in memory, with so much space, and no TMPDIR is set."""
    real, folder = os.statvfs, Path(folder)
    folder.mkdir(parents=True, exist_ok=True)
    folder.chmod(0o755)
    found = SimpleNamespace(f_flag=flags, f_bavail=space // 4096, f_frsize=4096)
    with patch.object(kit, "MEMORY", folder), patch.object(os, "statvfs", lambda place: found if place == folder else real(place)), \
            patch.dict(os.environ), patch.object(tempfile, "tempdir", None):  # found anew, without TMPDIR
        os.environ.pop("TMPDIR")
        yield


def writes():
    """Where what is started now would write what it removes again, if in memory."""
    within = os.environ.get("TMPDIR", "none")
    is_there = Path(within).parent == kit.MEMORY and tempfile.gettempdir() == within and os.stat(within).st_mode & 0o777 == 0o711
    return " in memory" if is_there else ""


def fake_library(folder, name, below, asked, meanwhile=lambda _: None):
    """A crate whose library is built in a folder of its own: what the prover is asked is noted in `asked`. Meanwhile something may happen."""
    rlib = Path(folder, name, "out/statements", f"{name}.rlib")

    def call(*words):
        asked.append((name, *words))
        meanwhile(f"{name} is built")
        print(f"said of {name}", file=crate.out)
        if crate.status == 0:
            rlib.mkdir()
            (rlib / "format").write_text(f"made at {time.monotonic_ns()}")
        return crate.status

    crate = FakeCrate(name, folder, below, words=lambda flags, keeps: [*flags, f"keeps={keeps}"], call=call, status=0,
                      stamp=lambda: meanwhile(f"{name} is summed") or crate.sources)
    return crate


def change(its, words):
    """Changes some of these crates: it fails, what is made of it is replaced, lost or untold of, or its sources are others."""
    for name, how in map(str.split, words):
        crate = its[name]
        made = Path(crate.rlib, "format") if crate.makes_rlib() else Path(crate.folder, "out", name)
        if how == "fails":
            crate.status = 3
        elif how == "replaced":
            made.write_text(how)
        elif how == "lost":
            shutil.rmtree(crate.rlib)
        elif how == "untold":
            build.note_of(crate).write_text("")
        else:
            crate.sources = how


@each(BUILDS.in_turn)
def built_in_turn(rows, folder):
    """What becomes of five libraries, of which b and e stand above a, c above both a and b, and e above d, as each row says: whether all are built,
    which are checked, each as it is to be and behind those below it, and whether it is told that something changed."""
    asked, found, its, tools = [], [], {}, fake_tools()
    for name, below in {"a": "", "d": "", "b": "a", "c": "ab", "e": "da"}.items():
        its[name] = fake_library(folder, name, [its[it] for it in below], asked, lambda what: change(its, then) if what == when else None)
    for before, when, then, _ in rows:
        asked.clear()
        build.apart(its.values())
        change(its, before)
        is_built, told = said(build.build_all, tools, {*its.values()})
        names = "".join(name for name, *_ in asked)
        are_so = [names.index(low) < names.index(high) for low, high in ("ab", "bc") if high in names and low in names]
        are_so += [(f"said of {it}\n" in told, f": {it} NOT PROVED," in told) == (f"{it} fails" in before,) * 2 for it in its if not when]
        for name, *words in asked:
            to = f"{folder}/{name}/out/statements/{name}.rlib"
            are_so.append(words.pop(3) in "12" and words == ["rattle", "build", "--jobs", "keeps=False", "--statements", "-o", to])
        found.append(all(are_so) and (is_built, "".join(sorted(names)), "NOT BUILT, begin again" in told))
    return is_same([wanted for *_, wanted in rows], found)


@check("`build.py` has a library that is alone proved by as many processes as there are processors.")
def proves_by_many(folder):
    asked = []
    alone = fake_library(folder, "f", [], asked)
    build.apart([alone])
    return said(build.build_all, fake_tools(4, 99e9), {alone})[0] and [it[3:5] for it in asked] == [("--jobs", "4")]


def crates_of(text):
    """The crates that a text lists, lowest first: of each its name, its hundreds of seconds, and the names of those below it."""
    made = {}
    for name, hundreds, *below in map(str.split, text.split(", ")):
        made[name] = FakeCrate(name, below=[made[it] for it in below], count=lambda _, of=float(hundreds): 1000 * of)
    return [*made.values()]


@of_rows("`build.py` gives more processes to a crate that begins a long chain, as long as it is longer than the others.", BUILDS.long_chains)
def begun_with(crates, number, goes_on, until, _):
    """With how many of these processes each crate but `d` and `g` is made; `goes_on` waits until `until` is begun."""
    given, is_begun, crates = {}, threading.Event(), crates_of(crates)

    def make(crate, jobs):
        given[crate.name] = jobs
        if crate.name == until:
            is_begun.set()
        return crate.name != goes_on or is_begun.wait(30)

    is_made = build.side_by_side(crates, number, make)
    return is_made and " ".join(f"{it.name}{given[it.name]}" for it in crates if it.name not in "dg")


of_rows("`build.py` begins a crate for each idle processor, with more processes for long chains.", BUILDS.shares)(
    lambda ready, idle, number, long, _: " ".join(f"{name}{jobs}" for name, jobs in build.shares([*ready], idle, number, [*long])))


@check("`build.py` begins no crate before those below it, and as many at once as there are processors, or as RT_JOBS says.")
def begins_in_order(_):
    found, number, crates, meeting = [], [], crates_of("a 1, b 5, c 2, d 9 a c, e 1 a b c"), threading.Barrier(4, timeout=30)
    for most in (1, 2, 4):
        begun, running, used = [], [], []

        def noted(crate, jobs):
            begun.append(crate.name)
            running.extend([crate.name] * jobs)
            used.append(len(running))
            time.sleep(0.01)
            del running[:jobs]
            return True

        is_made = build.side_by_side(crates, most, noted)
        found.append(is_made and sorted(begun) == [*"abcde"] and max(used) <= most and begun.index("d") > max(map(begun.index, "ac")))
        found.append(most > 1 or begun == ["c", "a", "d", "b", "e"])
    for processors, free, says in ((4, 9e9, ""), (4, 3e9, ""), (2, 99e9, ""), (4, 99e9, "3"), (4, 99e9, "0")):
        with patch.dict(os.environ, RT_JOBS=says), patch.object(build, "side_by_side", lambda _, most, make: number.append(most)):
            build.build_all(fake_tools(processors, free), [])
    found.append(build.chains(crates) == {"a": 1000, "b": 600, "c": 1100, "d": 900, "e": 100} and build.work(crates[0]) == 100)
    found.append(build.side_by_side(crates_of("a 9, b 1, c 1, d 1"), 8, lambda *_: meeting.wait() >= 0))  # all four at once
    return all(found) and number == [2, 1, 2, 3, 4] and build.work(crates_of("oca_tree 1")[0]) == build.SECONDS["oca_tree"]


@check("`build.py` has each program built in a process of its own, or takes what stands.")
def builds_each_program(folder):
    top, to, log, found = folder / "programs", folder / "bin-of-both", folder / "log-of-programs", []
    for place in (top / "crates/a/out", top / "crates/b/out", to):
        place.mkdir(parents=True)
    tools, low = fake_tools(4, 99e9, guarded=lambda: ["env", "ENDS=with it"]), fake_library(top / "crates", "low", [], [])
    its = {"low": low, **{name: FakeCrate(name, top / "crates", [low], makes_rlib=lambda: False) for name in "ab"}}
    build.apart(its.values())
    for number, (before, status, will_be_built, asks, will_have) in enumerate(BUILDS.of_programs):
        laid(top, {"gate/build.py": BUILDS.builder.format(log=str(log), number=number, status=status), log: ""})
        change(its, before)
        with patch.object(build, "TOP", top), contextlib.ExitStack() as running:
            held = [(running.enter_context(it.open()), it.read_text()) for it in to.iterdir()]
            is_built, told = said(build.build_all, tools, {low}, [its["a"], its["b"]], to)
            is_replaced = all(file.read() == text for file, text in held)
        can_run = all(os.access(it, os.X_OK) and it.stat().st_mtime > 1e9 for it in to.iterdir())
        asked = sorted(line.removeprefix(f"{top} --one ") for line in log.read_text().splitlines())
        has = " ".join(sorted(f"{it.name}: {it.read_text()}" for it in to.iterdir()))
        wanted = will_be_built, [f"{name} 2 with it" for name in asks], will_have, status != 0, True, True
        found.append(is_same(wanted, (is_built, asked, has, "said of a\n" in told, is_replaced, can_run)))
    return all(found)


def are_apart(crates):
    return all(it.rlib == f"{it.folder}/out/statements/{it.name}.rlib" for it in crates)


@of_rows("`build.py --one` proves, builds and runs a program in its own folder as `rt run` does.", BUILDS.run_with)
def run_with(name, folder):
    """With which words a program is run in its own folder, where all libraries are then apart, and its status is answered."""
    asked, crates = [], [FakeCrate("other", folder, rlib="none")]
    crates += [FakeCrate(name, folder, run=lambda *words: asked.append((Path.cwd().name, are_apart(crates), *words)) or 7)]
    (folder / name).mkdir()
    status = main_of(build, "--one", name, 3, tools=fake_tools(crates=crates))[0]
    return is_same((7, 1, name, True), (status, len(asked), *asked[0][:2])) and tuple(map(tuple, asked[0][2:]))


@of_rows("`build.py` builds the programs that are named and all libraries below, all locked; an unknown name is a fault.", BUILDS.named)
def builds_what_is_named(names, is_proved, folder):
    crates, asked = crates_of("x 1, y 1, z 1, other 1, a 1 x y, b 1 y z"), []
    named = lambda its: "".join(sorted(it.name for it in its))
    of_all = lambda _, low, programs, to: asked.append(f"{named(low)} {named(programs)} to {to.name}" + writes()) or is_proved
    tools = fake_tools(1, 99e9, crates, lock=lambda its: asked.append("locks " + named(its)))
    with patch.object(build, "build_all", of_all), memory_at(folder / "memory"):
        status = main_of(build, folder / "named", *names, tools=tools)[0]
    return int(status not in (None, 0)), *(asked if not asked or are_apart(crates) else ["not apart"])


@check("`build.py` has checks write in memory, if it has room, and all is removed at the end.")
def writes_in_memory(folder):
    found, place = [], folder / "memory-of-a-killed"
    for at, (processors, free, is_mounted_so, space, mode, says, is_there) in enumerate(BUILDS.of_memory):
        with memory_at(folder / f"memory-{at}", 0 if is_mounted_so else os.ST_NOEXEC, space):
            before = tempfile.gettempdir()
            kit.MEMORY.chmod(mode)
            os.environ["RT_JOBS"] = says
            with kit.in_memory(fake_tools(processors, free)):
                found.append(writes() == " in memory" * is_there)
            found.append("TMPDIR" not in os.environ and tempfile.gettempdir() == before and not [*kit.MEMORY.iterdir()])
    with memory_at(place), patch.dict(os.environ, TMPDIR=str(folder)), kit.in_memory(fake_tools(2, 14e9)):
        found.append(os.environ["TMPDIR"] == str(folder))
    with memory_at(place), patch.object(kit, "MEMORY", folder / "none"), kit.in_memory(fake_tools(2, 14e9)):
        found.append("TMPDIR" not in os.environ)
    words = [sys.executable, "-c", BUILDS.killed, run.HERE, place]
    with memory_at(place):
        killed = subprocess.run(words, timeout=60, start_new_session=True, stdout=subprocess.PIPE, text=True)
    was_there = Path(killed.stdout).parent == place and killed.returncode == -signal.SIGKILL
    return all(found) and was_there and waited(lambda: not any(place.iterdir()), 30) is not None


@of_rows("The gate has what it starts write into memory where git's folder and the toolchain are here, and else changes nothing.", BUILDS.of_git)
def written_by_the_gate(kind, has_rt, folder):
    stand_in(folder / "path/rt", "exit 1")
    (folder / "path/sh").symlink_to("/bin/sh")
    (folder / "elsewhere").mkdir()
    link = lambda place: place.symlink_to(folder / "elsewhere")
    {"a folder": Path.mkdir, "a file": Path.touch, "a link": link, "nothing": str}[kind](folder / ".git")
    with patch.object(run, "TOP", folder), patch.object(kit, "toolchain", lambda: fake_tools(2, 99e9)), \
            patch.dict(os.environ, PATH=str(folder / "path") if has_rt else str(folder / "none")), memory_at(folder / "memory"), run.writes():
        return writes()


@check("What is alone at the ports that `ocactl` takes by turns is so whatever TMPDIR says, and for each user.")
def keeps_others_out(folder):
    asked = []
    locks = SimpleNamespace(LOCK_EX="alone", flock=lambda file, how: asked.append((file.name, how)))
    for at in range(2):
        with memory_at(folder / f"memory-{at}"), kit.in_memory(fake_tools(2, 99e9)), patch.object(checks, "fcntl", locks), checks.by_itself():
            pass
    return asked == [(f"/tmp/oca-own-ports-{os.getuid()}", "alone")] * 2


@each([(f"make {goal} fails with what it runs", goal, [*runs]) for goal, runs in BUILDS.goals.items()])
def make_fails_with(goal, runs, folder):
    """Whether `make` runs for this goal, with its settings, what it is to, in that order, shows what it prints, and fails where one of it does."""
    log = folder / "make.log"
    programs = dict.fromkeys(("python3", "sh"), f'echo "$*" >> "{log}"\necho "said by $*"\n[ "$*" != "$FAILS" ]')
    laid(folder, {"Makefile": (run.TOP / "Makefile").read_text()})
    for fails in ("", *runs):
        log.write_text("")
        ended = over_stand_ins(folder, programs, "make", "-C", folder, *goal.split(), FAILS=fails)
        wanted = runs[:runs.index(fails) + 1] if fails else runs
        told = [line.removeprefix("said by ") for line in ended.stdout.splitlines() if line.startswith("said by ")]
        if not is_same((not fails, wanted, wanted), (ended.returncode == 0, log.read_text().splitlines(), told)):
            return False
    return True


def made(place, second):
    """Makes a file anew, or the folder that a library is, as of this second."""
    is_folder = place.suffix == ".rlib"
    (place if is_folder else place.parent).mkdir(parents=True, exist_ok=True)
    if not is_folder:
        place.touch()
    os.utime(place, (second, second))


@of_rows("`make install` builds programs that are missing, or older than a source or definition.", BUILDS.sources)
def programs_that_stand(name, second, folder):
    """Whether all programs stand for `make` as they are where this file is made anew, or where none is there; none if some do."""
    programs = [f"bin/{it}" for it in ("ocadev", "ocactl", "ocapanel")]
    laid(folder, {"Makefile": (run.TOP / "Makefile").read_text()})
    made(folder / "crates/low/src/in/a.rt", 50)
    made(folder / "crates/low_tests/src/a.rt", 200)
    for file, at in {**dict.fromkeys(programs, 100), f"crates/low/{name}": second}.items() if name else []:
        made(folder / file, at)
    found = {over_stand_ins(folder, {}, "make", "-q", "-C", folder, program).returncode == 0 for program in programs}
    return found.pop() if len(found) == 1 else None


@of_rows("`.ci/run` calls `make test` in the repository's own folder, from wherever it is called, and ends as that does.",
         [(status, (status, "here: make test\n")) for status in (0, 1, 7)])
def run_by_ci(status, folder):
    stand_in(folder / ".ci/run", (run.TOP / ".ci/run").read_text().removeprefix("#!/bin/sh\n"))
    ended = over_stand_ins(folder, {"make": f'echo "$PWD: make $*"\nexit {status}'}, folder / ".ci/run", cwd="/")
    return ended.returncode, ended.stdout.replace(str(folder), "here")


@of_rows("`build.py` compiles the library for C for what is asked, if the crates below are built, and tells its end.", BUILDS.asked_of_library)
@of_rows("`build.py` and `edits.py` take what `rt ci` left only if it is whole and newest.", BUILDS.left)
@of_rows("`build.py` leaves no archive of an earlier or failed run, or of sources that changed.", BUILDS.archives)
def library_of(row, folder):
    """How `build.py --library` ends over what the gate left, low below high below the library for C, with files made anew at a second, or taken
    away at second 0; whether it builds those two; what it compiles for, and which archive is left: one of an earlier run was there."""
    words, status, built, compiled, locked = row.get("words", []), row.get("status", 0), [], [], []
    for file, second in (*BUILDS.of_the_gate, *row.get("changes", ())):
        made(folder / file, second) if second else (folder / file).rmdir()
    low, high = (FakeCrate(name, folder, rlib=str(folder / f"{name}/out/rlib/{name}.rlib"), is_built=lambda: False) for name in ("low", "high"))
    high.below = lambda: [low]
    archive = folder / "oca_c/out" / ([*words] or ["x86_64-unknown-linux-gnu"])[0] / "liboca_c.a"
    laid(folder, {archive: "old"})

    def compile_it(words, to):
        compiled.append(" ".join(words[words.index(word) + 1] for word in ("--target", "--cpu")))
        if row.get("makes", True):
            Path(to).write_text("new")
        return status if (writes(), locked) == (" in memory", [low, high, crate]) else "not in memory, or not locked"

    def build_all(_, crates):
        built.append({*crates} == {low, high} and writes() == " in memory" and all("/out/statements/" in it.rlib for it in (low, high)))
        return row.get("is_built", True)

    stamps = ["second" if row.get("is_changed") else "first", "first"]
    crate = FakeCrate("oca_c", folder, [low, high], stamp=stamps.pop, compile=compile_it)
    tools = fake_tools(1, 99e9, [crate, low, high], lock=locked.extend)
    with patch.object(edits, "rt", tools), patch.object(build, "build_all", build_all), memory_at(folder / "memory"):
        stand = all(map(edits.stands, (low, high)))
        status = main_of(build, "--library", *words, tools=tools)[0]
    is_taken = built == [] and stand and "/out/rlib/" in low.rlib
    return status, "taken" if is_taken else "built" if built == [True] and not stand else "wrong", *compiled, archive.exists() and archive.read_text()


@of_rows("`install.sh` fails where the compiler, the linker, the archiver or the pages fail, or where a file is missing that it is to install.",
         BUILDS.installs)
def is_installed(fails, folder):
    """Whether `install.sh` installs the library, and the programs, where this fails, or this file is missing."""
    kind = f"{os.uname().machine}-unknown-linux-gnu"
    for name in ("gate", "include", "man", "systemd", "c"):
        shutil.copytree(run.TOP / name, folder / name, ignore=shutil.ignore_patterns("__pycache__"))
    laid(folder, dict.fromkeys(("made.a", "bin/ocadev", "bin/ocactl", "bin/ocapanel"), "made"))
    if (folder / fails).is_file():
        (folder / fails).unlink()
    settings = {"CC": "cc", "AR": "ar", "FAILS": fails, "DESTDIR": str(folder / "to"), "LIBRARY": "made.a", "PREFIX": "/usr"}
    runs = [over_stand_ins(folder, BUILDS.installers, "sh", "gate/install.sh", "install", *words, cwd=folder, **settings)
            for words in (["library", kind], ["programs"])]
    return tuple(it.returncode == 0 for it in runs)


def gate_over(folder, steps):
    """How the gate ends over these steps, its last line, and what it tells of what is wrong."""
    (folder / "steps").write_text(steps.replace("{folder}", str(folder)) + "\n")
    gate = ran(sys.executable, run.HERE / "run.py", "steps", folder / "steps", seconds=120, NICE=str(os.nice(0)))
    return gate.returncode, run.last_line(gate.stdout), sorted(re.findall(r"(?m)^gate: wrong: (.*)$", gate.stdout))


each(DATA.cases)(lambda steps, passes, last, folder: is_same((int(not passes), last), gate_over(folder, steps)[:2]))
each(DATA.of_ci)(lambda command, least, wanted, _: is_same(wanted, said(run.watched, command, least)[0]))


@check("The gate tells what failed: lines that say so, else last lines; nothing of what is well.")
def tells_what_failed(folder):
    trial = edits.Trial(SimpleNamespace(folder=folder, name="a"), folder)
    of = {"must_pass": True, "is_refused": False, "is_misnamed": False, "says": "still proved", "path": folder / "a.edit"}
    reasons = edits.Answer(of_prover([]), ()).reason(None), "still proved: FAILED, it is WRONG: NOT TRIED"
    trial.edits = [SimpleNamespace(why=why, **of) for why in reasons]
    well = said(trial.told)[1]
    (folder / "well").write_text(well)
    told = gate_over(folder, DATA.failing)[2]
    wanted = ["u/a.edit: NOT TRIED: its check hung", "x: FAILED: it is so", "z"]
    return well.count("NOT REFUSED: ") == 1 and well.count("\n") == 2 and is_same(wanted, told)


@check("The steps that run beside `rt ci` begin once, at the first crate that it has proved, and are told of each; and so many proofs are of earlier runs.")
def begins_early(folder):
    steps = [run.Step(line) for line in ("&&1 1 true", "&1 1 true", "1 1 true")]
    told, found, asked, pool = folder / "proved", [], [], SimpleNamespace(submit=lambda _, step: asked.append(step) or "begun")

    def watched(_, least, note):
        for line, names in DATA.of_proofs:
            note(line)
            found.append((told.read_text(), asked) == (names, steps[:1] if names else []))
        return os.environ["GATE_PROVED"]

    with patch.object(kit, "toolchain", lambda: fake_tools(ci_takes_names=False)), patch.multiple(run, watched=watched, EARLIER={}):
        ended = said(run.of_ci, steps, pool, folder)[0]
        found.append(run.of_earlier_runs() == ", 1 of 2 proofs from earlier runs")
    return all(found) and ended == (str(told), {steps[0]: "begun"}) and told.read_text().endswith(f"\n{kit.ENDED}\n")


@each(DATA.of_crates)
def read_of_crates(text, edits_of, least, first, folder):
    """How many checks `rt ci` is to pass, and which crate is proved first, if any, where the crates are these, with these edits."""
    laid(folder, {"crates.txt": text, **{f"crates/{it}.edit": "" for it in edits_of}})
    return is_same((least, first), (run.least_of_ci(folder), run.waited_for(folder) or "none"))


@of_rows("The gate passes only if `rt ci`, its steps and their list do: each is made to fail alone.", DATA.of_all)
def ends_as_all(of_ci, of_steps, missing, lanes, says, takes_names, folder):
    """How the gate ends, and whether it calls `rt ci` of the crate that others wait for first. It calls `rt ci` on all lanes,
    for the checks that it must pass, and every step."""
    words = lambda steps: [(it.least, it.minutes, it.command) for it in steps]
    steps, asked, places = [words(part) for part in run.paragraphs(run.HERE / "steps")], [], set()
    watched = lambda command, least, note=None: asked.append((command, least)) or places.add(writes()) or (of_ci if note else (0, 1))
    run_steps = lambda given, _, early: asked.append(([words(part) for part in given], early)) or [of_steps]
    left = lambda given, tools: asked.append((words(given), tools)) or missing
    tools = fake_tools(lanes, 99e9, ci_takes_names=takes_names)
    with memory_at(folder / "memory"), patch.object(kit, "toolchain", lambda: tools), \
            patch.multiple(run, watched=watched, run_steps=run_steps, left_out=left, waited_for=lambda: "a"):
        with run.writes():
            place = writes()
        os.environ |= says
        status, told = said(run.main, [])
    is_first = ("rt ci a", 1) in asked
    wanted = [("rt ci a", 1)] * is_first + [(f"RT_JOBS={lanes} rt ci", run.least_of_ci()), (steps, {}), (sum(steps, []), run.TOP / "tools")]
    is_so = is_same(sorted(wanted, key=str), sorted(asked, key=str)) and is_same({place}, places)
    return is_so and (status, run.last_line(told), is_first)


@of_rows("The lanes: as many as there are processors, and as memory holds, at least one; or as many as RT_JOBS says.", DATA.lanes)
def lanes(processors, memory, says, _):
    os.environ["RT_JOBS"] = says
    return kit.lanes(fake_tools(processors, memory))


@check("Where there is no `rt`, what needs it says so in one line, and fails; and where its `rt` has another form.")
def says_what_is_missing(_):
    ends = [ran(sys.executable, *words.split(), PATH="/none") for words in DATA.need_rt]
    found = [is_same((1, "", f"{kit.MISSING}\n"), (it.returncode, it.stdout, it.stderr)) for it in ends]
    with patch.object(kit, "OF_RT", [*kit.OF_RT, "of_no_release"]):
        found.append("of_no_release" in said(kit.toolchain, False)[0])
    return all(found)


@of_rows("A part that is late each time has failed, once; one that is late once or twice has not; another fault is not tried again.", DATA.late)
def tried_if_late(late, is_well, _):
    """How often a part is tried that is late so often, and how many of its two checks pass and fail."""
    counts, tries = checks.Checks(), []

    def part(its):
        tries.append(1)
        its.expect("a time", len(tries) > late, is_time=True)
        its.expect("a count", is_well)

    said(counts.part, part)
    return len(tries), counts.passed, counts.failed


@each([*((f"a gate that signal {number} ends", number, None) for number in (signal.SIGTERM, signal.SIGINT, signal.SIGHUP)),
       ("a gate under nohup goes on", signal.SIGTERM, signal.SIGHUP)])
def ends_when_told(number, before, folder):
    """A gate that a signal ends has not passed, and what its steps have started ends with it; not where it was to ignore that one, as one before."""
    begun = folder / "begun"
    laid(folder, {"long-steps": f"1 2 echo $$ > '{begun}.new'; mv '{begun}.new' '{begun}'; exec sleep 600\n"})
    hears = lambda: (signal.signal(number, signal.SIG_DFL), before and signal.signal(before, signal.SIG_IGN))
    words = [sys.executable, run.HERE / "run.py", "steps", folder / "long-steps"]
    gate = subprocess.Popen(words, stdout=subprocess.DEVNULL, preexec_fn=hears)
    is_begun = waited(begun.exists, 30) is not None
    sleeps = lambda: begun.exists() and os.path.exists(f"/proc/{begun.read_text().strip()}/exe")
    for it in [before] if before else []:
        gate.send_signal(it)
        time.sleep(0.1)
    slept = is_begun and sleeps()
    gate.send_signal(number)
    has_ended = waited(lambda: gate.poll() is not None, 30) is not None
    gate.kill()
    return is_same((True, True, 128 + number, True), (slept, has_ended, gate.wait(), waited(lambda: not sleeps(), 30) is not None))


def lost(before, now):
    """The earlier commands that no step has with as many checks, and doubles; but `# was:` lines."""
    steps, old = ([run.Step(line) for line in text.splitlines() if line.strip() and not line.startswith("#")] for text in (now, before))
    named = {step.command: step.least for step in steps}
    given_up = {(step.command, step.least) for step in map(run.Step, re.findall(r"(?m)^# was: (.*): \S", now))}
    gone = [it.command for it in old if named.get(it.command, 0) < it.least and (it.command, it.least) not in given_up]
    return gone + [it for it in named if sum(step.command == it for step in steps) > 1]


each(DATA.of_steps)(lambda now, wanted, _: is_same([*wanted], lost(DATA.steps, now)))


@check("Each step of the versions before, the last that has landed among them, is still one, word by word, and names as many checks.")
def loses_no_step(_):
    git = lambda *words: ran("git", *words).stdout
    before = {git("show", f"{version}:gate/steps") for version in ["HEAD", "origin/main", *git("rev-parse", "HEAD^@").split()]}
    return is_same([], [it for text in before for it in lost(text, (run.HERE / "steps").read_text())])


@check("`make library` makes the library anew where a source or a definition of its own crates is newer.")
def stands_on_its_sources(_):
    crate = kit.crates(edits.rt)["oca_c"]
    wanted = {str(file.relative_to(run.TOP)) for it in [crate, *crate.below()] for end in ("src/**/*.rt", "specs/**/*.antt")
              for file in Path(it.folder).glob(end)}
    told = ran("make", "-pq", "library").stdout  # its rules; nothing is made
    found = re.search("(?m)^crates/oca_c/out/x86_64-unknown-linux-gnu/liboca_c.a: .*$", told)[0].split()
    return len(wanted) > 100 and is_same(set(), wanted - {*found})


@of_rows("`examples/run.py` passes where each example prints just what is expected, with status 0.", DATA.of_examples)
def passes_examples(text, status, folder):
    examples = run.TOP / "examples"
    laid(folder, {"prints.py": DATA.prints.format(examples=str(examples), text=text, status=status)})
    stand_in(folder / "program", f"exec python3 '{folder}/prints.py'")
    ends = ran(sys.executable, examples / "run.py", folder / "program", seconds=120)
    count = len([*examples.glob("*.script")])
    how = ends.returncode, run.last_line(ends.stdout)
    return {(0, f"{count} passed, 0 failed"): True, (1, f"0 passed, {count} failed"): False}.get(how)


@check("What ends or prints otherwise, or is not so, has failed, also in tools that count in a way of their own.")
def counts_what_differs(_):
    its, before = runs.Runs(""), (panel.ITS.passed, panel.ITS.failed)
    for status, prints, fault in DATA.different:
        said(its.compare, ["a"], {"status": status, "prints": prints, "fault": fault}, (b"a\n", b"note: more\nbad words\n", 1))
    found = [said(panel.check, True, "so")[0] is True, said(panel.check, False, "not so")[0] is False]
    found += [(panel.ITS.passed - before[0], panel.ITS.failed - before[1]) == (1, 1)]
    return all(found) and (its.passed, its.failed) == (1, 5)


@check("Checks count what is the same as passed, and any difference as failed, which they tell.")
def sees_differences(_):
    its = checks.Checks()
    quiet = said(its.same, "the same", ("a", 1), ("a", 1))[1]
    told = "".join(said(its.same, "a difference", got, wanted)[1]
                   for got, wanted in ((("a", 1), ("a", 2)), ("", None), (False, None), ([], [[]]), ("ab", "abc")))
    return (its.passed, its.failed, quiet, told.count("a difference")) == (1, 5, "", 5)


@check("Checks pass if some passed and none failed; what breaks off has failed, what goes on is ended.")
def tells_a_verdict(_):
    its = checks.Checks("/bin")
    sleeps = its.start("sleep", 600)
    said(its.parts, lambda it: it.same("so", 1, 1), lambda _: {}["none"], lambda it: it.same("not so", 1, 2))
    found = [said(checks.verdict, *counts) for counts in ((3, 0), (3, 1), (0, 2), (0, 0))] + [said(its.verdict)]
    statuses, told = zip(*found)
    is_told = told == tuple(f"{counts} failed\n" for counts in ("3 passed, 0", "3 passed, 1", "0 passed, 2", "0 passed, 0", "1 passed, 2"))
    return is_told and statuses == (0, 1, 1, 1, 1) and sleeps.poll() is not None
