#!/usr/bin/env python3
"""Proves and builds programs with the crates below them, libraries side by side as crates.txt allows; or the library for C.

Usage: build.py FOLDER PROGRAM..                each program is copied into FOLDER
       build.py --library [TARGET [CPU]]        TARGET is x86_64-unknown-linux-gnu or aarch64-unknown-linux-gnu

A library is proved from nothing and holds its statements alone, in out/statements of its crate; a program is proved and
built as `rt run` does it. What stands as it would be built now is taken. A line is printed for each crate as it ends.

The library for C is crates/oca_c/out/TARGET/liboca_c.a, for every processor of that kind unless CPU names one (x86-64-v2,
x86-64-v3; neoverse-v2). Crates that the gate has just proved are taken, else all are built. An earlier archive is removed.
`oca_c` is proved by as many processes as there are processors, or as LIBRARY_JOBS says."""
import os
import shutil
import subprocess
import sys
import tempfile
import time
from concurrent.futures import FIRST_COMPLETED, ThreadPoolExecutor, wait
from pathlib import Path

import kit

TOP = kit.TOP
sys.path.insert(0, str(TOP / "tools"))
from tables import data

SECONDS = data("builds").seconds
LONG = 0.6  # of the seconds of the longest chain of crates that is left: a crate that begins a chain of so many is long
SHORT = 30  # seconds: a crate that takes fewer itself is not worth a second process, however long its chain is
# What a program is run with to be built: words that only print.
WORDS = {"trials": ["calls"], "amplifier": [], "panel": []}
LEAST = {"x86_64-unknown-linux-gnu": "x86-64", "aarch64-unknown-linux-gnu": "generic"}  # processors of each kind


def apart(crates):
    """Has the libraries of these crates lie apart from those of other commands, which hold proofs too or are the gate's."""
    for crate in crates:
        crate.rlib = f"{crate.folder}/out/statements/{crate.name}.rlib"


def made_from(rt, crate):
    """What a build is told by: sums of the sources and libraries of the crate and of those below."""
    made = f"{crate.rlib}/format" if crate.makes_rlib() else f"{crate.folder}/out/{crate.name}"
    files = [f"{it.rlib}/format" for it in crate.below()]
    return "\n".join([crate.stamp(), *map(rt.sum_of, [*files, made])])


def note_of(crate):
    return Path(crate.folder, "out", "statements" if crate.makes_rlib() else "", "made_from")


def is_made(rt, crate):
    """Whether what is there of the crate was made by this program, and is what it would make now."""
    note = note_of(crate)
    return note.is_file() and note.read_text() == made_from(rt, crate)


def build_library(rt, crate, jobs):
    """Proves and builds a library; what the prover says of one that fails is shown. Answers whether it is built."""
    with tempfile.TemporaryFile("w+", errors="replace") as crate.out:
        shutil.rmtree(os.path.dirname(crate.rlib), ignore_errors=True)
        os.makedirs(os.path.dirname(crate.rlib))
        words = crate.words(["--jobs", str(jobs)], keeps=False)
        status = crate.call(rt.RATTLE, "build", *words, "--statements", "-o", crate.rlib)
        crate.out.seek(0)
        if status:
            print(crate.out.read(), end="")
    return status == 0


def build_program(rt, crate, jobs):
    """Proves, builds and runs a program in a process that ends with this one; answers whether it is built."""
    words = [*rt.guarded(), sys.executable, TOP / "gate/build.py", "--one", crate.name, str(jobs)]
    ran = subprocess.run(words, cwd=TOP, stdin=subprocess.DEVNULL, stdout=subprocess.DEVNULL, stderr=subprocess.PIPE, text=True)
    if ran.returncode:
        print(ran.stderr, end="")
    return ran.returncode == 0


def build_once(rt, crate, build, jobs):
    """Builds the crate if it must. Answers whether it is there, of what its sources and each library below it still are."""
    if is_made(rt, crate):
        return True
    stamp, all_below_are_made = crate.stamp(), lambda: all(is_made(rt, it) for it in crate.below())
    if all_below_are_made():
        if not build(rt, crate, jobs):
            return False
        said = made_from(rt, crate)
        if said.split("\n")[0] == stamp and all_below_are_made():
            note_of(crate).write_text(said)
            return True
    print(f"build: what {crate.name} is built of was changed meanwhile: NOT BUILT, begin again")
    return False


def work(crate):
    return SECONDS.get(crate.name) or crate.count(rb"\n") / 10


def chains(crates):
    """The seconds of each crate with those of the longest chain of others above it. The crates are given lowest first."""
    behind = {}
    for crate in reversed(crates):
        above = (behind[it.name] for it in crates if crate in it.below())
        behind[crate.name] = work(crate) + max(above, default=0)
    return behind


def shares(ready, idle, number, long):
    """Which crates begin now, in this order, each with how many processes: at most 4 each, and `idle` in all. Each gets
    those that no other waits for. A long chain gets half of all at least, and the only long one three of four."""
    given, left, least = [], idle, number // 2 if len(long) > 1 else number * 3 // 4
    for at, crate in enumerate(ready[:idle]):
        jobs = min(max(1, left // (len(ready) - at), least if crate in long else 0), left, 4)
        left -= jobs
        given += [(crate, jobs)] if jobs else []
    return given


def side_by_side(crates, number, make):
    """Makes all crates, each once those below it are made, those first that others wait for longest. Answers whether
    all are made. A crate above one that is not made is left out. The crates are given lowest first."""
    behind, left, running, made = chains(crates), list(crates), {}, {}
    left.sort(key=lambda it: -behind[it.name])
    with ThreadPoolExecutor(number) as pool:
        while left or running:
            ready = [it for it in left if all(below.name in made for below in it.below())]
            begun = [it for it, _ in running.values()]
            longest = max(behind[it.name] for it in [*left, *begun])
            long = [it for it in [*ready, *begun] if behind[it.name] >= LONG * longest and work(it) >= SHORT]
            idle = number - sum(jobs for _, jobs in running.values())
            for crate, jobs in shares(ready, idle, number, long):
                left.remove(crate)
                is_wanted = all(made[below.name] for below in crate.below())
                running[pool.submit(lambda it=crate, n=jobs, can=is_wanted: can and make(it, n))] = crate, jobs
            for ended in wait(running, return_when=FIRST_COMPLETED).done:
                made[running.pop(ended)[0].name] = ended.result()
    return all(made.values())


def build_all(rt, libraries, programs=(), folder=None):
    """Builds all, copies the programs into a folder, and answers whether all are built."""
    ended, crates = [], sorted([*libraries, *programs], key=lambda it: len(it.below()))

    def make(crate, jobs):
        is_program, begun = crate in programs, time.monotonic()
        is_built = build_once(rt, crate, build_program if is_program else build_library, jobs)
        if is_built and is_program:
            new = shutil.copy(Path(crate.folder, "out", crate.name), Path(folder, f".{crate.name}"))  # now: newer than its sources
            os.replace(new, Path(folder, crate.name))  # which may be running
        ended.append(crate)
        said = f"{crate.name} {'proved' if is_built else 'NOT PROVED'}, {time.monotonic() - begun:.0f} s"
        print(f"build: {len(ended)} of {len(crates)}: {said}", flush=True)
        return is_built

    return side_by_side(crates, kit.lanes(rt), make)


def run_program(name, jobs):
    """Proves, builds and runs a program as `rt run` does, but for the locks of the crates' folders, which the caller has."""
    crates = kit.crates(kit.toolchain())
    apart(crates.values())
    crate = crates[name]
    os.chdir(crate.folder)
    os.makedirs("out", exist_ok=True)
    crate.out, crate.held = sys.stderr, []
    return crate.run(["--jobs", jobs], WORDS.get(name, ["--help"]))


def library(target="x86_64-unknown-linux-gnu", cpu=None, *more):
    """Builds the library for C. Answers the status: the compiler's, or 1 where it made no archive, or a source was changed
    meanwhile, of which none is left."""
    if target not in LEAST or more:
        sys.exit(__doc__)
    rt = kit.toolchain()
    os.chdir(TOP)
    crate = kit.crates(rt)["oca_c"]
    rt.lock([*crate.below(), crate])  # until this process ends
    is_left, to = all(kit.is_left_by_the_gate(rt, it) for it in crate.below()), Path(crate.folder, "out", target, "liboca_c.a")
    words = ["--jobs", os.environ.get("LIBRARY_JOBS") or str(rt.processors()), "--target", target, "--cpu", cpu or LEAST[target]]
    with kit.in_memory(rt):
        if not is_left:
            apart(crate.below())
            if not build_all(rt, set(crate.below())):
                return 1
        to.parent.mkdir(parents=True, exist_ok=True)
        to.unlink(missing_ok=True)
        stamp = crate.stamp()
        status = crate.compile(words, str(to))
    is_changed = crate.stamp() != stamp
    if status == 0 and (is_changed or not to.is_file()):
        print(f"library: {to} was NOT BUILT{': a source was changed meanwhile, begin again' if is_changed else ''}")
        to.unlink(missing_ok=True)
        return 1
    return status


def main():
    if sys.argv[1:2] == ["--one"]:
        return run_program(*sys.argv[2:])
    if sys.argv[1:2] == ["--library"]:
        return library(*sys.argv[2:])
    if len(sys.argv) < 3:
        sys.exit(__doc__)
    folder, names = TOP / sys.argv[1], sys.argv[2:]
    begun, rt = time.monotonic(), kit.toolchain()
    os.chdir(TOP)
    crates = kit.crates(rt)
    unknown = [name for name in names if name not in crates]
    if unknown:
        print(f"build: crates.txt has no {', '.join(unknown)}: NOTHING IS BUILT")
        return 1
    apart(crates.values())
    programs = [crates[name] for name in names]
    libraries = {below for program in programs for below in program.below()}
    folder.mkdir(exist_ok=True)
    rt.lock([*libraries, *programs])  # until this process ends
    with kit.in_memory(rt):
        is_built = build_all(rt, libraries, programs, folder)
    print(f"build: {(time.monotonic() - begun) / 60:.1f} minutes")
    return 0 if is_built else 1


if __name__ == "__main__":
    sys.exit(main())
