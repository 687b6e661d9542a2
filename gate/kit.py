#!/usr/bin/env python3
"""The toolchain: the command `rt` of a kit for Rattle. All that is private to it and that the gate, the builds and the edits use stands here.

Usage: kit.py CRATE PATH..     checks functions of a crate, as `rt check --only PATH` in its folder, over the sources of the
                               crates below it, which are not proved and built first; keeps nothing"""
import contextlib
import importlib.machinery
import importlib.util
import os
import shutil
import subprocess
import sys
import tempfile
from pathlib import Path
from types import SimpleNamespace

TOP = Path(__file__).resolve().parent.parent
NEEDS = 4_000_000_000  # bytes for a check: the most that one took, measured, is 3.3 GB (ocactl_cli)
MEMORY = Path("/dev/shm")  # a folder in memory, where the system has one
ROOM = 6_000_000_000  # bytes there; the most that a run of the gate took, measured, is 1.8 GB
ENDED = "(ended)"  # the last line of the file GATE_PROVED
MISSING = "there is no rt: this needs the toolchain's kit, whose folder bin/ must be in PATH (README.md says at its end where it is)"
# The names that are used of the command, and of its library.
OF_RT = "checked edited free processors unread".split()
OF_RTLIB = "PARTS RATTLE STALE crates_below files_of guarded lock sum_of".split()


def command():
    """The path of `rt`. Where there is none one line says so, and this process ends."""
    return os.path.realpath(shutil.which("rt") or sys.exit(MISSING))


def toolchain(builds=True):
    """What is used of the toolchain. A process that builds shares what `rt run` keeps with other copies."""
    sys.dont_write_bytecode = True
    spec = importlib.util.spec_from_loader("rt", importlib.machinery.SourceFileLoader("rt", command()))
    rt = importlib.util.module_from_spec(spec)
    spec.loader.exec_module(rt)
    if builds and hasattr(rt, "share_work"):  # not in each release of the toolchain
        rt.share_work(is_alone=True)
    lacks = [name for module, names in ((rt, OF_RT), (rt.rtlib, OF_RTLIB)) for name in names if not hasattr(module, name)]
    if lacks:
        sys.exit(f"the toolchain that is in PATH has no {', '.join(lacks)}: gate/kit.py needs another release of it")
    made = SimpleNamespace(**{name: getattr(rt, name) for name in OF_RT}, **{name: getattr(rt.rtlib, name) for name in OF_RTLIB})
    made.ci_takes_names = "rt ci NAME" in (rt.__doc__ or "")
    if builds:
        made.guarded()
    return made


def crates(rt):
    return {it.name: it for it in rt.crates_below(str(TOP))}


def said_lanes():
    """How many checks RT_JOBS says are to run at once; 0 where it says no number above 0."""
    said = os.environ.get("RT_JOBS", "")
    return int(said) if said.isascii() and said.isdigit() else 0


def lanes(rt):
    """How many checks run at once: by processors and by memory for each, or what RT_JOBS says."""
    return said_lanes() or max(1, min(rt.processors(), int(rt.free()) // NEEDS))


def has_room_in_memory(rt):
    """Whether memory has room for what checks write and remove again, which may write there and run programs from there, as nobody too."""
    if not MEMORY.is_dir() or not os.access(MEMORY, os.W_OK | os.X_OK) or not MEMORY.stat().st_mode & 0o001:
        return False
    found = os.statvfs(MEMORY)
    is_large = found.f_bavail * found.f_frsize >= ROOM and rt.free() >= lanes(rt) * NEEDS + ROOM
    return is_large and not found.f_flag & os.ST_NOEXEC


def is_left_by_the_gate(rt, library):
    """Whether `rt ci` left the library of these sources: it is there, has no stamp, and is newer than all sources."""
    if not os.path.isdir(library.rlib) or os.path.exists(f"{os.path.dirname(library.rlib)}/stamp"):
        return False
    made = os.path.getmtime(library.rlib)
    return all(os.path.getmtime(file) < made for it in [library, *library.below()] for file in rt.files_of(it.folder))


@contextlib.contextmanager
def in_memory(rt):
    """Has checks write their temporary files in memory, in the folder TMPDIR, which is removed at the end, also if this
    process is killed. On a disk their removal takes up to 15 seconds a check. A process that outlives this one may make
    the folder anew. Nothing is changed if TMPDIR is set already, or memory has no room."""
    if "TMPDIR" in os.environ or not has_room_in_memory(rt):
        yield
        return
    room = tempfile.mkdtemp(prefix="oca-checks-", dir=MEMORY)
    os.chmod(room, 0o711)  # as root, `rt ci` runs what it has built as nobody
    # Once no process holds the other end; a second time for what is killed a moment later, and still writes.
    words = ["sh", "-c", 'read _; rm -rf "$1"; sleep 2; rm -rf "$1"', "", room]
    remover = subprocess.Popen(words, stdin=subprocess.PIPE, stdout=subprocess.DEVNULL, stderr=subprocess.DEVNULL, start_new_session=True)
    os.environ["TMPDIR"], tempfile.tempdir = room, None
    try:
        yield
    finally:
        os.environ.pop("TMPDIR")
        tempfile.tempdir = None
        shutil.rmtree(room, ignore_errors=True)
        remover.stdin.close()


def main(name, *paths):
    rt = toolchain()
    crate = crates(rt)[name]
    words = crate.words(["--jobs", "1"] + [word for path in paths for word in ("--only", path)], as_source=True)
    return subprocess.call([rt.RATTLE, "check", *words], cwd=crate.folder)


if __name__ == "__main__":
    sys.exit(main(*sys.argv[1:]) if len(sys.argv) > 1 else __doc__)
