#!/usr/bin/env python3
"""Runs `ocadev replay` on each script of this folder, and compares what it prints with the expected output beside it.

Usage: run.py [PROGRAM]. Without a program it is built by `rt try`, which proves nothing. The last line is 'N passed, M failed',
and the exit status 1 where any failed."""
import re
import shutil
import subprocess
import sys
import tempfile
from pathlib import Path

HERE = Path(__file__).resolve().parent
sys.path.insert(0, str(HERE.parent / "gate"))
import kit

NAMES = sorted(path.stem for path in HERE.glob("*.script"))


def by_program(program):
    """The status and the output of a replay of each script, by a program that is built."""
    for name in NAMES:
        with open(HERE / f"{name}.script") as script:
            run = subprocess.run([program, "replay"], stdin=script, capture_output=True, text=True)
        yield name, run.returncode, run.stdout, run.stderr


def by_try():
    """The same, by a program that `rt try` builds once and runs on each script."""
    kit.command()  # or one line says that there is none
    with tempfile.TemporaryDirectory() as cases:
        for name in NAMES:
            shutil.copy(HERE / f"{name}.script", f"{cases}/{name}")
        run = subprocess.run(
            ["rt", "try", "--cases", cases, "--", "replay"], cwd=HERE.parent / "crates" / "ocadev",
            stdin=subprocess.DEVNULL, stdout=subprocess.PIPE, stderr=subprocess.STDOUT, text=True)
    for name in NAMES:
        case = re.search(rf"^== {name}\n(.*?)^case={name} run=\w+ status=(\d+)", run.stdout, re.MULTILINE | re.DOTALL)
        if case:
            yield name, int(case[2]), case[1], ""
        else:
            yield name, run.returncode, "", run.stdout


def main():
    failed = 0
    for name, status, output, faults in by_program(sys.argv[1]) if len(sys.argv) > 1 else by_try():
        expected = (HERE / f"{name}.expected").read_text()
        if status == 0 and output == expected:
            print(f"examples/{name}.script: as expected")
            if name == "getstate":
                print(output, end="")
        else:
            failed += 1
            print(f"examples/{name}.script: status {status}, printed\n{output}in place of\n{expected}{faults}", end="")
    print(f"{len(NAMES) - failed} passed, {failed} failed")
    sys.exit(1 if failed else 0)


main()
