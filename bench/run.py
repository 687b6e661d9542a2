#!/usr/bin/env python3
"""Prints what `ocadev replay` needs for three scripts and `ocactl replay` for one: instructions (valgrind
--tool=callgrind), misses of the first data cache (--tool=cachegrind), largest resident memory.
Usage: run.py BIN [LINES]

BIN is the folder with the programs.
single: one new command a datagram, one peer. packed: 86 new commands a datagram (a line for forty of the others).
copies: 16 peers, each command ten times in a row, so that nine of ten are duplicates. rounds: submit, due, the response
from the device, take; a line for each of the four. The goals are for 20,000 lines."""
import re
import subprocess
import sys
import tempfile
from pathlib import Path

sys.path.insert(0, str(Path(__file__).resolve().parent.parent / "tools"))
import oca_profile as oca

PEER = "127.0.0.1:9001"


def get_states(first, count=1):
    """A datagram of GetState commands of object 4097, under so many handles."""
    return oca.pdu(1, [oca.Command(handle, 4097, 4, 1).body() for handle in range(first, first + count)]).hex()


def scripts(lines):
    yield "single", (f"{i} {PEER} {get_states(i + 1)}\n" for i in range(lines))
    yield "packed", (f"{i} {PEER} {get_states(86 * i + 1, 86)}\n" for i in range(max(1, lines // 40)))
    yield "copies", (f"{i} 127.0.0.1:{9001 + i % 16} {get_states(i // 160 + 1)}\n" for i in range(lines))


def rounds(lines):
    for i in range(lines):
        answer = oca.response(i + 1, 0, 1, b"\1").hex()
        yield f"{i} submit 4097 4 1 0 -\n{i} due\n{i} from {PEER} {answer}\ntake {i + 1}\n"


# What is measured: by which tool, and where the tool says it.
INSTRUCTIONS = ["valgrind", "--tool=callgrind", "--callgrind-out-file=/dev/null"], r"Collected : (\d+)"
MISSES = ["valgrind", "--tool=cachegrind", "--cache-sim=yes", "--cachegrind-out-file=/dev/null"], r"D1  misses: +([\d,]+)"
RESIDENT = ["/usr/bin/time", "-f", "%M"], r"(\d+)\s*$"
GOALS = {"single": 46.0, "packed": 34.0, "copies": 48.0}  # millions of instructions


def counted(of, words, path):
    """What a tool counts while the program runs on the script."""
    (tool, pattern), how = of, {"stdout": subprocess.DEVNULL, "stderr": subprocess.PIPE, "text": True, "check": True}
    with open(path) as script:
        run = subprocess.run([*tool, *words], stdin=script, **how)
    return int(re.search(pattern, run.stderr)[1].replace(",", ""))


def measured(name, content, words, folder):
    """Prints the row of a script."""
    path = Path(folder, name)
    with open(path, "w") as script:
        script.writelines(content)
    count = path.read_bytes().count(b"\n")
    goal = f"  at most {GOALS[name]}" if name in GOALS else ""
    print(f"{name:7} {count:6} {counted(INSTRUCTIONS, words, path) / 1e6:24.1f} {counted(MISSES, words, path):15} "
          f"{counted(RESIDENT, words, path):11}{goal}", flush=True)


def main():
    folder, lines = sys.argv[1], int(sys.argv[2]) if len(sys.argv) > 2 else 20000
    print("script   lines instructions-in-millions D1-cache-misses resident-kB  goal (instructions)")
    with tempfile.TemporaryDirectory() as work:
        for name, content in scripts(lines):
            measured(name, content, [f"{folder}/ocadev", "replay"], work)
        measured("rounds", rounds(lines), [f"{folder}/ocactl", "replay", "--device", PEER, "--first-handle", "1"], work)


main()
