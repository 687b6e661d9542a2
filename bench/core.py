#!/usr/bin/env python3
"""Instructions a command of `Device::datagram` alone, as `ocadev replay` calls it (valgrind --tool=callgrind).

Usage: core.py BIN     BIN is the folder with `ocadev`

single: one GetState a datagram. packed: 86 of them. copies: the same command again and again. setting: one SetState a
datagram. others: one GetState a datagram, of another object each time. members: one GetMembers of the root a datagram,
whose answer is too long, which one look tells. Only instructions of the function and of what it calls are counted. The
goal of `single` by objects and by sessions is what the first row has, 1 and 10 in 100 more."""
import re
import subprocess
import sys
import tempfile
from pathlib import Path

sys.path.insert(0, str(Path(__file__).resolve().parent.parent / "tools"))
import oca_profile as oca

# kind, objects, sessions, the most instructions wanted, or in how many parts of a hundred more than the first row
ROWS = [("single", 8, 1, "467"), ("single", 128, 1, "1%"), ("single", 4096, 1, "1%"), ("single", 8, 16, "10%"),
        ("single", 8, 64, "10%"), ("single", 128, 16, "10%"), ("single", 4096, 64, "10%"), ("others", 128, 1, ""),
        ("others", 4096, 1, ""), ("members", 128, 1, "506"), ("members", 4096, 1, "506"), ("packed", 8, 1, "283"),
        ("copies", 8, 1, "396"), ("setting", 8, 1, "554")]
FUNCTION = "oca_device::*::DeviceOf::datagram::*"


def tree(objects):
    """The text of a tree of so many objects, mutes but for the root."""
    return "".join(f"{4097 + number} 100 mute muted lockable mute\n" for number in range(objects - 1))


def message(kind, objects, number):
    """The command of this number, counted from 1."""
    asked = {"members": (100, 3, 5), "setting": (4097, 4, 2, 1, b"\1"), "others": (4097 + number % (objects - 1), 4, 1)}
    return oca.Command(1 if kind == "copies" else number, *asked.get(kind, (4097, 4, 1))).body()


def script(kind, objects, sessions, datagrams):
    """Other peers say a keep-alive each, so that there are that many sessions with the one that is measured."""
    for number in range(1, sessions):
        yield f"0 127.0.0.1:{9001 + number} 3b00010000000b0400010001\n"
    each = 86 if kind == "packed" else 1
    for first in range(1, 1 + each * datagrams, each):
        messages = [message(kind, objects, number) for number in range(first, first + each)]
        yield f"0 127.0.0.1:9001 {oca.pdu(1, messages).hex()}\n"


def instructions(program, kind, objects, sessions, datagrams):
    with tempfile.TemporaryDirectory() as folder:
        with open(f"{folder}/tree", "w") as file:
            file.write(tree(objects))
        tool = ["valgrind", "--tool=callgrind", f"--callgrind-out-file={folder}/out", f"--toggle-collect={FUNCTION}"]
        words = [program, "replay", "--peers", str(max(16, sessions))] + (["--tree", f"{folder}/tree"] if objects != 8 else [])
        run = subprocess.run(tool + words, input="".join(script(kind, objects, sessions, datagrams)), stdout=subprocess.DEVNULL,
                             stderr=subprocess.PIPE, text=True)
    return int(re.search(r"Collected : (\d+)", run.stderr).group(1)) if run.returncode == 0 else None


def a_command(program, kind, objects, sessions):
    """Instructions a command, or None where the program has no such size."""
    commands, count = (86, 100) if kind == "packed" else (1, 4000)
    # from 100 datagrams on, so that the first use of the window's places is left out
    counts = [instructions(program, kind, objects, sessions, n) for n in (100, 100 + count)]
    return None if None in counts else (counts[1] - counts[0]) / (count * commands)


def main():
    first = None
    print("kind    objects sessions instructions-a-command  goal")
    for kind, objects, sessions, goal in ROWS:
        cost = a_command(f"{sys.argv[1]}/ocadev", kind, objects, sessions)
        first = first or cost
        if goal.endswith("%") and first:
            goal = f"{first * (1 + int(goal[:-1]) / 100):.0f}"
        said = "-" if cost is None else f"{cost:.0f}"
        print(f"{kind:7} {objects:7} {sessions:8} {said:>22}  {'at most ' + goal if goal else ''}".rstrip(), flush=True)


main()
