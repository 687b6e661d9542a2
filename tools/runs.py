#!/usr/bin/env python3
"""Whole runs of the built programs, each a row of tools/rows/ocadev.toml or ocactl.toml: its words and its input, what it must print, and its status.

Usage: runs.py BIN     BIN is the folder with `ocadev` and `ocactl`

 words     the program and its words: END is a socket that never answers, PORT a free port, TAKEN one that is in use
 tree      a text of objects, in a file that `--tree` names
 given     the standard input
 exchange  in place of `given` and `prints`: the lines that are indented are printed, and the others given
 status, prints, fault   the status, what is printed, and the fault, which alone is told where the status is 0, else stands behind notes
 note      with what the only note begins, where END is the socket's address
 like      in place of `prints`: a form of what is printed, as Python's `re` has it
 tells     in place of `fault` and `note`: such a form of what is told
 largest   how many bytes the largest datagram has that is given, and the largest that is printed
 pieces    the input comes in pieces of each size up to so many bytes
 cut       behind the input a read fails, once something is printed, where that is to be
 room      behind so many bytes a write fails
 sent      so many datagrams come to END, which are copies of one
 talk      `+` a line that is given, `.` the input's end, `<` a datagram that comes to END from the port that the words say, copies and keep-alives aside,
           `>` one that is sent back, `=` the next line that is printed
 ahead     so many commands come to END, and no more, while the input stays open
A list of words, of inputs or of trees is a run for each. Readers and writers that fail at each place, and writers that take a little at a time, are tried
in `oca_program_tests`; here a read or a write of the system fails. The last line is 'N passed, M failed'."""
import fcntl
import os
import re
import resource
import select
import socket
import subprocess
import sys
import tempfile
import termios
import time

from checks import Checks, at, bound, ended, free_port, heard, next_command, waited, write
from tables import each, octets, table

KEYS = set("words tree given exchange status prints like fault note tells largest pieces cut room sent ahead talk".split())


class Runs(Checks):
    def check(self, words, is_well, told):
        self.expect(" ".join(words)[:200], is_well, f"{told!s:.600}")

    def compare(self, words, row, said):
        """Whether a run ended, printed and told what its row says."""
        (out, told, status), (given, prints) = said, of_row(row)
        fault = octets(row.get("fault", "") and row["fault"] + "\n")
        is_open = "note" in row or status and "cut" not in row and "room" not in row
        notes = re.match(rb"(note: [^\n]*\n)*", told)[0] if is_open else b""
        is_noted = "note" not in row or notes.count(b"\n") == 1 and notes.startswith(octets(f"note: {row['note']}"))
        is_told = re.fullmatch(octets(row["tells"]), told) if "tells" in row else told[len(notes):] == fault and is_noted
        is_so = status == row.get("status", 0) and is_told and (re.fullmatch(octets(row["like"]), out) if "like" in row else out == prints)
        self.check(words, is_so, (given[:200], *said))


def await_read(end, run):
    """Waits until a run has read all that is there, or is over."""
    is_read = lambda: not any(fcntl.ioctl(end, termios.FIONREAD, bytes(4)))
    waited(lambda: run.poll() is not None or is_read(), 60, 0.0002)


def ran_in_pieces(runs, words, given, size):
    """A run that gets its input in pieces of this size, each once it has read the one before."""
    run = runs.start(*words, text=False)
    for begin in range(0, len(given), size):
        write(run, given[begin:begin + size], ends=False)
        await_read(run.stdin, run)
    return ended(run, 120)


def ran_cut(runs, words, given, prints):
    """A run whose reading fails behind this input, once something is printed, where that is to be."""
    reader, writer = socket.socketpair()
    with reader:
        with writer:
            reader.send(b"-")  # where an end is closed that has something unread, a read at the other end fails
            writer.sendall(given)
            run = runs.start(*words, stdin=reader, text=False)
            if prints and not select.select([run.stdout], [], [], 60)[0]:
                run.kill()  # what it printed behind the failing read would come too late
            await_read(reader, run)
        return ended(run, 120)


def ran_in_room(runs, words, given, most):
    with tempfile.TemporaryFile() as out:
        limit = lambda: resource.setrlimit(resource.RLIMIT_FSIZE, (most, most))
        _, told, status = runs.ran(*words, given=given, seconds=120, text=False, stdout=out, preexec_fn=limit, restore_signals=False)
        out.seek(0)
        return out.read(), told or b"", status


def lets_ahead(runs, words, given, end, ahead):
    """Whether so many commands are under way, of more than that: by their handles, until there are so many and a second more."""
    run, handles = runs.start(*words, text=False), set()
    write(run, given, ends=False)
    come = lambda: handles.update(datagram[14:18] for datagram in heard(end) if datagram[7] in (0, 1))
    waited(lambda: come() or len(handles) >= ahead or run.poll() is not None)
    time.sleep(1)
    come()
    run.kill()
    runs.check(words, len(handles) == ahead, (sorted(handles), ended(run, 120)))


def talks(runs, words, talk, end):
    """A run, and what was exchanged with it meanwhile: each datagram and each line that comes is a check."""
    run, seen, sender = runs.start(*words, text=False), set(), None
    for kind, said in (line.rstrip("\n").partition(" ")[::2] for line in talk.splitlines()):
        if kind == "+":
            write(run, octets(said + "\n"), ends=False)
        elif kind == ".":
            write(run, b"")
        elif kind == "<":
            data, sender = next_command(end, seen)
            seen.add(data)
            runs.same(f"{' '.join(words)}: what comes", data.hex() or "nothing", said)
            runs.same(f"{' '.join(words)}: from where", sender, ("127.0.0.1", int(words[words.index("--port") + 1])))
        elif kind == ">" and sender:
            end.sendto(bytes.fromhex(said), sender)
        elif kind == "=":
            there = bool(select.select([run.stdout], [], [], 4)[0])
            runs.same(f"{' '.join(words)}: what is printed", there and os.read(run.stdout.fileno(), len(said) + 1), octets(said + "\n"))
    return ended(run, 120)


def of_row(row):
    lines = row.get("exchange", "").splitlines(True)
    given, prints = ("".join(line.removeprefix("    ") for line in lines if line.startswith("    ") == is_printed) for is_printed in (False, True))
    return octets(row.get("given", given)), octets(row.get("prints", prints))


def tried(runs, row, path):
    if row.keys() - KEYS:
        raise ValueError(f"a row has no {', '.join(row.keys() - KEYS)}: {row}")
    given, prints = of_row(row)
    with bound() as end, bound() as taken:
        places = {"END": at(end), "PORT": str(free_port()), "TAKEN": str(taken.getsockname()[1])}
        words = [places.get(word, word) for word in row["words"].split(" ")]
        row = row | {key: it.replace("END", at(end)) for key, it in row.items() if key == "note"}
        if "tree" in row:
            words += ["--tree", path]
            with open(path, "wb") as file:
                file.write(octets(row["tree"]))
        if "largest" in row:
            found = [max((len(it) // 2 for it in re.findall(rb"[0-9a-f]{18,}", side)), default=0) for side in (given, prints)]
            runs.check([*words, "largest"], found == row["largest"], found)
        if "ahead" in row:
            return lets_ahead(runs, words, given, end, row["ahead"])
        if "pieces" in row:
            all_said = [ran_in_pieces(runs, words, given, size) for size in range(1, row["pieces"] + 1)]
        elif "talk" in row:
            all_said = [talks(runs, words, row["talk"], end)]
        elif "cut" in row or "room" in row:
            all_said = [ran_cut(runs, words, given, prints) if "cut" in row else ran_in_room(runs, words, given, row["room"])]
        else:
            all_said = [runs.ran(*words, given=given, seconds=120, text=False)]
        for said in all_said:
            runs.compare(words, row, said)
        if "sent" in row:
            came = heard(end)
            runs.same(f"{' '.join(words)}: what is sent", (len(came), len(set(came)) < 2), (row["sent"], True))


def refuses_no_word(runs, program):
    """A run without any word, not even the program's own name: a system may make a word of nothing of that."""
    run = subprocess.run([], executable=f"{runs.folder}/{program}", input=b"", env={}, capture_output=True, timeout=120, check=False)
    runs.check([program], (run.returncode, run.stdout) == (2, b"") and run.stderr.endswith(b"bad words\n"), run)


def main(folder):
    runs = Runs(folder)
    most = "".join(f"{ono} 100 block lockable a\n" for ono in range(4096, 4096 + 4095))  # 4,096 objects with the root
    rows = [{"words": "ocadev show", "tree": most, "prints": "100 1.1.3 0 root\n" + most.replace(" 100 block lockable", " 1.1.3 100")},
            {"words": "ocadev show", "tree": most + "9000 100 block lockable a", "status": 2, "fault": "line 4096: full"}]
    with tempfile.TemporaryDirectory() as room:
        for row in [*rows, *table("ocadev")["run"], *table("ocactl")["run"]]:
            for one in each(row, "words", "given", "tree"):
                tried(runs, one, f"{room}/objects.tree")
    for program in ("ocadev", "ocactl"):
        refuses_no_word(runs, program)
    return runs.verdict()


if __name__ == "__main__":
    sys.exit(main(sys.argv[1]) if len(sys.argv) == 2 else __doc__)
