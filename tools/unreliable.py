#!/usr/bin/env python3
"""The built programs with memory refused, and with reads and writes that fail or are short, at each place in turn.

Usage: unreliable.py BIN     BIN is the folder with `ocadev`, `ocactl` and `trials`

- Memory: each request of a run is refused in turn. The run says `no memory` with status 1 and prints nothing, or it prints what
  it prints with memory. The calls of `trials calls` answer NoMemory, but a tree that gives back room keeps it.
- After building, and over sockets: a run asks for no more requests than an empty one, and ends well with later ones refused.
- Ends in memory, by `trials lines`: with a failed receive or send, a device or a link does what it does without that, and its
  report counts the failure and nothing else.
- Ends: each read and each write fails in turn, in pieces of 100 bytes and of one. The run says `read failed` or `write failed`
  with status 1, and printed a front of what it prints otherwise. Pieces of 1, 7 and 100 bytes change nothing."""
import collections
import sys
import tempfile
from pathlib import Path

import oca_profile as oca
from checks import Checks, ended, free_port
from damaged import MESSAGES
from peers import Peer, Served
from tables import data

DATA = data("unreliable")
NO_SEND = 1000  # the number of a send that no run has


def device_scripts():
    """Duplicates, a duplicate after a later command, ranges, the window's edge, overtaking: a script each."""
    for script in DATA.device_scripts:
        asked = [oca.command(handle, *DATA.asked[what], len(value), *map(bytes.fromhex, value)) for handle, what, *value in script]
        yield "".join(f"{k} 127.0.0.1:9001 {sent.hex()}\n" for k, sent in enumerate(asked)).encode()


def in_memory(entries, failed, last, again):
    """The lines of a run in memory; before the entry of this number a receive fails, and its datagrams come `again`."""
    heard = [f"127.0.0.1:{of[0]} {MESSAGES[of[1]].hex()}" if of else "quiet" for _, *of in entries]
    lines = [f"then {now} {what}" for (now, *_), what in zip(entries, heard)]
    lines[failed:failed] = ["then failed"] * (failed < len(entries))
    return ["history 32 16 0", *lines, last, *(f"100 {what}" for what in heard if again and what != "quiet")]


class Runs(Checks):
    def __init__(self, folder, place):
        super().__init__(folder)
        self.counts, self.tried = Path(place) / "counts", collections.Counter()

    def run(self, words, script, **settings):
        """(standard output, standard error, status, the counts)"""
        said = self.ran(*words, given=script, text=False, COUNTS=self.counts, **settings)
        return *said, [int(n) for n in self.counts.read_text().split()]

    def memory(self, words, script):
        """Each request of a run refused in turn. How many there are, and those that the run did without."""
        *wanted, (requests, *_) = self.run(words, script)
        without = []
        for n in range(1, requests + 2):
            *got, _ = self.run(words, script, REFUSE=n)
            is_refused = got == [b"", b"no memory\n", 1]
            self.expect(f"{words} with request {n} refused", is_refused or got == wanted, got)
            self.tried["refused"] += is_refused
            without += [n] if n <= requests and not is_refused else []
        self.tried["without"] += len(without)
        return requests, without

    def after_building(self, words, script, requests):
        """No request after the last one of the start."""
        *wanted, counts = self.run(words, script)
        self.same(f"{words}: requests for memory, and those with an empty script", counts[0], requests)
        self.same(f"{words} with no memory after its start", [*self.run(words, script, REFUSE_FROM=requests + 1)[:3]], wanted)

    def serving(self, turns, commands, **settings):
        """The status of `ocadev serve` with so many turns, and how often it asked for memory. A controller sets and reads a mute meanwhile."""
        run, port = self.serve("--turns", turns, COUNTS=self.counts, **settings)
        peer = Peer(port)
        for k in range(commands):
            state = bytes([1 + k % 2])
            self.same("a mute that is set and read", (peer.ask(4097, 4, 2, state), peer.ask(4097, 4, 1)), ((0, b""), (0, state)))
        _, _, status = ended(run)
        return status, int(self.counts.read_text().split()[0])

    def over_sockets(self):
        """Nothing is asked for by a device that is served, nor by a controller that sends, once it began."""
        status, idle = self.serving(1, 0)
        for settings in ({}, {"REFUSE_FROM": idle + 1}):
            self.same(f"served {settings}", self.serving(120, 50, **settings), (status, idle))
        with Served() as device:
            words = lambda: ["ocactl", "run", "--device", f"127.0.0.1:{device.port}", "--ahead", 16, "--port", free_port()]
            *_, (idle, *_) = self.run(words(), b"")
            lines = b"4097 4 2 1 01\n4097 4 1 0 -\nwait\n" * 50
            out, _, status, (requests, *_) = self.run(words(), lines)
            self.same("run", (requests, status, len(out.splitlines())), (idle, 0, 100))
            for line, wanted in zip(out.splitlines(), [b"answer 0 0 -", b"answer 0 1 01"] * 50):
                self.same("what a run is answered", line, wanted)
            self.same("run with no memory after its start", self.run(words(), lines, REFUSE_FROM=idle + 1)[:3:2], (out, status))

    def failing_ends(self, words, script, piece):
        """Each read and each write of a run in pieces fails in turn."""
        out, _, _, (_, reads, writes, *_) = self.run(words, script, PIECE=piece)
        for setting, number, fault in (("FAIL_READ", reads, b"read failed\n"), ("FAIL_WRITE", writes, b"write failed\n")):
            for n in range(1, number + 1):
                got, said, code, _ = self.run(words, script, PIECE=piece, **{setting: n})
                written = piece == 1 and setting == "FAIL_WRITE"  # then n - 1 bytes were taken before
                self.tried["ends"] += 1
                self.expect(f"{words} in pieces of {piece} with {setting} {n}",
                            (said, code) == (fault, 1) and (got == out[:n - 1] if written else out.startswith(got)), (got, said, code))

    def ends_in_memory(self, name, entries, drives, again, sends, by_receive, by_send, sums):
        """Each receive before an entry fails, and each send in turn: the report counts it, and all else is the same."""
        receives = len(entries)
        failures = [(receives, NO_SEND)] + [(k, NO_SEND) for k in range(receives)] + [(receives, k) for k in range(sends)]
        lines = [line for failed, send in failures for line in in_memory(entries, failed, f"{drives} {send}", again)]
        out, err, status, _ = self.run(["trials", "lines"], "".join(f"{line}\n" for line in lines).encode())
        told = [part.partition("report")[2].partition("\n") for part in out.decode().split("history\n")[1:]]
        self.same(f"{name} in memory", (err, status, len(told)), (b"", 0, len(failures)))
        reports, rests = [[int(n) for n in line.split()] for line, _, _ in told], [rest for _, _, rest in told]
        for failure, report, rest in zip(failures[1:], reports[1:], rests[1:]):
            changes = dict(by_receive if failure[0] < receives else by_send)
            expected = [n + changes.get(k, 0) for k, n in enumerate(reports[0])]
            self.same(f"{name}, {failure} failing", (report, rest), (expected, rests[0]))
            self.tried["in memory"] += 1
        self.same(f"the report of {name}", [reports[0][place] for place, _ in sums], [wanted for _, wanted in sums])

    def pieces_of(self, words, script):
        *wanted, _ = self.run(words, script)
        for size in (1, 7, 100):
            self.tried["pieces"] += 1
            self.same(f"{words} in pieces of {size}", [*self.run(words, script, PIECE=size)[:3]], wanted)

    def replays(self, words, scripts, expected):
        """A replay of each script, as it is, with memory refused, with ends that fail, and in pieces."""
        requests, _ = self.memory(words, b"")
        for number, script in enumerate(scripts):
            out, err, status, _ = self.run(words, script)
            self.same(f"{words}", (out, err.decode().strip() or None, status), expected(script))
            self.after_building(words, script, requests)
            self.failing_ends(words, script, 100)
            self.pieces_of(words, script)
            if number < 2:  # the short ones, byte by byte
                self.failing_ends(words, script, 1)

    def calls(self):
        """The calls that take memory and can answer that there is none: one that makes a tree gives back room twice."""
        start, without = self.memory(["trials", "call", "nothing"], b"")
        self.same("trials calls", self.run(["trials", "calls"], b"")[0].decode().split(), [*DATA.calls])
        for name in DATA.calls:
            requests, others = self.memory(["trials", "call", name], b"")
            print(f"  {name}: {requests - start} requests for memory")
            self.same(f"{name}: requests that are done without", len(others) - len(without), 2 * (name in DATA.make_a_tree))


def main():
    with tempfile.TemporaryDirectory() as place:
        runs = Runs(sys.argv[1], place)
        for words in DATA.without_input:
            runs.memory(words.split(), b"")
        runs.replays(["ocadev", "replay"], device_scripts(), oca.device_replay)
        runs.replays(["ocactl", "replay", "--device", "127.0.0.1:65000", "--first-handle", "1"], map(str.encode, DATA.link_scripts),
                     lambda s: oca.link_replay(s, (127, 0, 0, 1, 65000), 1))
        runs.calls()
        runs.over_sockets()
        for name, of in DATA.in_memory.items():
            runs.ends_in_memory(name, **of)
        runs.same("failed receives and sends in memory", runs.tried["in memory"], 36)
        runs.expect("enough refusals and failures were tried", runs.tried["refused"] > 300 and runs.tried["ends"] > 2000)
        print(f"requests for memory refused, and done without; failed reads and writes, in memory too; runs in short pieces: {dict(runs.tried)}")
    return runs.verdict()


if __name__ == "__main__":
    sys.exit(main())
