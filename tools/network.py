#!/usr/bin/env python3
"""The built programs on a network that is not kind: signals, sends without room, failing sockets, closed descriptors,
other addresses; with little stack; and `ocactl` when it stands still with commands at hand.

Usage: network.py BIN     BIN is the folder with `ocadev` and `ocactl`

Signals and failing calls come from the layer `unreliable.c`. Times are held against waits that this script makes
meanwhile, and a part with wrong times alone is repeated, since a machine may be busy.

`ocactl` stands still stopped by signals, or since nobody reads what it prints. A relay loses what the row says, and the
layer sets the clocks of both programs forward. Another controller changes the object meanwhile: earlier commands must
not be done behind that, and are told as lost. The last line is 'N passed, M failed'."""
import contextlib
import fcntl
import os
import re
import resource
import signal
import socket
import struct
import subprocess
import sys
import tempfile
import time
from collections import defaultdict
from concurrent.futures import ThreadPoolExecutor
from pathlib import Path

import checks
import oca_profile as oca
import peers
from checks import (
    NOTE, Ahead, Beside, are_few, at, bound, by_itself, by_turns, comes, ended, free_port, heard, lines_in, next_command, next_line,
    nulls_of, port_said, read_until, tries, waited, write)
from scenes import Scene, answer_of, play_all, verbs_of_peer, verbs_of_run
from tables import data

GET, WAIT_MS, DATA = (4097, 4, 1), 50, data("network")
# Linux's option by which the system tells when a datagram came
SO_TIMESTAMPNS = 35
TRIES = 12


class Checks(checks.Checks):
    def start(self, *words, close=(), stack=0, **how):
        """A run with these descriptors closed, and so much stack where it is said."""
        def prepare():
            for fd in close:
                os.close(fd)
            if stack:
                resource.setrlimit(resource.RLIMIT_STACK, (stack, stack))

        return super().start(*words, preexec_fn=prepare, **{"stdin": subprocess.DEVNULL, **how})

    def in_time(self, what, take, is_well):
        """A check that what this gives is well, at least once in so many times; and all that it gave."""
        found = tries(TRIES, take, is_well)
        self.expect(what, is_well(found[-1]), f"{found}", is_time=True)
        return found


class Waits(Beside):
    """Waits of 50 ms, one after another in a thread of their own: how long one takes on this machine just now."""

    def __init__(self):
        self.took = []

    def step(self):
        begun = time.monotonic()
        time.sleep(WAIT_MS / 1000)
        self.took.append((time.monotonic() - begun) * 1000)

    def __exit__(self, *_):
        super().__exit__()
        self.one = max(WAIT_MS, sum(self.took) / len(self.took))


def counts_in(report):
    words = report.split()
    return dict(zip(words[::2], map(int, words[1::2])))


def turns_of(checks, turns, settings):
    """How many waits of 50 ms a turn of a run takes, whether one is shorter than such a wait, and what the run of so many turns counts."""
    begun = time.monotonic()
    run, _ = checks.serve("--turns", turns, **settings)
    with Waits() as waits:
        listening = time.monotonic()
        counts = counts_in(run.communicate(timeout=60)[0])
    ended = time.monotonic()
    # the turns lie between the start and the end of the run, however late this script hears of either
    return (ended - listening) * 1000 / turns / waits.one, (ended - begun) * 1000 / turns < 0.9 * WAIT_MS, counts


def quiet_turns(checks):
    """A turn without a datagram waits 50 ms, with signals too; each failing receive waits as long and is counted."""
    turns = 20
    for failing, settings in DATA.quiet_turns:
        what = f"{settings}: a turn takes as long as a wait of 50 ms"
        found = checks.in_time(what, lambda: turns_of(checks, turns, settings), lambda it: it[0] < 1.2)
        counted = {(counts.get("quiet"), counts.get("failed-receives")) for *_, counts in found}
        checks.same(f"{settings}: quiet turns and failed ones", counted, {(turns - failing, failing)})
        checks.expect(f"{settings}: no turn is shorter than a wait of 50 ms", not any(is_short for _, is_short, _ in found), f"{found}")


def asks_the_host(checks):
    """What the host is asked last by `ocactl get` from 127.0.0.2, how many ms that is awaited, and by waits of 50 ms."""
    with bound() as device:
        device.setsockopt(socket.SOL_SOCKET, SO_TIMESTAMPNS, 1)
        own, to = free_port(), at(device)
        run = checks.start("ocactl", "get", "--ip", "127.0.0.2", "--port", own, "--device", to, "--turns", 1, 4097)
        with Waits() as waits:
            run.communicate(timeout=60)
            ended = time.time()
        device.setblocking(False)
        with contextlib.suppress(BlockingIOError):
            while True:
                data, told, _, sender = device.recvmsg(2000, 100)
        seconds, nanoseconds = struct.unpack("qq", told[0][2][:16])
    took = (ended - seconds - nanoseconds / 1e9) * 1000
    return (data, sender[0], sender[1] != own), took, took / waits.one


def is_a_program_there(checks):
    """An unheard device's host is asked by an empty datagram, for 200 ms: four waits meanwhile."""
    found = checks.in_time("a host is asked for 200 ms at most", lambda: asks_the_host(checks), lambda it: it[2] < 6)
    checks.same("what a host is asked that may have no program there", {what for what, *_ in found}, {(b"", "127.0.0.2", True)})
    checks.expect("a host is asked for 200 ms at least", min(took for _, took, _ in found) > 180, f"{found}")


def lines_at_once(checks):
    """A line of `ocactl run` is sent at once where nothing is under way: the fourth of seven sooner than half a wait of 50 ms ends."""
    def take():
        took, given = [], []
        with bound() as device, Waits() as waits:
            words = ("--device", at(device), "--first-handle", 1, "--port", free_port())
            run = checks.start("ocactl", "run", *words, stdin=subprocess.PIPE)
            for handle in range(1, 9):
                time.sleep(1.2 * WAIT_MS / 1000)
                begun = time.monotonic()
                write(run, "4097 4 1 0 -\n", ends=False)
                data, sender = next_command(device)
                took.append((time.monotonic() - begun) * 1000)
                heard(device)  # copies, where this script was late
                device.sendto(oca.response(handle, 0, 1, b"\1"), sender)
                given.append((data, next_line(run)))
            checks.same("`run`: its lines", given, [(oca.command(handle, *GET), "answer 0 1 01\n") for handle in range(1, 9)])
            checks.same("`run`: its end", ended(run), ("", "", 0))
        return sorted(took[1:])[3] / waits.one  # the first line waits for the program to begin

    checks.in_time("`run`: a line is sent sooner than half a wait of 50 ms ends", take, lambda it: it < 0.5)


def a_stalled_neighbour(checks):
    """Datagrams to a host that takes none hold up nobody else."""
    with bound() as stalled:
        run, port = checks.serve(STALL=stalled.getsockname()[1])
        peer = peers.Peer(port)

        def take():
            """By how many waits of 50 ms the one of twenty answers took that is in their middle, and how many ms each took."""
            took = []
            with Waits() as waits:
                for handle in range(peer.handle + 1, peer.handle + 21):
                    for copy in range(5):
                        stalled.sendto(oca.command(5 * handle + copy, *GET), ("127.0.0.1", port))
                    begun = time.monotonic()
                    peer.ask(*GET)
                    checks.same(f"behind a stalled neighbour: answer {handle}", peer.response, oca.response(handle, 0, 1, b"\1"))
                    took.append((time.monotonic() - begun) * 1000)
            return sorted(took)[10] / waits.one, took

        checks.in_time("behind five sends without room an answer comes as soon as a wait of 50 ms ends", take, lambda it: it[0] < 1.2)


class Relay(peers.Relay):
    """A way that counts the copies of commands that set or lock. It loses their answers while `loses_answers`, which it
    keeps, their later copies while `loses_copies`, answers above `last`, and all that the controller sends while it
    `is_cut`."""

    def __init__(self, device, front=None):
        self.loses_answers = self.loses_copies = True
        self.is_cut, self.last = False, 2**32
        self.copies = self.commands = self.answers = self.passed = 0
        self.handles, self.senders, self.kept = set(), set(), []
        super().__init__(device, front)

    def forth(self, datagram, way):
        found = peers.messages_in(datagram, "command")
        setting = [command.handle for _, command in found if (command.level, command.index) in ((4, 2), (1, 3), (1, 4))]
        self.handles.update(setting)
        self.senders.update([way] * bool(setting))
        self.commands += len(found)
        if not self.is_cut and (not setting or not self.copies or not self.loses_copies):
            super().forth(datagram, way)
            self.passed += bool(setting)
        self.copies += bool(setting)

    def back(self, datagram, controller):
        found = [handle for handle, *_ in peers.messages_in(datagram, "response")]
        if any(handle > self.last or self.loses_answers and handle in self.handles for handle in found):
            self.kept.append(datagram)
        else:
            self.answers += len(found)
            super().back(datagram, controller)


def bytes_of(datagram):
    """The bytes of a datagram that a row gives in digits, or by its kind and its commands."""
    if isinstance(datagram, str):
        return bytes.fromhex(datagram)
    kind, *commands = datagram
    asked = [(handle, ono, *DATA.methods[name]) for name, handle, ono in commands]
    return oca.pdu(kind, [oca.Command(*its, bool(params), bytes.fromhex(params)).body() for *its, params in asked])


class Stage(Scene):
    """A scene of the rows: a device with two peers, or another program, and a socket that answers nothing; or `ocactl` by a way to the device, with
    the time of both."""

    def __init__(self, checks):
        self.run, self.port, self.peer, self.other, self.sender = None, 0, None, None, None
        self.open, self.time, self.text, self.way = contextlib.ExitStack(), Ahead(), b"", None
        room, self.silent = self.open.enter_context(tempfile.TemporaryDirectory()), self.open.enter_context(bound())
        full, (reader, unread) = self.open.enter_context(open("/dev/full", "w")), os.pipe()
        os.close(reader)
        self.open.callback(os.close, unread)
        self.ends = defaultdict(lambda: self.open.enter_context(bound()))
        self.silent.setsockopt(socket.SOL_SOCKET, socket.SO_SNDBUF, 4_000_000)
        grant = f"{NOTE}a send buffer of {self.silent.getsockopt(socket.SOL_SOCKET, socket.SO_SNDBUF)}" if are_few() else ""
        super().__init__(checks, {
            **verbs_of_run(self), **verbs_of_peer(self),
            "serve": self.serves,
            "program": self.begins,
            "program with an input": self.begins_with,
            "program into a full file": lambda words: self.begins({"stdout": full}, words),
            "program that nobody reads": lambda stream, words: self.begins({stream: unread}, words),
            "peer": lambda ip: setattr(self, "peer", peers.Peer(self.port, ip=ip)),
            "another asks": lambda *asked: answer_of(self.other.ask(*asked[:3], *map(bytes.fromhex, asked[3:]))),
            "nulls": lambda: nulls_of(self.run),
            "whole answer": lambda *asked: self.other.ask(*asked) and oca.check(self.other.response),
            "answers of": lambda count: sum(self.other.ask(*GET) == (0, b"\1") for _ in range(count)),
            "sends": lambda digits, times=1: [self.peer.socket.send(bytes.fromhex(digits)) for _ in range(times)],
            "another sends": self.another_sends,
            "another is answered": lambda which: self.ends[which].recv(2000),
            "a stranger sends until it ends": self.stranger_sends,
            "how many it hears": lambda: len(heard(self.peer.socket)),
            "hears": lambda: self.peer.socket.recv(2000),
            "counts": self.counts,
            "counts of": lambda counts, names: {name: counts.get(name) for name in names},
            "turns in": lambda counts: counts.get("turns", 0) - counts.get("quiet", 0),
            "flood": lambda: self.open.enter_context(peers.Flood(self.port)),
            "report": self.report,
            "reports": lambda: self.reports + self.run.stderr.read().count("note: turns "),
            "listens": lambda: self.meets(port_said(self.run)),
            "note of a grant": lambda: self.run.stderr.readline().partition(" bytes: ")[0] if are_few() else "",
            "tells": self.tells,
            "alone": lambda: self.open.enter_context(by_itself()),
            "takes": lambda port: self.open.enter_context(bound(port=port)),
            "handle of": lambda digits: int(digits[28:36], 16),
            "is command": lambda digits, command: digits == oca.command(int(digits[28:36], 16), *command).hex(),
            "is heard from": lambda port: self.sender[1] == port,
            "is by the clock": lambda handle: (int(time.time() * 100000) - handle) % 2**31 < 60 * 100000,
            "less": lambda number, other: number - other,
            "is over": lambda: self.run.poll(),
            "signal": lambda name: self.run.send_signal(signal.Signals[name]),
            "heard": lambda: heard(self.silent),
            "next": self.next,
            "answers": lambda handle, *how: self.silent.sendto(oca.response(handle, *how[:2], *map(bytes.fromhex, how[2:])), self.sender),
            "what comes until": self.heard_until,
            "kinds in": lambda came, *but: sorted({*came} - {*but}),
            "how many of": lambda came, digits: came.count(digits),
            "lines of": lambda name: lines_in(f"{room}/{name}"),
            "serve by a way": self.serves_by_a_way,
            "suspended": self.suspend,
            "cut off": lambda: setattr(self.way, "is_cut", True),
            "control": self.control,
            "control read late": self.read_late,
            "time": self.time.set,
            "way": lambda name: getattr(self.way, name),
            "way has": lambda name, value: setattr(self.way, name, value),
            "way gives": lambda: [self.way.front.sendto(datagram, *self.way.ways) for datagram in [*self.way.kept]],
            "with another": str.replace,
            "is sent": lambda handle: handle in self.way.handles,
            "how many are sent": lambda: len(self.way.handles),
            "has kept": lambda: len(self.way.kept) > 0,
            "awaits more": lambda name, count: waited(lambda: getattr(self.way, name) > count or self.run.poll() is not None, 2),
            "awaits a full pipe": lambda: waited(lambda: self.is_blocked() or self.run.poll() is not None, 2),
            "waits": self.is_blocked,
            "looks": lambda: setattr(self, "text", self.text + os.read(self.out, 4096)),
            "fills": self.fill,
            "lines that are read": self.lines,
            "rest": self.rest},
            room=os.path.realpath(room), grant=grant, silent=at(self.silent), silent_port=self.silent.getsockname()[1], free=free_port(),
            own=by_turns()[0])

    def serves(self, settings, words=""):
        self.run, port = self.checks.serve(*words.split(), **settings)
        self.meets(port)

    def meets(self, port):
        """Peers of what listens at this port; whether something does."""
        self.port = self.names["port"] = port
        self.reports = 0
        self.peer, self.other = peers.Peer(port, 10, 1), peers.Peer(port, copies=80)
        return port > 0

    def begins(self, settings, words):
        self.run = self.checks.start(*words.split(), **{"stdin": subprocess.PIPE, **settings})

    def begins_with(self, settings, words, given):
        """A program that finds this in its input at once, which stays open."""
        reader, writer = os.pipe()
        os.write(writer, given.encode())
        self.begins({"stdin": reader, **settings}, words)
        os.close(reader)
        self.run.stdin = open(writer, "w")

    def another_sends(self, which, datagram):
        """This one of the device's other peers sends a datagram."""
        self.ends[which].sendto(bytes_of(datagram), self.peer.socket.getpeername())

    def tells(self, which, datagram):
        """The line that the device tells of a datagram of this one, whose address it calls PEER."""
        self.another_sends(which, datagram)
        return self.run.stderr.readline().replace(at(self.ends[which]), "PEER")

    def report(self):
        """What the next line counts if it is a report of `--stats`, and nothing else."""
        self.reports, line = self.reports + 1, self.run.stderr.readline()
        return counts_in(line.removeprefix("note: ")) if line.startswith("note: turns ") else {}

    def stranger_sends(self, text, port):
        while self.run.poll() is None:
            self.ends["stranger"].sendto(text.encode(), ("127.0.0.1", port))
            time.sleep(0.01)

    def counts(self):
        """What a run counts at its end, what else it tells, and its status."""
        out, told, status = ended(self.run)
        return counts_in(out), told, status

    def next(self, *passed):
        """The next command that comes to the socket and is none of these."""
        data, self.sender = next_command(self.silent, [bytes.fromhex(it) for it in passed])
        return data

    def heard_until(self, digits, count):
        """The datagrams that come until this one has come so often, or for ten seconds none does."""
        found, datagrams = [], comes(self.silent)
        while found.count(digits) < count and (came := next(datagrams, None)):
            found.append(came[0].hex())
        return found

    def serves_by_a_way(self):
        self.serves(self.time.settings)
        self.way = self.open.enter_context(Relay(self.port))

    def suspend(self):
        """The program stands still for 20 seconds."""
        self.run.send_signal(signal.SIGSTOP)
        self.time.set(20)
        self.run.send_signal(signal.SIGCONT)

    def control(self, command, words=(), stdout=subprocess.PIPE):
        to = ("--device", f"127.0.0.1:{self.way.port}", "--port", free_port(), "--first-handle", 1)
        streams = {"stdin": subprocess.PIPE, "stdout": stdout, "stderr": subprocess.DEVNULL}
        self.run = self.checks.start("ocactl", command, *to, *words, **streams, **self.time.settings)

    def read_late(self, *command):
        """The same, whose output nobody reads until somebody looks: the pipe is full."""
        self.out, self.into = os.pipe()
        fcntl.fcntl(self.into, fcntl.F_SETPIPE_SZ, 4096)
        self.fills = os.open(f"/proc/self/fd/{self.into}", os.O_WRONLY | os.O_NONBLOCK)
        self.fill()
        self.control(*command, stdout=self.into)

    def fill(self):
        with contextlib.suppress(BlockingIOError):
            while True:
                os.write(self.fills, b"\0" * 4096)
                time.sleep(0)

    def is_blocked(self):
        """Whether the program waits in a write to its standard output, by the number of this call on x86-64 or on AArch64."""
        with contextlib.suppress(OSError, IndexError):  # it is `running`, or is gone
            call = Path(f"/proc/{self.run.pid}/syscall").read_text(encoding="ascii").split()
            return call[0] in ("1", "64") and call[1] == "0x1"
        return False

    def lines(self):
        """How many lines were read, with those that are there."""
        self.text += read_until(self.out, lambda _: False, 0)
        return self.text.count(b"\n")

    def rest(self):
        """The lines that were read, and what is printed from here on, to the end."""
        for it in (self.into, self.fills):
            os.close(it)
        self.text += read_until(self.out, lambda _: False, 60)
        os.close(self.out)
        return self.text.replace(b"\0", b"").decode().split("\n")


def locks_at_loss(checks, calls=20):
    """`lock` and `unlock` from the program's own ports, over a way that loses 3 datagrams of 10 each way: none takes the other port, and none is
    refused by the lock of another call."""
    with by_itself():
        _, port = checks.serve()
        with peers.Lossy(port, 1, 0.3) as way:
            for call in range(calls):
                command = "unlock" if call % 4 == 3 else "lock"
                out, told, _ = checks.ran("ocactl", command, "--device", at(way.front), 4097)
                checks.same(f"{command} at a loss of 3 in 10, call {call}: notes of another port", re.findall("is used instead", told), [])
                checks.expect(f"{command} at a loss of 3 in 10, call {call}: it is not refused by its own lock", "Locked" not in out, out)


def many_at_once(checks):
    """Sixty calls of `get`, eight at a time, from the program's own ports, of a device with room for sixteen peers: all are answered."""
    with by_itself():
        _, port = checks.serve()
        words = (f"{checks.folder}/ocactl", "get", "--device", f"127.0.0.1:{port}", "4097")
        with ThreadPoolExecutor(8) as pool:
            said = [*pool.map(lambda _: subprocess.run(words, capture_output=True, text=True, timeout=60).stdout, range(60))]
    for call, out in enumerate(said):
        checks.same(f"`get` eight at a time, call {call}", out, "4097 muted\n")


def scenes(checks):
    play_all(checks, Stage, "network")


if __name__ == "__main__":
    sys.exit(Checks(sys.argv[1]).tried(quiet_turns, is_a_program_there, lines_at_once, a_stalled_neighbour, locks_at_loss, many_at_once, scenes))
