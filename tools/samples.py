#!/usr/bin/env python3
"""The sample programs over loopback, the controller in Python in examples/python, and the worked bytes of
docs/PROTOCOL.md.

Usage: samples.py BIN     BIN is the folder with `amplifier`, `panel`, `ocadev` and `ocactl`

The panel sets and lists the amplifier, beside locks of another peer, and lists `ocadev`. The amplifier's knobs are read
by a peer, a peer's settings are shown, and closed standard streams change nothing.

The link of the controller in Python is asked at moments that are handed in, and must send and take what PROTOCOL says;
of damaged datagrams it takes what the second implementation takes. Wrong links must be found. Devices whose answers are
odd are told as such. Then it runs against `ocadev serve`, first alone, then over a bad network. `ocactl` must read
and be refused what it set and locked. Each command is executed once, and its socket keeps to the rules: one address,
one command a datagram, handles that rise by one, at most 20 unchanged copies, at most 16 in flight. `ocadev replay`
must answer each row of worked bytes as it stands there. The last line is 'N passed, M failed'."""
import contextlib
import functools
import io
import os
import re
import struct
import subprocess
import sys
import tempfile
import threading
import time
from types import ModuleType

import oca_profile as oca
from checks import Checks, Serving, at, bound, ended, free_port, port_said, sockets, waited
from damaged import MESSAGES
from peers import Lossy, Peer, Served, commands_in, messages_in
from scenes import Scene, play_all, scenes_of, verbs_of_peer, verbs_of_run
from tables import TOP, data

EXAMPLE, TREE = TOP / "examples/python/controller.py", "examples/stagebox.tree"
PYTHON = sys.executable, EXAMPLE
SPAN, TRIES, DATA = 16, 20, data("samples")
ROW = r"\| [^|]+ \| `([0-9A-F ]+)` \| `([0-9A-F .]+)`[^|]* \|"


def levels(peer):
    """What a peer reads of both channels, as the amplifier shows it."""
    state = lambda mute: "muted" if peer.ask(mute, 4, 1)[1] == b"\1" else "open"
    setting = lambda gain: int.from_bytes(peer.ask(gain, 5, 1)[1][:2], "big", signed=True)
    return f"1: {state(4097)} {setting(4098)} dB/10, 2: {state(5097)} {setting(5098)} dB/10\n"


class Loopback(Scene):
    """A scene of the rows: an amplifier, or `ocadev`, the panel at it, and a peer; and a socket that never answers."""

    def __init__(self, checks):
        self.run, self.port, self.peer, self.open = None, 0, None, bound()
        super().__init__(checks, {
            **verbs_of_run(self), **verbs_of_peer(self),
            "amplifier": self.begins,
            "amplifier, closed": lambda number: self.begins(preexec_fn=lambda: os.close(number)),
            "amplifier's end": self.ends,
            "ocadev": self.serves,
            "asks all": lambda command: self.does["asks"](*command),
            "levels": lambda: levels(self.peer),
            "panel": lambda *words: checks.ran("panel", self.port, *words)[0],
            "panel, closed": lambda number: checks.ran("panel", self.port, preexec_fn=lambda: os.close(number))[0],
            "panel at": lambda port, *words: checks.ran("panel", *str(port).split(), *words)[0],
            "panel at no port": lambda port: checks.ran("panel", port)[0].splitlines()[0][:7].strip(),
            "listens at": lambda: bound_at(self.port),
            "where the panel is": lambda: checks.start("panel", self.names["silent"]) and bound_at(self.open.recvfrom(2000)[1][1]),
            "looks at the channels": lambda: channels(checks, self.peer, (4096, 5096), -800)}, silent=self.open.getsockname()[1])

    def begins(self, **settings):
        """An amplifier, whose input stays open, and a peer of it."""
        self.run = self.checks.start("amplifier", 0, 100000, bufsize=1, **settings)
        self.port = port_said(self.run)
        self.peer = Peer(self.port, 30, 1)

    def serves(self, *words):
        self.run, self.port = self.checks.serve(*words)

    def ends(self, words, lines, output=""):
        """What an amplifier prints that ends by itself, with these lines as its input: behind where it listens, its notes, and its status."""
        with tempfile.TemporaryFile("w+") as given, open(output or os.devnull, "w") as printed:
            given.write(lines)
            given.seek(0)
            run = self.checks.start("amplifier", *words.split(), stdin=given, **{"stdout": printed} if output else {})
            said, notes, status = ended(run)
        return said, re.sub(r"^listening 127\.0\.0\.1:\d+\n", "", notes), status


def amplifiers(checks):
    play_all(checks, Loopback, "samples")


def channels(checks, peer, blocks, low):
    """What a peer reads of each object of an amplifier's channels: its class, its role, that it can be locked, and a gain's limits."""
    for number, block in enumerate(blocks, 1):
        for ono, kind, role in ((block, "block", f"channel {number}"), (block + 1, "mute", "mute"), (block + 2, "int16", "gain")):
            checks.same(f"{ono}: its class", peer.ask(ono, 1, 1), (0, oca.class_bytes(oca.Object(ono, kind, 100, role))))
            checks.same(f"{ono}: its role", peer.ask(ono, 1, 5), (0, oca.text_bytes(role)))
            checks.same(f"{ono}: it can be locked", peer.ask(ono, 1, 2), (0, b"\1"))
        checks.same(f"{block + 2}: its limits", peer.ask(block + 2, 5, 1), (0, struct.pack(">hhh", 0, low, 100)))


def bound_at(port):
    """The addresses of this machine at which somebody has this UDP port, of IPv4."""
    return [ip for (ip, own), *_ in sockets("udp") if own == port]


def module_of(text):
    """The controller in Python, or a wrong one of this text, as a module."""
    module = sys.modules["controller"] = ModuleType("controller")    # where its dataclasses look for their types
    exec(compile(text, EXAMPLE, "exec"), module.__dict__)
    return module


def what_is_due(its, link, now):
    """What a link sends at a moment: handles, `alive` for a keep-alive, `lost`."""
    sent = []
    try:
        while (datagram := link.due(now)) is not None:
            (kind, *message), = oca.check(datagram)
            sent.append("alive" if kind == "keep-alive" else message[1].handle)
    except its.Lost:
        sent.append("lost")
    return sent


def what_is_heard(link, datagram):
    """The handles that a datagram answers, or that it is refused."""
    try:
        return [it.handle for it in link.heard(datagram)]
    except struct.error:
        return "refused"


def rules(checks, its):
    """The link of the example, moment by moment, by the scenes of links."""
    for steps, _ in scenes_of("samples", "link"):
        link = its.Link(1, last_sent=0.0)
        Scene(checks, {
            "submit": functools.partial(link.submit, its.Request(4097, 4, 1)),
            "due": lambda moments: [what_is_due(its, link, now) for now in moments],
            "sends": lambda now: link.due(now).hex().upper(),
            "heard": lambda digits: what_is_heard(link, bytes.fromhex(digits)),
            "has room": link.has_room,
            "in flight": lambda: sorted(link.flights)}).play(steps)
    wrong = [it.hex() for it in beside_a_response() if taken_by(its, it) != [tuple(message) for message in messages_in(it, "response")]]
    checks.same("what is taken of damaged datagrams", wrong[:9], [])


def beside_a_response():
    """Datagrams in which something stands behind or before a response: a message, one with another byte at some place, and one that is cut off;
    and two that are as large as they may be, and larger."""
    good = oca.response(7, 0, 1, b"\1")
    for message in MESSAGES:
        yield from (message + good, good + message)
        for place in range(len(message)):
            yield from (good + message[:place] + bytes([value]) + message[place + 1:] for value in DATA.values)
            yield from (good + message[:place], message[:place] + good)
    yield from (oca.pdu(4, bodies) + good for bodies in ([bytes(3)], [bytes(4)], [bytes(5)], [bytes(2), bytes(2)], []))
    yield from (good * 66 + oca.response(8, 0, 1, bytes(size)) for size in (66, 67))


def taken_by(its, datagram):
    """The responses that the example takes of a datagram; none of one that it refuses."""
    with contextlib.suppress(struct.error):
        return [(it.handle, it.status, it.count, it.parameters) for it in its.responses(datagram)]
    return []


class Odd(Served):
    """A device that answers one method by this status, these parameters and their count, with bytes behind the response."""

    def __init__(self, method, answer, behind):
        super().__init__()
        self.method, (self.status, self.count, digits), self.behind = tuple(method), answer, bytes.fromhex(behind)
        self.parameters = bytes.fromhex(digits)

    def datagram(self, peer, data, now):
        said, packets = super().datagram(peer, data, now)
        odd = [oca.response(command.handle, self.status, self.count, self.parameters) + self.behind
               for command, method in commands_in(data) if method == self.method]
        return said, odd or packets


def odd_answers(checks):
    for words, method, answer, behind, printed, status in DATA.odd_answers:
        with Odd(method, answer, behind) as device:
            checks.same(f"{words}, {method} is answered by {answer} {behind}", ran(*PYTHON, at(device.socket), *words.split()), ([*printed], status))


def is_wrong(text):
    """Whether the link of an example of this text is found to break a rule."""
    tried = Checks()
    with contextlib.redirect_stdout(io.StringIO()):
        try:
            rules(tried, module_of(text))
        except Exception:    # whatever a wrong one comes to
            return True
    return tried.failed > 0


class Device(Serving):
    """`ocadev serve` of the stage box, and what it says of each datagram."""

    def __init__(self, folder):
        super().__init__(f"{folder}/ocadev", *f"serve --tree {TREE} --port 0 --peers 64 --verbose".split(), cwd=TOP)
        self.address, self.lines = f"{self.ip}:{self.port}", []
        self.reader = threading.Thread(target=lambda: self.lines.extend(self.process.stderr), daemon=True)
        self.reader.start()

    def executed(self, port):
        """How many commands from this port were executed, and how many were too old or reused; once the device ended."""
        self.reader.join()
        counts = [re.match(rf"127\.0\.0\.1:{port} served (\d+) \d+ (\d+)(?: reused (\d+))?", line) for line in self.lines]
        return [sum(int(it[n] or 0) for it in counts if it) for n in (1, 2, 3)]


def started(*words):
    """A run of a program, whose input stays open."""
    return subprocess.Popen(words, cwd=TOP, stdin=subprocess.PIPE, stdout=subprocess.PIPE, stderr=subprocess.PIPE, text=True)


def ran(*words, given=""):
    printed, _, status = ended(started(*words), 120, given)
    return printed.splitlines(), status


class Stage(Scene):
    """A scene of the rows: the commands of the controller in Python beside those of `ocactl`."""

    def __init__(self, checks, device):
        self.at = device.address
        ocactl = lambda name, *words: ran(f"{checks.folder}/ocactl", name, "--device", self.at, "--port", str(free_port()), *words)
        super().__init__(checks, {
            **verbs_of_run(self),
            "python": lambda words: ran(*PYTHON, self.at, *words.split()),
            "python at": lambda place, words: ran(*PYTHON, place.replace("PORT", str(device.port)), *words.split()),
            "ocactl": lambda words: ocactl(*words.split()),
            "begins": lambda words: setattr(self, "run", started(*PYTHON, self.at, *words.split())),
            "looks at the lists": self.lists})

    def lists(self):
        """The example lists the objects that `ocactl` lists, with their labels."""
        (listed, status), (tree, _) = self.does["python"]("list"), self.does["ocactl"]("tree")
        rows = [re.fullmatch(r'(\d+) (\S+) (\d+) "(.*)" ("[^"]*")', line).groups() for line in listed]
        wanted = [line.split(" ", 3) for line in tree]
        self.checks.same("list", [[ono, container, role] for ono, _, container, role, _ in rows], [[it[0], *it[2:]] for it in wanted])
        self.checks.same("its classes", {kind for _, kind, *_ in rows}, {"block", "mute", "polarity", "int16", "switch", "boolean"})
        labels = re.findall(r'^(?:root|object .*) (?:on|off) ("[^"]*")$', (TOP / TREE).read_text(), re.MULTILINE)
        self.checks.same("its labels", (sorted({label for *_, label in rows}), status), (sorted({'""', *labels}), 0))
        self.checks.same("some are labelled", len({*labels}) > 3, True)


class Watch(Lossy):
    """A bad network that holds what a controller sends against the rules, and how many of its commands were in flight."""

    def __init__(self, device, seed):
        super().__init__(device, seed, share=0.2, doubling=0.2, slow=0.15, quick=0.02)
        self.ports, self.sent, self.copies, self.wrong = set(), {}, {}, []
        self.most = self.alive = 0

    def forth(self, data, way):
        self.ports.add(way.getsockname()[1])
        (kind, *message), *more = oca.check(data)
        if more or kind == "response" or data[7] == 0:
            self.wrong.append("no command by itself that asks for a response, and no keep-alive")
        elif kind == "keep-alive":
            self.alive += 1
        elif (handle := message[1].handle) in self.sent:
            self.copies[handle] += 1
            self.wrong += ["a copy that is changed"] if self.sent[handle] != data else []
        else:
            self.wrong += ["no next handle"] if self.sent and handle != max(self.sent) + 1 else []
            self.sent[handle], self.copies[handle] = data, 1
            in_flight = self.sent.keys() - self.answered
            self.wrong += ["beyond the span"] if handle >= min(in_flight) + SPAN else []
            self.most = max(self.most, len(in_flight))
        super().forth(data, way)


def at_a_loss(checks, device):
    """The example over bad networks; what was executed of it is checked once the device has ended."""
    watches = []
    for seed, (least, keep_alives, words, wanted) in enumerate(DATA.at_a_loss, 1):
        watch, name = Watch(device.port, seed), words[0].split()[0]
        with watch:
            process = started(*PYTHON, at(watch.front), *" ".join(words).split())
            waited(lambda: watch.alive >= keep_alives or process.poll() is not None, 240)
            printed, _, status = ended(process, 240)
            time.sleep(1)    # what is still on its way
        lines = printed.splitlines()
        checks.same(f"{name} at a loss", (lines if len(wanted) > 1 else [f"{len(lines)} objects"], status), ([*wanted], 0))
        checks.same(f"{name}: one address and port", len(watch.ports), 1)
        checks.same(f"{name}: the rules", watch.wrong, [])
        checks.same(f"{name}: no command is sent more often than it may", max(watch.copies.values()) <= TRIES, True)
        checks.same(f"{name}: in flight", watch.most, least)
        print(f"{name}: {len(watch.sent)} commands, {watch.most} in flight; of {watch.carried} datagrams {watch.lost} were lost, "
              f"{watch.doubled} doubled and {watch.overtaken} overtaken", flush=True)
        watches.append(watch)
    checks.same("locks are held by keep-alives", watches[-1].alive >= 2, True)
    carried = [sum(counts) for counts in zip(*((it.lost, it.doubled, it.overtaken) for it in watches))]
    checks.same("datagrams were lost, doubled and overtaken", min(carried) > 20, True)
    return watches


def worked_bytes():
    """The rows of worked bytes in PROTOCOL: a command and what answers it, in digits, where `...` stands for the rest."""
    return [[it.replace(" ", "").lower() for it in row] for row in re.findall(ROW, (TOP / "docs/PROTOCOL.md").read_text())]


def script_of(rows):
    """The commands of these rows for `ocadev replay`, each in a datagram of its own."""
    return "".join(f"{at} 127.0.0.1:9001 {oca.pdu(1, [bytes.fromhex(asked)]).hex()}\n" for at, (asked, _) in enumerate(rows))


def worked(checks):
    rows = worked_bytes()
    checks.same("rows", len(rows) > 30, True)
    printed, status = ran(f"{checks.folder}/ocadev", "replay", given=script_of(rows))
    checks.same("replayed", (printed[::2], status), (["served 1 0 0"] * len(rows), 0))
    for (asked, wanted), line in zip(rows, printed[1::2]):
        got, shown = line[2 + 20:], wanted.split("...")[0]
        checks.same(f"what answers {asked}", got[:len(shown)] if "..." in wanted else got, shown)


def main():
    checks, text = Checks(sys.argv[1]), EXAMPLE.read_text()
    checks.parts(amplifiers)
    rules(checks, module_of(text))
    for old, new in DATA.wrong:
        checks.finds(" in the example", text, old, new, is_wrong)
    worked(checks)
    odd_answers(checks)
    with Device(checks.folder) as device:
        for steps, _ in scenes_of("samples", "controller"):
            Stage(checks, device).play(steps)
        watches = at_a_loss(checks, device)
    for watch in watches:  # none was too old but behind its answer
        executed, old, reused = device.executed(*watch.ports)
        checks.same("executed once", (executed, reused), (len(watch.sent), 0))
        checks.same("too old", old <= watch.behind, True)
    return checks.verdict()


if __name__ == "__main__":
    sys.exit(main())
