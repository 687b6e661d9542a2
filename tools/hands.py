#!/usr/bin/env python3
"""What `ocactl tree`, `get`, `set`, `lock` and `unlock` print, ask and leave, against an independent device: the second
implementation behind a socket (peers.py), and devices that answer what no device of the profile does.

Usage: hands.py BIN     BIN is the folder with `ocactl` and `ocadev`

What is to be printed stands in tools/rows/hands.toml, by the rules of docs/PROTOCOL.md. The last line is 'N passed, M
failed'."""
import contextlib
import fcntl
import os
import re
import shlex
import subprocess
import sys
import tempfile
import termios
import time
from pathlib import Path

import oca_profile as oca
from checks import Checks, at, bound, by_itself, by_turns, free_port, read_until
from manual import helps_of, told_by
from peers import Served, commands_in
from scenes import Scene, play_all, verbs_of_run
from tables import as_it_stands, data, whole

DATA = data("hands")
SETS = ((4, 2), (5, 2))
OTHER = (127, 0, 0, 1, 9)  # a peer that never speaks


def stagebox():
    return oca.bench() + [oca.Object(*fields, **how) for *fields, how in whole(as_it_stands("hands")["stagebox"], {})]


class Holding(Served):
    """A device that keeps its answers to set commands back until those to so many are kept, and then gives the last one's first."""

    def __init__(self, tree, count):
        super().__init__(tree)
        self.count, self.held, self.kept = count, {}, []

    def datagram(self, peer, data, now):
        said, packets = super().datagram(peer, data, now)
        for command, method in commands_in(data):
            if method in SETS:
                self.held[command.handle], packets = packets, []
        if len(self.held) == self.count:
            packets = [packet for handle in reversed(self.held) for packet in self.held[handle]]
            self.kept.append(self.count)
            self.held = {}
        return said, packets


class Deaf(Served):
    """A device that hears no command of these methods (None: of any), and the last of so many keep-alives."""

    def __init__(self, tree, methods, beats=1):
        super().__init__(tree)
        self.methods, self.beats, self.came = methods, beats, 0

    def hears(self, _, data):
        if data[7:8] == b"\4":
            self.came += 1
            return self.came % self.beats == 0
        return not any(self.methods is None or method in self.methods for _, method in commands_in(data))


class Forgetful(Served):
    """A device that forgets each command, so that the thousandth takes no longer than the first."""

    def datagram(self, peer, data, now):
        return oca.Device(self.tree).datagram(peer, data, now)


class Missing(Served):
    """A device that misses the first copy of each command."""

    missed = frozenset()

    def hears(self, peer, data):
        came = {(peer, command.handle) for command, _ in commands_in(data)}
        is_known, self.missed = came <= self.missed, self.missed | came
        return is_known


class Beset(Served):
    """A device before whose answer to each question about a role a stranger's comes to the controller, which says OK."""

    def __init__(self, tree):
        super().__init__(tree)
        self.stranger = bound()

    def datagram(self, peer, data, now):
        for command, method in commands_in(data):
            if method == (1, 5):
                self.stranger.sendto(oca.response(command.handle, 0), (".".join(map(str, peer[:4])), peer[4]))
        return super().datagram(peer, data, now)

    def __exit__(self, *_):
        super().__exit__()
        self.stranger.close()


class OldSession(Served):
    """The second implementation's device, with a session of the program's own ports that is ahead of the clock."""

    def __init__(self, tree, ports):
        super().__init__(tree, window=1)
        for port in ports:
            for handle in (oca.U32 - 1, oca.U32):
                self.device.datagram((127, 0, 0, 1, port), oca.command(handle, 100, 1, 1), 0)


def address(device):
    """The address of a device, of a socket, or of what is at this port of this machine; or this one."""
    if hasattr(device, "getsockname"):
        return at(device)
    return device if isinstance(device, str) else f"127.0.0.1:{getattr(device, 'port', device)}"


# Devices by their names in the rows. In one a block is its own member; the second block of a long one has too many, and one object stands
# behind it. At the port of `nobody` there is none.
DEVICES = {
    "bench 5": lambda: Served(oca.bench(5)),
    "long": lambda: Served([*oca.bench(1), *(oca.Object(6000 + n, "mute", 4096, "m", state=1) for n in range(100)),
                            oca.Object(7000, "mute", 100, "behind", state=1)]),
    "stagebox": lambda: Served(stagebox()), "the second implementation": lambda: Served(stagebox()),
    "in itself": lambda: Forgetful([oca.Object(100, "block", 100, "r")]),
    "missing": lambda: Missing(stagebox()), "beset": lambda: Beset(stagebox()), "holding": lambda count: Holding(stagebox(), count),
    "deaf": lambda: Deaf(stagebox(), None), "deaf to sets": lambda: Deaf(stagebox(), SETS), "nameless": lambda: Deaf(stagebox(), [(4, 3)]),
    "deaf to numbers": lambda: Deaf(stagebox(), [(5, 2)]), "faint": lambda: Deaf(stagebox(), None, 3),
    "old": lambda: OldSession(stagebox(), by_turns()[:1]), "old twice": lambda: OldSession(stagebox(), by_turns()),
    "nobody": lambda: contextlib.nullcontext(free_port()), "another machine": lambda: contextlib.nullcontext("192.0.2.1:65000")}


def helps(checks):
    """The help of each command has the name of its own program and command, in its form and in its examples. The exit statuses that the
    help of a command of `ocactl` tells are those with which it ends where the help says so."""
    for program in ("ocactl", "ocadev"):
        path = f"{checks.folder}/{program}"
        checks.same(f"{program} --help: its form", re.findall(r"^Usage: (.*)", told_by(path, "--help"), re.M), [f"{program} <COMMAND>"])
        for command, text in helps_of(path).items():
            name = f"{program} {command}"
            checks.same(f"{name} --help: its form", re.findall(r"^Usage: (\S+ \S+)", text, re.M), [name])
            named = [re.findall(r"\boca\w+ \w+", line) for line in re.findall(r"^Example.*?:(.*)", text, re.M)]
            checks.same(f"{name} --help: its examples", named, [[name]])
            if program == "ocactl":
                told = re.search(r"^Exit status: (.*?)\.\s", text, re.M | re.S)
                parts = re.split(r", (?=\d )", " ".join(told[1].split())) if told else []
                said = {condition: int(status) for status, condition in (part.split(" ", 1) for part in parts)}
                ends = {condition: status_of(checks, command, *how) for condition, how in DATA.ends.get(command, {}).items()}
                checks.same(f"{command} --help: its exit statuses", said, ends)


def status_of(checks, command, answers, words, lines):
    with Served(stagebox()) if answers else bound() as device:
        return checks.ran("ocactl", command, "--device", address(device), "--port", free_port(), *words.split(), given=lines)[2]


class Stage(Scene):
    """A scene of the rows: a device, and `ocactl` there, also at a terminal, or with an input that stays open; or two of each."""

    def __init__(self, checks):
        self.device, self.run, self.terminal, self.said, self.other = None, None, None, b"", ()
        self.open = contextlib.ExitStack()
        place = f"{self.open.enter_context(tempfile.TemporaryDirectory())}/said"
        in_a_file = lambda: Path(place).read_text() if Path(place).exists() else ""
        behind = (sys.executable, "-c", DATA.in_the_background)
        super().__init__(checks, {
            **verbs_of_run(self),
            "device": self.begins,
            "device hears all": lambda: setattr(self.device, "methods", ()),
            "locked": lambda: [it.ono for it in self.device.tree if it.lock],
            "locked by another": lambda ono, kind: setattr(self.object(ono), "lock", (kind, OTHER)),
            "unlocked at the device": lambda ono, _: setattr(self.object(ono), "lock", None),
            "restarted": lambda *_: self.device.restart(),
            "objects": lambda *onos: [*map(self.shown, onos)],
            "calls": lambda words, given="": self.calls(words, given, *([] if "--port" in words else ["--port", self.names["port"]])),
            "calls at its own ports": self.calls,
            "asked": lambda: self.asked(),
            "asked last": lambda count: self.asked()[-count:],
            "sets": lambda: [one.target for one, method in self.commands() if method in SETS],
            "is sent commands alone": lambda: all(message[0] == "command" for data, _ in self.device.heard for message in oca.check(data)),
            "what is heard": lambda: self.device.heard,
            "at once": lambda: self.device.kept,
            "alone": lambda: self.open.enter_context(by_itself()),
            "takes": lambda port: self.open.enter_context(bound(port=port)),
            "swap": self.swap,
            "terminal": lambda *words: self.types_at((), *words),
            "shell at a terminal": lambda *words: self.types_at(("sh", "-c", '"$@"; exit $?', "sh"), *words),
            "terminal and a file": lambda *words: self.types_at(("sh", "-c", f'"$@" > {place} 2>&1; exit $?', "sh"), *words),
            "in the background": lambda given, *words: self.types_at((*behind, given, ""), *words),
            "in the background, its output in a file": lambda given, *words: self.types_at((*behind, given, place), *words),
            "types": lambda text: os.write(self.terminal, text.encode()),
            "says": self.says,
            "says no more": lambda: setattr(self, "said", b""),
            "has said": lambda text: text in in_a_file() or self.says(text, 0.1),
            "in the file": in_a_file,
            "is stopped": lambda: Path(f"/proc/{self.pid()}/stat").read_text().rsplit(")", 1)[1].split()[0] == "T",
            "kill it": lambda: os.kill(self.pid(), 9),
            "run": self.begins_run,
            "run into a full file": lambda words: self.begins_run(*words.split(), stdout=self.open.enter_context(open("/dev/full", "w")))},
            port=free_port(), free=free_port(), **dict(zip(("own", "other"), by_turns())))

    def begins(self, name, *how):
        self.device = self.open.enter_context(DEVICES[name](*how))

    def swap(self):
        (self.device, self.run), self.other = self.other or (None, None), (self.device, self.run)

    def object(self, ono):
        return next(it for it in self.device.tree if it.ono == ono)

    def shown(self, ono):
        """How an object is set, and who has it locked."""
        obj = self.object(ono)
        return f"{ono} {obj.setting()}" + (f" {obj.lock[0]} {obj.lock[1][4]}" if obj.lock else "")

    def commands(self):
        """Each command that was heard, and its method."""
        return {one.handle: (one, method) for data, _ in self.device.heard for one, method in commands_in(data)}.values()

    def asked(self):
        return [f"{one.target} {one.level}.{one.index} {one.params.hex()}".rstrip() for one, _ in self.commands()]

    def calls(self, words, given="", *port):
        """What a run prints and says, and its status. `N ms ago` lies within the run; if a command was lost, seconds ago."""
        command, *rest = shlex.split(words)
        begun = time.monotonic()
        out, err, code = self.checks.ran("ocactl", command, "--device", address(self.device), *port, *rest, given=given)
        took = (time.monotonic() - begun) * 1000
        for ago in map(int, re.findall(r"\b(\d+) ms ago", err)):
            self.checks.same(f"{words}: {ago} ms ago of {took:.0f}", (3000 if " lost\n" in out else 0) <= ago <= took, True)
        return out, re.sub(r"\b\d+ ms ago", "N ms ago", err).replace(address(self.device), "DEVICE"), code

    def types_at(self, before, command, *words):
        """A run behind these words at a terminal of its own, in the foreground, and at a port of its own."""
        self.terminal, its = os.openpty()
        call = [*before, f"{self.checks.folder}/ocactl", command, "--device", address(self.device), "--port", free_port(), *words]
        to_it = lambda: fcntl.ioctl(0, termios.TIOCSCTTY, 0)
        self.run = subprocess.Popen([*map(str, call)], stdin=its, stdout=its, stderr=its, start_new_session=True, preexec_fn=to_it)
        os.close(its)
        self.checks.started.append(self.run)
        self.open.callback(os.close, self.terminal)

    def says(self, text, seconds=60):
        self.said += read_until(self.terminal, lambda said: text.encode() in self.said + said, seconds)
        return text.encode() in self.said

    def begins_run(self, command, *words, **how):
        self.run = self.checks.start("ocactl", command, "--device", address(self.device), "--port", free_port(), *words, **how)

    def pid(self):
        return int(re.search(rb"(\d+) is there", self.said)[1])


def scenes(checks):
    play_all(checks, Stage, "hands")


if __name__ == "__main__":
    sys.exit(Checks(sys.argv[1]).tried(helps, scenes))
