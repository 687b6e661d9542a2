#!/usr/bin/env python3
"""`ocadev serve` and `ocactl run` on 127.0.0.1, with a network between them that loses, duplicates, delays and reorders
datagrams.

Usage: lossy.py BIN [COMMANDS] [SEED]     so many commands one at a time, with a window of 32; four times as many with
                                          16 in flight, with a window of 31. BIN is the folder with the programs
       lossy.py BIN directed              16 in flight: the last arrives before the others and stays unanswered while 15
                                          more are executed; then its duplicate arrives, at a window of 30 and one of 31

In the gate: lossy.py bin 30
In the gate: lossy.py bin directed

It prints what each run did, and at the end 'N passed, M failed' over the runs. One at a time, each answer must be what
the second implementation says; with 16 in flight the answers tell the commands apart in every order. A run fails if a
command was executed twice, if a duplicate was too old before its answer was carried, or if an answer is wrong or
missing; `directed` also if with a window of 31 the duplicate is not answered from the window, or with the smaller one
is not too old."""
import random
import re
import subprocess
import sys
import time

import oca_profile as oca
from checks import Checks, Serving, at, free_port, waited, write
from peers import Flood, Lossy, Relay

TURNS = 20000


def bad_network(device, seed):
    return Lossy(device, seed, 0.2, 0.2, 0.15, 0.02)


class Directed(Relay):
    """Carries all but command 16 at once. Its first copy overtakes 15, the next comes behind 30 other answers; then goes its first answer."""

    LATE, OTHERS = 16, 30

    def __init__(self, device):
        super().__init__(device)
        self.first, self.kept, self.answered = [], [], set()

    def forth(self, data, way):
        kind, *message = oca.check(data)[0]
        if kind == "keep-alive":
            return
        if len(self.first) < self.LATE:  # the first 16, the last of them first
            self.first += [data] if data not in self.first else []
            for waiting in self.first[::-1] if len(self.first) == self.LATE else []:
                super().forth(waiting, way)
                time.sleep(0.002)
        elif message[1].handle != self.LATE or len(self.answered) == self.OTHERS:
            super().forth(data, way)
            if message[1].handle == self.LATE:
                time.sleep(0.2)
                super().back(*self.kept)

    def back(self, data, controller):
        kind, *message = oca.check(data)[0]
        if kind == "response" and message[0] == self.LATE:
            self.kept = self.kept or [data, controller]
        elif kind == "response":
            self.answered.add(message[0])
            super().back(data, controller)


def set_and_read(r, count):
    """So many commands, the last two of which read back what was set."""
    mute = lambda: (4097, 4, 2, 1, bytes([r.choice([1, 2])]))
    trim = lambda: (4100, 5, 2, 1, r.randrange(-700, 701).to_bytes(2, "big", signed=True))
    asked = [mute() if r.randrange(2) else trim() for _ in range(count - 2)] + [(4100, 5, 1), (4097, 4, 1)]
    return [oca.Command(handle, *its) for handle, its in enumerate(asked, 1)]


ONOS = [100, 4096, 4097, 4098, 4099, 4100, 4101, 4102, 5000]


def told_apart(r, count):
    """So many commands whose answers do not depend on the others: neighbours answer differently."""
    methods = [(1, 1), (1, 2), (1, 5), (2, 10), (3, 5), (5, 2), (7, 7)]
    onos = [ONOS[(handle + r.randrange(3)) % len(ONOS)] for handle in range(1, count + 1)]
    return [oca.Command(handle, ono, *methods[handle % len(methods)]) for handle, ono in enumerate(onos, 1)]


def answers_of(commands):
    tree = oca.bench()
    done = (oca.execute(tree, "the panel", command) for command in commands)
    return [f"answer {status} {items} {oca.hex_text(params)}" for status, items, params in done]


class Run:
    """A run of the two programs over a network: the answers, the controller's status, and the device's report."""

    def __init__(self, folder, commands, window, network_of, words):
        words = [f"{folder}/ocactl", "run", "--first-handle", "1", "--port", str(free_port()), *words]
        with Serving(f"{folder}/ocadev", "serve", "--port", 0, "--turns", TURNS, "--window", window, stdout=subprocess.PIPE) as serving:
            device = serving.process
            with network_of(serving.port) as self.network:
                panel = subprocess.Popen([*words, "--device", at(self.network.front)], stdin=subprocess.PIPE, stdout=subprocess.PIPE, text=True)
                write(panel, "".join(f"{c.target} {c.level} {c.index} {c.count} {oca.hex_text(c.params)}\n" for c in commands))
                waited(lambda: panel.poll() is not None, 2 * len(commands) + 60)
                panel.kill()
                time.sleep(1)  # what is still on its way
            with Flood(serving.port):
                waited(lambda: device.poll() is not None, 30)
        answers, self.status = panel.stdout.read().splitlines(), panel.wait()
        self.report = {name: int(n) for name, n in re.findall(r"([a-z-]+) ([0-9]+)", device.stdout.read())}
        self.wrong = sum(a != b for a, b in zip(answers, answers_of(commands)))
        self.missing = len(commands) - len(answers)

    def is_as_promised(self, count):
        """A copy may be too old only where it came behind its command's answer: nobody waits for it."""
        return self.report.get("executed") == count and self.report.get("old", count) <= self.network.behind and self.wrong == 0 \
            and self.missing == 0 and self.status == 0


def told(checks, commands, window, seed, words):
    """Runs the commands, prints what came of them, and whether all was as promised."""
    run = Run(checks.folder, commands, window, lambda device: bad_network(device, seed), words)
    network = run.network
    print(f"{len(commands)} commands, window {window}: of {network.carried} datagrams {network.lost} lost, {network.doubled} doubled, "
          f"{network.overtaken} overtaken; {run.report}, {network.behind} copies behind their answers; {run.wrong} answers wrong, "
          f"{run.missing} missing, status {run.status}", flush=True)
    checks.expect(f"{len(commands)} commands, window {window}: as promised", run.is_as_promised(len(commands)))


def directed(checks, window):
    """Whether the late copy is answered from the window, or too old where the window is too small."""
    run = Run(checks.folder, told_apart(random.Random(1), 31), window, Directed, ["--ahead", "16"])
    print(f"window {window}, 16 under way: command 16 is executed first, then 1 to 15, and 17 to 31; then a copy of 16: {run.report}", flush=True)
    found = run.report.get("executed"), bool(run.report.get("kept")), bool(run.report.get("old"))
    checks.same(f"window {window}: commands executed, whether one is a duplicate, and too old", found, (31, window >= 31, window < 31))


def main():
    checks, words = Checks(sys.argv[1]), sys.argv[2:]
    if words[:1] == ["directed"]:
        for window in (30, 31):
            directed(checks, window)
    else:
        count, seed = int(words[0]) if words else 200, int(words[1]) if len(words) > 1 else 1
        told(checks, set_and_read(random.Random(seed), count), 32, seed, [])
        told(checks, told_apart(random.Random(seed), 4 * count), 31, seed, ["--ahead", "16"])
    return checks.verdict()


if __name__ == "__main__":
    sys.exit(main())
