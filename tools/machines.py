#!/usr/bin/env python3
"""The programs on machines that are network namespaces of Linux: a device beside hosts that answer nothing, and a panel with
two links to it, the first of which goes.

Usage: machines.py BIN     BIN is the folder with the programs

Datagrams of 1 or 122 keep-alives come to `ocadev serve` in the names of silent hosts, at several rates, and what the
device sends them costs other peers nothing: one that asks twenty times a second must get each answer, the slowest
within 100 ms longer than alone; at least half of the datagrams must have been sent.

By two links `ocactl` and `ocapanel` set a mute: it is executed, and its answer is lost. Another peer sets it back, and
the first link goes: with its address or without. A copy may come over the second link only from the first address, if
that is still there: the command is executed once, whatever the programs say of it. Then `ocapanel` shows by the second
link what the other peer sets, and waits between its turns.

It needs root and `ip` (iproute2); else it says so, and tries nothing. The last line is 'N passed, M failed'."""
import contextlib
import ctypes
import http.client
import json
import os
import shutil
import socket
import subprocess
import sys
import time

import oca_profile as oca
from checks import Beside, Checks, Serving, bound, ended, read_until, tries, waited
from network import Relay
from panel import used_by
from peers import Peer

NEW_NETWORK = 0x40000000  # CLONE_NEWNET of Linux
DEVICE, PEER, SILENT, PORT = "10.91.0.1", "10.91.0.2", "10.91.0.{}", 65000
# how often a run beside silent hosts is tried until it is well, since a machine may be busy, and for how many seconds
TRIES, SECONDS = 4, 4
# how many hosts are silent, how many datagrams a second come in their names, and of how many keep-alives; first none
RUNS = [(1, 0, 1), *((hosts, rate, alive) for hosts in (1, 8) for rate, alive in ((1, 122), (5, 122), (20, 122), (1000, 1)))]
# where the device is by two links, at which the panel's address and the device's are these
FAR, FIRST, SECOND = "10.98.9.9", ("10.98.1.1", "10.98.1.2"), ("10.98.2.1", "10.98.2.2")
OWN_PORT, MUTE, MUTED, UNMUTED = 20001, 4097, b"\1", b"\2"
# the commands that mute: what `ocactl` is called with, and what its input is
BY_OCACTL = [(("set", MUTE, "muted"), ""), (("run",), f"{MUTE} 4 2 1 01\n"),
              (("send", "--target", MUTE, "--level", 4, "--index", 2, "--count", 1, "--params", "01"), "")]


def go_to(file):
    """This thread goes to the network namespace of this file."""
    if ctypes.CDLL(None, use_errno=True).setns(file.fileno(), NEW_NETWORK):
        raise OSError(ctypes.get_errno(), "setns")


class Machines:
    """A machine for the device and one for its peers, with links from `link0` on: of each the peers' address and the device's."""

    def __init__(self, *links):
        self.links, self.device, self.peers = links, f"oca-d{os.getpid()}", f"oca-p{os.getpid()}"

    def __enter__(self):
        for name in (self.device, self.peers):
            self.ip(f"netns add {name}")
            self.ip(f"-n {name} link set lo up")
        for number, (near, far) in enumerate(self.links):
            self.ip(f"-n {self.peers} link add link{number} type veth peer name link{number} netns {self.device}")
            for name, address in ((self.peers, near), (self.device, far)):
                self.ip(f"-n {name} addr add {address}/24 dev link{number}")
                self.ip(f"-n {name} link set link{number} up")
        return self

    def __exit__(self, *_):
        for name in (self.device, self.peers):
            subprocess.run(["ip", "netns", "del", name], check=False)

    @staticmethod
    def ip(line):
        subprocess.run(["ip", *line.split()], check=True)

    @staticmethod
    @contextlib.contextmanager
    def within(machine):
        """While this lasts the sockets, threads and programs that this thread makes are at this machine."""
        with open("/proc/thread-self/ns/net") as own, open(f"/var/run/netns/{machine}") as its:
            go_to(its)
            try:
                yield
            finally:
                go_to(own)


class Flood(Beside):
    """Datagrams to the device in the names of silent hosts: so many a second, of so many keep-alives."""

    def __init__(self, hosts, rate, alive):
        self.ends, self.datagram = [socket.socket(socket.AF_INET, socket.SOCK_DGRAM) for _ in range(hosts)], oca.pdu(4, [oca.u16(5)]) * alive
        for number, end in enumerate(self.ends, 100):
            end.setsockopt(socket.SOL_IP, socket.IP_TRANSPARENT, 1)
            end.bind((SILENT.format(number), 9000))
        self.rate, self.begun, self.sent = rate, time.monotonic(), 0

    def step(self):
        if self.sent < self.rate * (time.monotonic() - self.begun):
            self.ends[self.sent % len(self.ends)].sendto(self.datagram, (DEVICE, PORT))
            self.sent += 1
        else:
            time.sleep(0.0005)


def ask():
    """Asks for a state twenty times a second: how many were asked, how many answered at the first sending, and the slowest in ms."""
    peer = Peer(PORT, 1, 1, DEVICE)
    answered = slowest = 0
    begun = time.monotonic()
    while time.monotonic() < begun + SECONDS:
        sent = time.monotonic()
        answered += peer.ask(4097, 4, 1) == (0, b"\1")
        slowest = max(slowest, 1000 * (time.monotonic() - sent))
        time.sleep(0.05)
    return peer.handle, answered, round(slowest)


def run(room, folder, silent):
    """What the peer says of its questions while these hosts are silent, and how many datagrams came in their names."""
    with room.within(room.device), Serving(f"{folder}/ocadev", "serve", "--ip", DEVICE, "--port", PORT):
        with room.within(room.peers), Flood(*silent) as flood:
            return *ask(), flood.sent


def silent_hosts(checks):
    """Beside silent hosts, of whose datagrams half came, a peer fares as alone at least once in some tries: all is answered, 100 ms later at most."""
    alone = None
    with Machines((PEER, DEVICE)) as room:
        for silent in RUNS:
            is_well = lambda it: it[0] == it[1] > 0 and it[2] <= (alone or it)[2] + 100 and it[3] >= silent[1] * SECONDS // 2
            said = tries(TRIES, lambda: run(room, checks.folder, silent), is_well)[-1]
            alone = alone or said
            told = "{1} of {0} answered, the slowest in {2} ms (alone {4}), beside {3} datagrams".format(*said, alone[2])
            print(f"{silent[0]} silent, {silent[1]} datagrams a second of {silent[2]} keep-alives: {told}", flush=True)
            checks.expect(f"{silent} silent hosts, datagrams a second, keep-alives: a peer fares as alone", is_well(said), told)


@contextlib.contextmanager
def two_links(folder):
    """Within the panel's machine, which has two links to a way to a device: the machines, the way, and another peer of the device. The device's
    machine hands on nothing that the other does not send to it."""
    with Machines(FIRST, SECOND) as machines, machines.within(machines.device):
        machines.ip(f"-n {machines.device} addr add {FAR}/32 dev lo")
        for metric, (_, far) in ((10, FIRST), (20, SECOND)):
            machines.ip(f"-n {machines.peers} route add {FAR}/32 via {far} metric {metric}")
        with Serving(f"{folder}/ocadev", "serve", "--port", 0) as device, Relay(device.port, bound(FAR, PORT)) as way:
            other = Peer(device.port, 10, 1)
            with machines.within(machines.peers):
                yield machines, way, other


def cut_between(checks, what, room, keeps_address, how):
    """The first link goes once the mute is executed, with its address or without, and what is for that address goes by the second one. Lets
    what comes pass then, and answers how that fared."""
    machines, way, other = room
    is_executed = waited(lambda: way.kept, 30) is not None
    way.is_cut = True
    other.ask(MUTE, 4, 2, UNMUTED)
    if not keeps_address:
        machines.ip(f"-n {machines.peers} addr del {FIRST[0]}/24 dev link0")
    machines.ip(f"-n {machines.peers} link set link0 down")
    machines.ip(f"-n {machines.device} route replace {FIRST[0]}/32 via {SECOND[0]}")
    way.is_cut = way.loses_copies = way.loses_answers = False
    fared = how()
    state = other.ask(MUTE, 4, 1), len(way.senders)
    checks.same(f"{what}: executed, then set back, by one peer", (is_executed, state), (True, ((0, UNMUTED), 1)))
    return fared


def by_ocactl(checks, what, keeps_address, words, lines):
    with two_links(checks.folder) as room:
        to = ("--device", f"{FAR}:{PORT}", "--port", OWN_PORT, "--first-handle", 1)
        run = checks.start("ocactl", words[0], *to, *words[1:], given=lines)
        out, told, status = cut_between(checks, what, room, keeps_address, lambda: ended(run))
        gone = f"note: the address {FIRST[0]} is gone\n" in told
        checks.same(f"{what}: status, whether it is lost, whether the address is said to be gone", (status, "lost" in out, gone),
                    (0, False, False) if keeps_address else (3, True, True))


def asked(host, method, path, body=None):
    """What `ocapanel` answers, or nothing."""
    c = http.client.HTTPConnection(host, timeout=20)
    c.request(method, path, body and json.dumps(body), {"Host": host, "Origin": f"http://{host}", "Content-Type": "application/json"})
    return json.loads(c.getresponse().read() or "null")


def by_ocapanel(checks, what, keeps_address):
    words = ["--device", f"{FAR}:{PORT}", "--listen", "127.0.0.1:0", "--no-token", "--verbose"]
    with two_links(checks.folder) as room, Serving(f"{checks.folder}/ocapanel", *words) as panel:
        host = f"127.0.0.1:{panel.port}"
        values = lambda: asked(host, "GET", "/values?since=0")
        waited(lambda: any(o["ono"] == MUTE and o.get("value") for o in values()["objects"]), 40, 0.05)
        order = {"ono": MUTE, "set": "muted", "role": "mute", "block": "desk"}
        tickets = asked(host, "POST", "/orders", {"run": values()["run"], "orders": [order]})["tickets"]
        fared = lambda: [told["trouble"] for told in values()["told"] if told["ticket"] in tickets]
        cut_between(checks, what, room, keeps_address, lambda: waited(fared, 40, 0.05))
        gone = f"the address {FIRST[0]} is gone\nnote: the device is reached from the address {SECOND[0]} now\n".encode()
        notes = b"" if keeps_address else read_until(panel.process.stderr.fileno(), lambda said: gone in said, 20)
        checks.same(f"{what}: whether the order is said to be done, and the address gone, with the new one",
                    (fared() == [None], gone in notes), (keeps_address, not keeps_address))
        _, way, other = room
        other.ask(MUTE, 4, 2, MUTED)
        its = lambda said: (said["link"]["lost_for"], [o.get("value") for o in said["objects"] if o["ono"] == MUTE])
        waited(lambda: its(values()) == (None, ["muted"]), 40, 0.05)
        checks.same(f"{what}: what the page shows then, and how many peers of the device set it", (its(values()), len(way.senders)), ((None, ["muted"]), 1))
        share = used_by(panel, 3)
        checks.expect(f"{what}: the panel waits between its turns then", share < 0.3, f"it uses {share:.2f} of a processor")


def one_address(checks):
    """Each command that mutes, from a machine whose first link goes."""
    for what, keeps_address in (("the address goes", False), ("the link goes", True)):
        for words, lines in BY_OCACTL:
            by_ocactl(checks, f"`{words[0]}`, {what}", keeps_address, words, lines)
        by_ocapanel(checks, f"`ocapanel`, {what}", keeps_address)


def main():
    if os.geteuid() or not shutil.which("ip"):
        print("machines: NOT TRIED: it needs root and `ip`\n1 passed, 0 failed")
        return 0
    return Checks(sys.argv[1]).tried(silent_hosts, one_address)


if __name__ == "__main__":
    sys.exit(main())
