"""Controllers and independent devices for what is tried against either, and ways between both. Other tools use it; it has no `main`."""
import contextlib
import heapq
import random
import select
import socket
import struct
import time

import oca_profile as oca
from checks import Beside, bound


class Peer:
    """A controller of the device at this port of this machine, that waits so many seconds for an answer, and sends so many copies."""

    def __init__(self, port, patience=0.25, copies=40, ip="127.0.0.1"):
        self.socket = socket.socket(socket.AF_INET, socket.SOCK_DGRAM)
        self.socket.connect((ip, port))
        self.socket.settimeout(patience)
        self.copies, self.handle, self.answered, self.response = copies, 0, [], None

    def copy(self, handle, target, level, index, *params):
        self.socket.send(oca.command(handle, target, level, index, len(params), b"".join(params)))

    def send(self, *command):
        self.handle += 1
        self.copy(self.handle, *command)
        return self.handle

    def ask(self, *command, copies=0):
        """The status and the parameters of the response; nothing where the device is gone, or where so many copies are not answered."""
        self.handle += 1
        return self.again(*command, copies=copies)

    def again(self, *command, copies=0):
        """The same by copies of the command that was sent last. The datagram with the response is kept."""
        self.response = None
        for _ in range(copies or self.copies):
            try:
                self.copy(self.handle, *command)
                got = self.socket.recv(2000)
            except TimeoutError:
                continue
            except ConnectionError:
                return None
            handle, status = struct.unpack(">IB", got[14:19])
            self.answered.append(handle)
            if handle == self.handle:
                self.response = got
                return status, got[20:]
        return None

    def status(self, *command):
        """The status of the response; nothing where there is none."""
        return (self.ask(*command) or (None,))[0]


class Relay(Beside):
    """A way between controllers, each with a port of its own behind it, and the device at this port of this machine, in
    a thread. It stands at a free port, or at this socket."""

    def __init__(self, device, front=None):
        self.front, self.ways, self.device = front or bound(), {}, ("127.0.0.1", device)
        self.port = self.front.getsockname()[1]

    def pause(self):
        """How long it waits for what comes."""
        return 0.05

    def step(self):
        controllers = {way: controller for controller, way in self.ways.items()}
        for end in select.select([self.front, *controllers], [], [], self.pause())[0]:
            with contextlib.suppress(OSError):
                data, sender = end.recvfrom(65535)
                if end is self.front:
                    self.ways[sender] = self.ways.get(sender) or bound()
                    self.forth(data, self.ways[sender])
                else:
                    self.back(data, controllers[end])

    def forth(self, data, way):
        way.sendto(data, self.device)

    def back(self, data, controller):
        self.front.sendto(data, controller)

    def __exit__(self, *_):
        super().__exit__()
        for end in (self.front, *self.ways.values()):
            end.close()


class Lossy(Relay):
    """A way that loses a share of the datagrams each way, as the seed says, doubles another share of the others, and keeps each copy for up to
    `quick` seconds, but a share for up to 0.7. `behind` is how many copies of commands it carried behind an answer to their command: only those
    may be too old, since nobody waits for them."""

    def __init__(self, device, seed=1, share=0.2, doubling=0.0, slow=0.0, quick=0.0):
        super().__init__(device)
        self.random, self.share, self.doubling, self.slow, self.quick = random.Random(seed), share, doubling, slow, quick
        self.answered, self.due, self.number, self.latest = set(), [], 0, {True: -1, False: -1}
        self.behind = self.lost = self.doubled = self.overtaken = self.carried = 0

    def accept(self, inward, data, to):
        """A datagram that was sent: it will be delivered not at all, once or twice, after a while."""
        self.carried += 1
        if self.random.random() < self.share:
            self.lost += 1
            return
        copies = 2 if self.random.random() < self.doubling else 1
        self.doubled += copies - 1
        for _ in range(copies):
            wait = self.random.uniform(0, 0.7 if self.random.random() < self.slow else self.quick)
            heapq.heappush(self.due, (time.time() + wait, self.number, self.random.random(), inward, data, to))
        self.number += 1

    def forth(self, data, way):
        self.accept(True, data, way)

    def back(self, data, controller):
        self.accept(False, data, controller)

    def carry(self, inward, data, to):
        for kind, *message in oca.check(data):
            if inward and kind == "command":
                self.behind += message[1].handle in self.answered
            elif not inward and kind == "response":
                self.answered.add(message[0])
        (super().forth if inward else super().back)(data, to)

    def deliver(self):
        while self.due and self.due[0][0] <= time.time():
            _, number, _, inward, data, to = heapq.heappop(self.due)
            self.overtaken += number < self.latest[inward]
            self.latest[inward] = max(self.latest[inward], number)
            with contextlib.suppress(OSError):
                self.carry(inward, data, to)

    def pause(self):
        """Delivers what is due, and waits for 20 ms or until the next delivery is."""
        self.deliver()
        return min(0.02, max(0, self.due[0][0] - time.time())) if self.due else 0.02


class Flood(Beside):
    """Datagrams of no bytes to a device with a number of turns, each of which is a turn, so that it comes to their end."""

    def __init__(self, port):
        self.to, self.peer = ("127.0.0.1", port), bound()

    def step(self):
        for _ in range(100):
            self.peer.sendto(b"", self.to)
        time.sleep(0.005)


class Served(Beside):
    """The second implementation's device at 127.0.0.1, in a thread of its own; `heard` has each datagram with what was said of it. Others hear
    or answer otherwise, by a `hears` or a `datagram` of their own."""

    def __init__(self, tree=None, window=32, peers=16):
        self.device, self.begun = oca.Device(tree, window, peers), time.monotonic()
        self.tree, self.heard = self.device.tree, []
        self.socket = bound()
        self.socket.settimeout(0.05)
        self.port = self.socket.getsockname()[1]

    def hears(self, *_):
        return True

    def restart(self):
        """The device begins anew: it has no session and no lock."""
        for it in self.tree:
            it.lock = None
        self.device = oca.Device(self.tree)

    def datagram(self, peer, data, now):
        return self.device.datagram(peer, data, now) if self.hears(peer, data) else ("", [])

    def step(self):
        with contextlib.suppress(TimeoutError):
            data, sender = self.socket.recvfrom(65535)
            peer = (*map(int, sender[0].split(".")), sender[1])
            said, packets = self.datagram(peer, data, int(1000 * (time.monotonic() - self.begun)))
            self.heard.append((data, said))
            for packet in packets:
                self.socket.sendto(packet, sender)

    def __exit__(self, *_):
        super().__exit__()
        self.socket.close()


def messages_in(data, kind):
    """What each message of this kind in a datagram has; of a datagram that is none, nothing."""
    with contextlib.suppress(oca.Fault):
        return [message[1:] for message in oca.check(data) if message[0] == kind]
    return []


def commands_in(data):
    return [(message[2], (message[2].level, message[2].index)) for message in oca.check(data) if message[0] == "command"]
