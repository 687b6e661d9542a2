"""Panels with several sets in flight. Other tools use it; it has no `main`."""
import select
import socket
import struct
import threading
import time

import oca_profile as oca

COPY, COPIES = 0.25, 20  # seconds between two transmissions of a command, and how many make a link lost


class Windowed(threading.Thread):
    """Sets a number with so many commands in flight, each a datagram, until this holds; sends a copy each 250 ms, and is lost where
    20 got no answer."""

    def __init__(self, port, ono, span, is_over):
        super().__init__(daemon=True)
        self.end = socket.socket(socket.AF_INET, socket.SOCK_DGRAM)
        self.end.connect(("127.0.0.1", port))
        self.ono, self.span, self.is_over = ono, span, is_over
        self.confirmed, self.is_lost, self.flights, self.next = 0, False, {}, 1

    def hears(self):
        """Takes an answer that comes within 10 ms."""
        if select.select([self.end], [], [], 0.01)[0]:
            got = self.end.recv(2000)
            handle, status = struct.unpack(">IB", got[14:19]) if got[7] == 3 else (0, 0)
            self.confirmed += self.flights.pop(handle, None) is not None and status == 0

    def sends(self, now):
        """Sends what is new and what is due once more."""
        while self.next < min(self.flights, default=self.next) + self.span:
            self.flights[self.next] = [oca.command(self.next, self.ono, 5, 2, 1, struct.pack(">h", -(self.next % 500))), -COPY, 0]
            self.next += 1
        for flight in self.flights.values():
            data, last, copies = flight
            if now - last >= COPY:
                self.is_lost |= copies == COPIES
                self.end.send(data)
                flight[1:] = now, copies + 1

    def run(self):
        while not self.is_over() and not self.is_lost:
            self.sends(time.monotonic())
            self.hears()


def with_many_in_flight(port, ono, seconds=8.0, least=None, panels=3, span=16):
    """Of so many panels, in so many seconds or until so many sets are confirmed: sets that were confirmed, that were not, and links lost."""
    until, setting = time.monotonic() + seconds, []
    confirmed = lambda: sum(it.confirmed for it in setting)
    is_over = lambda: confirmed() >= least if least else time.monotonic() >= until
    setting += [Windowed(port, ono, span, is_over) for _ in range(panels)]
    for it in setting:
        it.start()
    for it in setting:
        it.join()
    return confirmed(), sum(len(it.flights) for it in setting), sum(it.is_lost for it in setting)
