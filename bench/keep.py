#!/usr/bin/env python3
"""What keeping the state costs: panels that set one number each, as fast as they are answered, beside one that only reads, at a
device that keeps its state in a file.

Usage: keep.py BIN [SECONDS]     BIN is the folder with `ocadev`, and with `mixer` (examples/c) where that is there

For a disk as it is, and one whose fsync takes 30 and 300 ms longer (needs a C compiler): sets a second of 1, 4 and 16 panels,
the longest wait of one for its answer and of the reader for its own, in ms, and commands without an answer in 10 s (lost). Then,
for each of both devices and a disk whose fsync takes 50 ms longer: three panels with 16 commands in flight, for 8 seconds: the
sets that were confirmed, those that were not, and links that were lost."""
import os
import socket
import struct
import subprocess
import sys
import tempfile
import threading
import time
from pathlib import Path

HERE = Path(__file__).resolve().parent
sys.path.insert(0, str(HERE.parent / "tools"))
import oca_profile as oca
from c_flight import with_many_in_flight
from checks import Serving

MUTE, TRIM = 4097, 4100
GAIN_OF_MIXER = 4114
LOST = 10.0


class Panel(threading.Thread):
    """Asks until the moment comes, one command after another, and sends a copy each 250 ms."""

    def __init__(self, port, until, words):
        super().__init__()
        self.end = socket.socket(socket.AF_INET, socket.SOCK_DGRAM)
        self.end.connect(("127.0.0.1", port))
        self.end.settimeout(0.25)
        self.until, self.words, self.answered, self.lost, self.longest = until, words, 0, 0, 0.0

    def run(self):
        handle = 0
        while time.monotonic() < self.until:
            handle += 1
            began = time.monotonic()
            data = oca.command(handle, *self.words(handle))
            while time.monotonic() - began < LOST:
                self.end.send(data)
                try:
                    got = self.end.recv(2000)
                    while struct.unpack(">I", got[14:18])[0] != handle:
                        got = self.end.recv(2000)
                    self.answered += 1
                    break
                except TimeoutError:
                    pass
            else:
                self.lost += 1
            self.longest = max(self.longest, time.monotonic() - began)


def slow_layer(home):
    """A layer over which each fsync takes SLOW milliseconds longer."""
    layer = Path(home).resolve() / "slow.so"
    subprocess.run(["cc", "-shared", "-fPIC", "-o", layer, HERE / "slow_sync.c", "-ldl"], check=True)
    return layer


def slowed(layer, delay):
    return {**os.environ, **({"LD_PRELOAD": str(layer), "SLOW": str(delay)} if delay else {})}


def measured(folder, layer, delay, panels, seconds, home):
    words = ["serve", "--port", 0, "--peers", 32, "--channels", 16, "--keep", f"{home}/{delay}-{panels}"]
    with Serving(f"{folder}/ocadev", *words, stdin=subprocess.DEVNULL, env=slowed(layer, delay)) as device:
        until = time.monotonic() + seconds
        trims = lambda handle: (TRIM, 5, 2, 1, struct.pack(">h", handle % 500))
        setting = [Panel(device.port, until, trims) for _ in range(panels)]
        reader = Panel(device.port, until, lambda handle: (MUTE, 4, 1))
        for it in [*setting, reader]:
            it.start()
        for it in [*setting, reader]:
            it.join()
    return (sum(it.answered for it in setting) / seconds, max(it.longest for it in setting) * 1000, reader.longest * 1000,
            sum(it.lost for it in [*setting, reader]))


def main():
    folder, seconds = sys.argv[1], float(sys.argv[2]) if len(sys.argv) > 2 else 5
    with tempfile.TemporaryDirectory(dir=".") as home:
        layer = slow_layer(home)
        print("| fsync | panels | sets a second | longest wait of a set, ms | of the reader, ms | lost |\n|---|---|---|---|---|---|")
        for delay in (0, 30, 300):
            for panels in (1, 4, 16):
                rate, longest, reading, lost = measured(folder, layer, delay, panels, seconds, home)
                print(f"| {f'+ {delay} ms' if delay else 'as it is'} | {panels} | {rate:.0f} | {longest:.0f} | {reading:.0f} | {lost} |", flush=True)
        print("\n| device | confirmed | not confirmed | links lost |\n|---|---|---|---|")
        for name, ono, words in (("ocadev", TRIM, ["serve", "--port", 0, "--keep", f"{home}/in-flight"]),
                                 ("mixer", GAIN_OF_MIXER, [f"{home}/mixed", 0, 60])):
            if Path(folder, name).exists():
                with Serving(f"{folder}/{name}", *words, stdin=subprocess.PIPE, env=slowed(layer, 50)) as device:
                    print("| {} | {} | {} | {} |".format(name, *with_many_in_flight(device.port, ono)), flush=True)


if __name__ == "__main__":
    main()
