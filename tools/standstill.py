#!/usr/bin/env python3
"""Devices that stand still: stopped by SIGSTOP, or since their disk does not answer. What waited meanwhile is dropped, so that a
mute acts once, and no set of a controller that gave up acts; a lock outlives a standstill of up to a minute; and a store that
takes 1.5 s serves sixteen panels.

Usage: standstill.py BIN     BIN is the folder with `ocadev`

Clocks of the layer `unreliable.c` are set forward in place of a long wait. The last line is 'N passed, M failed'."""
import signal
import struct
import sys
import tempfile
import threading
import time

import checks
import peers
from checks import Ahead, port_said
from keep import layer_of, put

MUTE, TRIM, LAMP = 4097, 4100, 4101  # of the device that `ocadev` has without a tree
MUTED, UNMUTED = b"\1", b"\2"
OK, LOCKED = 0, 3
STANDSTILLS = 3, 17, 50, 70, 125  # seconds
LONGEST_PARDONED = 60  # seconds
PANELS = 16


class Peer(peers.Peer):
    def sets_trim(self, value):
        return self.status(TRIM, 5, 2, struct.pack(">h", value))

    def value(self, target, level=5, size=1):
        return (self.ask(target, level, 1) or (None, b""))[1][:size]


def served(run, keep, ahead, words):
    """A device over the layer, with these clocks, and its port."""
    process = run.start("ocadev", "serve", "--port", 0, *words, **ahead.settings, **(layer_of(keep) if words else {}))
    return process, port_said(process)


def stands_still(run, seconds, keeps, hangs):
    """A device stands still for so long; it keeps its objects in a file or not, and its disk does not answer or it is stopped."""
    with tempfile.TemporaryDirectory() as folder:
        keep, ahead = f"{folder}/kept", Ahead()
        what = f"{seconds} s, {'with' if keeps else 'without'} --keep, {'a disk that does not answer' if hangs else 'SIGSTOP'}"
        process, port = served(run, keep, ahead, ["--keep", keep] if keeps else [])
        mutes, unmutes, gave_up, holder, stranger = (Peer(port) for _ in range(5))
        run.same(f"{what}: the mute", mutes.status(MUTE, 4, 2, MUTED), OK)
        run.same(f"{what}: the unmute of another controller", unmutes.status(MUTE, 4, 2, UNMUTED), OK)
        run.same(f"{what}: the lock", holder.status(TRIM, 1, 3), OK)
        if hangs:
            put(f"{keep}.refusing", "slow 1500")
            unmutes.send(MUTE, 4, 2, UNMUTED)
            time.sleep(0.5)
        else:
            process.send_signal(signal.SIGSTOP)
        for _ in range(3):
            mutes.copy(mutes.handle, MUTE, 4, 2, MUTED)
        gave_up.send(LAMP, 5, 2, b"\1")
        holder.send(TRIM, 5, 1)
        stranger.send(TRIM, 5, 2, struct.pack(">h", 7))
        ahead.set(seconds)
        if hangs:
            put(f"{keep}.refusing", "")
            time.sleep(3)
        else:
            process.send_signal(signal.SIGCONT)
        run.same(f"{what}: the mute acted once", unmutes.value(MUTE, 4), UNMUTED)
        run.same(f"{what}: the set of a controller that gave up did not act", unmutes.value(LAMP), b"\0")
        run.same(f"{what}: a set behind a lock did not act", holder.value(TRIM, size=2), b"\0\0")
        run.same(f"{what}: whether the lock is held", stranger.sets_trim(8), LOCKED if seconds < LONGEST_PARDONED else OK)
        run.same(f"{what}: a set acts", unmutes.status(LAMP, 5, 2, b"\1"), OK)


def standstills(run):
    cases = [(seconds, keeps, hangs) for seconds in STANDSTILLS for keeps, hangs in ((False, False), (True, False), (True, True))]
    threads = [threading.Thread(target=stands_still, args=(run, *case)) for case in cases]
    for thread in threads:
        thread.start()
    for thread in threads:
        thread.join()


def slow_stores(run):
    """Each of sixteen panels that send again for 5 s has its set confirmed by a device whose store takes so long."""
    for milliseconds in (300, 1500):
        with tempfile.TemporaryDirectory() as folder:
            keep, ahead = f"{folder}/kept", Ahead()
            process, port = served(run, keep, ahead, ["--keep", keep])
            panels = [Peer(port, copies=20) for _ in range(PANELS)]
            run.same(f"a store of {milliseconds} ms: a reading", {panel.value(TRIM, size=2) for panel in panels}, {b"\0\0"})
            put(f"{keep}.refusing", f"slow {milliseconds // 2}")
            answers, taken = {}, {}

            def sets(number):
                begun = time.monotonic()
                answers[number] = panels[number].sets_trim(number)
                taken[number] = time.monotonic() - begun

            threads = [threading.Thread(target=sets, args=(number,)) for number in range(PANELS)]
            for thread in threads:
                thread.start()
                time.sleep(0.02)
            for thread in threads:
                thread.join()
            run.same(f"a store of {milliseconds} ms: each panel's set is confirmed", set(answers.values()), {OK})
            print(f"a store of {milliseconds} ms, {PANELS} panels: the last answer after {max(taken.values()):.1f} s")
            process.kill()


def main(folder):
    return checks.Checks(folder).tried(standstills, slow_stores)


if __name__ == "__main__":
    sys.exit(main(*sys.argv[1:]) if len(sys.argv) == 2 else __doc__)
