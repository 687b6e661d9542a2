#!/usr/bin/env python3
"""Damaged datagrams: what a device refuses leaves it as it was, and what it accepts is what the writer writes.

Usage: damaged.py BIN     BIN is the folder with `trials`

Each byte of 16 messages is replaced by each other value, each message is cut off at each place and followed by each.
`trials lines` says what the checks find, and which bytes the writer writes for one command or keep-alive: as the
second implementation (oca_profile.py) says. A refused datagram comes from a peer with a session and from one without;
then another peer reads what no line of objects shows, and the first repeats its commands. A second device hears all but
the damaged ones, and answers alike."""
import itertools
import sys
from collections import Counter

import oca_profile as oca
from checks import Checks
from comparing import events_of
from oca_law import read
from tables import data

MESSAGES = [*map(bytes.fromhex, data("damaged").messages)]
SENDER, STRANGER, READER = "127.0.0.1:9001", "127.0.0.1:9002", "127.0.0.1:9003"
BEFORE, AGAIN = (2, 4, 10, 12), (2, 4, 10)  # what the sender sends first, and of that what is sent again
# GetEnabled and GetLabel of each object of the bench, and GetPositionNames and GetPositionEnableds of its switch
READINGS = [(ono, level, index) for ono in (100, *range(4096, 4103)) for level, index in ((2, 1), (2, 8)) + (((4, 5), (4, 9)) if ono == 4099 else ())]


def damaged(message):
    """Each byte replaced by each other value, each prefix, and the message followed by each."""
    for at in range(len(message)):
        for value in range(256):
            if value != message[at]:
                yield message[:at] + bytes([value]) + message[at + 1:]
    for end in range(len(message)):
        yield message[:end]
    for other in MESSAGES:
        yield message + other


def events_of_one(folder, events):
    """What `trials lines` says of each event of a history: its lines but the last two, and those."""
    (said,) = events_of(folder, [["history 32 16 0", *events]])
    if len(said) != len(events):
        raise RuntimeError(f"{len(said)} of {len(events)} events")
    return ((its[:-2], its[-2:]) for its in said)


def event(peer, data):
    return f"0 {peer} {oca.hex_text(data)}"


def found(data):
    """The line of what the checks and the writer make of a datagram, and whether it is refused."""
    messages, fault = read(data)
    is_again = not fault and len(messages) == 1 and messages[0][0] != "response"
    return fault or f"again {oca.hex_text(data if is_again else b'')}", bool(fault)


def main():
    checks, counts = Checks(sys.argv[1]), Counter()
    for message in MESSAGES:
        begin = [event(SENDER, MESSAGES[k]) for k in BEFORE]
        tried, events, untouched = [(data, *found(data)) for data in damaged(message)], list(begin), list(begin)
        handles = itertools.count(1)
        for data, _, is_refused in tried:
            events.append("again " + oca.hex_text(data))
            if is_refused:
                asked = [event(READER, oca.pdu(1, [oca.Command(handle, *of).body() for of, handle in zip(READINGS, handles)])),
                         *(event(SENDER, MESSAGES[k]) for k in AGAIN)]
                events += [event(SENDER, data), event(STRANGER, data), *asked]
                untouched += asked
        touched, others = events_of_one(checks.folder, events), events_of_one(checks.folder, untouched)
        *_, (_, state) = alike(touched, others, len(BEFORE))
        for data, line, is_refused in tried:
            good = next(touched) == ([line], state)
            if is_refused:
                good &= [next(touched), next(touched)] == [([line], state)] * 2
                *had, (last, state) = alike(touched, others, 1 + len(AGAIN))
                good &= last and all(it for it, _ in had)
            counts[line.split(" ")[0]] += good and (is_refused or line.startswith("again 3b"))
            checks.expect(line, good, oca.hex_text(data))
    print(f"damaged datagrams: {counts['malformed']} refused with nothing changed, {counts['again']} of the others written back alike")
    return checks.verdict()


def alike(touched, others, count):
    """Of so many events, whether both devices say the same, and what the one that hears no damaged datagram is then."""
    return [(one == other, other[1]) for one, other in zip(itertools.islice(touched, count), itertools.islice(others, count))]


if __name__ == "__main__":
    sys.exit(main())
