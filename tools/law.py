#!/usr/bin/env python3
"""The law by events (oca_law.py) held against transcripts of the built program.

Usage: law.py BIN [HISTORIES] [SEED]     BIN is the folder with `trials`

 law      directed and random histories, run by `trials lines`: verdicts, packets, writes, objects and sessions are the law's
 wrong    the law refuses a history of each wrong device (tools/rows/wrong_devices.toml), by the sentence that it breaks
 altered  a transcript with one line altered is refused at that event, by the sentence that the line belongs to
The last line is 'N passed, M failed'."""
import collections
import random
import re
import sys

import oca_profile as oca
from comparing import Comparison, broken, changed, events_of, in_processes, verdict
from fuzz import Panel, datagram, moment
from oca_law import Datagram, Passes, Sets, objects_line, packets_in, set_line, walk, written_lines
from oca_profile import command as ask
from schedules import PEERS, peer, some_change

# ---- histories
LONGEST = 2000  # so that a line of a script has at most 4,096 bytes


class History:
    def __init__(self, window=32, peers=16, channels=0):
        self.window, self.peers, self.channels, self.events, self.now = window, peers, channels, [], 0

    def says(self, number, *pdus):
        self.events.append(Datagram(peer(number), b"".join(pdus)[:LONGEST], self.now))
        return self

    def at(self, now):
        self.now = now
        return self

    def tick(self):
        self.events.append(Passes(self.now))

    def text(self):
        return [f"history {self.window} {self.peers} {self.channels}", *(LINES[type(event)](event) for event in self.events)]


LINES = {Sets: lambda event: oca.front_line(*event), Passes: lambda event: f"{event.now} quiet",
         Datagram: lambda event: f"{event.now} {oca.peer_text(event.sender)} {oca.hex_text(event.data)}"}


def get(handle, kind=1):
    return ask(handle, 4097, 4, 1, kind=kind)


def trim(handle, value, kind=1):
    return ask(handle, 4100, 5, 2, 1, value.to_bytes(2, "big", signed=True), kind=kind)


def lock(handle, target=4097, method=3):
    return ask(handle, target, 1, method)


def beat(ms):
    return oca.pdu(4, [ms.to_bytes(4, "big")])


def lapses(r):
    """A lock, and moments about three heartbeats after its peer was last heard, of heartbeats in and outside their limits."""
    h = History(r.choice([1, 8, 32]))
    ms = r.choice([None, 0, 100, 249, 250, 251, 1500, 1999, 29999, 30000, 30001, 100000, 2**32 - 1])
    kept = 5000 if ms is None else max(250, min(ms, 30000))
    h.at(r.choice([0, 7])).says(0, *([beat(r.choice([1, 60000])), beat(ms)] if ms is not None else []), lock(1),
                                lock(2, 4100, 6)).says(1, lock(1, 4098))
    start, other = h.now, r.choice([None, start_of_noise(r)])
    if other:
        h.at(start + kept).says(0, other)
    for late in sorted(r.sample([3 * kept - 1, 3 * kept, 3 * kept + 1, 4 * kept, 5 * kept, 5 * kept + 1, 9 * kept], 4)):
        h.at(start + late)
        r.choice([h.tick, lambda: h.says(1, lock(1 + len(h.events))), lambda: h.says(2, b"\0"), lambda: h.says(0, get(1 + len(h.events)))])()
    return h


def start_of_noise(r):
    return r.choice([b"\0", b"", get(1)[:-1], get(1) + b"\0", oca.response(1), get(1)])


def forgetting(r):
    """Silences of about 120,000 ms, with duplicates, locks, and a heartbeat of before."""
    h = History(r.choice([1, 2, 32]))
    h.at(5).says(0, beat(30000), trim(1, 5), lock(2)).says(1, get(1))
    for _ in range(3):
        h.at(h.now + r.choice([119999, 120000, 120000, 120001, 120001, 240000, 90001]))
        kind = r.randrange(3)
        if kind == 0:
            h.tick()
        if kind != 1:
            h.says(r.randrange(2), trim(1, 5), lock(2), trim(1, 7))
        else:
            h.says(1, lock(3 + len(h.events))).says(0, start_of_noise(r))
    return h.at(h.now + 15001).says(2, get(1)).says(0, lock(9))


def crowds(r):
    """One peer more than there is room for, and peers that are forgotten as late ones come."""
    h = History(r.choice([1, 32]), r.choice(PEERS))
    order = range(h.peers + r.choice([1, 1, 2]))
    for n in order:
        h.at(h.now + r.choice([0, 1, 1000])).says(n, *([lock(1, 4097)] if n == 0 else [get(1)]))
    for _ in range(6):
        h.at(h.now + r.choice([0, 1, 60000, 119000, 120000, 120001]))
        for n in r.sample(order, min(len(order), r.choice([1, 2, 5]))):
            asked = r.choice([get(len(h.events)), trim(len(h.events), len(h.events)), lock(len(h.events))])
            h.says(n, asked, *([beat(250)] if r.randrange(4) == 0 else []))
        if r.randrange(4) == 0:
            h.at(max(0, h.now - r.choice([1, 5000, 119000])))
    return h


def windows(r):
    """A window filled, with handles in another order, copies of what is in it and behind it, other commands and types under a handle."""
    w = r.choice([1, 2, 3, 4, 5, 8, 16, 31, 32, 33, 63, 64])
    h = History(w)
    handles = [r.choice([1, 1000, oca.U32 - 3 * w - 9]) + k for k in range(2 * w + 4)]
    for k in range(0, len(handles), max(1, w // 2)):
        part = handles[k:k + max(1, w // 2)]
        handles[k:k + len(part)] = r.sample(part, len(part))
    sent, k = [], 0
    while k < len(handles):
        part = handles[k:k + r.choice([1, 2, 40])][:60]
        k += len(part)
        made = [r.choice([get, get, lambda x: trim(x, x % 1300 - 650)])(x) for x in part]
        sent += made
        h.says(0, *made)
        if r.randrange(3):
            copies = [r.choice(sent[-w - 2:]) for _ in range(3)] + [sent[max(0, len(sent) - w - 1)], sent[-min(w, len(sent))]]
            h.says(0, *r.sample(copies, r.choice([1, 3, 5])))
        if r.randrange(4) == 0:
            x = r.choice(handles[:k][-w - 1:])
            h.says(0, r.choice([trim(x, 1), get(x, 0), trim(x, x % 1300 - 650, 0), ask(x, 4097, 1, 5), ask(x, 4097, 4, 1, 1)]))
        if r.randrange(6) == 0:
            h.says(0, get(max(0, min(handles[:k]) - 1)))
    return h.says(1, ask(1, 4100, 5, 1))


def packings(r):
    """Many answers in one datagram, of lengths about the limit, with keep-alives, borders of PDUs and messages without an answer between."""
    h = History(r.choice([1, 8, 64]))
    for n, size in enumerate(r.choice([[64] * 3, [60, 64, 1], [0, 64, 33]])):
        h.says(0, ask(n + 1, 4099, 4, 4, 2, oca.u16(n) + oca.text_bytes("x" * size)))
    h.says(0, ask(9, 4097, 2, 9, 1, oca.text_bytes("y" * r.randrange(65))))
    kinds = [(4099, 4, 5), (4097, 2, 8), (100, 3, 6), (4097, 1, 1), (4097, 4, 1)]
    at = 10
    for _ in range(4):
        data = b""
        for _ in range(r.choice([2, 4, 20])):
            body = [oca.Command(at + i, *r.choice(kinds), 0, b"").body() for i in range(r.choice([1, 2, 7]))]
            at += len(body)
            part = r.choice([oca.pdu(1, body)] * 5 + [oca.pdu(0, body), beat(5000), oca.pdu(4, [oca.u16(3)]), oca.response(1), get(at - 1)])
            data += part if len(data + part) <= oca.LARGEST else b""
        h.says(0, data)
    return h


def limits(r):
    """Responses whose PDU has about 1,472 bytes: n answers with a label, and m with a state."""
    h = History(64)
    label, n, m = r.choice([(label, n, m) for label in range(20, 65) for n in range(1, 40) for m in range(4)
                            if n + m <= 80 and 1471 <= 10 + n * (12 + label) + 11 * m <= 1474])
    h.says(0, ask(1, 4097, 2, 9, 1, oca.text_bytes("z" * label)))
    wanted = [(4097, 2, 8)] * n + [(4097, 4, 1)] * m
    return h.says(0, oca.pdu(1, [oca.Command(2 + k, *w, 0, b"").body() for k, w in enumerate(wanted)]))


def fronts(r):
    """Changes at the front between commands, under locks, in and outside ranges."""
    h = History(r.choice([1, 32]))
    h.says(0, lock(1, 4100), lock(2, 4097, 6))
    for n in range(12):
        _, ono, *change = some_change(r)
        h.events.append(Sets(ono, *change))
        if r.randrange(3) == 0:
            h.at(h.now + r.choice([0, 1, 5001, 15001, 120001])).says(r.randrange(2),
                r.choice([get(n + 5), trim(n + 5, n), ask(n + 5, 4099, 4, 8, 2, oca.u16(1) + b"\0"), ask(n + 5, ono, 2, r.choice([1, 8])),
                          ask(n + 5, ono, 2, 2, 1, bytes([r.randrange(2)])), ask(n + 5, 4097, 4, 2, 1, bytes([r.randrange(4)])), lock(n + 5, ono)]))
    return h


def reading(h, number, handle):
    h.says(number, *(ask(handle + k, *wanted) for k, wanted in enumerate(
        [(4097, 4, 1), (4098, 4, 1), (4099, 4, 1), (4100, 5, 1), (4101, 5, 1), (4102, 5, 1), (4097, 2, 8), (4099, 4, 5), (4099, 4, 9)])))


def wander(r):
    h = History(r.choice([1, 2, 3, 8, 31, 32, 32, 32, 63, 64]), r.choice(PEERS), r.choice(CHANNELS))
    numbers = range(r.choice([1, 2, 3, h.peers + 2]))
    panels, handle = {n: Panel(r, h.channels) for n in numbers}, 1
    for _ in range(r.choice([20, 40, 60, 100])):
        kind = r.randrange(12)
        h.at(moment(r, h.now))
        if kind == 0:
            h.tick()
        elif kind == 1:
            reading(h, 40, handle)
            handle += 9
        elif kind == 2:
            h.events.append(Sets(*some_change(r)[1:]))
        elif kind == 3:
            n = r.choice(numbers)
            h.says(n, ask(min(oca.U32, r.choice([panels[n].next + 1, 1])), r.choice([4097, 4098, 4100]), 1, r.choice([3, 3, 6, 4])))
        else:
            h.says(r.choice(numbers), datagram(r, panels[r.choice(numbers)]))
    reading(h.at(h.now + 1), 41, 1)
    return h


CHANNELS = [0, 0, 0, 1, 2, 9]
KINDS = [lapses, forgetting, crowds, windows, packings, limits, fronts, wander, wander, wander]


def made(seed, number):
    r = random.Random(f"{seed} {number}")
    return [KINDS[number % len(KINDS)](r)]


# ---- tales: what was said of the events of a history
def tale_of(history, wrong):
    """What a device of a wrong second implementation does, in the lines of the right one: a wrong line is no wrong device."""
    device, tale = wrong.Device(wrong.bench(history.channels), history.window, history.peers), []
    for event, line in zip(history.events, history.text()[1:]):
        said = [set_line(device.set(*event))] if isinstance(event, Sets) else oca.device_line(device, line.split(" "))
        written = written_lines(device.written) if isinstance(event, Datagram) else []
        tale.append([*said, *written, f"sessions {len(device.sessions)}", objects_line(device.tree)])
    return tale


def shown(history, tale, fault):
    head, *lines = history.text()
    told = [it for line, said in list(zip(lines, tale))[:fault.at + 1] for it in (line, *(f"    {its}" for its in said[:-2]))]
    return "\n".join([head, *told, f"BREAK of '{fault.law}' at event {fault.at}: {fault.what}"])


# ---- altered transcripts
def altered(r, history, tale, _):
    """(the sentence, the event, the tale with one line of it altered), or None."""
    at = r.randrange(len(tale))
    said, kind, is_datagram = list(tale[at]), r.randrange(10), isinstance(history.events[at], Datagram)
    packets = packets_in(said)
    k, end = 1 + (r.randrange(len(packets)) if packets else 0), 1 + len(packets)
    if kind < 2 and said[0].startswith(("served", "malformed")):
        number = r.choice([*re.finditer(r"\d+", said[0])])
        law, said[0] = "verdict_is", said[0][:number.start()] + str(int(number[0]) + 1) + said[0][number.end():]
    elif kind == 2 and is_datagram:
        law, said[0] = "verdict_is", "served 0 0 0" if said[0] == "no-room" else "no-room"
    elif kind < 4 and not is_datagram:  # another line, or a packet behind it
        law = "set_fault" if isinstance(history.events[at], Sets) else "verdict_is"
        said[:1] = [said[0], "> 3b"] if kind == 3 else ["no-room"]
    elif kind == 3 and packets:
        law, said[k:k + 1] = "answers_are", []
    elif kind == 4 and packets:  # the last parameter, or a ParamCount; of a keep-alive its time
        law, said[k] = "answers_are", f"{said[k][:-1]}{int(said[k][-1], 16) ^ 1:x}"
    elif kind == 5 and len(packets) > 1:
        law, said[1:3] = "packets_are", [said[1] + said[2][2:]]
    elif kind == 6 and any(p[7] == 3 and p[9] > 1 for p in packets):
        law, said[1:end] = "packets_are", [f"> {part.hex()}" for p in packets for part in parted(p)]
    elif kind == 7:
        law, said[-1] = "objects_are", other_object(r, said[-1].split(" "))
    elif kind == 8:
        law, said[-2] = "sessions_are", f"sessions {int(said[-2].split(' ')[1]) + r.choice([-1, 1])}"
    elif kind == 9 and is_datagram:
        law, said[end:-2] = "written_are", [line.rpartition(" ")[0] for line in said[end:-2]] or ["written 4097"]
    else:
        return None
    return law, at, [*tale[:at], said, *tale[at + 1:]]


def parted(packet):
    if packet[7] != 3 or packet[9] < 2:
        return [packet]
    bodies = [oca.response_body(*m[1:]) for m in oca.check(packet)]
    return [oca.pdu(3, bodies[:1]), oca.pdu(3, bodies[1:])]


def other_object(r, words):
    """A line of objects in which one of them has another setting or lock."""
    k = r.randrange(1, len(words))
    its, is_locked, _ = words[k].partition("/")
    if r.randrange(2) or is_locked:
        words[k] = its if is_locked else its + "/t127.0.0.1:9001"
    else:
        words[k] = re.sub(r"\d+$", lambda found: str(int(found[0]) + 1), its)
    return " ".join(words)


# ---- wrong devices
def refuses(job):
    """Whether the law refuses a history of the wrong device of this name by its sentence, that sentence, and how."""
    seed, name, sentence, edits = job
    wrong, first = changed(edits), None
    for number in range(400):
        (history,) = made(f"{seed} {name}", number)
        fault = broken(walk, history, tale_of(history, wrong))
        if fault and fault.law == sentence:
            return True, sentence, f"{name}: '{sentence}' refuses history {number}, at event {fault.at}"
        first = first or fault and fault.law
    return False, sentence, f"{name}: no break of '{sentence}'" + (f", but of '{first}'" if first else "")


# ---- the whole
def told(folder, histories):
    return events_of(folder, [it.text() for it in histories])


def count_of(_, tale, __):
    total = collections.Counter(histories=1, events=len(tale), packets=sum(len(packets_in(said)) for said in tale))
    for said in tale:
        word, *rest = said[0].split(" ")
        total["said " + word] += 1
        total["writes"] += sum(line.count(" ") for line in said if line.startswith("written"))
        if word == "served":
            total.update(dict(zip(("executed", "duplicates", "old", "reused"), (int(it) for it in rest if it.isdigit()))))
    return total


def main():
    how = Comparison(made, told, walk, shown, count_of, altered, 3, walk)
    count, seed, total, wrong = in_processes(how, "histories", 9, refuses, "wrong_devices")
    for found, _, said in wrong:
        if not found:
            print(f"FAILED: {said}")
    sentences = collections.Counter(sentence for _, sentence, _ in wrong)
    print(f"law: seed {seed}: " + ", ".join(f"{count} {name}" for name, count in sorted(total.items())) + "; 0 breaks")
    print(f"wrong devices refused by the sentence that they break: {sum(found for found, _, _ in wrong)} of {len(wrong)} "
          f"({', '.join(f'{name} {n}' for name, n in sorted(sentences.items()))})")
    met = ["executed", "duplicates", "old", "reused", "said malformed", "said no-room", "packets", "said set", "said refused"]
    return verdict({"law": total["histories"] == count and all(total[name] for name in met), "wrong": all(found for found, _, _ in wrong),
                    "altered": total["altered"] > count and total["altered, refused"] == total["altered"]})


if __name__ == "__main__":
    sys.exit(main())
