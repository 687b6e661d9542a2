#!/usr/bin/env python3
"""Compares `ocadev replay` and `ocactl replay` with the second implementation of the profile (oca_profile.py) on random
scripts.

Usage: fuzz.py BIN [COUNT] [SEED]     COUNT scripts of each; BIN is the folder with the two programs

Scripts have well-formed and damaged datagrams, duplicates, overtaking, other commands under a handle, many peers,
moments that jump, every window and span, and bad lines. The first difference is printed; the status is 1."""
import random
import re
import subprocess
import sys
from collections import Counter

import oca_profile as oca
from checks import verdict
from comparing import Break, Comparison, in_processes
from tables import table

ONOS = [100, 4096, 4097, 4098, 4099, 4100, 4101, 4102, 4103, 1, 0]
METHODS = [(1, i) for i in range(0, 8)] + [(2, i) for i in range(1, 14)] + [(3, 4), (3, 5), (3, 6), (3, 20), (3, 21)] \
    + [(4, i) for i in range(1, 11)] + [(5, 1), (5, 2), (5, 3), (0, 1), (6, 1)]
# how many peers have room, and how many channel strips are added to the bench's own objects
ROOMS, CHANNELS = [16, 1, 2, 15, 17, 64], [0, 0, 0, 1, 5, 30, 1022]
STRIP = {4096: 0, 4097: 1, 4098: 2, 4100: 3}  # the object of a strip that is of the class of this one, from the strip's first
ROWS, BENCH = table("fuzz"), {o.ono: o.kind for o in oca.bench()}
# Each object of these rows with each of its methods.
USUAL, ASKED = ([(int(ono), tuple(method)) for ono, its in ROWS[name].items() for method in its] for name in ("usual", "asked"))


def text(r):
    """An OcaString, mostly right: of other scripts, of 64 and 65 bytes, cut short, or no UTF-8."""
    s = r.choice(["", "a", "Bühne", "mute", "𝄞x", "日本", "a" * 64, "a" * 65, "ü" * 32, "ü" * 33, "\0"])
    whole, kind = oca.text_bytes(s), r.randrange(12)
    if kind == 1:
        return oca.u16(1) + r.choice([b"\xff", b"\xc3", b"\xed\xa0\x80", b"\xc0\x80", b"\xf4\x90\x80\x80"])
    return {0: oca.u16(len(s) + 1) + whole[2:], 2: whole[:-1]}.get(kind, whole)


def value(r, kind):
    """A setting of a class: at the limits of the bench's objects and beside them, between, or at the limits of the class."""
    if kind not in oca.WIDTHS:
        return r.choice({"switch": [0, 1, 2, 3, 65535], "boolean": [0, 1]}.get(kind, [1, 2]))
    low, high = oca.LIMITS[kind]
    return r.choice([n for n in (0, 600, 601, -600, -601, 100, 101, -1, low, high, *r.sample(range(-600, 601), 8)) if low <= n <= high])


# A parameter, by the letter that says how it is read (`Reader.parameter` of oca_profile.py); `v` of a boolean.
PARAMETERS = {"b": lambda r: bytes([r.randrange(3)]), "t": text, "1": lambda r: bytes([r.choice([1, 2, 2, 1, 3])]),
              "2": lambda r: oca.u16(r.randrange(4)), "v": lambda r: bytes([r.choice([0, 1, 2, 255])]),
              "B": lambda r: oca.u16(3) + bytes(r.randrange(2) for _ in range(3)), "T": lambda r: oca.u16(3) + text(r) + text(r) + text(r)}


def parameter(r, letter, kind):
    if letter == "v" and kind in oca.WIDTHS:
        size, is_signed = oca.WIDTHS[kind]
        return value(r, kind).to_bytes(size, "big", signed=is_signed)
    return PARAMETERS[letter](r)


def usual(r, methods=USUAL):
    """What a panel would send, of one of these methods: the object, level and index, ParamCount, and the parameters."""
    ono, method = r.choice(methods)
    letters = oca.METHODS[BENCH[ono]][method][1]
    return ono, *method, len(letters), b"".join(parameter(r, it, BENCH[ono]) for it in letters)


class Panel:
    """What one peer sends: commands whose handles rise, with copies, gaps, overtaking and reuse; to objects of the bench and of channel strips."""

    def __init__(self, r, channels=0):
        self.r, self.next, self.sent, self.channels = r, r.choice([1, 1, 5, 1000, oca.U32 - 40]), [], channels

    def command(self):
        r, kind = self.r, self.r.randrange(10)
        if self.sent and kind < 3:  # a copy, of late or of long ago, or another command under its handle
            old = r.choice(self.sent[-40:] if kind else self.sent)
            return old if r.randrange(4) else self.new(old.handle)
        self.next = max(0, min(oca.U32, self.next + r.choice([1, 1, 1, 1, 2, 3, 40, -1, -2, -5, 0])))
        self.sent.append(self.new(self.next))
        return self.sent[-1]

    def new(self, handle):
        r = self.r
        if r.randrange(5):
            target, *asked = usual(r)
            if self.channels and target in STRIP and not r.randrange(2):
                target = 4103 + 4 * r.choice([0, self.channels - 1, r.randrange(self.channels)]) + STRIP[target]
            return oca.Command(handle, target, *asked)
        level, index = r.choice(METHODS)
        params = bytes(r.randrange(256) for _ in range(r.choice([0, 0, 1, 2, 3, 9])))
        return oca.Command(handle, r.choice(ONOS), level, index, r.randrange(3), params)


def datagram(r, panel):
    data = b""
    for _ in range(r.choice([1, 1, 1, 2, 3])):
        kind = r.randrange(12)
        if kind == 0:
            data += oca.pdu(4, [oca.u16(r.choice([0, 1, 2, 10, 31, 65535]))])
        elif kind == 1:
            data += oca.pdu(4, [r.choice([0, 100, 250, 251, 1500, 30000, 30001, 2**32 - 1]).to_bytes(4, "big")])
        elif kind == 2:
            data += oca.pdu(3, [oca.response_body(r.randrange(9), 0, 0, b"") for _ in range(r.choice([1, 2, 7]))])
        else:
            data += oca.pdu(int(kind != 3), [panel.command().body() for _ in range(r.choice([1, 1, 1, 2, 3, 10, 60]))])
    return damaged(r, data) if r.randrange(8) == 0 else data


def damaged(r, data):
    kind, at = r.randrange(5), r.randrange(len(data))
    if kind == 0:
        return data[:at]
    if kind == 1:
        return data + bytes([r.choice([0, 0x3B, 0xFF])])
    if kind == 2:
        return data + bytes(r.choice([1472, 1473, 1474, 1500]) - len(data)) if len(data) < 1472 else data
    return data[:at] + bytes([r.choice([0, 1, 2, 3, 4, 0x3B, 0xFF, r.randrange(256)])]) + data[at + 1:]


def moment(r, now):
    step = r.choice([0, 0, 1, 5, 100, 251, 750, 2500, 3001, 7500, 15001, 90001, 119999, 120000, 120001, -50, -5000, -130000])
    return max(0, now + (step if r.randrange(3) == 0 or step < 3000 else 1))


def finish(r, lines):
    """The bytes of a script: bytes in capital letters here and there, perhaps a line that is put in, and none behind the last."""
    lines = [re.sub("[0-9a-f]{2,}$", lambda found: found[0].upper(), line) if r.randrange(4) == 0 else line for line in lines]
    if r.randrange(4) == 0:
        lines.insert(r.randrange(len(lines) + 1), r.choice(ROWS["lines"]))
    return ("\n".join(lines) + ("" if r.randrange(3) == 0 else "\n")).encode()


def device_script(r):
    window, room, channels = r.choice([1, 2, 3, 8, 31, 32, 32, 32, 63, 64]), r.choice(ROOMS), r.choice(CHANNELS)
    panels = {f"127.0.0.{1 + k % 3}:{9000 + k}": Panel(r, channels) for k in range(r.choice([1, 2, 3, room + 2]))}
    now, lines = 0, []
    for _ in range(r.choice([3, 10, 40, 120])):
        now, sender = moment(r, now), r.choice([*panels])
        lines.append(f"{now} quiet" if r.randrange(10) == 0 else f"{now} {sender} {oca.hex_text(datagram(r, panels[sender]))}")
    words = ["replay", "--window", str(window)] + ["--peers", str(room)] * (room != 16) + ["--channels", str(channels)] * (channels > 0)
    return words, finish(r, lines), lambda s: oca.device_replay(s, window, room, channels)


def link_script(r):
    span, first = r.choice([1, 2, 8, 16, 16, 31, 32]), r.choice([0, 1, 1, oca.U32 - 3, oca.U32])
    model, link, panel = oca.Device(), oca.Link(oca.DEVICE, first, span), Panel(r)
    here, now, lines, wire = (127, 0, 0, 1, 9001), 0, [], []
    for _ in range(r.choice([5, 20, 80, 200])):
        now, kind = moment(r, now), r.randrange(6)
        if kind == 0:
            _, *asked, params = panel.new(0)
            params = params if r.randrange(12) else bytes(r.choice([1444, 1445, 1446, 2000]))
            line = " ".join(map(str, [now, "submit", *asked, oca.hex_text(params)]))
        elif kind in (1, 2):
            line = f"{now} due"
        elif kind == 3:
            data = r.choice(wire) if wire and r.randrange(5) else datagram(r, panel)
            data += r.choice(wire) if len(wire) > 1 and r.randrange(4) == 0 else b""
            sender = oca.DEVICE if r.randrange(6) else r.choice([here, (127, 0, 0, 2, 65000), (127, 0, 0, 1, 65001)])
            line = f"{now} from {oca.peer_text(sender)} {oca.hex_text(data)}"
        else:
            line = f"take {r.choice([u[0].handle for u in link.untaken]) if link.untaken and r.randrange(4) else r.randrange(40)}"
        lines.append(line)
        (said,) = oca.link_line(link, line.split(" "))
        for _ in range(r.choice([1, 1, 2, 0]) if said.startswith(("send", "keep-alive")) else 0):  # it comes to a device, perhaps twice
            wire += model.datagram(here, oca.hex_of(said.split(" ")[1]), now)[1]
    words = ["replay", "--device", "127.0.0.1:65000", "--first-handle", str(first), "--span", str(span)]
    return words, finish(r, lines), lambda s: oca.link_replay(s, oca.DEVICE, first, span)


# ---- the programs beside the reference
def made(seed, number):
    r = random.Random(f"{seed} {number}")
    return [("ocadev", *device_script(r)), ("ocactl", *link_script(r))]


def told(folder, cases):
    for name, words, script, _ in cases:
        done = subprocess.run([f"{folder}/{name}"] + words, input=script, capture_output=True, timeout=60)
        yield done.stdout, done.stderr.decode(errors="replace").strip() or None, done.returncode


def hold(case, said):
    *_, script, expected = case
    if said != expected(script):
        both = zip(said[0].splitlines(), expected(script)[0].splitlines())
        at = next((at for at, (one, other) in enumerate(both) if one != other), len(said[0].splitlines()))
        raise Break("reference", at, f"{said}, and the reference {expected(script)}")


def shown(case, _, fault):
    name, words, script, _ = case
    return f"{name} {' '.join(words)} on the script\n{script.decode(errors='replace')}\nDIFFERENCE in line {fault.at} of what is printed: {fault.what}"


def count_of(case, *_):
    return Counter(scripts=1, lines=case[2].count(b"\n") + 1)


def main():
    _, seed, total, _ = in_processes(Comparison(made, told, hold, shown, count_of), "scripts", 20)
    print(f"fuzz: seed {seed}: {total['scripts']} scripts, {total['lines']} lines, no difference; room for {sorted(set(ROOMS))} peers, "
          f"{sorted(set(CHANNELS))} channels")
    return verdict(total["scripts"], 0)


if __name__ == "__main__":
    sys.exit(main())
