#!/usr/bin/env python3
"""Has Wireshark's dissector read what `ocadev` hears and answers, and counts the frames.

Usage: dissected.py BIN     BIN is the folder with `ocadev`; it needs `tshark` (4.0 or later), and `text2pcap` of it

No step of the gate.

The frames are those of the scripts in examples/ and of each method in docs/PROTOCOL.md ("Each method, byte by byte"),
with what `ocadev replay` answers. Each must be well formed, with the fields of section 2 of PROTOCOL; of a command
without a response the dissector reads the header alone. The last line is 'N passed, M failed'."""
import itertools
import re
import shutil
import subprocess
import sys
import tempfile
from pathlib import Path

import oca_profile as oca
from checks import Checks
from samples import script_of, worked_bytes
from tables import TOP

FIELDS = ("type", "msgcount", "handle", "tono", "mlevel", "midx", "pcount", "status")  # the first two of a PDU, all others of a message


def frames_of(program, script):
    """The datagrams of a script that have no fault, and those that answer them: of each whether it is an answer."""
    heard = re.findall(r"^\d+ [\d.]+:\d+ ([0-9a-fA-F]+|-)$", script, re.MULTILINE)
    told = subprocess.run([program, "replay"], input=script, capture_output=True, text=True, timeout=60, check=True).stdout.splitlines()
    verdicts = [line.startswith("served ") for line in told if line.startswith(("served ", "malformed "))]
    if len(verdicts) != len(heard):
        sys.exit(f"dissected: {len(verdicts)} verdicts for {len(heard)} datagrams")
    answers = [line[2:] for line in told if line.startswith("> ")]
    return [(bytes.fromhex(it), False) for it in itertools.compress(heard, verdicts)] + [(bytes.fromhex(it), True) for it in answers]


def read(frame):
    """The fields of a datagram, as tshark prints them: those of several PDUs and messages joined by commas."""
    found, at = {name: [] for name in FIELDS}, 0
    while at < len(frame):
        kind, count, end = oca.frame_at(frame, at)
        messages = oca.messages_in(frame, at, end, kind, count) if kind in (1, 3) else ()
        for fields in ({"type": kind, "msgcount": count}, *map(fields_of, messages)):
            for name, value in fields.items():
                found[name].append(value)
        at = end
    return [",".join(map(str, found[name])) for name in FIELDS]


def fields_of(message):
    """What the dissector reads of a command that asks for a response, or of a response."""
    if message[0] == "response":
        return dict(zip(("handle", "status", "pcount"), message[1:]))
    return dict(zip(FIELDS[2:], message[2][:5]))


def dissected(frames):
    """Of each frame the fields that the dissector reads, and what it complains of."""
    dump = "".join(f"{'O' if is_answer else 'I'}\n000000 {frame.hex(' ')}\n" for frame, is_answer in frames)
    how = {"capture_output": True, "text": True, "timeout": 120, "check": True}
    with tempfile.NamedTemporaryFile(suffix=".pcap") as file:
        subprocess.run(["text2pcap", "-q", "-D", "-u", "9001,65000", "-", file.name], input=dump, **how)
        fields = [word for name in ("ocp1." + name for name in FIELDS) for word in ("-e", name)]
        words = ["tshark", "-r", file.name, "-T", "fields", *fields, "-e", "_ws.malformed"]
        lines = subprocess.run(words, **how).stdout.splitlines()
    return [line.split("\t") for line in lines]


def number(text):
    """Numbers as decimal digits: tshark prints some in hexadecimal."""
    return ",".join(str(int(word, 0)) for word in text.split(",")) if text else ""


def main(folder):
    if not shutil.which("tshark"):
        sys.exit("dissected: there is no tshark")
    checks, frames = Checks(), []
    for script in [*map(Path.read_text, sorted((TOP / "examples").glob("*.script"))), script_of(worked_bytes())]:
        frames += frames_of(f"{folder}/ocadev", script)
    told = dissected(frames)
    if len(told) != len(frames):
        sys.exit(f"dissected: tshark read {len(told)} of {len(frames)} frames")
    for (frame, _), (*fields, malformed) in zip(frames, told):
        checks.same(frame.hex(), ([*map(number, fields)], malformed), (read(frame), ""))
    answers = sum(is_answer for _, is_answer in frames)
    print(f"{answers} answers, {len(frames) - answers} sent to the device")
    return checks.verdict()


if __name__ == "__main__":
    sys.exit(main(sys.argv[1]) if len(sys.argv) == 2 else __doc__)
