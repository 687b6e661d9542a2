#!/usr/bin/env python3
"""What the words of the command lines make of a run: `ocadev serve`, `ocactl send` and `ocactl run` over real sockets,
and the objects that a file lists.

Usage: words.py BIN     BIN is the folder with `ocadev` and `ocactl`

This script is the device that hears `ocactl`, and the controller that speaks to `ocadev serve`. The last line is 'N
passed, M failed'."""
import random
import re
import sys
import tempfile
from pathlib import Path

import oca_profile as oca
from checks import Checks
from manual import helps_of, listed
from network import Stage
from scenes import play_all
from tables import TOP, data

DATA, PROGRAMS = data("words"), ("ocadev", "ocactl", "ocapanel")


def faults(checks):
    for program in PROGRAMS:
        said = checks.ran(program, "\udcff", given=b"", seconds=30, text=False)  # the byte 255
        checks.same(f"{program}: words that are no UTF-8", said, (b"", b"note: an argument is not UTF-8\nbad words\n", 2))


def commands_of(checks):
    """Each command of each program, with its options that take a value: this value, and what its help says of each."""
    for program in PROGRAMS:
        for command, text in helps_of(f"{checks.folder}/{program}").items():
            yield program, command.removeprefix(program), {name: of for name, of in listed(text, "Options").items() if of[0]}


def words_of(program, name, options):
    return [program, *[name] * bool(name), *(f"--{option}={value}" for option, value in options.items()), *DATA.behind.get(name, [])]


def form_of(program, name, option):
    """The form of an option in words, and values that are not of it; none where any value is."""
    if option in DATA.free:
        return "", []
    digits, least, largest = DATA.numbers.get(f"{program} {option}", DATA.numbers.get(option, (0, 0, 0)))
    if digits:
        values = ["x", "-1", str(largest + 1), "0" * digits + "1", *([str(least - 1)] if least else [])]
        return f"a number from {least} to {largest}, of 1 to {digits} digits", values
    return DATA.texts.get(f"{name} {option}", DATA.texts.get(option, f"no form is known of --{option}")), ["x"]


def bad_values(checks):
    """A value that is not valid is named with its option and form; the help's span is the form's."""
    for program, name, options in commands_of(checks):
        for option, (_, told) in options.items():
            form, values = form_of(program, name, option)
            for said in re.findall(r"\b(\d+) to (\d+)\b", told) if form.startswith("a number ") else []:
                checks.same(f"{program} {name} --{option}: its help", "a number from {} to {}".format(*said), form.split(",")[0])
            for value in values:
                words = words_of(program, name, {**DATA.wanted.get(f"{program} {name}", {}), option: value})
                note = f"note: --{option} {value} is not valid: it must be {form}\n"
                checks.same(" ".join(words), checks.ran(*words), ("", f"{note}bad words\n", 2))


def missing_options(checks):
    """Each option that a command wants is named, in one line, where it is missing."""
    options = {f"{program} {name}": its for program, name, its in commands_of(checks)}
    for command, wanted in DATA.wanted.items():
        program, name = command.split(" ")
        for option in wanted:
            kind = options[command][option][0]
            words = words_of(program, name, {which: that for which, that in wanted.items() if which != option})
            said = f"note: error: the following required arguments were not provided: --{option} <{kind}>\nbad words\n"
            checks.same(" ".join(words), checks.ran(*words), ("", said, 2))


def versions(checks):
    """`--version` prints the number of `include/oca.pc.in` and the toolchain's line of README."""
    number = re.search(r"^Version: (.*)$", (TOP / "include/oca.pc.in").read_text(), re.MULTILINE)[1]
    toolchain = re.search(r"checked with\s+`(rattle-kit-[^`]*)`", (TOP / "README.md").read_text())[1]
    for program in PROGRAMS:
        for word in ("--version", "-V"):
            checks.same(f"{program} {word}", checks.ran(program, word), (f"{program} {number}\nchecked with {toolchain}\n", "", 0))


def scenes(checks):
    play_all(checks, Stage, "words")


def listed_line(r, onos):
    """A line of a tree's text, right or with a fault here and there."""
    kind = r.choice(list(oca.CLASSES) + ["block"] * 15)
    ono = r.choice([len(onos) + 4097] * 60 + [4096 + r.randrange(40), 4095, 2**32, 7])
    value = []
    if kind in oca.WORDS:
        value = [r.choice(list(oca.WORDS[kind]) * 12 + ["up"])]
    elif kind == "switch":
        names = [r.choice(["a", "Line", "Stage left", "Off", "B\u00fchne", "", *r.choice([[]] * 19 + [["b\x7f", "\u202eb"]]), "n" * r.choice([64] * 30 + [65])])
                 for _ in range(r.choice([1, 2, 3, 5, 9, 12, 16, 17]))]
        value = [",".join(names), r.choice(names * 9 + ["nowhere"])]
    elif kind != "block":
        least, greatest = oca.LIMITS[kind]
        limits = r.choice([least, 0, 5] * 6 + [least - 1]), r.choice([greatest, 100, 6] * 6 + [greatest + 1])
        value = [str(n) for n in (*limits, r.choice([5, 6] * 9 + [50, least, greatest]))]
    fields = [str(ono), str(r.choice([100] * 9 + [4096] * 6 + onos[-12:])), kind, *value, r.choice(["lockable", "no-lock"] * 15 + ["yes"]),
              r.choice(["mute", "a role", "B\u00fchne 1", "x" * r.choice([64] * 30 + [65])] * 15 + ["", "a\u2028b"])]
    onos.append(ono)
    line = " ".join(f'"{f}"' if " " in f or not f or r.randrange(9) == 0 else f for f in fields).encode()
    damage = r.randrange(90)
    return {0: line[:r.randrange(len(line))], 1: line + b" x", 2: line.replace(b" ", b"  ", 1), 3: line + b"\r", 4: line.replace(b"l", b"\xff"),
            5: line.replace(b'"', b"", 1), 6: b"# " + line, 7: b""}.get(damage, line)


def trees(checks):
    """`show --tree` and `replay --tree` of the example and of random texts, right and wrong, against the second implementation."""
    r = random.Random(1)
    with tempfile.TemporaryDirectory() as folder:
        path = f"{folder}/objects.tree"
        long = b"".join(b"%d 100 mute muted lockable mute\n# %s\n" % (4096 + n, b"-" * (n % 90)) for n in range(127))
        example = TOP / "examples/stagebox.tree"  # the second implementation reads no labels: they are taken off
        plain = re.sub(r'^object (.*) on "[^"]*"$', r"\1", example.read_text().split("\n", 1)[1], flags=re.MULTILINE)
        texts = [plain.encode(), b"", long, long.replace(b"4190 100", b"4190 101")]
        for _ in range(300):
            onos = []
            lines = [b"4096 100 block lockable desk"] * r.randrange(2) + [listed_line(r, onos) for _ in range(r.choice([1, 2, 5, 9, 12]))]
            texts.append(b"\n".join(lines) + b"\n" * r.randrange(2))
        for text in texts:
            Path(path).write_bytes(text)
            try:
                expected = (oca.show(oca.tree_of_text(text)).encode(), b"", 0)
            except oca.ObjectFault as fault:
                expected = (b"", f"note: {path}: line {fault.args[0]} is wrong\nline {fault.args[0]}: {fault.args[1]}\n".encode(), 2)
            checks.same(f"show --tree of {text!r}", checks.ran("ocadev", "show", "--tree", path, given=b"", text=False), expected)
        tree = oca.tree_of_text(texts[0])
        blocks = [block.ono for block in tree if block.role.startswith("channel ")]
        strips = [[(o.kind, o.role) for o in oca.members(tree, ono)] for ono in blocks]
        checks.same("the example: its channels are alike", (len(strips), strips), (8, [strips[0]] * 8))
        checks.same("the example: a channel", strips[0], [("mute", "mute"), ("polarity", "polarity"), ("int16", "trim"), ("switch", "source")])
        shown = checks.ran("ocadev", "show", "--tree", str(example), given=b"", text=False)
        checks.same("the example with its labels", shown, (oca.show(tree).encode(), b"", 0))
        Path(path).write_bytes(texts[0])
        get = oca.command(1, 4101, 4, 5)
        out = checks.ran("ocadev", "replay", "--tree", path, given=f"0 127.0.0.1:9001 {get.hex()}\n")[0]
        said, packets = oca.Device(oca.tree_of_text(texts[0])).datagram((127, 0, 0, 1, 9001), get, 0)
        checks.same("replay --tree", out, f"{said}\n> {packets[0].hex()}\n")


if __name__ == "__main__":
    sys.exit(Checks(sys.argv[1]).tried(scenes, faults, bad_values, missing_options, versions, trees))
