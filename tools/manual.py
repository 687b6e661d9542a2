#!/usr/bin/env python3
"""Compares man/ocadev.1, man/ocactl.1 and man/ocapanel.1 with `--help`: commands, options, values and defaults
(`[default: N]` in the help, `The default is N` in the page). The help says something of its own of each option and
command.

Usage: manual.py BIN     BIN is the folder with the programs

In a page a command is a `.SS` of COMMANDS, and its option, behind a `.TP`, a `.BI \\-\\-NAME " VALUE"` or a `.B
\\-\\-NAME`. A `.SS` of COMMON OPTIONS lists its commands: `replay and serve`, `All commands`, or `All commands but
replay`. A program without commands has one of its own name. A page is titled by its name, the day of its version and
that version, as the pages of the calls from C are (gate/reference.py). groff, if it is installed, must find nothing to
warn of. Pages that are wrong must be found. The last line is 'N passed, M failed'."""
import functools
import re
import shutil
import subprocess
import sys
import tempfile
from collections import defaultdict
from pathlib import Path

from checks import Checks
from tables import TOP, data

sys.path.insert(0, str(TOP / "gate"))
import reference

DATA = data("manual")


@functools.cache
def told_by(*words):
    return subprocess.run(words, capture_output=True, text=True, timeout=30, check=True).stdout


def listed(text, *headings):
    """The options or commands below these headings of a help text: each with its value, or none, and with what is said of it."""
    parts = "".join(re.findall(rf"^(?:{'|'.join(headings)}):\n((?:.+\n)+)", text, re.MULTILINE))
    rows = re.findall(r"^ +(?:-\w, )?(?:--)?([a-z-]+)(?:[ =]<([^>]+)>)* *(.*)", parts, re.MULTILINE)
    return {name: (value or None, said) for name, value, said in rows}


def helps_of(program):
    """The help text of each command, of a program's own name where it has no commands."""
    text = told_by(program, "--help")
    names = sorted(listed(text, "Commands").keys() - {"help"})
    return {name: told_by(program, name, "--help") for name in names} or {Path(program).name: text}


def parts_of(text, mark):
    """The parts of a page, or of one of its parts: each with its heading."""
    return re.findall(rf"(?ms)^\.{mark} (.*?)\n(.*?)(?=^\.{mark} |\Z)", text)


def options_in(text):
    option = r'^\.TP\n\.BI? ((?:\\-)+[a-z\\-]+)(?: " ([^"]+)")?\n((?:(?!\.TP).*\n)*)'
    blocks = re.findall(option, text, re.MULTILINE)
    return {name.replace("\\", "").lstrip("-"): (value or None, default_of(told)) for name, value, told in blocks}


def commands_in_page(own, common):
    """The options of each command, its own and the common ones: for each its value or none, and its default or none."""
    commands = {name: options_in(rest) for name, rest in parts_of(own, "SS")}
    for heading, rest in parts_of(common, "SS"):
        for name, options in commands.items():
            if (name in re.findall(r"[a-z]+", heading)) != heading.startswith("All commands"):
                twice = options.keys() & options_in(rest).keys()
                options |= options_in(rest) | {option: ("two values", None) for option in twice}
    return commands


def default_of(text):
    """The default that the text of an option tells: a number or an address, or none."""
    found = re.search(r"(?:The default is|\[default:)\s(\d(?:[\d.:]*\d)?)", text)
    return found[1] if found else None


def faults_of(text, program):
    """What differs between the text of a page and the program, a line each, and how much was compared."""
    sections, helps, wanted = parts_of(text, "SH"), helps_of(program), DATA.ended[Path(program).name]
    parts = defaultdict(str, sections)
    documented = commands_in_page(parts["COMMANDS"], parts["COMMON OPTIONS"])
    faults = [f"command {name} is in one of both alone" for name in documented.keys() ^ helps.keys()]
    faults += [f"section {name} differs from another one" for name, body in sections if parts[name] != body]
    count = len(helps) + len(wanted)
    for name in sorted(documented.keys() & helps.keys()):
        page = documented[name]
        said = {option: (value, default_of(told)) for option, (value, told) in listed(helps[name], "Options").items()
                if option not in ("help", "version")}  # which every program has
        count += len(said) + sum(default is not None for _, default in said.values())
        faults += [f"{name} --{it}: {page.get(it)!r} in the page, {said.get(it)!r} in the help"
                   for it in sorted(page.keys() | said.keys()) if page.get(it) != said.get(it)]
    told = re.findall(r"^\.TP\n(\d+)\n((?:(?!\.TP\n|\.PP\n).*\n)*)", parts["EXIT STATUS"], re.MULTILINE)
    faults += [f"exit status {status}: not {words!r}" for status, words in wanted.items() if words not in dict(told).get(status, "")]
    faults += [f"exit statuses: {[status for status, _ in told]}"] if len(told) != len(wanted) else []
    return faults, count


def warnings_of(*pages):
    if not shutil.which("groff"):
        return []
    warned = subprocess.run(["groff", "-man", "-Tutf8", "-ww", *map(str, pages)], capture_output=True, text=True).stderr
    return [f"groff: {line}" for line in warned.splitlines()]


def unexplained(text):
    """The options and commands of which a help text says nothing: no sentence of more than one word, or what it says of another one."""
    said = {name: words for name, (_, words) in listed(text, "Options", "Commands").items()}
    return [name for name, words in said.items() if not re.match(r"[A-Z]\S* \S", words) or list(said.values()).count(words) > 1]


def main():
    folder, checks = sys.argv[1], Checks()
    pages = {name: TOP / f"man/{name}.1" for name in DATA.ended}
    for name, page in pages.items():
        program = f"{folder}/{name}"
        faults, count = faults_of(page.read_text(), program)
        checks.all_but(count, [f"{name}.1: {fault}" for fault in faults + warnings_of(page)])
        title = reference.title(name.upper(), 1, f"Rouxcanyon {told_by(program, '--version').split()[1]}", "User Commands")
        checks.expect(f"{name}.1 is titled otherwise than {title}", page.read_text().startswith(f"{title}\n"))
        for text in {told_by(program, "--help"), *helps_of(program).values()}:
            faults = [f"the help of {name} says nothing of {it}: {text.splitlines()[0]}" for it in unexplained(text)]
            checks.all_but(len(listed(text, "Options", "Commands")), faults)
    with tempfile.TemporaryDirectory() as place:
        checks.all_but(len(reference.write(Path(place))), warnings_of(*sorted(Path(place).iterdir())))
    for name, there, other in DATA.wrong:
        checks.finds(f" in {name}.1", pages[name].read_text(), there, other, lambda wrong, of=name: faults_of(wrong, f"{folder}/{of}")[0])
    text = told_by(f"{folder}/ocadev", "serve", "--help")
    for other in DATA.wrong_help:
        checks.finds(" in the help of --window", text, listed(text, "Options")["window"][1], other, lambda wrong: "window" in unexplained(wrong))
    return checks.verdict()


if __name__ == "__main__":
    sys.exit(main())
