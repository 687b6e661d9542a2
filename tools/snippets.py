#!/usr/bin/env python3
"""Runs the sessions of README.md and of the pages on embedding and compares what is printed, finds their pieces of code in
the files that they are of, and the examples of doc comments in tests and samples. In all documents it looks at the
tables, and at what they name of crates/ (named.py).

Usage: snippets.py BIN     BIN is the folder with the programs, which sessions call `bin/`

A session is an indented block, or a fenced one whose first word is `sh`, that begins with `$ `. Its commands run in a
folder with the repository's files; the lines behind each are what it must print. One that ends in ` &` goes on: as many
lines as stand behind it are awaited, `$ kill %1` ends the first of these, and the rest is awaited at the end. `...`
stands for any text, alone for any lines; a number behind `quiet` and the note of a small socket are not compared.
`make` is not run.

A fenced block with a path, as `rust crates/panel/src/main.rt`, must stand in that file but for its indentation; `...`
alone, or in a comment, stands for any lines. A fenced block in a doc comment of crates/ must stand in a test's crate or
a sample.

A table's second line is its rule (`|---|`), which stands nowhere else, and each line ends with a bar and has as many
cells as the first. No item of a list is without a text.

In a column `Contract` each name in backticks is that of a crate, a function, a type, a clause or a definition. A place, as
`oca_net/src/udp.rt:476 wait`, is the line where this function begins. Where tables have a column `Definitions`, they name,
by files, all that the last one rests on, but for what is behind those of a column `Closed definitions`. A link names a file that is
there. The last line is 'N passed, M failed'."""
import os
import re
import subprocess
import sys
import tempfile

from checks import NOTE, Checks, ended
from named import contracts, links, places, reading
from tables import TOP

DOCUMENTS = ["README.md", "docs/EMBEDDING-C.md", "docs/EMBEDDING.md"]
RULE = r"\| *:?-{3,}:? *\|"


def blocks(text):
    """The blocks of a document: the number of the first line, the info string (none of an indented one), the lines."""
    fenced, indented = r"^```(.*)\n((?s:.*?))(?:^```|\Z)", r"(?:\A|^ *\n)(    .*\n(?:    .*\n| *\n)*)"
    for it in re.finditer(f"(?m){fenced}|{indented}", text + "\n"):
        lines = [line[4:] for line in it[3].rstrip().split("\n")] if it[3] else it[2].split("\n")[:-1]
        yield text.count("\n", 0, it.start(3 if it[3] else 2)) + 1, (it[1] or "").strip(), lines


def is_like(expected, printed):
    """Whether the lines that were printed are those that stand there."""
    pattern = ""
    for line in expected:
        words = re.escape(re.sub(r"quiet \d+", "quiet NUMBER", line)).replace(r"quiet\ NUMBER", r"quiet \d+")
        pattern += r"(?:.*\n)*?" if line.strip() == "..." else words.replace(r"\.\.\.", ".*") + r"\n"
    return re.fullmatch(pattern, "".join(line + "\n" for line in printed)) is not None


def rest(process):
    """The lines that a command prints from here on, until it ends; none if they were taken."""
    return [] if process.stdout.closed else ended(process, 120)[0].splitlines()


def printed_by(commands, folder):
    """What the commands of a session print, in the order in which it is to stand."""
    begun = lambda command: subprocess.Popen(["bash", "-c", command], cwd=folder, stdin=subprocess.DEVNULL,
                                             stdout=subprocess.PIPE, stderr=subprocess.STDOUT, text=True)
    beside, printed = [], []
    for command, behind in commands:
        if command.endswith(" &"):
            beside.append(begun(f"exec {command[:-2]}"))
            printed += [beside[-1].stdout.readline().rstrip("\n") for _ in behind]
        elif command.startswith("kill %"):
            process = beside[int(command[6:]) - 1]
            process.terminate()
            printed += rest(process)
        else:
            printed += rest(begun(command))
    return printed + [line for process in beside for line in rest(process)]


def commands_of(lines):
    """The commands of a session, each with the lines behind it; None where it is no session."""
    starts = [at for at, line in enumerate(lines) if line.startswith("$ ")]
    is_session = starts[:1] == [0]
    return [(lines[at][2:], lines[at + 1:end]) for at, end in zip(starts, [*starts[1:], None])] if is_session else None


def fault_of_session(lines, programs):
    commands, expected = commands_of(lines), [line for line in lines if not line.startswith("$ ")]
    with tempfile.TemporaryDirectory() as folder:
        for name in {*os.listdir(TOP)} - {"bin"}:
            os.symlink(TOP / name, f"{folder}/{name}")
        os.symlink(programs, f"{folder}/bin")
        printed = [line for line in printed_by(commands, folder) if not line.startswith(NOTE)]
    if is_like(expected, printed):
        return None
    return "printed\n" + "\n".join(printed) + "\nin place of\n" + "\n".join(expected)


def is_in(code, text):
    """Whether the lines stand one after another in the text, but for their indentation."""
    stripped = lambda lines: "".join(f"{line.strip()}\n" for line in lines)
    parts = [part.strip("\n") for part in re.split(r"(?m)^[/# ]*\.\.\.\n", stripped(code))]
    pattern = r"(?:.*\n)*?".join(re.escape(f"{part}\n") for part in parts if part)
    return re.search(f"(?m)^{pattern}", stripped(text.split("\n"))) is not None


def checks_of(name, programs):
    """Of each block that is checked: where it stands, and what is wrong with it or None."""
    for number, info, lines in blocks((TOP / name).read_text()):
        where, words = f"{name}:{number}", info.split(" ")
        commands = commands_of(lines)
        if len(words) > 1 and "/" in words[1]:
            path = TOP / words[1]
            yield where, None if path.exists() and is_in(lines, path.read_text()) else f"is not in {words[1]}"
        elif commands and words[0] in ("", "sh") and any(behind for _, behind in commands):
            if any(re.match(r"(sudo )?(make|apt)", command) for command, _ in commands):
                print(f"{where}: not run")
            else:
                yield where, fault_of_session(lines, programs)


def examples():
    """Of each example of a doc comment: where it stands, and what is wrong with it or None."""
    files = [file for name in ("*_tests", "amplifier", "panel") for file in sorted(TOP.glob(f"crates/{name}/src/**/*.rt"))]
    tests = [file.read_text() for file in files]
    for file in sorted(TOP.glob("crates/*/src/**/*.rt")):
        said = [line.strip() for line in file.read_text().split("\n")]
        comments = [line[3:].strip() if line.startswith("///") else "" for line in said]
        for number, _, lines in blocks("\n".join(comments)):
            found = any(is_in(lines, text) for text in tests)
            yield f"{file.relative_to(TOP)}:{number}", None if found else "stands in no test and no sample"


def fault_of_table(rows):
    """What is wrong with lines that begin with a bar, or None. A bar in a cell is written `\\|`."""
    if len(rows) < 2 or not re.fullmatch(r"\|(?: *:?-+:? *\|)+", rows[1]):
        return "is no table: its second line is no rule"
    cells = lambda row: re.fullmatch(r"\|.*(?<!\\)\|", row) and len(re.findall(r"(?<!\\)\|", row)) - 1
    is_row = lambda number: cells(rows[number]) == cells(rows[0]) and (number == 1 or not re.search(RULE, rows[number]))
    return next((f"its line {number + 1} is no row like its head: {row}" for number, row in enumerate(rows) if not is_row(number)), None)


def tables(text):
    """Of each table of a document, each rule within a line of text, each item without a text: its line, and what is wrong with it or None."""
    plain = re.sub(r"(?ms)^```.*?^```$", lambda it: "\n" * it[0].count("\n"), text)
    for it in re.finditer(r"(?m)^[ \t]*\|.*(?:\n[ \t]*\|.*)*|^.+", plain):
        number, rows = 1 + plain.count("\n", 0, it.start()), [*map(str.strip, it[0].split("\n"))]
        if rows[0].startswith("|"):
            yield number, fault_of_table(rows)
        elif re.search(RULE, rows[0]):
            yield number, "a rule of a table stands within a line of text"
        elif re.fullmatch(r"[-*+]|[0-9]+\.", rows[0]):
            yield number, "an item of a list has no text"


def main():
    counts, files = Checks(), sorted([*TOP.glob("*.md"), *TOP.glob("docs/*.md")])
    looks = [(file, look(file.read_text())) for file in files for look in (tables, contracts, places, reading)]
    looks += [(file, links(file.read_text(), file.parent)) for file in files]
    found = ((f"{file.relative_to(TOP)}:{number}", fault) for file, its in looks for number, fault in its)
    for where, fault in [*(it for name in DOCUMENTS for it in checks_of(name, os.path.abspath(sys.argv[1]))), *examples(), *found]:
        counts.expect(where, fault is None, fault)
    return counts.verdict()


if __name__ == "__main__":
    sys.exit(main())
