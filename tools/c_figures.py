#!/usr/bin/env python3
"""The figures of the library for C: the most stack that each call takes, without that of an empty thread, and how much code there is.

Usage: c_figures.py PREFIX     PREFIX is where `make install-library` put it (its lib is PREFIX/lib)

No step of the gate. tools/c_library.py measures the same of the proved library, and holds each call to what its rows say."""
import re
import subprocess
import sys
import tempfile
from pathlib import Path

HERE = Path(__file__).resolve().parent


def stacks(place, archive, include):
    """The bytes of stack that each call takes, by its name: the most of all times that tools/c_stack.c makes it."""
    program, found = place / "c_stack", {}
    subprocess.run(["cc", "-std=gnu11", "-O2", "-Wall", "-Wextra", "-Werror", "-Wno-unused-result", f"-I{include}", "-o", program, HERE / "c_stack.c", archive,
                    "-pthread"], check=True)
    said = subprocess.run([program, place / "kept of c_stack"], capture_output=True, text=True, check=True, timeout=120).stdout
    for name, used in re.findall(r"^(oca_\w+) (\d+)$", said, re.MULTILINE):
        found[name] = max(int(used), found.get(name, 0))
    return found


def code(archive):
    """The bytes of code of each member of an archive, by its name."""
    said = subprocess.run(["size", archive], capture_output=True, text=True, check=True).stdout
    return {name: int(text) for text, name in re.findall(r"^ *(\d+)\t.*\t(\S+) \(ex ", said, re.MULTILINE)}


def main():
    prefix = Path(sys.argv[1])
    with tempfile.TemporaryDirectory() as place:
        used = stacks(Path(place), prefix / "lib/liboca.a", prefix / "include")
    for title, found in (("call | stack", used), ("part | code", code(prefix / "lib/liboca.a"))):
        print(f"| {title}, bytes |\n|---|---|")
        for name, number in sorted(found.items(), key=lambda it: -it[1]):
            print(f"| `{name}` | {number:,} |")
        print()


if __name__ == "__main__":
    sys.exit(main() if len(sys.argv) == 2 else __doc__)
