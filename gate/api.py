#!/usr/bin/env python3
"""Lists each public call and type of the libraries that embedders use, and each call of include/oca.h, with the first
sentence of its comment.

Usage: api.py     writes out/API.md

What a library exports is what its lib.rt names: what it uses with `pub`, and all of its public modules. The sources are
formatted, so that what begins a line, or stands behind four spaces in an `impl` or a trait, is an item of it."""
import itertools
import re
import textwrap
from pathlib import Path

import reference

TOP = Path(__file__).resolve().parent.parent
PAGE = TOP / "out/API.md"
HEAD = """# The public API by crate

Each public type and call, with the first sentence of its comment. Its contract and its errors are above it in
`crates/NAME/src`. docs/EMBEDDING.md and docs/EMBEDDING-C.md show the calls in use. Moments and times are in
milliseconds.
"""
LIBRARIES = ("oca_types oca_pdu oca_model oca_tree oca_session oca_net oca_device oca_control oca_panel oca_pair oca_promise "
             "oca_wait oca_script oca_textree").split()
OWNER = r"(?:impl(?:<[^{]*?>)? (\w+)(?:<[^{]*>)?|pub trait (\w+).*) \{"
TRAIT = r"(?m)^impl(?:<[^{]*?>)? (?:fmt::)?(Default|Iterator|Display|FromStr|Add|From<[^{]*?>) for (\w+)"
ITEM = r"(pub )?(?:const )?(fn|struct|enum|trait|const|type) (\w+)"
MEMBER = r"    (pub )?(?:const )?(fn|const) (\w+)"


def first_sentence(lines):
    text = " ".join(line.strip() for line in itertools.takewhile(str.strip, lines))
    text = re.sub(r"\[(`[^`]*`)\](?:\([^)]*\))?", r"\1", text)
    return re.match(r".*?\.(?= [A-Z`(]|$)|.*", text)[0]


def shown(text):
    """An item as it is declared, in one line: neither its contract nor its body, of a type what is public of it."""
    text = re.sub(r"(?m)^\s*(?:///?.*|#\[.*|(?:pub )?ghost .*)\n", "", text)
    kind = re.match(ITEM, text.strip())[2]
    of_code = r"\n\s*(?:ensures|requires|decreases|where)\b|\n?\s*\{|;"
    ends = {"fn": of_code, "const": of_code, "type": of_code, "trait": r"[:{]", "struct": r"\n\}|;", "enum": r"\n\}|;"}
    text = re.split(ends[kind], text, maxsplit=1)[0]
    if kind == "struct":
        text = re.sub(r"(?m)^    (?!pub )\w+: .*\n?|(?<=\()[a-z]\w*(?=\))", "", text)
    text = re.sub(r"\(\s+", "(", re.sub(r",?\s+\)", ")", " ".join(text.split())))
    text = re.sub(r",? \}", " }", re.sub(r"(\{ .*?),?$", r"\1 }", text)) if kind in ("struct", "enum") else text
    return re.sub(r" \{ *\}?$", "", re.sub(r"\bpub ", "", text))


def items(text):
    """The items of a source: the owner of each, none of one that stands alone, its name, whether it is public, and the row that lists it."""
    doc, owner, is_trait, at = [], None, False, 0
    for line in text.splitlines(keepends=True):
        opened, member = re.match(OWNER, line), owner and re.match(MEMBER, line)
        found = member or re.match(ITEM, line)
        if found:
            row = shown(text[at:]), first_sentence(doc)
            yield owner if member else None, found[3], bool(found[1]) or bool(member and is_trait), row
        if opened:
            owner, is_trait = opened[1] or opened[2], bool(opened[2])
        elif line.startswith("}"):
            owner = None
        comment = re.match(r"\s*///(.*)", line)
        doc = doc + [comment[1]] if comment else doc if line.strip().startswith("#[") else []
        at += len(line)


def listed(crate):
    """The rows of a library, in the order of its files: each type with its own calls behind it."""
    source = TOP / "crates" / crate / "src"
    top = (source / "lib.rt").read_text()
    used = {name for names in re.findall(r"pub use (?!oca_)\w+::([^;]*);", top) for name in re.findall(r"\w+", names)}
    modules, found, has = re.findall(r"pub mod (\w+);", top), [], {}
    for file in sorted(source.rglob("*.rt")):
        for of, name in re.findall(TRAIT, file.read_text()):
            has.setdefault(name, []).append(f"`{of}`")
        module = str(file.relative_to(source)).removesuffix(".rt").split("/")[0]
        path = f"{module}::" if module in modules else ""
        found += [(owner, name, path, row) for owner, name, is_public, row in items(file.read_text())
                  if is_public and (owner or path or name in used or file.name == "lib.rt")]
    types = {name for owner, name, _, _ in found if not owner}
    rows = []
    for _, name, path, (declared, said) in (it for it in found if not it[0]):
        said += f" Has {', '.join(has[name])}." if name in has else ""
        rows.append((declared if name in used or not path else declared.replace(name, path + name, 1), said))
        rows += [(re.sub(rf"(fn|const) {its}", f"{name}::{its}", row[0], count=1), row[1])
                 for owner, its, _, row in found if owner == name and name in types]
    return rows


def table(head, rows):
    cells = "".join("| `{}` | {} |\n".format(*(it.replace("|", "\\|") for it in row)) for row in rows)
    return f"## {head}\n\n| Item | |\n|---|---|\n{cells}"


def about(crate):
    """What a library is, by the first sentence of its lib.rt."""
    lines = re.findall(r"(?m)^//!(.*)$", (TOP / "crates" / crate / "src/lib.rt").read_text())
    return first_sentence(lines)


def made():
    parts = [table(f"`{crate}`\n\n{textwrap.fill(about(crate), 120)}", listed(crate)) for crate in LIBRARIES]
    of_header = [(" ".join(declared.rstrip(";").split()).removeprefix("static inline "), first_sentence([said]))
                 for said, calls, _ in reference.paragraphs(reference.HEADER.read_text()) for declared in calls.values()]
    return "\n".join([HEAD, *parts, table("`oca.h`", of_header)])


if __name__ == "__main__":
    PAGE.parent.mkdir(exist_ok=True)
    PAGE.write_text(made())
