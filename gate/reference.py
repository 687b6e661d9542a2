#!/usr/bin/env python3
"""The manual pages of the library for C, a page for each call, made from the comments of include/oca.h.

Usage: reference.py FOLDER     writes NAME.3 for each call into FOLDER

A comment stands for the declarations that follow it, up to the next empty line. A page has the declaration of its call, the
enums and structs that are declared beside it or named in it, the enums that the comment names, what the comment says, and
what the header says of all calls."""
import re
import sys
from pathlib import Path

TOP = Path(__file__).resolve().parent.parent
sys.path.insert(0, str(TOP / "tools"))
from tables import table

ANSWERS = table("answers")["answers"]  # of a call, by the first form that its name has
HEADER = TOP / "include/oca.h"
CALL = r"^(?:static inline )?(?:(?:enum|struct) oca_\w+|const char|u?int\d+_t|size_t|void) \*?(oca_\w+)\([^)]*\)"
TYPE = r"^(?:((?:struct|enum) oca_\w+) \{[^}]*\}|typedef \w+ \(\*(oca_\w+)\)\([^)]*\));"
# On each page anyway; and what the header's own functions call, which has no page.
NAMED_ANYWAY = ("struct oca_device", "struct oca_link", "enum oca_result")
HELPERS = {"oca_outcome_of"}

def answers_of(name):
    said = next((said for form, said in ANSWERS if re.fullmatch(form, name)), None)
    kind = re.match(r"oca_(store|socket)_", name)
    of = f"OCA_{kind[1].upper()}_" if kind else "OCA_"
    return [f"{of}{it}" for it in ["DONE", *said.split()]] if said else []


def lines_of(text):
    """The lines of the comments in a text, without the signs of the comments."""
    for part in re.findall(r"/\*(.*?)\*/", text, re.S):
        yield from (re.sub(r"^ ?\* ?", "", line).rstrip() for line in part.splitlines())
        yield ""


def blocks_of(text):
    """What the comments in a text say, as troff has it: paragraphs; each item of a list, and each answer of a call, by itself."""
    found = [".PP"]
    for line in lines_of(text):
        item = re.match(r" ?- (.*)", line)
        if item or not line.strip():
            found += [".IP \\(bu 2" if item else ".PP", *([item[1]] if item else [])]
        elif found[-1].startswith("."):
            found.append(line.strip())
        else:
            found[-1] += " " + line.strip()
    for said in found:
        if said.startswith("."):
            yield said
            continue
        for number, part in enumerate(re.split(r"(?<=[.:]) (?=Returns OCA_)", said)):
            first, *answers = re.split(r"(?<=\.) (?=OCA_[A-Z])", part)
            yield from (*[".PP"] * min(number, 1), first, *(it for answer in answers for it in (".IP \\(bu 2", answer)))


def comment_in(text):
    """What the comments in a text say, as troff has it; a macro stands only before what it is for."""
    found = [*blocks_of(text), ".PP"]
    kept = [it if it.startswith(".") else roff(it) for it, behind in zip(found, found[1:]) if not (it.startswith(".") and behind.startswith("."))]
    return "\n".join(kept).removeprefix(".PP\n")


def paragraphs(header):
    """The paragraphs of the header that declare something: what is said, the calls, each with its declaration, and the enums,
    structs and types of functions by name."""
    body = header[header.index("#define OCA_H"):]
    for text in re.split(r"\n\s*\n", body):
        calls = {found[1]: found[0] + ";" for found in re.finditer(CALL, text, re.M) if found[1] not in HELPERS}
        types = {found[1] or found[2]: found[0] for found in re.finditer(TYPE, text, re.M)}
        if calls or types:
            front = re.match(r"(\s*/\*.*?\*/)*", text, re.S)[0]
            yield comment_in(front), calls, types


def pages(header):
    """What a page has, by the name of its call: what is said of it, its declaration, the types that it names."""
    general = comment_in(header[:header.index("#ifndef OCA_H")])
    read = list(paragraphs(header))
    types = {name: (said, of) for said, _, its in read for name, of in its.items()}
    found = {}
    for said, calls, _ in read:
        for name, declared in calls.items():
            of_functions = " ".join(of for it, (_, of) in types.items() if of.startswith("typedef") and re.search(rf"\b{it}\b", declared))
            names = " ".join([declared, of_functions, *re.findall(r"enum oca_\w+", said)])
            named = [types[it] for it in types if re.search(rf"\b{it}\b", names) and it not in NAMED_ANYWAY]
            more = [about for about, _ in named if about != said]
            found[name] = ("\n.PP\n".join([said, *more]), declared, [of for _, of in named])
    return found, general


def roff(text):
    """Text as troff has it: no line begins with a control character."""
    safe = text.replace("\\", "\\\\").replace("-", "\\-")
    return re.sub(r"^([.'])", r"\\&\1", safe, flags=re.M)


def title(name, section, version, kind):
    """The title of a page, with the day on which this version was set: that of the newest one in CHANGELOG.md, if it is this one."""
    newest = re.search(r"^## \[(.+)\] - ([\d-]+)$", (TOP / "CHANGELOG.md").read_text(), re.M)
    day = newest[2] if newest and newest[1] == version.split()[-1] else "of no day"
    return f'.TH {name} {section} {day} "{version}" "{kind}"'


def page(header, general, name, said, declared, types):
    about = said.split("\n")[0].split(". ")[0].split("; ")[0].rstrip(".")
    head = title(name, 3, f"oca {version_of(header)}", "OCA (AES70) for C")
    parts = [head, ".SH NAME", f"{name} \\- {about}", ".SH SYNOPSIS", ".nf", "#include <oca.h>", "",
             *[roff(of) + "\n" for of in types], roff(declared), ".fi", ".SH DESCRIPTION", said]
    if re.search("enum oca_((store|socket)_)?result oca_", declared):
        numbers = dict(re.findall(r"(OCA_\w+) = (\d+)", header))
        texts = dict(re.findall(r'case (OCA_\w+): return "([^"]*)";', header))
        answers = "\n".join(f"{it} ({numbers[it]}): {texts[it]}" for it in answers_of(name))
        parts += [".SH RETURN VALUE", ".nf", roff(answers), ".fi"]
    return "\n".join([*parts, ".SH NOTES", general, ""])


def version_of(header):
    number = int(re.search(r"OCA_VERSION 0x(\w+)u", header)[1], 16)
    return f"{number >> 16}.{number >> 8 & 255}.{number & 255}"


def write(folder):
    header = HEADER.read_text()
    found, general = pages(header)
    folder.mkdir(parents=True, exist_ok=True)
    for name, its in found.items():
        (folder / f"{name}.3").write_text(page(header, general, name, *its))
    return found


if __name__ == "__main__":
    if len(sys.argv) != 2:
        sys.exit(__doc__)
    print(f"{len(write(Path(sys.argv[1])))} pages")
