#!/usr/bin/env python3
"""Makes `crates/oca_web/src/page.rt` from the sources of the page in `crates/oca_web/page/`, with the hashes of its style and its script.

Usage: page.py     writes page.rt; `tools/panel_trial.py` compares it with what the sources make

Comments and spaces are left out, and the names that the script itself declares are cut short, each to another one: so nothing in
the sources may rely on a name of a function or of a constant as a text. In the sources of the script a comment begins its line, no
regular expression has a space or a quote, no template is used, and a statement ends in a semicolon or a brace. A function that a
source declares at its top ends with the next line that is one brace.

No step of the gate."""
import base64
import functools
import hashlib
import re
from collections import Counter

from tables import TOP, data

SOURCES, TARGET = TOP / "crates/oca_web/page", TOP / "crates/oca_web/src/page.rt"
SCRIPTS = ["words", "link", "orders", "log", "controls", "faders", "strips", "tree", "main"]
MOST = 49_152
# The names that are not the page's own: of the language and the browser, of what the program says, and those that are used as texts too.
DATA = data("page")
KEPT = {*DATA.kept.split()}
TOKEN = re.compile(r"""("(?:[^"\\\n]|\\.)*"|'(?:[^'\\\n]|\\.)*')|((?:(?<=[(=:,!&|?{};>])|(?<=[(=:,!&|?>]\s))/(?![/*=\s])(?:[^/\\\n\[]|\\.|\[(?:[^\]\\\n]|\\.)*\])+/[a-z]*)|([A-Za-z_$][\w$]*)|(\d[\w.]*)|(\s+)|(.)""")

FUNCTION = re.compile(r"^(async )?function (\w+)\((.*?)\) \{\n(.*?)^\}$", re.MULTILINE | re.DOTALL)


def style(folder):
    text = re.sub(r"/\*.*?\*/", "", (folder / "page.css").read_text(), flags=re.DOTALL)
    text = re.sub(r"\s+", " ", text)
    text = re.sub(r"\s*([{};,>])\s*", r"\1", text)
    text = re.sub(r":\s+", ":", text)
    for short, name in zip("abceghijklmnoqrst", sorted(set(re.findall(r"--([a-z]{2,})", text)))):
        text = re.sub(rf"--{name}\b", f"--{short}", text)
    return text.replace(";}", "}").strip()


def tight(match):
    """A token as it stands. Of spaces one is left where what is before and behind them would else be read as one token."""
    start, end = match.span()
    if not match[0].isspace():
        return match[0]
    return " " if re.fullmatch(r"[\w$]{2}|[+-]{2}", match.string[start - 1:start] + match.string[end:end + 1]) else ""


def without_spaces(text):
    """A script without its comments and the spaces that it does not need."""
    text = "\n".join(line for line in text.splitlines() if not line.lstrip().startswith("//"))
    text = TOKEN.sub(tight, re.sub(r"; {2,}//.*", ";", text))
    return re.sub(r",([}\])])", r"\1", text.replace(";}", "}"))


@functools.cache
def short_names(folder):
    """For each name of the page's own a short one, the shortest for what stands most often."""
    counts = Counter(match.group(3) for match in TOKEN.finditer(sources(folder)) if match.group(3))
    own = sorted((name for name in counts if name not in KEPT and len(name) > 2), key=lambda name: (-counts[name] * len(name), name))
    letters = "abcdefghijklmnopqrstuvwxyzABCDEFGHIJKLMNOPQRSTUVWXYZ"
    free = (one for one in [*letters, *(a + b for a in letters for b in letters)] if one not in KEPT and one not in counts)
    return dict(zip(own, free))


def shorten(text, folder=SOURCES):
    """A script with the short names in place of the page's own; it may be one that is to run beside the page's."""
    shorter = short_names(folder) | {"const": "let", "true": "!0", "false": "!1"}
    return "".join(shorter.get(match.group(3), match.group(0)) for match in TOKEN.finditer(text))


def joined(text):
    """The script with declarations that follow one another as one."""
    out, begins = [], [""]  # at each level the word with which the statement begins
    for token in (match[0] for match in TOKEN.finditer(text)):
        out.append("\0" if token == ";" and begins[-1] == "let" else token)  # the end of a declaration
        if token in "([{":
            begins.append("")
        elif token in ")]}":
            begins.pop()
            begins[-1] = "" if token == "}" and begins[-1] != "let" else begins[-1]
        elif token == ";":
            begins[-1] = ""
        elif not token.isspace():
            begins[-1] = begins[-1] or token
    return re.sub(r"\0let(?![\w$])\s*", ",", "".join(out)).replace("\0", ";")


def members_once(text, folder):
    """The script with the browser's names that stand often behind a point as texts that are said once: `x.textContent` becomes `x[a]`."""
    tokens = [match[0] for match in TOKEN.finditer(text)]
    members = [at for at in range(2, len(tokens)) if tokens[at - 1] == "." and tokens[at - 2] not in (".", "?") and re.fullmatch(r"[A-Za-z]{5,}", tokens[at])]
    counts, taken = Counter(tokens[at] for at in members), {*tokens, *short_names(folder).values()}
    letters = "abcdefghijklmnopqrstuvwxyzABCDEFGHIJKLMNOPQRSTUVWXYZ"
    free = (a + b for a in "$_" for b in letters if a + b not in taken)
    texts = {name: next(free) for name, count in counts.most_common() if count * (len(name) - 3) > len(name) + 6}
    for at in members:
        if tokens[at] in texts:
            tokens[at - 1:at + 1] = "", f"[{texts[tokens[at]]}]"
    return "let " + ",".join(f'{short}="{name}"' for name, short in texts.items()) + ";" + "".join(tokens)


def as_arrow(found):
    """A function that is declared at the top of a script, as an arrow function, which is shorter. So none is called before it is declared."""
    is_async, name, given, body = found.groups(default="")
    given = given if re.fullmatch(r"[\w$]+", given) else f"({given})"
    return f"const {name} = {is_async}{given} => {{\n{body}}};"


def sources(folder):
    return without_spaces(FUNCTION.sub(as_arrow, "\n".join((folder / f"{name}.js").read_text() for name in SCRIPTS)))


def script(folder):
    return '"use strict";' + members_once(joined(shorten(sources(folder), folder)), folder)


def page(folder=SOURCES):
    css, js = style(folder), script(folder)
    return (folder / "page.html").read_text().replace("\npage.css\n", css).replace("\npage.js\n", js), css, js


def digest(text):
    return base64.b64encode(hashlib.sha256(text.encode()).digest()).decode()


def made():
    text, css, js = page()
    return DATA.head.replace("{style}", digest(css)).replace("{script}", digest(js)).replace("{page}", text)


def main():
    TARGET.write_text(made())
    print(f"{TARGET.relative_to(TOP)}: the page has {len(page()[0].encode())} bytes")


if __name__ == "__main__":
    main()
