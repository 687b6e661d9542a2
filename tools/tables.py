"""Rows of data: the files tools/rows/NAME.toml. Other tools use it; it has no `main`.

In each text `{N*TEXT}` stands for TEXT so many times, and `{NAME}` for the text of this name in the file's table `text`, or for one that the tool gives;
no other brace stands there. Where bytes are meant a letter is one byte: \\u00ff is the byte 255."""
import itertools
import re
import tomllib
from pathlib import Path
from types import SimpleNamespace

TOP = Path(__file__).resolve().parent.parent
ROWS = TOP / "tools/rows"
TIMES, NAME = re.compile(r"\{(\d+)\*([^{}]*)\}"), re.compile(r"\{([a-z][a-z0-9_]*)\}")


def mapped(value, of, kind=list):
    """A value with what this gives of each part that is no table and no list; its lists are of this kind."""
    if isinstance(value, dict):
        return {key: mapped(it, of, kind) for key, it in value.items()}
    return kind(mapped(it, of, kind) for it in value) if isinstance(value, (list, tuple)) else of(value)


def whole(value, names):
    """A value with all texts in it written out."""
    def written(text):
        while isinstance(text, str) and (found := TIMES.search(text) or NAME.search(text)):
            its = found[2] * int(found[1]) if found.re is TIMES else str(names[found[1]])
            text = text[:found.start()] + its + text[found.end():]
        return text

    return mapped(value, written)


def as_it_stands(name):
    """The file of this name: rows by their kind."""
    return tomllib.loads((ROWS / f"{name}.toml").read_text())


def table(name, **names):
    """The same but for scenes, with all texts in it written out, also by the table `text`."""
    read = {kind: rows for kind, rows in as_it_stands(name).items() if kind != "scene"}
    return whole(read, read.get("text", {}) | names)


def data(name):
    """The tables of the file of this name, as they stand there, each an attribute: lists are tuples."""
    return SimpleNamespace(**mapped(as_it_stands(name), lambda it: it, tuple))


def each(row, *keys):
    """A row for each choice of one of these keys' values, where they are lists."""
    lists = [key for key in keys if isinstance(row.get(key), list)]
    for chosen in itertools.product(*(row[key] for key in lists)):
        yield row | dict(zip(lists, chosen))


def octets(text):
    return text.encode("latin-1")
