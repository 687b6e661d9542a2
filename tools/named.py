"""What documents name of crates/: contracts, places in the code, and the definitions that a statement rests on. It has no `main`."""
import functools
import re

from tables import TOP

NAMES = r"\b(?:fn|struct|enum|trait|type|ensures|record|data|(?:abbrev|unfoldable) pub) (\w+)"
DEFINES = r"(?m)^(?:(?:abbrev|unfoldable|pub|record|data) )+(?!use )(\w+)(.*\n(?:(?!(?:abbrev|unfoldable|pub|record|data|use) ).*\n)*)"
PLACE = r"`([\w/]+\.\w+):(\d+) (\w+)`"
CLOSED, READ = "Closed definitions", "Definitions"


def cells(text, head):
    """Of each row of the tables with this column: the number of its line, and the cells by the heads of their columns."""
    heads = []
    for number, line in enumerate(text.split("\n"), 1):
        row = [it.strip() for it in re.split(r"(?<!\\)\|", line)[1:-1]]
        if not row or head not in (heads or row):
            heads = []
        elif not heads:
            heads = row
        elif not re.fullmatch(r"[-: |]+", line):
            yield number, dict(zip(heads, row))


@functools.cache
def names():
    """The crates, and each function, type, clause, definition and module of definitions of them."""
    files = [*TOP.glob("crates/*/src/**/*.rt"), *TOP.glob("crates/*/specs/*.antt")]
    return {it.name for it in TOP.glob("crates/*")}.union({it.stem for it in files}, *(re.findall(NAMES, file.read_text()) for file in files))


def contracts(text):
    """Of each row of a column "Contract" or "Module": its line, and the names that no crate has, or None."""
    for head in ("Contract", "Module"):
        for number, row in cells(text, head):
            missing = {it for name in re.findall(r"`([\w:]+)`", row[head]) for it in name.split("::")} - names()
            yield number, f"no crate has {sorted(missing)}" if missing else None


def places(text):
    """Of each place in the code, as `oca_net/src/udp.rt:476 wait`: its line, and what is wrong with it or None."""
    for number, line in enumerate(text.split("\n"), 1):
        for path, at, name in re.findall(PLACE, line):
            file = TOP / "crates" / path
            lines = file.read_text().split("\n") if file.exists() else []
            starts = [begin for begin, it in enumerate(lines, 1) if re.search(rf"\bfn {name}\b", it)]
            yield number, None if int(at) in starts else f"{path} has {name} at {starts}"


def links(text, folder=TOP):
    """Of each link to a file in a document of this folder: its line, and what is wrong with it or None."""
    for number, line in enumerate(text.split("\n"), 1):
        for path in re.findall(r"\]\(([^):#]+)[^):]*\)", re.sub(r"`[^`]*`", "", line)):
            yield number, None if (folder / path).exists() else f"there is no {path}"


@functools.cache
def definitions():
    """Each definition of the crates, by its module and its name: its text, and the definitions that it names."""
    texts, sources, found = {}, {}, {}
    for file in TOP.glob("crates/*/specs/*.antt"):
        module, text = f"{file.parts[-3]}.specs.{file.stem}", re.sub(r"(?m)^ *--.*\n", "", file.read_text()) + "\n"
        used = {name.strip(): source for source, its in re.findall(r"(?m)^(?:pub )?use Rattle\.([\w.]+)\.\{([^}]*)\}", text) for name in its.split(",")}
        sources[module] = used, dict(map(reversed, re.findall(r"(?m)^use Rattle\.([\w.]+) as (\w+)", text)))
        texts |= {(module, name): said for name, said in re.findall(DEFINES, text)}
    made = {(module, it): (module, name) for (module, name), said in texts.items() for it in re.findall(r"(?m)^  (?:pub )?([A-Z]\w*) :", said)}
    for (module, name), said in texts.items():
        used, others = sources[module]
        its = [(others.get(front, used.get(it, module)), it) for front, it in re.findall(r"(?:\b(\w+)\.)?\b([A-Za-z_]\w*)", said)]
        there = [it if it in texts or it in made else (sources.get(it[0], ({},))[0].get(it[1]), it[1]) for it in its]
        found[module, name] = said, [made.get(it, it) for it in there]
    return found


def rests_on(root, closed):
    """The definitions that one rests on, itself too, but for what is behind the closed ones."""
    found, left = set(), [it for it in definitions() if it[1] == root]
    while left:
        it = left.pop()
        if it in definitions() and it not in found and it[1] not in closed:
            found.add(it)
            left += definitions()[it][1]
    return found


def reading(text):
    """Of a document with an order of reading: what is wrong with each file of it, and with its last definition, or None."""
    quoted = lambda cell: re.findall(r"`(\w+)`", cell)
    rows = {row["File"].strip("`"): (number, quoted(row[READ])) for number, row in cells(text, READ)}
    closed = {name for _, row in cells(text, CLOSED) for name in quoted(row[CLOSED])}
    wanted = {}
    for module, name in rests_on([*rows.values()][-1][1][-1], closed) if rows else []:
        wanted.setdefault(module.replace(".", "/") + ".antt", set()).add(name)
    for file in sorted({*rows, *wanted}):
        number, its = rows.get(file, (1, []))
        apart = sorted({*its} ^ wanted.get(file, set()))
        yield number, f"{file}: in one of both alone: {apart}" if apart else None
