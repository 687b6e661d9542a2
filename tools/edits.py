#!/usr/bin/env python3
"""Tries the edits crates/NAME/wrong/*.edit: each turns the meaning of a function, and the prover must refuse each.

  edits.py [CRATE ..]      the edits of all crates of crates.txt, or of those alone

An edit is a line 'file: src/lib.rt' and pairs of lines 'old: TEXT' and 'new: TEXT'; each old text stands once in that
file. One check tries a group of edits in a copy of the crate: of the functions that they touch, and what these call.
The first edit of a function stands in its place; a further one too, if another check of the crate has a place for it,
or else in a copy of the function, and a copy without an edit must be proved. Other functions have no body (but methods
of traits, constants, calls from C and cycles); if anything else fails, all have theirs in one more check. A line
'clause: NAME' says which clause of the contract refuses the edit: only that one is then ensured, which saves searches
that fail; not if other code relies on the function, or if its proof is by hand.

An edit is refused if a goal of a function that it touches fails by itself, and not only since a proof file names what
is gone. What is not refused is tried in smaller groups without copies and with all bodies, and at last alone. An edit
of no function is alone; its line 'of: PATH' has the function whose proof it must break. But if it changes one file of
specs/, and that function is a law in a module of its own, then the law is copied, with its proof and those definitions
and lemmas of the crate between the two that the edit reaches: many such copies are in one check, beside a copy without
an edit, which must be proved. The edits of tools/edits_selftest/CRATE/ must not be refused, for what their line
'says: ' has: they try this tool.

Crates run side by side, as many as there are processors and memory for, or as RT_JOBS says, over the libraries that `rt
ci` left. Beside the gate's `rt ci`, which notes proved crates in the file GATE_PROVED, a crate waits for its libraries
and for an idle processor, and half as many run. With EDITS_KEPT=1 a check begins with what is kept in out/incremental,
while edits are written. The last line is 'N passed, M failed', and the exit status 1 if anything failed."""
import copy
import functools
import itertools
import os
import re
import shutil
import sys
import tempfile
import time
from concurrent.futures import FIRST_COMPLETED, ThreadPoolExecutor, wait
from pathlib import Path

ROOT = Path(__file__).resolve().parent.parent
sys.path.insert(0, str(ROOT / "gate"))
import kit

SELFTEST = ROOT / "tools" / "edits_selftest"
FLAGS = ["--jobs", "1"]
EMPTIED = "#[tactic(none)] unreachable!();"  # a body of which no goal is searched for
BY_HAND = ("Answers.antt", "Proof.antt")
MOST = 75  # edits of a crate that are tried by one lane: with more, the others would wait for it at the end
PUB = r"(?:pub(?:\([a-z: ]+\))? )?"
CLAUSE = re.compile(r"( *)(requires|ensures|ghost)(\*?)(?: (\w+):?)? \{")
FUNCTION = re.compile(rf"( *){PUB}(?:const |unsafe |extern \"C\" )*fn (\w+)")
BLOCK = re.compile(rf"( *)(?:unsafe )?{PUB}(impl|trait)\b(.*)")
COPIED = re.compile(r"_edited_\d+$|_as_\d+_stands$")  # the name of a copied file of lemmas
GONE = re.compile(r"has no field|is not in scope|has no `|was not admitted|is no name")
# What is counted: whether an edit must not be refused, and whether all is well with it.
KINDS = [(False, True), (False, False), (True, True), (True, False)]
rt = kit.toolchain(builds=False)


def say(text):
    print(f"{text}\n", end="", flush=True)  # in one piece, since several crates are told of at once


class Function:
    """A function of the sources: its module, the type or trait that it belongs to, the trait of its impl, its name, and its
    first line, the one that opens its body, if any does, and its last."""

    def __init__(self, module, block, name, lines=(0, None, 0), is_of_trait=False):
        self.module, self.name, self.is_of_trait = module, name, is_of_trait
        self.of, self.trait = block or (None, "")
        self.first, self.opens, self.last = lines

    def named(self, name):
        other = copy.copy(self)
        other.name = name
        return other

    def path(self):
        return "::".join([*self.module, *([self.of + self.trait] if self.of else []), self.name])

    def is_named(self, parts):
        """Whether the prover means it, or what lies in it, by this path below the crate."""
        inside = [it.lstrip("+") for it in parts if it != "fn"]  # one that calls itself has a + before its name
        if inside[:len(self.module)] != self.module:
            return False
        rest = inside[len(self.module):]
        return rest[:2] == [self.of + self.trait, self.name] if self.of else rest[:1] == [self.name]


def names_of(head, is_trait):
    """The names of an `impl`'s or a trait's type, and of the trait that it implements, as the prover puts them
    together. Types other than the type's own parameters stand behind: `impl<E> Session<Watched<E>>` is
    `Session+Watched+E`."""
    parameters = set()
    if head.startswith("<"):  # what the impl is generic over
        open_ones = [head[:at + 1].count("<") - head[:at + 1].count(">") for at in range(len(head))]
        end = open_ones.index(0) + 1
        parameters, head = set(re.findall(r"\w+", head[:end])), head[end:]
    parts = [re.sub(r"'\w+,? ?|\w+::", "", it).strip().lstrip("&") for it in head.split(" for ")]
    trait = "".join(map(capital, re.findall(r"\w+", parts[0]))) if len(parts) > 1 else ""
    name, *others = re.findall(r"\w+", parts[-1].split(" where ")[0]) or [""]
    at = [] if is_trait or parameters.issuperset(others) else others
    if trait:
        return "".join(map(capital, [name, *(it for it in at if it not in parameters)])), trait
    return "+".join([capital(name), *at]), trait


def capital(name):
    """A name with a first letter that is large, as the prover puts names together: of a type such as u8 too."""
    return name[:1].upper() + name[1:]


def module_of(path):
    return [it for it in Path(path).with_suffix("").parts[1:] if it not in ("lib", "main", "mod")]


def declares(text, name):
    return re.search(rf"(?m)^ *{PUB}(?:struct|enum|trait) {name}\b", text) is not None


def text_of(crate, path, texts=None):
    """What stands in a file of the crate, or in these texts by the path in the crate, if it is there."""
    return (texts or {}).get(str(path)) or Path(crate.folder, path).read_text()


def sources_of(crate, texts=None):
    """The sources of the crate by their paths, as they stand or as in these texts."""
    paths = sorted(it.relative_to(crate.folder) for it in Path(crate.folder, "src").rglob("*.rt"))
    return {str(it): text_of(crate, it, texts) for it in paths}


def lines_of(lines, first, indent):
    """The first line of a function, the one that opens its body, None if none does, and its last, in the layout of `rt
    fmt`: a brace as far in as its head, or the end of its head."""
    opens = None
    for at in range(first, len(lines)):
        is_head = at == first or lines[at].startswith(f"{indent})")
        if lines[at] in (f"{indent}}}", f"{indent}}};", f"{indent}{{}}") or is_head and lines[at].endswith(("}", ";")):
            return first, opens, at
        if opens is None and (lines[at] == f"{indent}{{" or is_head and lines[at].endswith("{")):
            opens = at
    return first, None, len(lines)


def functions_of(path, text):
    module = module_of(path)
    lines, found, block = text.split("\n"), [], None
    for at, line in enumerate(lines):
        head, of = FUNCTION.match(line), BLOCK.match(line)
        if of and not line.endswith("}"):
            block = of[1], names_of(of[3], of[2] == "trait"), of[2]
        elif block and line == block[0] + "}":
            block = None
        if head:
            is_of_trait = bool(block) and (block[2] == "trait" or bool(block[1][1]))
            found.append(Function(module, block[1] if block else None, head[2], lines_of(lines, at, head[1]), is_of_trait))
    return found


def functions_in(crate, path, text):
    """The functions of a source, each in the module of the type that it belongs to, which may be another than that of its
    impl: so the prover names it."""
    functions = functions_of(path, text)
    elsewhere = [it for it in functions if it.of and not declares(text, it.of.split("+")[0])]
    sources = sources_of(crate) if elsewhere else {}
    for function in elsewhere:
        homes = [of for of, its in sources.items() if declares(its, function.of.split("+")[0])]
        function.module = module_of(homes[0]) if homes else function.module
    return functions


def clauses_of(lines, function):
    """What the contract of the function ensures: the name of each clause, if it has one, and its lines."""
    indent, found, is_ensured = re.match(" *", lines[function.first])[0], [], False
    for at in range(function.first + 1, function.last if function.opens is None else function.opens):
        head = CLAUSE.match(lines[at])
        if head and head[1] == indent + "    ":
            is_ensured = (head[2], head[3]) == ("ensures", "")
            found += [(head[4], [])] if is_ensured else []
        if is_ensured:
            found[-1][1].append(at)
    return found


class Edit:
    """An edit: its text, the functions that it touches, none where it touches what lies in no function."""

    def __init__(self, path, crate, must_pass=False):
        self.path, self.name, self.must_pass = path, path.stem, must_pass
        self.functions, self.is_refused, self.is_misnamed = [], False, False
        is_edit = path.suffix == ".edit" and path.is_file()
        self.text = path.read_text(errors="replace").strip("\n") if is_edit else ""
        self.files, self.of = self.all_of("file"), self.all_of("of")
        self.says, self.clause = ("".join(self.all_of(word)[:1]) for word in ("says", "clause"))
        is_of_law = len(self.of) == len(self.files) == 1 and re.fullmatch(r"\w+::\w+ specs/\w+\.antt", f"{self.of[0]} {self.files[0]}")
        self.law, self.between = self.of[0].split("::") if is_of_law and not must_pass else None, []
        self.why = rt.edited(self.text, crate.folder)[1] if is_edit else "it is no edit"
        if not self.why:
            self.functions = self.touched(crate)
            self.why = self.why_not_its_clause(crate)

    def all_of(self, word):
        """What stands in the lines that begin with this word, behind it."""
        return [it.strip() for it in re.findall(rf"(?m)^{word}: (.*)$", self.text)]

    def touched(self, crate):
        """The function of each old text; none if one of these stands in no function."""
        found = []
        for word, said in re.findall(r"(?m)^(file|old): (.*)$", self.text):
            if word == "file":
                text = text_of(crate, said.strip())
                functions = functions_in(crate, said.strip(), text) if said.startswith("src/") else []
            else:
                at = text.count("\n", 0, text.find(said)) if said in text else -1
                found.append([it for it in functions if it.first <= at <= it.last][-1:])
        return [*itertools.chain(*found)] if all(found) else []

    def why_not_its_clause(self, crate):
        """Why the edit can't be refused by the clause that it names, if so."""
        if not self.clause:
            return None
        if len(self.keys()) != 1:
            return "it names a clause, and does not change one function alone"
        lines = text_of(crate, self.files[0]).split("\n")
        is_there = any(name == self.clause for name, _ in clauses_of(lines, self.functions[0]))
        return None if is_there else f"its function ensures no clause {self.clause}"

    def keys(self):
        return {(*it.module, it.of, it.name) for it in self.functions}

    def is_alone(self):
        return not self.functions or self.must_pass

    def is_of_law(self, crate):
        """Whether it can be tried in a copy of its law: then `between` has the other files to copy."""
        self.between = between(crate, *self.law, Path(self.files[0])) if self.law and not self.functions else []
        return bool(self.between)

    def can_be_copied(self):
        return len(self.files) == 1 and len(self.keys()) == 1 and not self.functions[0].is_of_trait


def attributes_of(lines, function):
    """The lines above a function that belong to it: its comment and its attributes."""
    first = function.first
    while first > 0 and lines[first - 1].strip() and (lines[first - 1].lstrip().startswith("//") or lines[first - 1][-1] not in "};{"):
        first -= 1
    return lines[first:function.first]


def is_of_cycle(lines, function):
    return "cycle(" in "\n".join(attributes_of(lines, function))


class Copy:
    """A copy of a function of a crate under another name, which stands behind it: with an edit, or as it stands where there
    is none. `edits` has those that it is tried for, `proofs` the files of its proofs, which are copies too."""

    def __init__(self, crate, name, edits, edit=None):
        self.crate, self.path, self.edits, self.edit = crate, edits[0].files[0], edits, edit
        function = edits[0].functions[0]
        self.origin, self.function = function, function.named(name)
        lines = text_of(crate, self.path, edit and rt.edited(edit.text, crate.folder)[0]).split("\n")
        head = re.sub(rf"\bfn {function.name}\b", f"fn {name}", lines[function.first], count=1)
        self.lines = [*attributes_of(lines, function), head, *lines[function.first + 1:function.last + 1]]
        old, new = (Path("proofs", *it.path().split("::")) for it in (self.origin, self.function))
        self.proofs = {str(new / file.name): file.read_text().replace(".".join(old.parts) + ".", ".".join(new.parts) + ".")
                       for file in proofs_of(crate, function)}

    def put_into(self, texts):
        """Adds it, and its proofs, to these texts of the crate."""
        lines, behind = text_of(self.crate, self.path, texts).split("\n"), self.origin.last + 1
        texts[self.path] = "\n".join([*lines[:behind], "", *self.lines, *lines[behind:]])
        texts |= self.proofs


class LawFunction(Function):
    """A law, or a copy of one: the prover means it by a path in its module, or by the name of a copied file of lemmas."""

    def __init__(self, module, name, lemmas=()):
        super().__init__([module], None, name)
        self.lemmas = lemmas

    def is_named(self, parts):
        return parts[:1] == self.module or len(parts) == 1 and parts[0] in self.lemmas


class LawCopy:
    """A copy of the module of a law under another name, and of these files of specs/ and proofs/ that lie between the
    law and an edit: with the edit, or as they stand where there is none."""

    edits = ()

    def __init__(self, crate, law, files, ending, edit=None):
        module, name = law
        self.crate, self.edit, self.ending, self.origin = crate, edit, ending, LawFunction(module, name)
        self.function = LawFunction(module + ending, name, {it.stem + ending for it in files if it.parts[0] == "proofs"})
        names = [rf"{it.parts[0]}(?:\.|::){it.stem}\b" for it in files] + [rf"proofs\.{module}(?=\.)"]
        named = re.compile(rf"\b(?:Rattle\.{crate.name}\.|crate::)(?:{'|'.join(names)})")
        changed = rt.edited(edit.text, crate.folder)[0] if edit else {}
        copied = {file: file.with_name(f"{file.stem}{ending}.antt") for file in files}
        copied[Path("src", f"{module}.rt")] = Path("src", f"{module}{ending}.rt")
        copied |= {file: Path("proofs", module + ending, *file.parts[2:]) for file in proofs_of_law(crate, module, name)}
        texts = {to: imports_of_their_own(crate, text_of(crate, file, changed)) for file, to in copied.items()}
        self.texts = {str(to): named.sub(rf"\g<0>{ending}", text) for to, text in texts.items()}
        self.proofs = {path for path in self.texts if path.startswith("proofs/")}
        self.declared = [(f"{it.parts[0]}/Lib.antt", f"mod {it.stem}", "") for it in files] + [("src/lib.rt", f"mod {module}", ";")]

    def put_into(self, texts):
        """Adds its files to these texts of the crate, and declares each behind the one that it copies."""
        for path, line, end in self.declared:
            both = rf"\g<0>\n\g<1>{line}{self.ending}{end}"
            texts[path] = re.sub(rf"(?m)^((?:pub )?){line}{end}$", both, text_of(self.crate, path, texts))
        texts |= self.texts


@functools.cache
def passed_on(folder, name):
    """Where the words are defined that files of proofs/ do nothing but pass on: by the module of such a file and the word."""
    line, found = re.compile(r"(?m)^pub use ([\w.]+)\.\{(.*)\}$"), {}
    for file in Path(folder, "proofs").glob("*.antt"):
        text = re.sub(r"(?m)^--.*$", "", file.read_text())
        its = [(word, of) for of, words in line.findall(text) for word in words.split(", ")]
        found |= {(f"Rattle.{name}.proofs.{file.stem}", word): of for word, of in its if not line.sub("", text).strip()}
    return found


def imports_of_their_own(crate, text):
    """The text of a file that imports each word from where it is defined: then it only reaches what it names."""
    def said(line):
        homes = {}
        for word in line[2].split(", "):
            homes.setdefault(passed_on(crate.folder, crate.name).get((line[1], word), line[1]), []).append(word)
        return "\n".join(f"use {of}.{{{', '.join(words)}}}" for of, words in homes.items())

    return re.sub(rf"(?m)^use (Rattle\.{crate.name}\.proofs\.\w+)\.\{{(.*)\}}$", said, text)


def with_called(crate, module, name):
    """The law and the functions of its module that it calls: the text of each, by its name."""
    path, called, new = f"src/{module}.rt", {}, {name}
    text = text_of(crate, path)
    bodies = {it.name: "\n".join(text.split("\n")[it.first:it.last + 1]) for it in functions_of(path, text)}
    while new:
        called |= {it: bodies[it] for it in new}
        new = {*re.findall(r"\b(\w+)\(", "\n".join(called.values()))} & {*bodies} - {*called}
    return called


def proofs_of_law(crate, module, name):
    folders = [Path(crate.folder, "proofs", module, it) for it in sorted(with_called(crate, module, name))]
    return [file.relative_to(crate.folder) for it in folders for file in sorted(it.glob("*.antt"))]


def types_of_law(crate, module, name):
    """What the law, or what it calls, has of other modules of the crate: as a path that the prover makes."""
    words = {*re.findall(r"\w+", "\n".join(with_called(crate, module, name).values()))}
    uses = re.findall(r"(?m)^use crate::([\w:]+)::(?:(\w+)|\{([^}]*)\});", text_of(crate, f"src/{module}.rt"))
    found = {(path.replace("::", "."), it) for path, *names in uses for it in re.findall(r"\w+", " ".join(names))}
    return {f"specs.declared.{path}.{it}" for path, it in found if it in words}


def between(crate, module, name, edited):
    """The files of specs/ and proofs/ that the law and its proof reach, and which reach the edited one, with this one.
    None if the law can't be copied: it is in no module of its own, or what the prover makes of other sources may depend
    on these files, which a copy would not change."""
    law = Path("src", f"{module}.rt")
    if not Path(crate.folder, law).is_file() or f"mod {module};" not in text_of(crate, "src/lib.rt"):
        return []
    named = re.compile(rf"(?:\bRattle\.{crate.name}\.|\bcrate::)(specs|proofs)(?:\.|::)(\w+)((?:\.\w+)*)")
    files = [law, *proofs_of_law(crate, module, name)]
    text = lambda *files: imports_of_their_own(crate, "\n".join(text_of(crate, it) for it in files))
    texts, reached, made, todo = {law: text(*files)}, {}, {}, [law]
    while todo:
        at = todo.pop()
        found = {(Path(kind, f"{stem}.antt"), f"{kind}.{stem}{more}") for kind, stem, more in named.findall(texts[at])}
        reached[at] = {it for it, _ in found if Path(crate.folder, it).is_file()}
        made[at] = {path for it, path in found if it not in reached[at] and not path.startswith(f"proofs.{module}.")}
        todo += reached[at] - {*texts}
        texts |= {it: text(it) for it in reached[at] - {*texts}}
    made[law] |= types_of_law(crate, module, name)
    copied = {edited}
    while more := {at for at in reached if reached[at] & copied} - copied:
        copied |= more
    files = copied - {law}
    reads = re.compile(rf"\bRattle\.{crate.name}\.specs\.({'|'.join(it.stem for it in files)})\b")
    sources = sources_of(crate)
    is_plain = law in copied and not any(depends(sources, path, reads) for at in copied for path in made[at])
    return sorted(files) if is_plain else []


def depends(sources, path, reads):
    """Whether what the prover makes under this path is of a source that reads these definitions: but for a plain type."""
    parts = re.sub(r"^(specs\.declared|specs|proofs)\.", "", path).split(".")
    modules = {file: module_of(file) for file in sources}
    its = [text for file, text in sources.items() if modules[file] and parts[:len(modules[file])] == modules[file] and reads.search(text)]
    types = parts if path.startswith("specs.declared.") else []
    return any(not any(is_plain_type(sources, text, it) for it in types) for text in its)


def is_plain_type(sources, text, name):
    """Whether a source with this text declares this enum or struct, and the prover makes of it its cases or its fields
    alone: neither it nor a type of the crate in it has a model or a ghost field."""
    declared = re.search(rf"(?m)^{PUB}(?:enum|struct) {name}\b(?:[^{{]*?;$|(?s:.*?)^}}$)", text)
    if not declared or "ghost" in declared[0] or re.search(rf"\bModel for {name}\b", text):
        return False
    inside = {*re.findall(r"\b[A-Z]\w*", declared[0])} - {name}
    of_crate = [(it, other) for it in inside for other in sources.values() if re.search(rf"(?m)^(?:pub.*)?(?:enum|struct) {it}\b", other)]
    return all(is_plain_type(sources, other, it) for it, other in of_crate)


def proofs_of(crate, function):
    folder = Path(crate.folder, "proofs", *function.path().split("::"))
    return sorted([*folder.glob("*.antt"), *folder.with_name(f"+{folder.name}").glob("*.antt")])


def can_be_empty(lines, function):
    """Whether the body of the function can be left out: some kinds can't, nor can a one-liner."""
    head = lines[function.first]
    is_kept = function.is_of_trait or re.search(r"\bconst fn|extern \"C\"", head) or is_of_cycle(lines, function)
    return function.opens is not None and not is_kept and len(re.findall(r"\bfn \w", head)) == 1


def emptied(crate, texts, touched):
    """The texts with empty bodies of untouched functions, which callers don't need; and these."""
    found, paths, texts = [], {it.path() for it in touched}, dict(texts)
    for path, text in sources_of(crate, texts).items():
        before = text.split("\n")
        lines, empty, functions = [*before], [], functions_in(crate, path, text)
        for function in functions:
            if can_be_empty(lines, function) and function.path() not in paths:
                indent = re.match(" *", lines[function.opens])[0]
                body = [f"{indent}    {EMPTIED}", *[""] * function.last]
                lines[function.opens + 1:function.last] = body[:function.last - function.opens - 1]
                empty.append(function)
        if all(before[it.first:it.last + 1] == lines[it.first:it.last + 1] for it in functions if it.path() in paths):
            texts[path] = "\n".join(lines)
            found += empty
    return texts, found


@functools.lru_cache(200)
def calling_code(text, but=None):
    """What of a source can call functions: no comments, uses and contracts, and nothing of this function of the source."""
    lines = re.sub(r"(?m)^ *//.*$", "", text).split("\n")
    for it in functions_of("src/lib.rt", text):
        is_itself = but and (it.of, it.trait, it.name) == (but.of, but.trait, but.name)
        for at in range(it.first, it.last + 1) if is_itself else range(it.first + 1, it.opens or 0):
            lines[at] = ""
    return re.sub(rf"(?ms)^ *{PUB}(?:ghost )?use .*?;", "", "\n".join(lines))


def called_as(function, text):
    """How code calls the function, by all that stands in the sources: a path that ends in its name, where it is no method;
    else its name behind a value's dot or behind its type, which may have other names."""
    name, types = function.name, {(function.of or "").split("+")[0], "Self"}
    if not function.of:
        return re.compile(rf"(?<![.\w])(?<!fn )(?<!mod ){name}\b(?!: )")
    others = re.findall(r"\btype (\w+)[^=;]*= *([^;]*);", text) + [(new, old) for old, new in re.findall(r"\b(\w+) as (\w+)", text)]
    for _ in others:
        types |= {new for new, old in others if not types.isdisjoint(re.findall(r"\w+", old))}
    return re.compile(rf"\.\s*{name}\s*(\(|::<)|(\b({'|'.join(sorted(types))})|>)::{name}\b")


def is_called(function, path, sources):
    """Whether other code of these sources may call the function, which stands at this path. It is told by the name, since no
    types of values are known here: where a macro of the crate may make the call, by any word. A trait's method, which an
    operator may call, one of a cycle, and a function that has another name somewhere may always be called."""
    text = "\n".join(sources.values())
    if function.is_of_trait or is_of_cycle(sources[path].split("\n"), function) or re.search(rf"\b{function.name} as \w", text):
        return True
    macros = re.compile("|".join([r"\bmacro_rules!", *(rf"\b{it}!" for it in re.findall(r"\bmacro_rules! (\w+)", text))]))
    word, call = re.compile(rf"(?<!fn )\b{function.name}\b"), called_as(function, text)
    forms = {at: word if macros.search(source) else call for at, source in sources.items()}
    return any(forms[at].search(calling_code(source, function if at == path else None)) for at, source in sources.items())


def narrowed(crate, texts, wanted):
    """The texts with only wanted clauses of functions that no other code calls; and their paths."""
    sources = sources_of(crate) | {path: text for path, text in texts.items() if path.startswith("src/")}
    texts, found = dict(texts), set()
    for path, text in sources.items():
        lines = text.split("\n")
        for function in functions_in(crate, path, text):
            if function.path() in wanted and not is_called(function, path, sources):
                others = [at for name, places in clauses_of(lines, function) if name not in wanted[function.path()] for at in places]
                for at in others:
                    lines[at] = ""
                found |= {function.path()} if others else set()
        if "\n".join(lines) != text:
            texts[path] = "\n".join(lines)
    return texts, found


class Group:
    """Edits that one check tries: some in their places, others in copies of the functions that those change."""

    def __init__(self, edit, in_law=False):
        self.placed, self.copied, self.of_laws = [] if in_law else [edit], [], [edit] if in_law else []

    def edits(self):
        return [*self.placed, *self.copied, *self.of_laws]

    def empties(self):
        return not any(it.is_alone() for it in self.placed)

    def take(self, edit, crate, with_copies):
        """Takes the edit, where it can be tried beside the others, and says whether it can."""
        if not self.empties():
            return False
        if edit.is_alone():
            in_law = with_copies and edit.is_of_law(crate)
            self.of_laws += [edit] if in_law else []
            return in_law
        taken = set().union(*(it.keys() for it in self.placed))
        if not taken & edit.keys() and not rt.edited("\n".join(it.text for it in [*self.placed, edit]), crate.folder)[1]:
            self.placed.append(edit)
            return True
        if with_copies and edit.can_be_copied():
            self.copied.append(edit)
            return True
        return False

    def copies(self, crate):
        """The copies of functions, the last ones of a file first, and those of laws; of each of them also one without an edit."""
        return sorted(self.of_functions(crate), key=lambda it: -it.origin.last) + self.of_their_laws(crate)

    def of_functions(self, crate):
        found = []
        for number, edit in enumerate(self.copied, 1):
            name, edits = edit.functions[0].name, [it for it in self.copied if it.keys() == edit.keys()]
            found += [Copy(crate, f"{name}_as_it_stands", edits)] if edits[0] is edit else []
            found.append(Copy(crate, f"{name}_edited_{number}", [edit], edit))
        return found

    def of_their_laws(self, crate):
        of, found = {}, []
        for number, edit in enumerate(self.of_laws, len(self.copied) + 1):
            of.setdefault(tuple(edit.law), set()).update(edit.between)
            found.append(LawCopy(crate, edit.law, edit.between, f"_edited_{number}", edit))
        return found + [LawCopy(crate, law, sorted(files), f"_as_{number}_stands") for number, (law, files) in enumerate(sorted(of.items()))]

    def wanted(self, crate, copies):
        """The clauses that refuse a function's edits, by its path, if each names one; none by hand."""
        tried = [(it.functions[0], it.functions[0], [it]) for it in self.placed if len(it.keys()) == 1]
        found = {}
        for origin, function, edits in tried + [(it.origin, it.function, it.edits) for it in copies]:
            by_hand = any(file.name in BY_HAND for file in proofs_of(crate, origin))
            found.setdefault(function.path(), set()).update("" if by_hand else it.clause for it in edits)
        return {path: clauses for path, clauses in found.items() if clauses and "" not in clauses}

    def texts(self, crate, copies):
        """The texts of the files that the group changes or adds, by their paths in the crate."""
        texts = dict(rt.edited("\n".join(it.text for it in self.placed), crate.folder)[0]) if self.placed else {}
        for it in copies:
            it.put_into(texts)
        return texts


def grouped(edits, crate, with_copies=False):
    """Puts the edits into groups that touch no function twice, but for copies of it; what touches no function, or must pass, is alone.
    An edit is only tried in a copy if it has no place in any group, since a copy as the function stands is one proof more."""
    groups, ways = [], [False, True] if with_copies else [False]
    for edit in sorted(edits, key=Edit.can_be_copied):
        if not any(group.take(edit, crate, copies) for copies in ways for group in groups):
            groups.append(Group(edit, with_copies and edit.is_of_law(crate)))
    return groups


class Answer:
    """What the prover said of a copy of the crate: which functions have a goal of their own that fails."""

    def __init__(self, ran, texts):
        lines = ran.stdout.rstrip("\n").split("\n")
        self.is_proved, self.why = ran.returncode == 0, None
        bad = next((it for it in lines if rt.unread(it, texts)), "")
        if bad:
            self.why = f"the edited text cannot be read: {bad[:200]}"
        elif rt.STALE.search(ran.stdout):
            self.why = "the kept work of a library could not be used"
        elif not self.is_proved and not (ran.returncode == 1 and lines[-1].startswith(("logic=not-proved", "only="))):
            self.why = f"it did not reach the prover: {' '.join(lines[:3])[:300]}"
        self.wrong, self.open, self.gone, self.unproved = [], [], [], []
        for line in lines:
            self.read(line)

    def read(self, line):
        """Takes a line: a function of its own proof folder that has an error, or one that the search did not prove."""
        error = re.match(r"(?:\./)?proofs/(\S+/)?([^/\s]+)\.antt:\d+:\d+: error: (.*)", line)
        if error:
            parts = [error[2]] if not error[1] and COPIED.search(error[2]) else (error[1] or "").split("/")[:-1]
            (self.gone if GONE.search(error[3]) else self.wrong).append(parts)
        told = re.match(r"fn [^:\s]+::(\S+): (?:not proved|no proof)(.*)", line)
        if told:
            parts = told[1].split("::")
            self.unproved.append((parts, "it calls " in told[2]))
            if "did not prove" in told[2]:
                self.open.append(parts)

    def refuses(self, functions):
        """Whether a goal of one of the functions that an edit touches fails by itself; of an edit of no function, any goal."""
        if self.why:
            return False
        if not functions:
            return bool(self.wrong or self.open)
        return any(map(self.fails, functions))

    def leaves(self, function):
        """Whether it is not proved by itself, for whatever reason."""
        own = [*self.wrong, *self.open, *self.gone, *(parts for parts, calls in self.unproved if not calls)]
        return any(map(function.is_named, own))

    def fails(self, function):
        """Whether its own proof does not fit, or the search finds none; that says nothing where a name is gone."""
        is_its = function.is_named
        return any(map(is_its, self.wrong)) or any(map(is_its, self.open)) and not any(map(is_its, self.gone))

    def strange(self, own, empty):
        """A function, or a lemma without its proofs, that fails though nothing changed it."""
        others = [it for it, calls in self.unproved if not calls] + self.wrong + (self.gone if empty else [])
        own = [*own, *empty]
        return next(("::".join(it) or "a lemma" for it in others if (it or empty) and not any(f.is_named(it) for f in own)), None)

    def reason(self, edit):
        if self.why or self.is_proved:
            return self.why or "NOT REFUSED: what it touches is still proved"
        if any(it.is_named(parts) for parts in self.gone for it in edit.functions) or self.gone and not self.wrong:
            return "only a proof file names what is gone: change a value and keep the names"
        others = [it for it, calls in self.unproved if not calls] or [it for it, _ in self.unproved]
        return f"only other functions fail: {', '.join('::'.join(it) for it in others)[:200]}"


class Trial:
    """The edits of a crate, in groups. Only the functions that they touch are checked, and what these call."""

    def __init__(self, crate, room, part=0, parts=1):
        self.crate, self.room, self.kept, self.checks, self.why = crate, room, None, 0, None
        edits = [Edit(it, crate, must_pass) for it, must_pass in files_of_edits(crate)]
        self.edits = sorted(edits, key=lambda it: sorted(map(str, it.keys())))[part::parts]  # those of one function in different parts
        earlier = f"{crate.folder}/out/incremental"
        if os.environ.get("EDITS_KEPT") and os.path.isdir(earlier):
            self.kept = shutil.copytree(earlier, f"{room}/kept")

    def checked(self, texts, paths, without=(), proofs=()):
        """Checks these functions of a copy of the crate, or all; some without their proofs. The files of these proofs
        and lemmas read well, since they are copies: an error there is of a goal, or of a name that is gone."""
        self.checks += 1
        only = [word for path in sorted(paths) for word in ("--only", path)]
        with tempfile.TemporaryDirectory(prefix="edits-") as room:
            crate = copy.copy(self.crate)
            crate.folder = room
            for part in rt.PARTS:
                if os.path.isdir(f"{self.crate.folder}/{part}"):
                    shutil.copytree(f"{self.crate.folder}/{part}", f"{room}/{part}")
            for file in itertools.chain(*(proofs_of(crate, it) for it in without)):
                file.unlink()
            for path in texts:  # the folders of the proofs of copies
                Path(room, path).parent.mkdir(parents=True, exist_ok=True)
            ran = rt.checked(crate, texts, [*FLAGS, *only], self.kept)
            if only and "` has no function `" in ran.stdout:  # a path that the prover writes in another way
                ran = rt.checked(crate, texts, FLAGS, self.kept)
        return Answer(ran, {*texts} - {*proofs})

    def try_group(self, group, empties=False):
        """Checks a group; the edits that are not refused. Once more whole if other functions fail."""
        copies = group.copies(self.crate)
        copy_of = {it.edit.name: it for it in copies if it.edit}
        tried = {it.name: [copy_of[it.name].function] if it.name in copy_of else it.functions for it in group.edits()}
        functions = [*itertools.chain(*tried.values()), *(it.function for it in copies if not it.edit)]
        paths = {path for edit in group.placed for path in edit.of} | {it.path() for it in functions}
        is_whole = any(not it.functions and not it.of for it in group.edits())
        texts, empty, narrow = group.texts(self.crate, copies), [], set()
        empties = empties and group.empties()
        if empties:
            texts, empty = emptied(self.crate, texts, functions)
            texts, narrow = narrowed(self.crate, texts, group.wanted(self.crate, copies))
        proofs = set().union(*(it.proofs for it in copies))
        answer = self.checked(texts, set() if is_whole else paths, empty, proofs)
        strange = answer.strange(functions, empty) if functions and not answer.why else None
        if empties and (strange or answer.why):
            return self.try_group(group)
        if strange:
            self.why = f"{strange} is not proved, though no edit touches it"
        unproved = {it.origin.path() for it in copies if not it.edit and answer.leaves(it.function)}
        for edit in group.edits():
            is_void = edit.name in copy_of and copy_of[edit.name].origin.path() in unproved
            edit.is_refused = not is_void and answer.refuses(tried[edit.name])
            edit.why = None if edit.is_refused else answer.reason(edit)
            is_narrow = bool(tried[edit.name]) and tried[edit.name][0].path() in narrow
            edit.is_misnamed |= is_narrow and not is_void and not edit.is_refused
        return [it for it in group.edits() if not it.is_refused]

    def run(self):
        """Tries all edits: in groups with copies and empty bodies; then whole; at last alone."""
        left, alone, is_first = [it for it in self.edits if not it.why], False, True
        while left and not self.why:
            groups = [Group(it) for it in left] if alone else grouped(left, self.crate, is_first)
            if len(groups) > 1:  # to keep what is proved takes two to five seconds of a check
                self.kept = f"{self.room}/kept"
            missed = []
            for group in groups:
                is_last = len(group.edits()) == 1 and not (is_first and group.empties())
                missed += [it for it in self.try_group(group, is_first) if not is_last]
            alone = not is_first and len(missed) == len(left) or len(missed) < 3
            left, is_first = missed, False

    def told(self):
        """A line for each edit, with how many passed and failed, and how many of the tool's own."""
        counts = dict.fromkeys(KINDS, 0)
        for edit in self.edits:
            if edit.is_refused and edit.is_misnamed:
                edit.is_refused, edit.why = False, f"the clause {edit.clause} does not refuse it, but another one"
            is_well = not self.why and (edit.is_refused if not edit.must_pass else edit.says in (edit.why or ""))
            counts[edit.must_pass, is_well] += 1
            place = os.path.relpath(edit.path, ROOT)
            if is_well:
                say(f"{place}: {f'rightly not refused: {edit.why}' if edit.must_pass else 'refused'}")
            else:
                say(f"{place}: FAILED: {self.why or edit.why or 'it counts as refused'}")
        return counts


def listed(folder):
    return sorted(it for it in folder.iterdir() if it.suffix != ".md") if folder.is_dir() else []


def files_of_edits(crate):
    """The files of the crate's edits, each with whether it must not be refused."""
    return [(it, False) for it in listed(Path(crate.folder, "wrong"))] + [(it, True) for it in listed(SELFTEST / crate.name)]


def tried(crate, part, parts):
    begun = time.monotonic()
    with tempfile.TemporaryDirectory(prefix="edits-") as room:
        trial = Trial(crate, room, part, parts)
        trial.why = None if all(map(stands, crate.below())) else "a library below it is not proved"
        trial.run()
    counts = trial.told()
    minutes = (time.monotonic() - begun) / 60
    say(f"edits: {crate.name}: {len(trial.edits)} edits by {trial.checks} checks in {minutes:.1f} minutes")
    return counts


def stands(library):
    """Whether the library is built as it stands: its stamp says so, or `rt ci`, which writes no stamp, left it."""
    has_stamp = os.path.isfile(f"{library.folder}/out/rlib/stamp")
    return library.is_built() if has_stamp else kit.is_left_by_the_gate(rt, library)


def proved_beside():
    """The crates that the gate's `rt ci` has proved so far, where it runs beside this; None where none runs."""
    file = Path(os.environ.get("GATE_PROVED") or os.devnull)
    names = file.read_text().splitlines() if file.is_file() else [kit.ENDED]
    return None if kit.ENDED in names else {*names}


def is_idle(number):
    """Whether a second long fewer processes want a processor than there are; this one is counted each time, too."""
    for _ in range(4):
        time.sleep(0.25)
        if int(Path("/proc/loadavg").read_text().split()[3].split("/")[0]) > number:
            return False
    return True


def side_by_side(tasks, most):
    """What these tasks give, each a crate, its work and a call: so many at once, the longest first. Beside the gate's
    proofs each waits for its crate's libraries and for an idle processor, and half as many run."""
    left, running, given = sorted(tasks, key=lambda it: -it[1]), set(), []
    with ThreadPoolExecutor(most) as pool:
        while left or running:
            proved = proved_beside()
            ready = [it for it in left if proved is None or {below.name for below in it[0].below()} <= proved]
            has_room = len(running) < (most if proved is None else max(1, most // 2))
            if ready and has_room and (proved is None or is_idle(rt.processors())):
                left.remove(ready[0])
                running.add(pool.submit(ready[0][2]))
            elif running:
                ended, running = wait(running, 1, FIRST_COMPLETED)
                given += [it.result() for it in ended]
            else:
                time.sleep(0.5)
    return given


def verdict(counts):
    refused, missed, tried_well, tried_badly = (sum(it[key] for it in counts) for key in KINDS)
    say(f"edits: {refused} of {refused + missed} refused; the tool itself: {tried_well} of {tried_well + tried_badly}")
    return refused + tried_well, missed + tried_badly


def main(names):
    os.chdir(ROOT)
    rt.guarded()
    listed_crates = rt.crates_below(str(ROOT))
    unknown = {*names} - {it.name for it in listed_crates}
    if unknown:
        sys.exit(f"edits: crates.txt has no {', '.join(sorted(unknown))}")
    crates = [it for it in listed_crates if (not names or it.name in names) and files_of_edits(it)]
    for crate in crates if proved_beside() is None else []:
        libraries = crate.below()
        if not all(map(stands, libraries)) and any(it.build_rlib(FLAGS, anew=False) for it in libraries):
            sys.exit(f"edits: a library below {crate.name} is not proved")
    tasks = []
    for crate in crates:
        number = len(files_of_edits(crate))
        parts = -(-number // MOST)
        work = (crate.count(rb"\n") + 100 * number) // parts
        tasks += [(crate, work, functools.partial(tried, crate, part, parts)) for part in range(parts)]
    with kit.in_memory(rt):
        given = side_by_side(tasks, kit.lanes(rt))
    passed, failed = verdict(given)
    print(f"{passed} passed, {failed} failed")
    return 1 if failed else 0


if __name__ == "__main__":
    sys.exit(main(sys.argv[1:]))
