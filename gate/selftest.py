#!/usr/bin/env python3
"""The gate's own test. selftest_gate.py has the checks of the gate: steps that try nothing or too little, fail, crash,
hang or can't be read make it fail, and so do a failing `rt ci` and a signal. Those of the tools stand here: what they
compare, judge and count, over stand-ins of what they try; edits are judged by what the prover says; tools without a
step and functions that nothing calls are found. The last line is 'N passed, M failed'."""
import ast
import contextlib
import functools
import itertools
import os
import re
import sys
import tempfile
import time
from collections import Counter
from pathlib import Path
from types import SimpleNamespace
from unittest.mock import patch

import api
import kit
import run
from selftest_gate import (CHECKS, OF_CALLERS, FakeCrate, check, each, fake_tools, is_same, laid, main_of, memory_at, of_prover, of_rows,
                           said, stand_in, tried, writes)

import checks
import edits
import fuzz
import keep
import lossy
import machines
import named
import peers
import scenes
import snippets
import unreliable
from tables import as_it_stands, data, mapped

DATA = data("gate_of_tools")

# A call: the type or the module before it, or a dot, and its name.
CALL = re.compile(r"(?:(\w+)(?:::<[^()]*?>)?::|(\.))?\b(\w+)(?:::<[^(]*?>)?\(")

KEPT = []  # of which crates the prover was asked, what was kept there before, False where nothing was to be kept, and where it writes


def unproved(names):
    return [f"fn a::m::{it}: not proved: the search did not prove a goal" for it in names]


def edited(folder, texts, changes, file="src/m.rt", name="a"):
    """A crate of these files, and edits of one of them by their names: of each what stands above it, the old text and the new one."""
    made = {f"wrong/{name}.edit": f"{above}file: {file}\nold: {old}\nnew: {new}\n" for name, (above, old, new) in changes.items()}
    laid(folder, {**texts, **made})
    crate = FakeCrate(name, folder=str(folder))
    return crate, {name: edits.Edit(folder / f"wrong/{name}.edit", crate) for name in changes}


def trial_of(crate, says):
    """A trial of the crate's edits where the prover says what this gives, by the texts and by what is without a proof; and what it is asked."""
    trial, asked = edits.Trial(crate, crate.folder), []

    def checked(texts, paths, without, proofs):
        asked.append((texts, sorted(paths), sorted(it.path() for it in without)))
        return edits.Answer(of_prover(says(texts, without)), {*texts} - {*proofs})

    trial.checked = checked
    return trial, asked


def run_beside(file, crates, most, calls):
    """What `edits.py` gives of these crates' tasks beside proofs, and how many ran at once at most."""
    running, at_once = [], []

    def call(name):
        running.append(name)
        at_once.append(len(running))
        time.sleep(0.3)
        running.remove(name)
        with file.open("a") as told:
            told.writelines(f"{it}\n" for it in calls.get(name, []))
        return name

    below = {name: FakeCrate(name, below=[*map(FakeCrate, its)]) for name, its in crates.items()}
    tasks = [(below[name], 10 - number, functools.partial(call, name)) for number, name in enumerate(crates)]
    return edits.side_by_side(tasks, most), max(at_once)


@check("Beside `rt ci` the edits of a crate wait for the libraries below it and for an idle processor, and only half as many checks run as later.")
def waits_for_proofs(folder):
    found, real, asked, file = [], edits.is_idle, [], folder / "proved"
    later, free, tells = DATA.later, dict.fromkeys("pqrst", ""), {"w": ["a"], "x": ["b"], "y": [kit.ENDED]}
    os.environ["GATE_PROVED"] = str(file)
    with patch.object(edits, "is_idle", lambda _: True):
        found += [edits.proved_beside() is None]
        file.touch()
        found += [edits.proved_beside() == set()]
        found += [run_beside(file, later, 1, tells) == (["w", "x", "y", "z"], 1), edits.proved_beside() is None]
        found += [run_beside(file, free, 4, {})[1] == 4]
        file.write_text("")
        found += [run_beside(file, free, 4, {})[1] == 2]
        edits.is_idle = lambda _: asked.append(1) or len(asked) > 3 and not file.write_text(f"{kit.ENDED}\n")
        found += [run_beside(file, {"p": ""}, 1, {}) == (["p"], 1), len(asked) == 4]
    return all(found) and real(1_000_000) and not real(0)


check("An edit that is not refused has failed, and so has one that tries the tool itself and is judged wrongly.")(
    lambda _: [said(edits.verdict, [{kind: int(kind == one) for kind in edits.KINDS}])[0] for one in edits.KINDS] == [(1, 0), (0, 1), (1, 0), (0, 1)])


of_rows("`edits.py` gives a method the path that the prover prints: with other types than its own parameters where its `impl` is of those.",
        DATA.heads)(lambda head, _: edits.functions_of("src/m.rt", f"{head} {{\n    fn f() {{}}\n}}\n")[0].path())


@of_rows("An edit is refused only if a goal of its own function fails; one of no function if any does. Why not is told.", DATA.said_of_edits)
def refused_by(status, lines, _):
    tried = {"f": [edits.Function(["m"], None, "f")], "g": [edits.Function(["m"], None, "g")], " ": []}
    answer = edits.Answer(SimpleNamespace(returncode=status, stdout="\n".join(lines) + "\n"), {})
    refused = "".join(name for name, its in tried.items() if answer.refuses(its))
    return all(answer.reason(SimpleNamespace(functions=its)) for name, its in tried.items() if name not in refused) and refused


def of_copies(folder):
    return edited(folder, {"src/m.rt": DATA.source, "proofs/m/f/Answers.antt": DATA.of_f}, DATA.changes["of_copies"])


@check("A further edit of a function is tried in a copy of it, beside a copy as it stands, unless another check has a place for it; one of a "
       "trait's method, or of two functions, in another check, or in the same one if the others can be copied. Edits that are left are tried "
       "without copies.")
def copies_edits(folder):
    crate, of = of_copies(folder)
    in_groups = lambda names, *how: edits.grouped([of[it] for it in names], crate, *how)
    told = lambda groups: ["".join(it.name for it in group.placed) + "".join(f" {it.name}" for it in group.copied) for group in groups]
    groups = in_groups("abc", True)
    others = [told(in_groups(*how)) for how in (("abcd", True), ("abcd",), ("abe", True))]
    is_grouped = told(groups) == ["ca b"] and others == [["ca", "db"], ["ca", "db"], ["e a b"]]
    texts = groups[0].texts(crate, groups[0].copies(crate))
    behind = DATA.source.replace("n + 1\n}\n", "n + 2\n}\n" + DATA.copies).replace("T(1)", "T(2)")
    proofs = {f"proofs/m/{it}/Answers.antt": DATA.of_f.replace("proofs.m.f.", f"proofs.m.{it}.") for it in ("f_as_it_stands", "f_edited_1")}
    return is_grouped and texts == {"src/m.rt": behind, **proofs}


@of_rows("Of two edits of a function those are refused of which the prover says so, if the copy as it stands is proved.", DATA.said_of_copies)
def refused_copies(told, folder):
    crate, of = of_copies(folder)
    lines = unproved(told.split()) if isinstance(told, str) else told
    trial, asked = trial_of(crate, lambda *_: lines or ["fn a::m::g: not proved: it calls a::m::f"])
    left = trial.try_group(edits.grouped([of["a"], of["b"]], crate, True)[0])
    is_told = not trial.why and [it for it in (of["a"], of["b"]) if not it.is_refused] == left and all(it.why for it in left)
    return is_told and asked[0][1] == ["m::f", "m::f_as_it_stands", "m::f_edited_1"] and " ".join(name for name in "ab" if of[name].is_refused)


@check("Edits of definitions are tried in copies of their laws in one check, beside a copy that must be proved. A law is alone if the prover "
       "makes something of a source that reads such a definition, but for a plain type.")
def copies_laws(folder):
    found = []
    for told, refused in DATA.said_of_laws:
        crate, its = edited(folder, DATA.of_law, DATA.changes["of_laws"], "specs/Words.antt")
        of = [*its.values()]
        trial, asked = trial_of(crate, lambda *_, lines=told: lines)
        groups = edits.grouped(of, crate, True)
        trial.try_group(groups[0])
        found.append(len(groups) == 1 and not trial.why and [it.name for it in of if it.is_refused] == refused.split())
    texts, paths, _ = asked[0]
    found += [paths == [f"law{it}::law_of_a" for it in ("_as_0_stands", "_edited_1", "_edited_2")]]
    found += [{path: text for path, text in texts.items() if "_edited_2" in path} == DATA.of_law_edited]
    found += [texts["specs/Lib.antt"].startswith(DATA.of_law_listed), "mod law_edited_1;" in texts["src/lib.rt"]]
    for text, groups in DATA.types_of_law:
        laid(folder, {"src/m.rt": text})
        found.append(len(edits.grouped(of, crate, True)) == groups)
    return all(found)


@check("Untouched functions are checked without bodies, some kinds aside; then once with them.")
def empties_functions(folder):
    crate, of = edited(folder, {"src/m.rt": DATA.bodies}, {"one": ("", "other(n)", "1 + other(n)")})
    texts, empty = edits.emptied(crate, {}, of["one"].functions)
    found = [texts == {"src/m.rt": DATA.empty}, [it.path() for it in empty] == ["m::other", "m::T::of"]]
    for row in DATA.said_of_empty:
        trial, asked = trial_of(crate, lambda _, without, of=row: of[0] if without else of[1])
        trial.try_group(edits.Group(of["one"]), True)
        found.append((of["one"].is_refused, [it for *_, it in asked]) == (row[2], [["m::T::of", "m::other"], []][:row[3]]))
    return all(found)


@check("Edits with clauses narrow their functions to those, if no call and no hand proof needs more.")
def narrows_contracts(folder):
    crate, of = edited(folder, {"src/m.rt": DATA.promises, "proofs/m/by_hand/Answers.antt": ""}, DATA.changes["of_clauses"])
    found = [not it.why for it in of.values()]
    for names, narrow in (("f g by_hand", "g"), ("f g h", "h"), ("f by_hand", "f"), ("by_hand", "")):
        groups = edits.grouped([of[it] for it in names.split()], crate, True)
        texts, _ = edits.emptied(crate, groups[0].texts(crate, []), [of[it].functions[0] for it in names.split()])
        texts, paths = edits.narrowed(crate, texts, groups[0].wanted(crate, []))
        wanted = {name: "\n    n: u8,\n) -> u8\n" + (DATA.narrow if name == narrow else DATA.contract) for name in of}
        starts = {name: texts["src/m.rt"].split(f"fn {name}(")[1].startswith(wanted[name]) for name in of}
        found += [len(groups) == 1, paths == ({f"m::{narrow}"} if narrow else set()), all(starts.values())]
    return all(found)


@of_rows("An edit that names a clause is refused where the prover refuses it by that clause alone.", DATA.said_of_clauses)
def told_of_clause(clause, narrow, whole, folder):
    crate, _ = edited(folder, {"src/m.rt": DATA.promises}, {"f": (f"clause: {clause}\n", "n + 1", "n + 3")})
    trial, _ = trial_of(crate, lambda texts, _: unproved(whole if "0 < result" in texts["src/m.rt"].split("n + 3")[0] else narrow))
    trial.run()
    return said(trial.told)[1].strip().split(": ", 1)[1]


of_rows("A word of a function's name counts as a call of it unless it can be none: a field, a use, a contract, another type's.", DATA.of_calls)(
    lambda code, _: " ".join(it.name for it in edits.functions_of("src/m.rt", DATA.called)
                             if edits.is_called(it, "src/m.rt", {"src/m.rt": DATA.called, "src/n.rt": code})))


def crate_of_edits(folder, name, edits, bodies=DATA.its_bodies, constant=""):
    functions = "".join(f"{'const ' * (it == constant)}fn {it}() {{\n    {body}\n}}\n" for it, body in bodies.items())
    changes = {edit: ("", *DATA.tried[edit][:2]) for edit in edits}
    return edited(folder / "crates" / name, {"src/lib.rt": f"const N = 1;\n{functions}"}, changes, "src/lib.rt", name)[0]


def said_by_the_prover(crate, texts, flags, kept):
    """What the prover says of such a crate with these texts. Where it keeps what it proves is noted."""
    KEPT.append((crate.name, bool(kept) and sorted(it.name for it in Path(kept).glob("*")), writes()))
    lines, body = [], texts["src/lib.rt"]
    for name, inside in re.findall(r"(?s)fn (\w+)\(\) \{\n    (.*?)\n\}", body):
        if "wrong" in inside or "N = 2;" in body and name == "f":
            lines += [f"fn {crate.name}::{name}: not proved: the search did not prove a goal"]
        elif "gone" in inside:
            lines += [f"proofs/{name}/F.antt:1:2: error: `x` is not in scope", f"fn {crate.name}::{name}: not proved: its proof"]
        elif inside.startswith("#[tactic(none)] unreachable!();"):
            lines += [f"fn {crate.name}::{name}: no proof: expected answers; `#[tactic(none)]` leaves `unreachable-requires`"]
    return of_prover(lines)


def told_by_edits(folder, crates, words=(), most=60):
    """The status of `edits.py`, what it tells of each edit, and its last line, where these are all crates and a lane tries so many edits at most."""
    tools = fake_tools(1, 99e9, crates, edited=edits.rt.edited, unread=edits.rt.unread, STALE=edits.rt.STALE, PARTS=("src", "specs"),
                       checked=said_by_the_prover)
    with patch.multiple(edits, ROOT=folder, SELFTEST=folder / "none", rt=tools, MOST=most), memory_at(folder / "memory"):
        status, told = said(edits.main, words)
    return status, dict(re.findall(r"(?m)^crates/(\S+)\.edit: (.*)$", told)), run.last_line(told)


@of_rows("`edits.py` tells of each edit what the prover says of that one, in groups of any size.", DATA.groups)
def told_wrongly(words, most, folder):
    """What is told otherwise than it is to be of these crates' edits, and how many pass and fail."""
    every = {"a": DATA.tried, "b": DATA.good_ones, "c": ["d_h_is_right"]}
    crates = [crate_of_edits(folder, name, edits) for name, edits in every.items()]
    status, told, last = told_by_edits(folder, crates, words, most)
    wanted = {f"{name}/wrong/{edit}": DATA.tried[edit][2] for name in words or every for edit in every[name]}
    wrong = [f"{it}: {told.get(it)}" for it in {*told, *wanted} if not told.get(it, "").startswith(wanted.get(it, "none"))]
    return tuple(wrong), status, last


@check("`edits.py` keeps what checks prove for several groups, or with EDITS_KEPT, in memory.")
def keeps_for_more_groups(folder):
    crates = [crate_of_edits(folder, "a", ["a_f", "c_g"]), crate_of_edits(folder, "b", ["a_f", "i_number"])]
    laid(Path(crates[0].folder), {"out/incremental/work": ""})
    found = []
    for says in ("", "1"):
        KEPT.clear()
        os.environ["EDITS_KEPT"] = says
        status, *_ = told_by_edits(folder, crates)
        found.append((status, sorted(KEPT, key=str)))
    row = lambda name, kept: (name, kept, " in memory")
    return found == [(0, [row("a", kept), row("b", []), row("b", [])]) for kept in (False, ["work"])]


@check("`edits.py` counts no edit of a crate as refused where a function fails that none touches, and that it can't empty.")
def sees_what_is_not_proved(folder):
    crate = crate_of_edits(folder, "a", ["a_f", "c_g", "h_h"], dict(DATA.its_bodies, i="wrong as it is"), "i")
    status, told, last = told_by_edits(folder, [crate])
    return (status, last) == (1, "0 passed, 3 failed") and all(it.startswith("FAILED: i is not proved") for it in told.values())


@of_rows("`fuzz.py` passes only if each program is as the reference, on each script, in all it says.", DATA.of_scripts)
def passes_fuzz(what, folder):
    """Whether it passes where one of the programs does this on each script, and the other one is as the reference."""
    laid(folder, {"out": "answer\n", "err": "fault\n"})
    found, good = set(), DATA.of_scripts[0][0]
    script_of = lambda letter: lambda r: (["words", letter], b"line %f\nand more\n" % r.random(), lambda _: (b"answer\n", "fault", 2))
    for device, link in ((what, good), (good, what)):
        for name, does, letter in (("ocadev", device, "d"), ("ocactl", link, "l")):
            stand_in(folder / name, f'cd \'{folder}\'\n[ "$*" = "words {letter}" ] && grep line >> seen || exit 9\n{does}')
        laid(folder, {"seen": ""})
        with patch.multiple(fuzz, device_script=script_of("d"), link_script=script_of("l")):
            status, last, told = main_of(fuzz, folder, 9)
        passed, failed = map(int, re.fullmatch(r"(\d+) passed, (\d+) failed", last).groups())
        seen = (folder / "seen").read_text().splitlines()
        is_tried = (passed == 18 or what != good) and len({*seen}) == len(seen) > 0
        found.add((status, failed, "DIFFERENCE" in told, is_tried))
    return {(0, 0, False, True): True, (1, 1, True, True): False}.get(found.pop()) if len(found) == 1 else found


of_rows("`snippets.py` sees where a session prints otherwise.", DATA.sessions)(lambda expected, printed, _: snippets.is_like(expected, printed))
of_rows("`snippets.py` sees where a piece of code is not in its file.", DATA.pieces)(lambda piece, _: snippets.is_in(piece, "\n".join(DATA.file)))
check("`snippets.py` tells the blocks of a document.")(lambda _: is_same(
    [(3, "", ["$ b", "c"]), (8, "sh x/y", ["e"])], [*snippets.blocks("a\n\n    $ b\n    c\n\nd\n```sh x/y\ne\n```\n")]))


def snippets_of(folder, documents, texts):
    """How `snippets.py` ends over these files, its last line, and where it says that something is wrong."""
    stand_in(folder / "says-bin/says", 'echo "$*"')
    laid(folder, texts)
    with patch.multiple(snippets, TOP=folder, DOCUMENTS=documents):
        status, last, told = main_of(snippets, folder / "says-bin")
    return status, last, re.findall(r"(?m)^WRONG: (\S+): ", told)


def with_another(documents, name, text, **others):
    """How `snippets.py` ends, and its last line, where another text stands in one place of a file."""
    return lambda old, new, folder: snippets_of(folder, documents, {name: text.replace(old, new, 1), **others})[:2]


of_rows("`snippets.py` finds each session and piece of code of its documents, and fails where one of them is not so.", DATA.changed)(
    with_another(["A.md", "B.md"], "B.md", DATA.document, **{"A.md": DATA.document, "code/of.txt": "first\nsecond\n"}))
of_rows("`snippets.py` finds each example of a doc comment, and fails where no test has it as it stands.", DATA.of_comments)(
    with_another([], "crates/a_tests/src/in/tests.rt", DATA.with_it, **{"crates/a/src/in/lib.rt": DATA.documented}))


@of_rows("`snippets.py` fails where the table of a document is broken, and says where.", DATA.tables)
def broken_tables(text, folder):
    """The lines of this text where it says so, as README.md and in docs/."""
    status, last, places = snippets_of(folder, [], {"README.md": text, "docs/A.md": text})
    found = [int(it.split(":")[1]) for it in places if it.startswith("README.md:")]
    is_well = places == [f"{name}:{line}" for name in ("README.md", "docs/A.md") for line in found] and status == int(bool(found))
    return tuple(found) if is_well and (found or last == "2 passed, 0 failed") else (status, last, places)


@check("Each tool that is a step of `gate/steps` has a row of docs/PROVED.md.")
def steps_that_pages_name(_):
    rows = named.cells((run.TOP / "docs/PROVED.md").read_text(), "Step")
    ran_by_steps = re.findall(r"(?m)^[^#\n]*python3 (\S+\.py)", (run.TOP / "gate/steps").read_text())
    return is_same(set(), {*ran_by_steps} - {row["Step"].strip("`") for _, row in rows})


@of_rows("`snippets.py` finds each contract, place and definition that a document names and the crates lack.", DATA.named)
def named_wrongly(look, text, _):
    return tuple(number for number, fault in getattr(named, look)(text) if fault)


@check("`snippets.py` comes to each session, with each of its commands, and each block of code with a path of README.md and of all of docs/.")
def finds_what_documents_say(_):
    wanted, found = [], []
    for file in [run.TOP / "README.md", *sorted((run.TOP / "docs").glob("*.md"))]:
        name, lines = str(file.relative_to(run.TOP)), file.read_text().splitlines()
        wanted += [it.strip()[2:] for it in lines if re.match(r"(    )?\$ ", it)]
        wanted += [f"{name}:{at + 2}" for at, it in enumerate(lines) if re.match(r"``` ?\w+ +\S+/\S+", it)]
    noted = lambda lines, _: found.extend(it for it, _ in snippets.commands_of(lines))
    with patch.multiple(snippets, fault_of_session=noted, is_in=lambda *_: True):
        said(lambda: found.extend(where for name in snippets.DOCUMENTS for where, fault in snippets.checks_of(name, "none") if not fault))
    return len(wanted) > 15 and is_same([], [it for it in wanted if found.count(it) < wanted.count(it)])


@of_rows("A run of lossy.py is as promised only where each of its numbers is right: each is made wrong alone.", DATA.of_lossy)
def is_as_promised(numbers, _):
    made = object.__new__(lossy.Run)
    its = {"executed": 5, "old": 1, "copies": 1, "wrong": 0, "missing": 0, "status": 0} | numbers
    vars(made).update(its, report=its, network=SimpleNamespace(behind=its["copies"]))
    return made.is_as_promised(5)


@check("The network of lossy.py is bad both ways, by a clock that goes on with each datagram.")
def carries_badly(_):
    """It has done and counted what it is to: losses, doubles, and copies that wait for 20 to 700 ms."""
    count, clock = 5000, SimpleNamespace(now=0)
    waits, order = [[] for _ in range(count)], []
    with patch.object(peers, "time", SimpleNamespace(time=lambda: clock.now / 1000)):
        network = lossy.bad_network(None, 1)
        network.carry = lambda way, number, _: order.append((way, number)) or waits[number].append(clock.now - number)
        for moment in range(count + 1000):
            clock.now = moment
            if moment < count:
                network.accept(moment % 3 == 0, moment, None)
            network.deliver()
    network.front.close()
    copies, twice, lost = sum(waits, []), [its for its in waits if len(its) == 2], sum(not its for its in waits)
    ways = ([number for there, number in order if there == way] for way in (True, False))
    overtaken = sum(number < latest for its in ways for number, latest in zip(its, itertools.accumulate(its, max)))
    shares = {"lost": (lost / count, 0.2), "doubled": (len(twice) / (count - lost), 0.2), "held": (sum(it > 20 for it in copies) / len(copies), 0.15),
              "copies apart": (sum(abs(a - b) > 100 for a, b in twice) / len(twice), 0.23)}
    wrong = [f"{what}: {got:.2f}" for what, (got, wanted) in shares.items() if abs(got - wanted) > 0.03]
    counts = network.carried, network.lost, network.doubled, network.overtaken
    wrong += [f"counts {counts}"] if counts != (count, lost, len(twice), overtaken) or not overtaken else []
    wrong += ["copies, waits or ways"] if max(map(len, waits)) > 2 or min(copies) < 0 or max(copies) > 701 else []
    return is_same([], wrong) and all(way == (number % 3 == 0) for way, number in order)


@of_rows("`machines.py` fails a run beside silent hosts whose questions are not answered, or late, each time, and tries each of its runs.",
         DATA.of_neighbours)
def judged_neighbours(told, alone, _):
    """How many checks pass and fail if a peer says this beside the last of the silent hosts, and that alone; but those beside the others."""
    its, beside = checks.Checks(), set()

    def ran(room, folder, silent):
        beside.add(silent)
        return alone if silent == machines.RUNS[0] else told if silent == machines.RUNS[-1] else (20, 20, alone[2], 4000)

    with patch.multiple(machines, Machines=lambda *_: contextlib.nullcontext(), run=ran):
        said(machines.silent_hosts, its)
    return beside == {*machines.RUNS} and (its.passed - len(machines.RUNS) + 2, its.failed)


@of_rows("A scene fails where what a verb gives is not what its row says, waits for what comes, and breaks off at a verb or a name that is none.",
         as_it_stands("gate_of_tools")["scenes"])
def played(steps, _):
    """How many checks a scene over a list passes and fails, or that it breaks off."""
    its, there, calls = checks.Checks(), [], []
    verbs = {"adds": there.append, "all": lambda: there, "first": lambda: there[0] if there else None, "same": lambda it: it,
             "bytes": lambda: there[0].encode(), "late": lambda: calls.append(0) or len(calls), "table": lambda: {"one": "a", "two": None}}
    with patch.object(scenes, "waited", functools.partial(checks.waited, seconds=0.2)):
        try:
            said(scenes.Scene(its, verbs, name="name").play, steps)
        except (KeyError, TypeError):
            return "breaks off"
    return [its.passed, its.failed]


def named_in(tree, modules):
    """How often each name stands in code and is not a function's own: `name`, `module.name`, and any `.name`."""
    left, found = [(tree, frozenset())], Counter()
    while left:
        node, own = left.pop()
        if isinstance(node, (ast.FunctionDef, ast.Lambda, ast.ListComp, ast.SetComp, ast.DictComp, ast.GeneratorExp)):
            own = own | {it.arg if isinstance(it, ast.arg) else it.id for it in ast.walk(node)
                         if isinstance(it, ast.arg) or isinstance(it, ast.Name) and isinstance(it.ctx, ast.Store)}
        left += [(it, own) for it in ast.iter_child_nodes(node)]
        if isinstance(node, ast.Name):
            found[node.id] += node.id not in own
        elif isinstance(node, ast.Attribute):
            of = modules.get(getattr(node.value, "id", None))
            found.update([f".{node.attr}", f"{of}.{node.attr}"])
        elif isinstance(node, ast.ImportFrom):
            found.update(f"{node.module}.{it.name}" for it in node.names)
    return found


def imported(tree):
    """The modules that a piece of code imports, by what they are called there; those of which it imports names, by these."""
    its = [(it, name) for it in ast.walk(tree) if isinstance(it, (ast.Import, ast.ImportFrom)) for name in it.names]
    return {name.asname or name.name: getattr(it, "module", name.name) for it, name in its}


def uncalled(folders):
    """The functions and methods of these folders that nothing names but they themselves: no other code of their module,
    of one that imports it, or of the module of their class's base. Decorated ones, and names that Python calls, are
    left out; and methods of which a text has the name, where the module looks up an attribute of `self` by a name that is made."""
    sources = {file: file.read_text() for folder in folders for file in sorted(folder.glob("*.py"))}
    trees = {file: ast.parse(text) for file, text in sources.items()}
    modules = {file: imported(tree) for file, tree in trees.items()}
    names = {file: named_in(tree, modules[file]) for file, tree in trees.items()}
    texts = {str(it.value).replace("-", "_") for tree in trees.values() for it in ast.walk(tree) if isinstance(it, ast.Constant)}
    found = []
    for file, tree in trees.items():
        home = lambda base: modules[file].get(getattr(getattr(base, "value", base), "id", ""))
        above = {it: [*map(home, of.bases)] for of in ast.walk(tree) if isinstance(of, ast.ClassDef) for it in of.body}
        users = [names[it] for it in trees if it != file and file.stem in modules[it].values()]
        looks_up = re.search(r"getattr\(self, (?![\"'])", sources[file])
        for it in (it for it in ast.walk(tree) if isinstance(it, ast.FunctionDef) and not it.decorator_list):
            name, of_others = ("." + it.name,) * 2 if it in above else (it.name, f"{file.stem}.{it.name}")
            count = names[file][name] - named_in(it, modules[file])[name] + sum(its[of_others] for its in users)
            count += sum(its[name] for other, its in names.items() if other.stem in above.get(it, []))
            is_python = re.fullmatch("__.*__|do_[A-Z]+", it.name) or it.name in texts and it in above and looks_up
            found += [] if count or is_python else [f"{file.name}:{it.lineno}: {it.name}"]
    return found


def defined_twice(top):
    """The names that the specs of two modules define: a line begins with the name, or with what it is and the name."""
    defined = re.compile(r"(?m)^(?:abbrev |unfoldable )?(?:pub )?(?:record |data )?(?!(?:use|mod|record|data|abbrev|unfoldable|pub)\b)(\w+)\s*[:({]")
    found = Counter(name for file in top.glob("crates/*/specs/**/*.antt") for name in {*defined.findall(file.read_text())})
    return [name for name, count in found.items() if count > 1]


def with_own_clauses(top):
    """The edits that bring a clause of a contract of their own, so that this may be what refuses them: a new text has one that its old text has not."""
    changes = [(it.name, pair) for it in sorted(top.glob("crates/*/wrong/*.edit")) for pair in re.findall(r"(?m)^old: *(.*)\nnew:(.*)$", it.read_text())]
    return [name for name, (old, new) in changes if re.search(r"\b(ensures|requires)\b", new.replace(old, ""))]


def listed_as_edits(top):
    return [(it.name, edits.Edit(it, SimpleNamespace(folder=top)).why == "it is no edit") for it in edits.listed(top)]


def called_by(function, body, named, below):
    """Which of the functions, given by their names, a body of `function` may call, of its own crate and those below: behind a type those of this
    type, behind a dot those of any type, but for a name that std uses too only of its own; else those of no type, behind a module those of this
    module."""
    for before, dot, name in CALL.findall(body):
        for other in named.get(name, ()):
            if other.crate not in below[function.crate]:
                fits = False
            elif dot:
                fits = other.of and (name not in DATA.of_std.split() or other.of == function.of)
            elif other.of:
                fits = before == other.of.split("+")[0] or before == "Self" and other.of == function.of
            else:
                fits = before in ("", *other.module[-1:])
            if fits:
                yield other


def public_functions(crates, programs):
    """The libraries without edits; the public functions of the others that have no contract; and those that have one, but that no edit reaches,
    also of the crates of programs, which need no contract. An edit reaches what it touches, and what calls that, at any depth, as far as calls
    tell without types. Not looked at: methods of traits, and laws, whose edits are of definitions. Left out of the last: what only hands out a
    field."""
    named, bodies, reached, bare, public, without, below = {}, {}, set(), [], {}, [], {}
    for crate in crates:
        below[crate.name] = {crate.name, *(it.name for it in crate.below())}
        its = [edits.Edit(it, crate) for it, must_pass in edits.files_of_edits(crate) if not must_pass]
        is_program = crate.name in programs
        without += [] if its or is_program else [crate.name]
        paths = {function.path() for it in its for function in it.functions}
        for path, text in edits.sources_of(crate).items() if its or is_program else ():
            lines = text.split("\n")
            for it in edits.functions_in(crate, path, text):
                it.crate = crate.name
                bodies[it] = "\n".join(lines[it.last if it.opens is None else it.opens + 1:it.last]).strip()
                named.setdefault(it.name, []).append(it)
                reached |= {it} if it.path() in paths else set()
                if lines[it.first].strip().startswith("pub ") and not it.name.startswith("law_") and not it.is_of_trait:
                    its_name, is_field = f"{crate.name} {it.path()}", re.fullmatch(r"(&(mut )?)?self(\.\w+)+", bodies[it])
                    has_contract = edits.clauses_of(lines, it)
                    bare += [] if has_contract or is_program else [its_name]
                    public |= {it: its_name} if has_contract and not is_field else {}
    calls = {it: {*called_by(it, body, named, below)} - {it} for it, body in bodies.items()}
    while more := {it for it, those in calls.items() if those & reached} - reached:
        reached |= more
    return [without, bare, [its_name for it, its_name in public.items() if it not in reached]]


def public(top):
    with patch.object(api, "TOP", top):
        return [*api.listed("a"), api.about("a")]


# What is asked of the files in a folder, or of this repository.
ASKED = {
    "left out of two steps": lambda top: run.left_out([*map(run.Step, DATA.steps)], top / "tools"),
    "left out": lambda _: run.left_out(sum(run.paragraphs(run.HERE / "steps"), []), run.TOP / "tools"),
    "edits": listed_as_edits,
    "with own clauses of these": with_own_clauses,
    "with own clauses": lambda _: with_own_clauses(run.TOP),
    "uncalled of these": lambda top: sorted(uncalled([top])),
    "uncalled": lambda _: uncalled([run.TOP / it for it in ("tools", "gate", "bench", "examples", "examples/python")]),
    "defined twice in these": defined_twice,
    "defined twice": lambda _: defined_twice(run.TOP),
    "public": public,
    "public functions of these": lambda top: public_functions([FakeCrate(it, top) for it in "abc"], ["c"]),
    "public functions": lambda _: public_functions(edits.rt.crates_below(str(run.TOP)), DATA.programs.split()),
}
each(DATA.of_files)(
    lambda files, asked, wanted, folder: laid(folder, getattr(DATA, files)) or is_same(wanted, mapped(ASKED[asked](folder), lambda it: it, tuple)))


@of_rows("`unreliable.py` fails each request, read and write of a run in turn, and finds the one that a run passes over.", DATA.slips)
def tried_over(slip, number, _):
    """Whether a run with 4 requests for memory, 3 reads and 5 writes of a byte has failed that passes over this failure alone, and how many of
    each kind are tried."""
    def ran(words, script, **settings):
        counts = [count for count, _ in DATA.failures.values()]
        failing = {name: number for name, number in settings.items() if name != "PIECE"} or settings
        if failing == {slip: number}:
            return b"1", b"", 0, counts
        for setting, (count, fault) in DATA.failures.items():
            if 0 < settings.get(setting, 0) <= count:
                return b"12345"[:settings[setting] - 1] if setting == "FAIL_WRITE" else b"", fault.encode(), 1, counts
        return b"12345", b"", 0, counts

    its = unreliable.Runs("", "")
    its.run = ran
    requests = said(its.memory, ["a"], b"")[0][0]
    said(its.after_building, ["a"], b"", requests)
    said(its.failing_ends, ["a"], b"", 1)
    said(its.pieces_of, ["a"], b"")
    return its.failed > 0, *map(its.tried.get, ("refused", "ends", "pieces"))


@of_rows("`keep.py` kills a device, and finds one that comes back with less than was answered, with more than was set, or not at all.",
         DATA.of_keepers)
def is_kept(kept, folder):
    stand_in(folder / "ocadev", f"exec python3 '{folder}/device.py' \"$@\"")
    laid(folder, {"device.py": DATA.keeper.replace("{KEPT}", kept)})
    its = keep.Checks(str(folder))
    with patch.multiple(keep, KILLS=3, random=SimpleNamespace(uniform=lambda *_: 0.15)):
        said(keep.kills, its, str(folder))
    return its.failed == 0 if (its.failed == 0) == (its.passed == 5) else (its.passed, its.failed)


def main():
    """Tries each check in a folder of its own, with a TMPDIR, as the gate gives its steps one where memory has room."""
    its = checks.Checks()
    for name in filter(OF_CALLERS.fullmatch, [*os.environ]):
        os.environ.pop(name)
    with tempfile.TemporaryDirectory() as room:
        os.environ["TMPDIR"], tempfile.tempdir = room, None
        for what, is_so in CHECKS:
            its.expect(what, tried(is_so))
    return its.verdict()


if __name__ == "__main__":
    sys.exit(main())
