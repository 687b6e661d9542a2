"""What the tools share that hold the programs against laws and against the second implementation. Other tools use it; it has no `main`."""
import collections
import functools
import os
import random
import subprocess
import sys
from concurrent.futures import ProcessPoolExecutor
from pathlib import Path
from types import ModuleType

import oca_profile
from checks import Checks
from tables import data


class Break(Exception):
    """A law that is broken, the number of the event or step at which it is, and how."""

    def __init__(self, law, at, what):
        super().__init__(law, at, what)
        self.law, self.at, self.what = law, at, what


def wrong_rules(name):
    """The wrong rules of a file of rows: of each its name, the law that it breaks, and its old texts with what takes their places."""
    listed = lambda texts: [texts] if isinstance(texts, str) else texts
    return [(rule["name"], rule["breaks"], [*zip(listed(rule["old"]), listed(rule["new"]), strict=True)]) for rule in data(name).wrong]


def changed(edits):
    """The second implementation with these edits, each of a text that stands there once."""
    text, made = Path(oca_profile.__file__).read_text(), ModuleType("changed_profile")
    for old, new in edits:
        if text.count(old) != 1:
            raise ValueError(f"the second implementation has {text.count(old)} times {old!r}")
        text = text.replace(old, new)
    exec(compile(text, "changed_profile", "exec"), vars(made))
    return made


def broken(walk, *given):
    try:
        walk(*given)
    except Break as fault:
        return fault
    return None


def runs_of(folder, head, texts):
    """The lines that `trials lines` prints for each of these texts, from the line on with which it begins each."""
    given = "".join(f"{line}\n" for lines in texts for line in lines)
    done = subprocess.run([f"{folder}/trials", "lines"], input=given.encode(), capture_output=True, timeout=300)
    lines = done.stdout.decode().splitlines()
    begins = [at for at, line in enumerate(lines) if line == head] + [len(lines)]
    if done.returncode != 0 or done.stderr or begins[0] or len(begins) != len(texts) + 1:
        raise RuntimeError(f"status {done.returncode}, {len(begins) - 1} of {len(texts)} runs, {lines[:1]} first, {done.stderr.decode()!r}")
    return [lines[first:end] for first, end in zip(begins, begins[1:])]


def events_of(folder, texts):
    """The lines that `trials lines` prints of each event of these texts: the last two are the number of sessions and the objects."""
    for lines in runs_of(folder, "history", texts):
        ends = [at + 1 for at, line in enumerate(lines) if line.startswith("objects")]
        yield [its for first, end in zip([1, *ends], [*ends, len(lines)]) if (its := lines[first:end])]


# How runs are held against laws: the cases of a number; what the programs of a folder say of them; the walk of the laws along what was said
# of one, or a Break; that as a text; what is counted of it; one that is altered, with the law that is to refuse it and, if it is to stand
# there, the place of the break, or None; how many of those are tried; and the laws alone.
Comparison = collections.namedtuple("Comparison", "made told hold shown count altered times laws", defaults=(None, 0, None))


def work(how, job):
    """The counts of a range of numbers, and the text of the first break or None."""
    folder, seed, numbers = job
    cases, total = [case for n in numbers for case in how.made(seed, n)], collections.Counter()
    r = random.Random(f"{seed} {numbers[0]} altered")
    for case, said in zip(cases, how.told(folder, cases), strict=True):
        try:
            walk = how.hold(case, said)
        except Break as fault:
            return total, how.shown(case, said, fault)
        total += how.count(case, said, walk)
        for law, at, other in filter(None, [how.altered(r, case, said, walk) for _ in range(how.times)]):
            fault = broken(how.laws, case, other)
            is_refused = fault is not None and fault.law == law and at in (None, fault.at)
            total += collections.Counter({"altered": 1, "altered, refused": int(is_refused)})
            if not is_refused:
                print(f"altered for '{law}' at {at}, " + (f"refused by '{fault.law}' at {fault.at}" if fault else "not refused"))
    return total, None


def in_processes(how, what, batch, refuses=None, rules="", count=300, seed=1):
    """Holds so many runs of the programs in processes side by side, as the words FOLDER [COUNT [SEED]] say, and each wrong rule of
    the file of this name: the number, the seed, the counts, and what is found of the rules. A break is printed and ends this process."""
    folder, count, seed = [*sys.argv[1:], *("", count, seed)[len(sys.argv) - 1:]]
    count, seed, total = int(count), int(seed), collections.Counter()
    jobs = [(folder, seed, range(count)[first:first + batch]) for first in range(0, count, batch)]
    with ProcessPoolExecutor(min(4, os.cpu_count())) as pool:
        for counts, fault in pool.map(functools.partial(work, how), jobs):
            total += counts
            if fault:
                pool.shutdown(wait=False, cancel_futures=True)
                print(f"{fault}\nseed {seed}: a break after {total[what]} {what} without one")
                sys.exit(verdict({what: False}))
        return count, seed, total, [*pool.map(refuses, [(seed, *rule) for rule in wrong_rules(rules)])] if refuses else []


def verdict(checks):
    its = Checks()
    its.all_but(len(checks), [name for name, passed in checks.items() if not passed])
    return its.verdict()
