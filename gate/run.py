#!/usr/bin/env python3
"""The gate: `rt ci`, and then the steps of the file `steps` beside this one, which says what a step is.

Usage: run.py                    all of it
       run.py steps [FILE]       the steps alone, of this file

A paragraph of steps begins when the one before is over. What a step prints is shown when it ends: as a whole if it
failed, else its last lines. A step beside others gives way to them and is awaited at the end. One beside `rt ci` begins
as soon as that has proved a crate; the file GATE_PROVED has the proved crates, a line each, and at the end '(ended)'.

A step has failed if one of its checks failed, if its status is not 0, if it passed fewer checks than its line names, or
if it took longer. The gate fails too for a line that can't be read, and for a tool in no step. The last lines are a
table of the minutes, some lines that say what failed, and 'N passed, M failed'; the exit status is 1 if anything
failed."""
import contextlib
import os
import re
import resource
import shutil
import signal
import subprocess
import sys
import tempfile
import threading
import time
from collections import Counter
from concurrent.futures import ThreadPoolExecutor
from pathlib import Path

import kit

HERE = Path(__file__).resolve().parent
TOP = HERE.parent
BESIDE = 3
LAST_LINES = 12  # so many are shown of a step that passed
RUNNING = []
STARTS = threading.Lock()  # held while a command begins, so that each that has begun is in RUNNING; and for good once the gate ends
TABLE = []  # a line for each command that has ended
WRONG = []  # lines that say what failed
EARLIER = {}  # whether an earlier run had proved it, of each crate that `rt ci` has proved
PROVED = re.compile(r"rt: (\S+) (?:proved$|is (kept): )")  # what `rt ci` says of a crate that it has proved, now or earlier
SAYS_WRONG = re.compile(r"WRONG: |FAILED|NOT (PROVED|REFUSED|BUILT)|: NOT TRIED|is not what its file")
SAYS_WELL = ": rightly not refused: "  # of an edit that tries `edits.py` itself: behind it stands why, in the words of one that failed
MOST_WRONG = 12  # so many of these lines are shown at the end


class Step:
    """A line of the steps: command, fewest checks, most minutes, what it runs beside."""

    def __init__(self, line):
        read = re.fullmatch(r"\s*(&{0,2})\s*(\d+)\s+([\d.]+)\s+(\S.*)", line)
        sign, least, minutes, self.command = read.groups() if read else ("", 0, 0, line)
        self.least, self.minutes, self.is_beside, self.is_early = int(least), float(minutes), bool(sign), sign == "&&"


def give_way():
    """Lets this process and its children run when nothing else would: by `nice`, and among sessions by `autogroup`."""
    os.nice(19)
    with contextlib.suppress(OSError), open("/proc/self/autogroup", "w", encoding="ascii") as file:
        file.write("19")


def end(process):
    if process.poll() is None:
        os.killpg(process.pid, signal.SIGKILL)


def end_at_signals():
    """Ends the gate, and all that it runs, at a signal. A thread of its own is told of it: Python runs a handler in the main
    thread alone, and not while that waits, if the signal came just before."""
    told, tells = os.pipe()
    os.set_blocking(tells, False)

    def ends():
        number = os.read(told, 1)[0]
        STARTS.acquire()
        for process in RUNNING:
            end(process)
        os._exit(128 + number)

    threading.Thread(target=ends, daemon=True).start()
    signal.set_wakeup_fd(tells)
    for number in (signal.SIGINT, signal.SIGTERM, signal.SIGHUP):
        if number != signal.SIGHUP or signal.getsignal(number) != signal.SIG_IGN:  # which it is under `nohup`
            signal.signal(number, lambda *_: None)


def last_line(text):
    return next((line.strip() for line in reversed(text.splitlines()) if line.strip()), "")


def note_wrong(lines):
    """Notes the lines that say what failed; of a failed command that has none, the last three."""
    lines = [line.strip() for line in lines if line.strip()]
    WRONG.extend([line for line in lines if SAYS_WRONG.search(line) and SAYS_WELL not in line] or lines[-3:])


def ran(command, least, minutes=24 * 60, gives_way=False, note=lambda _: None):
    """Runs a command, for so many minutes at most, with a group of processes of its own, so that all that it starts can be ended
    with it. Each line that it prints is handed on. Answers how many checks passed and failed, by its last line or its
    status, what it printed, and what is told of it."""
    begun, said, why = time.monotonic(), [], ""
    with STARTS:
        process = subprocess.Popen(command, shell=True, cwd=TOP, stdin=subprocess.DEVNULL, stdout=subprocess.PIPE, stderr=subprocess.STDOUT,
                                   text=True, errors="replace", start_new_session=True, preexec_fn=give_way if gives_way else None)
        RUNNING.append(process)
    late = threading.Timer(60 * minutes, end, [process])
    late.daemon = True
    late.start()
    with process:
        for line in process.stdout:
            said.append(line)
            note(line)
    late.cancel()
    taken, text, status = (time.monotonic() - begun) / 60, "".join(said), process.returncode
    if taken >= minutes:
        text, status = f"{text}\nit took too long and was ended\n", status or 1
    counts = re.fullmatch(r"(\d+) passed, (\d+) failed", last_line(text))
    passed, failed = map(int, counts.groups()) if counts else (int(status == 0), 0)
    if not failed and (status or passed < least):
        failed, why = 1, f"it ended with status {status}" if status else f"it passed {passed} checks, and the least is {least}"
    if failed:
        note_wrong(text.splitlines())
    TABLE.append(f"gate: {taken:5.1f} minutes, {passed:5} passed, {failed} failed: {command[:60]}")
    told = f"gate: {taken:.1f} minutes for {command[:60]}"
    return (passed, failed), text, f"gate: FAILED: {why}: {command[:60]}\n{told}" if why else told


def watched(command, least, note=lambda _: None):
    """Runs a command, shows what it prints as it prints it, and answers how many checks passed and failed. Each line is handed on."""
    print(f"gate: {command}", flush=True)
    count, _, told = ran(command, least, note=lambda line: print(line, end="", flush=True) or note(line))
    print(told, flush=True)
    return count


def kept(step):
    """Runs a step, shows at its end what it printed, in one piece, and answers how many checks passed and failed."""
    count, text, told = ran(step.command, step.least, step.minutes, step.is_beside)
    shown = text if count[1] else "".join(text.splitlines(keepends=True)[-LAST_LINES:])
    print(f"gate: {step.command}\n{shown}{told}\n", end="", flush=True)
    return count


def paragraphs(file):
    parts = re.split(r"\n\s*\n", re.sub(r"(?m)^#.*\n?", "", file.read_text()))
    return [[Step(line) for line in part.strip("\n").split("\n")] for part in parts if part.strip()]


def left_out(steps, tools):
    """The programs that stand in no step, and the runs that a head names by 'In the gate: WORDS' and no step has."""
    named = " ".join(step.command for step in steps)
    programs = [tool for tool in sorted(tools.glob("*.py")) if '__name__ == "__main__"' in tool.read_text()]
    by_hand = [tool for tool in programs if "\nNo step of the gate." in tool.read_text()]
    runs = [f"{tools.name}/{words}" for tool in programs for words in re.findall(r"^In the gate: (.+)$", tool.read_text(), re.M)]
    missing = [tool.name for tool in programs if tool not in by_hand and f"{tools.name}/{tool.name}" not in named]
    return missing + [words.split("/", 1)[1] for words in runs if not any(step.command.endswith(words) for step in steps)]


def listed_crates(top=TOP):
    """The crates of crates.txt, each with the words behind it: those that it uses."""
    lines = (line.split("#")[0].replace(":", " ").split() for line in (top / "crates.txt").read_text().splitlines())
    return {words[0]: words[1:] for words in lines if words}


def least_of_ci(top=TOP):
    return len(listed_crates(top)) + len(list(top.glob("crates/*/must-fail/*.edit")))


def waited_for(top=TOP):
    """The crate that most others use, where it uses none of them: as long as it is not proved hardly any other can be."""
    uses = listed_crates(top)
    used = Counter(name for words in uses.values() for name in words if name in uses)
    return next((name for name, _ in used.most_common(1) if not {*uses[name]} & {*uses}), None)


def processor_minutes():
    used = resource.getrusage(resource.RUSAGE_CHILDREN)
    return (used.ru_utime + used.ru_stime) / 60


def proved_crate(line):
    """The crate that `rt ci` says here it has proved, if any. It is noted whether an earlier run had, by what is said of it first."""
    proved = PROVED.match(line)
    return proved and (EARLIER.setdefault(proved[1], bool(proved[2])), proved[1])[1]


def of_earlier_runs():
    return f", {sum(EARLIER.values())} of {len(EARLIER)} proofs from earlier runs" if EARLIER else ""


def of_ci(steps, others, room):
    """Runs `rt ci`, and beside it, in this pool, the steps that begin early. Answers its counts, and the steps that have begun.
    `rt ci` is asked first for the crate that most others wait for, which several processes prove; not if RT_JOBS says the
    lanes, if only one check can run, or if `rt ci` takes no names: in some kits, and in any if CI is true."""
    rt, begun = kit.toolchain(), {}
    os.environ["GATE_PROVED"] = f"{room}/proved"
    with open(f"{room}/proved", "w", buffering=1, encoding="utf-8") as file:

        def note(line):
            proved = proved_crate(line)
            if proved:
                print(proved, file=file)
                begun.update({step: others.submit(kept, step) for step in steps if step.is_early and step not in begun})

        takes_names = rt.ci_takes_names and os.environ.get("CI") != "true"
        first = waited_for() if takes_names and kit.lanes(rt) > 1 and not kit.said_lanes() else None
        if first:
            watched(f"rt ci {first}", 1, proved_crate)
        count = watched(f"RT_JOBS={kit.lanes(rt)} rt ci", least_of_ci(), note)
        print(kit.ENDED, file=file)
    print(f"gate: {processor_minutes():.1f} processor minutes for rt ci", flush=True)
    return count, begun


def run_steps(parts, others, early):
    """Runs the steps of each paragraph, those beside all in another pool; answers their counts."""
    counts, beside = [], []
    with ThreadPoolExecutor(BESIDE) as pool:
        for steps in parts:
            begun, used = time.monotonic(), processor_minutes()
            beside += [early.get(step) or others.submit(kept, step) for step in steps if step.is_beside]
            here = [step for step in steps if not step.is_beside]
            counts += pool.map(kept, here)
            minutes = (time.monotonic() - begun) / 60
            print(f"gate: {minutes:.1f} minutes, {processor_minutes() - used:.1f} processor minutes for {len(here)} steps", flush=True)
    return counts + [it.result() for it in beside]


def writes():
    """Has what this starts write in memory what it removes again, where nothing is lost by it: where `rt ci` sets aside what
    crates keep in git's folder here, and not on another disk."""
    git = TOP / ".git"
    is_here = git.is_dir() and not git.is_symlink() and os.access(git, os.W_OK)
    return kit.in_memory(kit.toolchain()) if is_here and shutil.which("rt") else contextlib.nullcontext()


def main(words):
    end_at_signals()
    begun, counts = time.monotonic(), []
    if not words:
        kit.command()  # or one line says that there is none
    parts = paragraphs(Path(words[1]) if len(words) > 1 else HERE / "steps")
    steps = sum(parts, [])
    wrong = [f"a step is no 'LEAST MINUTES COMMAND', with LEAST above 0: {step.command}" for step in steps if not step.least]
    wrong += [] if steps else ["there is no step"]
    if len(words) < 2:
        wrong += [f"no step runs tools/{name}" for name in left_out(steps, TOP / "tools")]
    for line in wrong:
        print(f"gate: FAILED: {line}", flush=True)
    note_wrong(f"FAILED: {line}" for line in wrong)
    parts = [[step for step in part if step.least] for part in parts]
    with writes(), tempfile.TemporaryDirectory() as room, ThreadPoolExecutor() as others:
        early = {}
        if not words:
            print(f"gate: every proof, then {len(steps)} steps: from nothing 40 to 80 minutes on four processors. "
                  "Each crate and each step is shown as it ends.", flush=True)
            count, early = of_ci(sum(parts, []), others, room)
            counts.append(count)
        counts += [(0, len(wrong)), *run_steps(parts, others, early)]
    passed, failed = (sum(of) for of in zip(*counts))
    print("\n".join(TABLE))
    for line in WRONG[:MOST_WRONG]:
        print(f"gate: wrong: {line[:200]}")
    print(f"gate: {(time.monotonic() - begun) / 60:.1f} minutes, {processor_minutes():.1f} processor minutes in all{of_earlier_runs()}")
    print(f"{passed} passed, {failed} failed", flush=True)
    return 1 if failed or not passed else 0


if __name__ == "__main__":
    if sys.argv[1:2] not in ([], ["steps"]):
        sys.exit(__doc__)
    sys.exit(main(sys.argv[1:]))
