"""Scenes: steps in order that rows of data list. Other tools use it; it has no `main`.

A tool gives the verbs. A step is a list:

    [VERB, ..]                            what is done, with what is given to it
    [WHAT, VERB, .., WANTED]              a check of this name: what the verb gives is what is wanted
    ["comes", WHAT, VERB, .., WANTED]     the same, once it is so
    ["keep", NAME, VERB, ..]              what the verb gives is known by this name from here on
    ["for", [NAME, ..], [[..], ..], [STEP, ..]]     the steps for each of these values, which are known by these names
    ["until", [NAME, ..], [[..], ..], [STEP, ..], [WHAT, VERB, .., WANTED]]     the same, but no more once what is checked at the end is so

`{NAME}` alone is what is known by this name, and in a longer text it stands for that; `{N*TEXT}` is a text so many
times. Bytes that a verb gives are written in hexadecimal digits, and `nothing` where it gives nothing."""
import os
import re
import shutil
import struct
import time

from checks import ended, waited, write
from tables import NAME, as_it_stands, mapped, octets, whole


def told(value):
    """What a verb gives, as a row writes it."""
    return mapped(value, lambda it: it.hex() if isinstance(it, bytes) else "nothing" if it is None else it)


def scenes_of(name, kind="scene"):
    """The scenes of this file of rows: the steps of each and the names that it begins with, for each row of its `of`."""
    for row in as_it_stands(name)[kind]:
        for names in row.get("of", [{}]):
            yield row["steps"], names


def verbs_of_run(scene):
    """What a scene does with its run of a program."""
    return {
        "gives": lambda text: write(scene.run, text, ends=False),
        "gives last": lambda text: write(scene.run, text),
        "line": lambda: scene.run.stdout.readline(),
        "note": lambda: scene.run.stderr.readline(),
        "ends": lambda: ended(scene.run),
        "kill": lambda: scene.run.kill()}


def answer_of(said):
    """The status and the parameters that a controller got, or nothing."""
    return "nothing" if said is None else f"{said[0]} {said[1].hex()}".strip()


def verbs_of_peer(scene):
    """What a scene does with its controller."""
    return {
        "trims": lambda value: answer_of(scene.peer.trims(value)),
        "trims twice": lambda value: answer_of(scene.peer.trims(value, copies=2)),
        "trims again": lambda value, copies=0: answer_of(scene.peer.again(scene.peer.gain, 5, 2, struct.pack(">h", value), copies=copies)),
        "trim": lambda: scene.peer.trim(),
        "asks": lambda *asked: answer_of(scene.peer.ask(*asked[:3], *(bytes.fromhex(it) for it in asked[3:] if it))),
        "handle": lambda handle: setattr(scene.peer, "handle", handle),
        "patience": lambda seconds: scene.peer.socket.settimeout(seconds)}


def verbs_of_files(at):
    """What a scene does with its files; `at` says where they are."""
    return {
        "is there": lambda name: at(name).exists(),
        "is a link": lambda name: at(name).is_symlink(),
        "where it leads": lambda name: os.readlink(at(name)),
        "attributes": lambda name: [oct((found := os.lstat(at(name))).st_mode), found.st_uid, found.st_gid],
        "file": lambda name: (at(name).stat().st_ino, at(name).stat().st_mtime_ns),
        "number of": lambda name: at(name).stat().st_ino,
        "has number": lambda name, number: at(name).stat().st_ino == number,
        "bytes of": lambda name: at(name).read_bytes(),
        "text of": lambda name: at(name).read_text(),
        "holds": lambda name, *parts: at(name).exists() and all(octets(it) in at(name).read_bytes() for it in parts),
        "put": lambda name, digits: at(name).write_bytes(bytes.fromhex(digits)),
        "put text": lambda name, text: at(name).write_text(text),
        "make folder": lambda name: at(name).mkdir(),
        "make FIFO": lambda name: os.mkfifo(at(name)),
        "link": lambda name, to: at(name).symlink_to(to),
        "remove": lambda name: at(name).unlink(),
        "remove folder": lambda name: shutil.rmtree(at(name)),
        "mode": lambda name, mode: at(name).chmod(int(mode, 8)),
        # where it may: root
        "give to another": lambda name: os.chown(at(name), os.geteuid() or 65534, -1),
        "give to another group": lambda name: os.chown(at(name), -1, os.getegid() or 65534)}


class Scene:
    def __init__(self, checks, does, **names):
        self.checks, self.names = checks, names
        self.does = {
            "sleep": time.sleep,
            "finds": lambda form, text: re.search(form, text) is not None,
            "is": lambda it: it,
            "of": lambda table, name: table[name],
            "these of": lambda values, *places: [values[it] for it in places],
            "all of": re.findall,
            "number of": len,
            "sorted": sorted,
            "least": min,
            "now": time.monotonic,
            "since": lambda moment: time.monotonic() - moment,
            "between": lambda least, number, most: least <= number <= most} | does

    def filled(self, value):
        alone = lambda it: isinstance(it, str) and NAME.fullmatch(it)
        return mapped(value, lambda it: self.names[found[1]] if (found := alone(it)) else whole(it, self.names))

    def gives(self, verb, *given):
        return told(self.does[verb](*given))

    def play(self, steps, **names):
        self.names |= self.filled(names)
        for step in steps:
            self.take(*step)

    def take(self, verb, *given):
        verb = self.filled(verb)
        if verb in ("for", "until"):
            names, rows, steps, *last = given
            for values in self.filled(rows):
                self.play(steps, **dict(zip(names, values)))
                if last and self.gives(*self.filled(last[0][1:-1])) == self.filled(last[0][-1]):
                    break
            self.play(last)
            return
        given = self.filled([*given])
        if verb == "keep":
            self.names[given[0]] = self.gives(*given[1:])
        elif verb in self.does:
            self.gives(verb, *given)
        else:
            what, *call, wanted = given if verb == "comes" else (verb, *given)
            found = [self.gives(*call)]
            if verb == "comes":
                waited(lambda: found[-1] == wanted or found.append(self.gives(*call)))
            self.checks.same(what, found[-1], wanted)


def play_all(checks, stage_of, name, kind="scene"):
    """Plays the scenes of this file of rows, or those of this kind, each on a stage of its own, and ends what it started."""
    for steps, names in scenes_of(name, kind):
        stage = stage_of(checks)
        with stage.open:
            stage.play(steps, **names)
            checks.end()  # before its folder goes, into which a run may write
