#!/usr/bin/env python3
"""Schedules for a device and links over a network (schedules.py), run by `trials lines`: each transcript is held
against the laws of networks and against the second implementation (oca_profile.py).

Usage: world.py BIN [COUNT] [SEED]     COUNT schedules over every pair of sizes that fits; BIN is the folder with `trials`

The checks, by the statements of the laws (docs/DEFINITIONS.md, and crates/oca_pair/specs), on a transcript alone.
A peer keeps its session while its admitted datagrams come at most 120,000 ms apart.
 answers     a link's answer is what an execution gave of the command that it submitted under that handle, for its peer
 only        that is the only execution for the peer under the handle, if the peer kept its session
 untaken     a delivered command that its link holds untaken gets one datagram with the reply of an execution of it, if
             2 * S + K <= W + 1, the peer kept its session, and the datagram finds room. S is the span of the link, and K
             how many commands the links before it left unanswered. So it is of a link in time, whatever the device forgets, and
             K then leaves out the links whose clock was read last more than 100,000 ms before the submit
 room        if at most as many peers as have room spoke in the last 120,000 ms, the latest finds room
 round trip  if that datagram comes to the link, which was not renewed meanwhile, the link has the answer; the datagram's,
             if the peer kept its session
 through     a link that is asked every ms milliseconds sends each command within ms, and again within 250 + ms; after
             ms + 20 * (250 + ms) the command is answered, or the link is lost. For each run its least ms is taken
 once        no command is executed twice if the peer kept its session
 in time     the same of a link in time, whatever the device forgets: it asks nothing 15,000 ms behind a submit, and its
             datagrams come at most 100,000 ms late; its answer is that of the only execution under the handle
 renewed     a link is renewed exactly where the first handle is no lower than its next one; the new link's first command
             gets that handle, and it gets no answer to a command of a link before
 said        that execution lies behind the submit, and an OK answer of GetLabel, GetEnabled or the get method of a class is what
             was last set, with its limits
 second      the transcript is, byte for byte, that of the second implementation
 premises    some schedules are within the premises, and lose, double and overtake datagrams
 sizes       with W = 2 * S - 2 a schedule breaks 'untaken', at each of the 31 pairs; random ones at (2, 2) and (4, 3); and behind
             S commands of a link before one does with W = 3 * S - 2, but none with one more; so it does 100,000 ms behind that link
 lines       bad lines are refused with their number
 wrong       the laws alone refuse the second implementation with one rule changed
 altered     a transcript in which one answer, or what a copy led to, was altered is refused by the law that it breaks
Schedules that name what is not there, or start two links of one peer, are refused. The first break is printed. The last line
is 'N passed, M failed' over these checks."""
import collections
import random
import sys
from unittest.mock import patch

import oca_profile as oca
import schedules
from checks import Checks
from comparing import Break, Comparison, broken, changed, in_processes, runs_of, verdict
from oca_law import read
from schedules import PAIRS, crowd, directed, fronts, lossy, slow, visitors, wander
from tables import data

BATCH, DATA = 40, data("world")
STILL = 100000  # the milliseconds for which what a link left behind may still come
# ---- the laws, on a transcript
# GetEnabled, GetLabel and the get methods of the classes; the set method of each is the next one
READS = {(2, 1), (2, 8), (4, 1), (5, 1)}
SETS = {(level, index + 1) for level, index in READS}


class Given:
    """A command that a link was given: at which step and when, when its link was asked last and had nothing to send, the longest time
    since, when it was sent, the step of its last execution and what a get method gave there, and the answer that came to its link. It
    is gone once its answer was taken, or its link renewed."""

    def __init__(self, command, step, now):
        self.command, self.step, self.since, self.asked = command, step, now, now
        self.ms, self.sent, self.met, self.owed = 0, [], (-1, None), None
        self.is_answered = self.is_owed = self.is_gone = False

    @property
    def is_left(self):
        return not (self.is_answered or self.is_gone)


class Link:
    """What is known of a link, and of the links that were renewed as it: its peer, its span, its clock, its commands by handle, the
    executions of them, each a command and its reply, the handle of its next command, how often it was renewed, and how many commands
    each link before it left unanswered, with the last moment of that link's clock."""

    def __init__(self, peer, first, span):
        self.peer, self.clock, self.commands, self.executions, self.next = peer, 0, {}, [], first
        self.is_lost, self.is_renewed, self.is_in_time, self.span, self.times, self.left_off = False, False, True, span, 0, []

    def go_on(self, now):
        self.clock = max(self.clock, now)

    def left(self, moment=0):
        """How many commands the links before it left unanswered whose clocks were read last at most 100,000 ms before the moment."""
        return sum(count for count, till in self.left_off if moment <= till + STILL)

    def renew(self, first, span, now):
        self.left_off.append((sum(it.is_left for it in self.commands.values()), self.clock))
        for it in self.commands.values():
            it.is_gone = True
        self.next, self.span, self.clock, self.is_lost, self.is_renewed, self.times = first, span, now, False, True, self.times + 1

    def waiting(self):
        return [it for it in self.commands.values() if it.is_left and not self.is_lost]

    def under(self, handle):
        return [(command, reply) for command, reply in self.executions if command.handle == handle]


class Laws:
    """Holds each step of a run against the laws, by datagrams, commands, answers and executions alone: a method for each kind of step.
    They hold as for its sizes, or as if these fitted."""

    def __init__(self, schedule, lines, fit=False):
        self.span, self.window, self.most, self.steps = schedule.span, schedule.window, schedule.peers, schedule.steps
        self.fits = lambda span, left: fit or fits(schedule.window, span, left)
        self.count, self.number, self.clock, self.answers_sent = collections.Counter(), 0, 0, 0
        self.places = collections.defaultdict(list)  # steps whose outcome a law speaks of
        self.expect(len(lines) >= len(self.steps) + 2 and lines[0] == "schedule", "second", f"no transcript: {lines[:2]}")
        self.outcomes, self.sent = lines[1:len(self.steps) + 1], {"to-device": [], "to-link": []}
        for line in lines[len(self.steps) + 1:-1]:
            way, to, data = line.split(" ")
            self.sent[way].append((oca.peer_of(to), oca.hex_of(data)))
        self.links = [Link(*start, schedule.span) for start in schedule.starts]
        self.of_peer = {link.peer: link for link in self.links}
        self.came, self.admitted, self.refused, self.forgotten = set(), {}, set(), set()
        self.spoke = {}  # by peer, when its last well-formed datagram came
        self.trips = {}  # by the number of a datagram to a link, the command that it answers, and how
        self.left = {}   # by the number of a datagram to the device, when it left
        self.heard, self.latest = {way: collections.Counter() for way in self.sent}, {}
        # how objects are set, by the law of what is said; nothing of an object that others' commands may have set
        self.settings = {o.ono: o for o in oca.bench()}
        self.walk()

    def expect(self, holds, law, what):
        if not holds:
            raise Break(law, self.number, what)

    def tally(self, what, link, of):
        """Counts what a law speaks of, and of what it is where that holds."""
        self.count[what] += 1
        for words, holds in ({"of a renewed link": link.is_renewed} | of).items():
            self.count[f"{what}, {words}"] += bool(holds)

    def walk(self):
        for self.number, ((kind, *step), said) in enumerate(zip(self.steps, self.outcomes)):
            getattr(self, kind.replace("-", "_"))(said, *step)
            self.count[("front " if kind == "set" else "said ") + said.split(" ")[0]] += 1
            self.count["said too old"] += said == "served 0 0 1"
        self.expect(self.answers_sent == len(self.sent["to-link"]), "untaken", "datagrams were sent to links that answer nothing")
        self.count["steps"] = len(self.steps)
        for way, heard in self.heard.items():
            self.count["losses"] += len(self.sent[way]) - len(heard)
            self.count["doubles"] += heard.total() - len(heard)
        self.within = not self.forgotten and self.refused.isdisjoint(self.of_peer)
        if self.fits(self.span, 0) and self.within:
            self.count["premises met"] = 1
            self.count["premises met, with loss, double and overtaking"] = int(all(self.count[it] for it in ("losses", "doubles", "overtakings")))

    def delivered(self, way, k):
        """A datagram and its peer, counted; an overtaking is one that comes for the first time after a later one that was sent the same way."""
        p, data = self.sent[way][k]
        self.count["deliveries"] += 1
        self.count["overtakings"] += self.heard[way][k] == 0 and self.latest.get((way, p), -1) > k
        self.heard[way][k] += 1
        self.latest[way, p] = max(self.latest.get((way, p), -1), k)
        return p, data

    def came_from(self, p, now, data, said):
        """Whether a datagram of p finds room: it is well-formed, and p is known, or fewer than have room are. Where at most as many peers spoke
        of late as have room, it does."""
        self.clock = max(self.clock, now)
        self.came.add(p)
        if read(data)[0] is None:
            return False
        self.spoke[p] = self.clock
        spoke, known = ([q for q, at in moments.items() if self.clock - at <= 120000] for moments in (self.spoke, self.admitted))
        if len(spoke) <= self.most:
            self.count["room"] += 1
            self.count["room, of more peers ever"] += len(self.came) > self.most
            self.expect(said != "no-room", "room", f"few spoke of late, and a datagram of {oca.peer_text(p)} finds no room")
        if p not in known and len(known) >= self.most:
            self.refused.add(p)
            return False
        if p in self.admitted and p not in known:
            self.forgotten.add(p)
        self.admitted[p] = self.clock
        return True

    def submit(self, said, now, number, *asked):
        if said.startswith("handle "):
            link, handle = self.links[number], int(said.split(" ")[1])
            self.expect(handle > max(link.commands, default=-1), "answers", f"handle {handle} is no higher than one before")
            self.expect(handle == link.next, "renewed" if link.is_renewed else "answers", f"handle {handle} comes where {link.next} is next")
            link.next = handle + 1
            link.go_on(now)
            link.commands[handle] = Given(oca.Command(handle, *asked), self.number, link.clock)
            self.called(link)

    def due(self, said, now, number):
        link, sent = self.links[number], int(said.split(" ")[1]) if said.startswith("sent ") else None
        link.go_on(now)
        link.is_in_time &= all(link.clock - it.since <= 15000 for it in link.commands.values() if it.is_left)
        link.is_lost |= said == "lost"
        self.left[sent] = link.clock
        p, data = self.sent["to-device"][sent] if sent is not None else (None, None)
        message = oca.check(data)[0] if data else ("nothing",)
        if message[0] == "command":
            handle = message[2].handle
            held = link.commands.get(handle)
            self.expect(p == link.peer and held and data == oca.pdu(1, [held.command.body()]), "through",
                        f"what is sent for handle {handle} is no copy of its command")
            held.sent.append(link.clock)
        else:
            for held in link.waiting():
                held.asked = link.clock
        self.called(link)

    def called(self, link):
        """After a call of the link: what waits is sent in time."""
        now, waiting = link.clock, link.waiting()
        for it in waiting:
            it.ms = max(it.ms, now - it.asked)
            is_late = now >= it.sent[-1] + 250 + it.ms if it.sent else now > it.since + it.ms
            self.expect(not is_late and now <= it.since + it.ms + 20 * (250 + it.ms), "through",
                        f"handle {it.command.handle} waits, and was not sent in time")
            self.count["waiting, asked every 250 ms"] += it.ms <= 250
            self.count["waiting, asked so, and sent again"] += it.ms <= 250 and len(it.sent) > 1
        self.count["waiting"] += len(waiting)
        self.count["waiting, of a renewed link"] += len(waiting) * link.is_renewed

    def renew(self, said, now, number, first, span):
        link = self.links[number]
        self.expect((said == "renewed") == (first >= link.next), "renewed", f"{said} from {first} on, where {link.next} is next")
        self.places["renewed"].append(self.number)
        if said == "renewed":
            self.count["renewals of a renewed link"] += link.is_renewed
            link.renew(first, span, now)

    def beside(self, said, now, _):
        self.left[int(said.split(" ")[1])] = now
        self.count["keep-alives beside a link"] += 1

    def tick(self, _, now):
        self.clock = max(self.clock, now)

    def set(self, said, ono, kind, value):
        """At the front; no answer that is held against a law tells of locks, or of hardware that refuses."""
        if said in ("set", "changed") and ono in self.settings:
            setattr(self.settings[ono], kind if kind in oca.CHANGES else "state", value)

    def other(self, said, now, p, data):
        self.came_from(p, now, data, said)
        if said.startswith("served"):
            for message in oca.check(data):
                if message[0] == "command" and message[2].level > 1:
                    self.settings.pop(message[2].target, None)

    def to_device(self, said, now, k):
        p, data = self.delivered("to-device", k)
        finds_room, link = self.came_from(p, now, data, said), self.of_peer[p]
        was_in_time = link.is_in_time
        link.is_in_time &= self.left[k] <= self.clock <= self.left[k] + 100000
        (message,) = oca.check(data)
        executed, kept = {"served 1 0 0": (1, 0), "served 0 1 0": (0, 1)}.get(said, (0, 0))
        answered = said.startswith("served") and (executed + kept > 0 or message[0] == "keep-alive")
        reply = self.next_answer(p) if answered else None
        if message[0] == "keep-alive":
            return
        held = link.commands[message[2].handle]
        self.count["executions"] += executed
        self.count["duplicates answered"] += kept
        self.count["in time, copies to a forgotten peer"] += kept and link.is_in_time and p in self.forgotten
        if kept:
            self.places["once"].append(self.number)
        if executed:
            self.executes(link, held, message[2], reply)
        if finds_room and not held.is_gone and data == oca.pdu(1, [held.command.body()]):
            self.untaken_came(link, held, said, reply, was_in_time)

    def executes(self, link, held, command, reply):
        """A command of a link is executed; noted is what its object gives to one of these get methods, ParamCount and the parameters, or
        None, and what it is set to."""
        is_again, is_forgotten = bool(link.under(command.handle)), link.peer in self.forgotten
        what = f"handle {command.handle} of {oca.peer_text(link.peer)} is executed twice"
        self.expect(is_forgotten or not is_again, "once", what)
        self.expect(not (link.is_in_time and is_again), "in time", what)
        if not is_forgotten:
            self.tally("once", link, {"of a link before": link.is_renewed and held.is_gone})
        if link.is_in_time:
            self.tally("in time", link, {"of a forgotten peer": is_forgotten})
        link.executions.append((command, reply))
        o, method = self.settings.get(command.target), (command.level, command.index)
        methods = oca.METHODS[o.kind] if o else {}
        items = methods[method][2](None, o) if method in READS & methods.keys() else None
        held.met = self.number, items and (len(items), b"".join(items))
        if reply and reply[1] == 0 and method in SETS & methods.keys():  # others change nothing that is read here
            _, letters, _, change = methods[method]
            change(o, None, *oca.Reader(command.params).all(o, len(letters), letters))

    def next_answer(self, p):
        sent = self.sent["to-link"][self.answers_sent:self.answers_sent + 1]
        self.expect(sent and sent[0][0] == p, "untaken", "no datagram was sent to the link")
        messages = oca.check(sent[0][1])
        self.answers_sent += 1
        return messages[0][1:] if len(messages) == 1 and messages[0][0] == "response" else None

    def untaken_came(self, link, held, said, reply, was_in_time):
        """A copy came, and found room, of a command that the link holds untaken. The link was in time before it came, or not."""
        is_forgotten, fits_all = link.peer in self.forgotten, self.fits(link.span, link.left())
        is_in_time = was_in_time and self.fits(link.span, link.left(held.since))
        if not (is_in_time or (fits_all and not is_forgotten)):
            return
        handle = held.command.handle
        self.tally("untaken", link, {
            "of one whose links before left commands": link.left() > 0, "in time, of a forgotten peer": is_in_time and is_forgotten,
            "in time, behind links that left more long before": is_in_time and not fits_all, "of more peers ever": len(self.came) > self.most})
        if said == "served 0 1 0":
            self.places["untaken"].append(self.number)
            later = [command.handle for command, _ in link.executions[::-1]].index(handle)
            self.count["untaken, the oldest of a full window"] += later == self.window - 1
        self.expect(said in ("served 1 0 0", "served 0 1 0"), "untaken", f"a copy of handle {handle}, which its link holds untaken: {said}")
        under = [(command.asks(), its) for command, its in link.under(handle)]
        self.expect((held.command.asks(), reply) in under and reply[0] == handle, "untaken",
                    f"a copy of handle {handle} gets a reply of no execution of it")
        self.trips[self.answers_sent - 1] = link, held, reply, link.times

    def to_link(self, said, now, k):
        p, data = self.delivered("to-link", k)
        if k in self.trips:
            self.came_back(said, *self.trips[k])
        message, link = oca.check(data)[0], self.of_peer[p]
        link.go_on(now)
        if message[0] == "response" and said == "answered 1":
            held = link.commands[message[1]]
            self.expect(not (link.is_renewed and held.is_gone), "renewed", f"the answer to handle {message[1]} of a link before comes to it")
            held.is_answered = True
        self.called(link)

    def came_back(self, said, link, held, reply, times):
        """The datagram came that the device sent when a copy came of a command that this link held untaken."""
        if link.times != times:
            return
        is_forgotten = link.peer in self.forgotten
        self.tally("round trips", link, {"of a forgotten peer": is_forgotten})
        if held.is_gone:
            return
        self.count["round trips of a command that is still untaken"] += 1
        if not held.is_answered:
            self.places["round trip"].append(self.number)
            self.expect(said == "answered 1", "round trip", f"the answer to handle {held.command.handle} came, and its link says: {said}")
        held.is_owed = True
        if not is_forgotten:
            held.owed = reply

    def take(self, said, number, handle):
        link = self.links[number]
        held = link.commands.get(handle)
        if said == "none":
            is_owed = held and held.is_owed and not held.is_gone
            self.expect(not is_owed, "round trip", f"the answer to handle {handle} came, and its link has none")
            return
        _, status, count, params = said.split(" ")
        answer, under = (handle, int(status), int(count), oca.hex_of(params)), link.under(handle)
        self.tally("answers", link, {})
        self.places["answers"].append(self.number)
        self.expect(held and any(command.asks() == held.command.asks() and reply == answer for command, reply in under), "answers",
                    f"the answer under {handle} is none of an execution of its command")
        self.expect(held.owed in (None, answer), "round trip", f"the answer to handle {handle} is another than the one that came")
        self.expect(not (link.is_renewed and held.is_gone), "renewed", f"the answer to handle {handle} of a link before is taken")
        if link.peer not in self.forgotten:
            self.tally("only", link, {"of a peer that found no room before": link.peer in self.refused})
            self.expect(len(under) == 1, "only", f"{len(under)} executions under {handle}")
        if link.is_in_time:
            self.expect(len(under) == 1, "in time", f"{len(under)} executions under {handle} of a link in time")
            self.says(link, held, answer)
        held.is_gone = True

    def says(self, link, held, answer):
        """An answer of a link in time: its execution lies behind the call, and a reading is what the object held."""
        (handle, status, count, params), (number, reading_then) = answer, held.met
        is_reading = bool(reading_then) and status == 0
        self.tally("said", link, {"of readings": is_reading})
        self.expect(number > held.step, "said", f"handle {handle} was executed before it was submitted")
        self.expect(not is_reading or (count, params) == reading_then, "said",
                    f"the answer under {handle} is {oca.hex_text(params)}, and held was {reading_then}")


# ---- runs
def transcripts(folder, cases):
    return runs_of(folder, "schedule", [it.text() for it in cases])


def fits(window, span, left=0):
    return 2 * span + left <= window + 1


def hold(schedule, lines):
    """The laws' walk along a run in which nothing breaks; None of a refusal."""
    expected = schedule.expected()
    walk = None if schedule.refusal else Laws(schedule, lines)
    if lines != expected:
        at = next((i for i, (a, b) in enumerate(zip(lines, expected)) if a != b), min(len(lines), len(expected)))
        raise Break("second", min(max(at - 1, 0), len(schedule.steps) - 1),
                    f"{lines[at:at + 1]}, and the second implementation {expected[at:at + 1]}")
    return walk


def shown(schedule, lines, fault):
    text = schedule.text()
    told = [f"{line:44}{said}" for line, said in zip(text[1:], lines[1:])]
    return "\n".join([text[0], *told, f"BREAK of '{fault.law}' at step {fault.at}: {fault.what}"])


def made(seed, number):
    """The schedules of a number: first a directed one for each pair of sizes, then random ones."""
    r = random.Random(f"{seed} {number}")
    if number < len(PAIRS):
        return [directed(*PAIRS[number]).take_all()]
    window, span = r.choice(PAIRS) if r.randrange(2) else (lambda s: (min(64, 2 * s - 1 + r.choice([0, 0, 1])),
        s))(r.choice([1, 2, 2, 3, 4, 8, 16, 32]))
    if r.randrange(12) == 0:  # sizes that do not fit
        window, span = r.randrange(1, 65), r.randrange(1, 33)
    if r.randrange(3) == 0:
        return [directed(window, span, r).take_all()]
    schedule = r.choice([crowd, visitors, lossy, slow, fronts] + [wander] * 10)(r, window, span)
    if r.randrange(20) == 0:
        return [schedule.refused(r)]
    if len(schedule.steps) <= 24 and r.randrange(8) == 0:
        return [schedule.front(n) for n in range(len(schedule.steps) + 1)]
    return [schedule.take_all()]


def altered(r, _, lines, walk):
    """The same transcript with one line changed that a law speaks of, and the law, if there is such a line."""
    if not walk or not walk.within or not walk.places:
        return None
    law = r.choice(sorted(walk.places))
    at = 1 + r.choice(walk.places[law])
    if law == "answers":
        status, count, params = lines[at].split(" ")[1:4]
        new = f"answer {int(status) ^ 1} {count} {params}" if r.randrange(2) else lines[at].removesuffix("-") + "00"
    else:
        new = {"untaken": "served 0 0 1", "once": "served 1 0 0", "round trip": "nothing new",
               "renewed": "not renewed" if lines[at] == "renewed" else "renewed"}[law]
    return law, None, lines[:at] + [new] + lines[at + 1:]


def count_of(schedule, _, walk):
    total = collections.Counter({"schedules": 1, "refused": int(walk is None)})
    if fits(schedule.window, schedule.span):
        total.update(["of sizes that fit", f"size {schedule.window} {schedule.span}"])
    return total + walk.count if walk else total


# ---- wrong devices and links
def refuses(job):
    """Whether the laws alone refuse a run of the wrong rule of this name, and how."""
    seed, name, law, edits = job
    with patch.object(schedules, "oca", changed(edits)):
        for number in range(len(PAIRS), len(PAIRS) + 4000):
            for schedule in made(seed, number):
                fault = None if schedule.refusal else broken(Laws, schedule, schedule.expected())
                if fault:
                    return fault.law == law, f"{name}: '{fault.law}' breaks at schedule {number}"
    return False, f"{name}: no break"


def breaks(folder, schedules):
    """Those of the schedules that break 'untaken' for sizes that do not fit, each with its lines and the break."""
    for schedule, lines in zip(schedules, transcripts(folder, schedules)):
        fault = broken(Laws, schedule, lines, True)
        if fault and fault.law == "untaken" and lines == schedule.expected():
            yield schedule, lines, fault


def sizes(folder, seed):
    """Whether each pair of W = 2 * S - 2 breaks 'untaken', and random schedules do at two pairs; prints what was found."""
    found = [sum(1 for _ in breaks(folder, [directed(times * span - less, span, left=(times - 2) * span) for span in spans]))
             for times, less, spans in ((2, 2, range(2, 33)), (3, 2, range(1, 22)), (3, 1, range(1, 22)))]
    print(f"windows of 2 * S - 2: {found[0]} of 31 directed schedules break 'untaken'")
    print(f"behind S commands of a link before, windows of 3 * S - 2: {found[1]} of 21 break it; of 3 * S - 1: {found[2]}")
    later = [directed(3 * span - 2, span, left=span, gap=100000) for span in range(1, 22)]
    said = transcripts(folder, later)
    for moments in (99999, 100000):
        with patch.object(sys.modules[__name__], "STILL", moments):
            found.append(sum(broken(Laws, *run) is not None for run in zip(later, said)))
    print(f"of a link lost 100,000 ms before, if such commands came for 99,999 ms: {found[3]} of 21 break it; for 100,000: {found[4]}")
    for window, span in ((2, 2), (4, 3)):
        r = random.Random(f"{seed} {window}")
        first = next(breaks(folder, [wander(r, window, span) if n % 2 else directed(window, span, r) for n in range(400)]), None)
        found.append(bool(first))
        print(f"window {window}, span {span}: {f'a random schedule breaks at step {first[2].at}' if first else 'none breaks'}")
    return found == [31, 21, 0, 21, 0, True, True]


def lines_refused(folder):
    """How many bad lines are refused with their number and their word, and status 2, and how many there are; the first one stands alone."""
    checks, bad = Checks(folder), [("0 quiet", "form"), *((line, word) for word, lines in DATA.bad_lines.items() for line in lines)]
    for line, word in bad:
        before = [] if line == "0 quiet" else ["# a comment", "", "schedule 1 1 127.0.0.1:1/1"]
        _, *said = checks.ran("trials", "lines", given="\n".join([*before, line]).encode(), text=False)
        checks.same(repr(line), said, [f"line {len(before) + 1}: {word}\n".encode(), 2])
    return checks.passed, len(bad)


def main():
    how = Comparison(made, transcripts, hold, shown, count_of, altered, 1, Laws)
    count, seed, total, wrong = in_processes(how, "schedules", BATCH, refuses, "wrong_networks")
    for _, said in wrong:
        print(said)
    good = sizes(sys.argv[1], seed)
    print(f"seed {seed}, {sum(name.startswith('size ') for name in total)} of {len(PAIRS)} pairs of sizes that fit")
    for head, told in DATA.told.items():
        print(head + ", ".join(f"{total[name]} {text}" for name, text in told))
    lines, altered_lines = lines_refused(sys.argv[1]), (total["altered, refused"], total["altered"])
    print("bad lines refused: {} of {}".format(*lines))
    print("altered transcripts refused by the law that they break: {} of {}".format(*altered_lines))
    return verdict({
        **{law: all(total[name] for name in names) for law, names in DATA.needs.items()}, "second": total["schedules"] >= count and total["refused"],
        "sizes": good, "lines": lines[0] == lines[1], "wrong": all(found for found, _ in wrong),
        "altered": total["altered"] and altered_lines[0] == altered_lines[1]})


if __name__ == "__main__":
    sys.exit(main())
