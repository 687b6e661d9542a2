"""The law of a device by what happened to it, transcribed from crates/oca_device/specs (LawByEvents.antt, Groups.antt): its definitions are functions
of the same names, by what happened alone and nothing that a device stores. In a `Late` the latest stands first, what stands behind it is `before`.
What messages a datagram has or which is its first fault, what executing one command gives, and what a change at the front does, is the second
implementation's (oca_profile.py), which fuzz.py and damaged.py hold against the programs. tools/law.py holds transcripts against the law."""
import functools
from collections import Counter, namedtuple

import oca_profile as oca
from comparing import Break

LONGEST_SILENCE, FIRST_HEARTBEAT = 120000, 5000
# What happens to a device, and what of a datagram happened if it is well-formed.
Datagram = namedtuple("Datagram", "sender data now")
Passes = namedtuple("Passes", "now")
Sets = namedtuple("Sets", "ono kind value")
Says = namedtuple("Says", "sender messages")
Arrival = namedtuple("Arrival", "sender messages at number")  # the number tells arrivals apart, for what is kept of them
Executed = namedtuple("Executed", "p c reply wrote")
Late = namedtuple("Late", "latest before")  # None is the empty one


def read(data):
    """The messages of a datagram, or None; and the verdict on its first fault, if it has one."""
    try:
        return tuple(oca.check(data)), None
    except oca.Fault as fault:
        return None, f"malformed {fault.kind} at {fault.at}"


def happened(event, H):
    """Happened: what one event more makes of what happened."""
    if not isinstance(event, Datagram):
        return Late(event, H)
    messages, passed = read(event.data)[0], Late(Passes(event.now), H)
    return passed if messages is None else Late(Says(event.sender, messages), passed)


# ---- groups (Groups.antt)
def is_full_before(p, q):
    """Whether the first response of the packet q finds no room in the packet p, or one of them is a keep-alive."""
    return p[7] != 3 or q[7] != 3 or oca.LARGEST < len(p) + oca.number(q[10:14])


# ---- objects, of which there is a tuple and none ever changes: one command executed, locks released, a change at the front
def with_copies(tree, ones):
    return tuple(o.copy() if o.ono in ones else o for o in tree)


def execution(tree, p, c):
    """What executing a command gave, whether it wrote, and the objects after it."""
    own = with_copies(tree, [c.target])
    reply = oca.execute(own, p, c)
    return Executed(p, c, reply, oca.writes(own, c, reply)), own if reply[0] == 0 else tree


def released(tree, p):
    held = [o.ono for o in tree if o.lock and o.lock[1] == p]
    own = with_copies(tree, held)
    for o in own:
        if o.ono in held:
            o.lock = None
    return own


def after_set(tree, change):
    own = with_copies(tree, [change.ono])
    return own if oca.set_local(own, *change) is None else tree


# ---- what counts as what (LawByEvents.antt)
EXECUTED, KEPT, OLD, REUSED = range(4)


def counted(w, A, c):
    """As what a command counts, where the commands A were accepted before."""
    border = max(0, len(A) - w)
    if all(x.handle != c.handle for x in A) and all(x.handle < c.handle for x in A[:border]):
        return EXECUTED
    under = [x[1:] for x in A[border:] if x.handle == c.handle]
    return KEPT if c[1:] in under else REUSED if under else OLD


def all_counted(w, A, messages):
    """The messages in order, a command with what it counts as."""
    for m in messages:
        count = counted(w, A, m[2]) if m[0] == "command" else None
        if count == EXECUTED:
            A = A + [m[2]]
        yield m, count


def accepted_of(w, A, messages):
    return [m[2] for m, count in all_counted(w, A, messages) if count == EXECUTED]


def replies(w, under, A, messages):
    out = []
    for m, count in all_counted(w, A, messages):
        if m[0] == "keep-alive":
            out.append(m)
        elif count in (EXECUTED, KEPT) and m[1]:
            out.append(under(m[2].handle))
    return out


def heartbeat_of(own):
    """The heartbeat of a session, whose latest arrival stands first."""
    last = next((m[1] for a in own for m in reversed(a.messages) if m[0] == "keep-alive"), None)
    return FIRST_HEARTBEAT if last is None else max(250, min(oca.number(last) * (1000 if len(last) == 2 else 1), 30000))


def is_lapsed(t, own):
    return 3 * heartbeat_of(own) < t - own[0].at


class Law:
    """The definitions that speak of the size w of the windows, the greatest number of sessions, or the opening tree."""

    def __init__(self, w, most_sessions, tree):
        self.w, self.most_sessions, self.tree = w, most_sessions, tree
        for name in ("clock", "opened", "known", "admitted", "accepted_in", "carried_out"):  # what they gave is kept
            setattr(self, name, functools.cache(getattr(self, name)))

    def clock(self, H):
        if H is None:
            return 0
        return max(self.clock(H.before), H.latest.now) if isinstance(H.latest, Passes) else self.clock(H.before)

    def session(self, t, p, arrivals):
        own = []
        while arrivals:
            a = arrivals.latest
            if a.sender == p:
                if t - a.at > LONGEST_SILENCE:
                    break
                own.append(a)
                t = a.at
            arrivals = arrivals.before
        return tuple(own)

    def opened(self, arrivals):
        if arrivals is None:
            return ()
        a, before = arrivals
        if self.session(a.at, a.sender, before):
            return self.opened(before)
        return tuple(q for q in self.opened(before) if q != a.sender) + (a.sender,)

    def known(self, t, arrivals):
        return tuple(p for p in self.opened(arrivals) if self.session(t, p, arrivals))

    def has_room(self, t, p, arrivals):
        return self.session(t, p, arrivals) or len(self.known(t, arrivals)) < self.most_sessions

    def here(self, H):
        """Of a datagram that was the last that happened: the moment, its sender, and the arrivals before it."""
        return self.clock(H.before), H.latest.sender, self.admitted(H.before)

    def admitted(self, H):
        if H is None:
            return None
        before = self.admitted(H.before)
        if isinstance(H.latest, Says) and self.has_room(*self.here(H)):
            return Late(Arrival(*H.latest, self.clock(H.before), before.latest.number + 1 if before else 0), before)
        return before

    def accepted_in(self, own):
        """accepted_of of all that was said in a session: of the messages before the last arrival, and then of its messages."""
        if not own:
            return []
        A = self.accepted_in(own[1:])
        return A + accepted_of(self.w, A, own[0].messages)

    def accepted_by(self, t, p, arrivals):
        return self.accepted_in(self.session(t, p, arrivals))

    def served_of(self, H):
        return H.latest.messages if self.has_room(*self.here(H)) else ()

    def carried_out(self, H):
        """All executions in order, and the objects after all changes."""
        if H is None:
            return (), self.tree
        (done, tree), x = self.carried_out(H.before), H.latest
        if isinstance(x, Passes):
            now, arrivals = self.clock(H.before), self.admitted(H.before)
            for p in self.known(now, arrivals):
                if is_lapsed(self.clock(H), self.session(now, p, arrivals)):
                    tree = released(tree, p)
        elif isinstance(x, Sets):
            tree = after_set(tree, x)
        else:
            for c in accepted_of(self.w, self.accepted_by(*self.here(H)), self.served_of(H)):
                given, tree = execution(tree, x.sender, c)
                done += (given,)
        return done, tree

    def written(self, H):
        """What a datagram, with which this was the last that happened, wrote to."""
        return tuple(x.c.target for x in self.carried_out(H)[0][len(self.carried_out(H.before)[0]):] if x.wrote)

    def objects(self, H):
        return self.carried_out(H)[1]

    def reply(self, p, h, H):
        """The response with what the peer's last execution under the handle gave."""
        return "response", h, *next(x.reply for x in reversed(self.carried_out(H)[0]) if (x.p, x.c.handle) == (p, h))

    def answers(self, H):
        if not isinstance(H.latest, Says):
            return []
        return replies(self.w, lambda h: self.reply(H.latest.sender, h, H), self.accepted_by(*self.here(H)), self.served_of(H))

    def verdict(self, data, H):
        if isinstance(H.latest, Passes):
            return read(data)[1]
        if not self.has_room(*self.here(H)):
            return "no-room"
        counts = Counter(count for _, count in all_counted(self.w, self.accepted_by(*self.here(H)), H.latest.messages))
        return f"served {counts[EXECUTED]} {counts[KEPT]} {counts[OLD]}" + (f" reused {counts[REUSED]}" if counts[REUSED] else "")


# ---- a transcript held against the law
def set_line(fault):
    return "set" if fault is None else f"refused {fault}"


def packets_in(lines):
    return [bytes.fromhex(line[2:]) for line in lines if line.startswith("> ")]


def written_lines(onos):
    return [" ".join(["written", *map(str, onos)])] if onos else []


def objects_line(tree):
    """Each object's number, setting and lock, of blocks only where they are locked."""
    shown = ["objects"]
    for o in tree:
        if o.lock or o.kind != "block":
            lock = f"/{o.lock[0][0]}{oca.peer_text(o.lock[1])}" if o.lock else ""
            shown.append(f"{o.ono}={'-' if o.state is None else o.setting()}{lock}")
    return " ".join(shown)


def walk(history, tale):
    """Holds the law of a device against the lines that `trials lines` prints of each event: the verdict, or whether a change at the
    front was made, the packets, what a datagram wrote to, the number of sessions, and the objects. A Break has the sentence that is
    broken first."""
    law, H = Law(history.window, history.peers, tuple(oca.bench(history.channels))), None
    for number, (event, (verdict, *others, sessions, objects)) in enumerate(zip(history.events, tale, strict=True)):
        before, H = H, happened(event, H)
        packets = packets_in(others)

        def same(sentence, said, wanted, number=number):
            if said != wanted:
                raise Break(sentence, number, f"{said} in place of {wanted}")

        if isinstance(event, Datagram):
            same("verdict_is", verdict, law.verdict(event.data, H))
            groups = [read(packet)[0] or () for packet in packets]
            are_pdus = [group and oca.frame_at(packet, 0)[2] == len(packet) for group, packet in zip(groups, packets)]
            same("packets_are", are_pdus, [True] * len(groups))
            same("answers_are", [m for group in groups for m in group], law.answers(H))
            same("packets_are", all(map(is_full_before, packets, packets[1:])), True)
            same("written_are", others, [*(f"> {packet.hex()}" for packet in packets), *written_lines(law.written(H))])
        elif isinstance(event, Sets):
            same("set_fault", [verdict, *others], [set_line(oca.set_local(with_copies(law.objects(before), [event.ono]), *event))])
        else:
            same("verdict_is", [verdict, *others], ["quiet"])
        same("objects_are", objects, objects_line(law.objects(H)))
        same("sessions_are", sessions, f"sessions {len(law.known(law.clock(H), law.admitted(H)))}")
