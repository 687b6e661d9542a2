"""A second, plain implementation of the profile in docs/PROTOCOL.md: a device, a controller, both over a network, and the texts of `ocadev replay`,
`ocactl replay` and `trials lines`. It is written from the rules of the profile and not from the programs' code, to compare them with it. It favours
plain lists over speed. Python 3, standard library only."""

import contextlib
import copy
import re
import struct
from collections import Counter, namedtuple

U32, U64 = 2**32 - 1, 2**64 - 1
LARGEST = 1472


class Fault(Exception):
    """What is wrong: of a datagram the fault's number and its place, of a command its status, of a line the word for it."""

    def __init__(self, kind, at=None):
        super().__init__(kind, at)
        self.kind, self.at = kind, at


def fails(holds, kind, at=None):
    if holds:
        raise Fault(kind, at)


def need(value, kind):
    fails(value is None, kind)
    return value


# ---- datagrams
def number(data):
    return int.from_bytes(data, "big")


def check(data):
    """The messages of a datagram, or the first Fault in the order of the checks."""
    fails(not data, 1, 0)
    fails(len(data) > LARGEST, 2, LARGEST)
    messages, p = [], 0
    while p < len(data):
        kind, count, end = frame_at(data, p)
        messages += [("keep-alive", data[p + 10:end])] if kind == 4 else messages_in(data, p, end, kind, count)
        p = end
    return messages


def frame_at(data, p):
    fails(data[p] != 0x3B, 3, p)
    fails(len(data) < p + 3, 9, p + 1)
    fails(number(data[p + 1:p + 3]) != 1, 4, p + 1)
    fails(len(data) < p + 7, 9, p + 3)
    size = number(data[p + 3:p + 7])
    fails(size < 11, 5, p + 3)
    fails(p + 1 + size > len(data), 9, p + 3)
    kind, count = data[p + 7], number(data[p + 8:p + 10])
    fails(kind not in (0, 1, 3, 4), 6, p + 7)
    fails(count == 0 or (kind == 4 and count != 1), 7, p + 8)
    fails(kind == 4 and size not in (11, 13), 8, p + 10)
    return kind, count, p + 1 + size


def messages_in(data, p, end, kind, count):
    messages, at = [], p + 10
    for _ in range(count):
        fails(at == end, 7, p + 8)
        fails(end - at < 4, 8, at)
        length = number(data[at:at + 4])
        fails(length < (10 if kind == 3 else 17) or at + length > end, 8, at)
        body = data[at:at + length]
        if kind == 3:
            messages.append(("response", number(body[4:8]), body[8], body[9], body[10:]))
        else:
            messages.append(("command", kind == 1, Command(*struct.unpack_from(">IIHHB", body, 4), body[17:])))
        at += length
    fails(at < end, 7, p + 8)
    return messages


def pdu(kind, bodies):
    rest = b"".join(bodies)
    return struct.pack(">BHIBH", 0x3B, 1, 9 + len(rest), kind, len(bodies)) + rest


def response_body(handle, status, count, params):
    return struct.pack(">IIBB", 10 + len(params), handle, status, count) + params


class Command(namedtuple("Command", "handle target level index count params", defaults=(0, b""))):
    def asks(self):
        return (self.target, self.level, self.index, self.count, self.params)

    def body(self):
        return struct.pack(">IIIHHB", 17 + len(self.params), *self[:5]) + self.params


def command(*fields, kind=1):
    return pdu(kind, [Command(*fields).body()])


def response(handle, status=0, count=0, params=b""):
    return pdu(3, [response_body(handle, status, count, params)])


# ---- objects

NUMBERS = ("int8", "int16", "int32", "int64", "uint8", "uint16", "uint32", "uint64")
CLASSES = {"block": (1, 1, 3), "mute": (1, 1, 1, 2), "polarity": (1, 1, 1, 3), "switch": (1, 1, 1, 4)}
CLASSES |= {kind: (1, 1, 1, 1, number) for number, kind in enumerate(("boolean", *NUMBERS), 1)}
WIDTHS = {kind: (int(kind.lstrip("uint")) // 8, kind[0] == "i") for kind in NUMBERS}
LIMITS = {name: (-1 << 8 * size - 1, (1 << 8 * size - 1) - 1) if signed else (0, (1 << 8 * size) - 1)
          for name, (size, signed) in WIDTHS.items()}
OK, LOCKED, BAD_ONO, PARAMETER_ERROR, OUT_OF_RANGE = 0, 3, 5, 6, 7
NOT_IMPLEMENTED, INVALID, FAILED, BAD_METHOD, OVERFLOW = 8, 9, 10, 11, 14


class Object:
    def __init__(self, ono, kind, container, role, lockable=True, state=None, names=None, low=None, high=None):
        self.ono, self.kind, self.container, self.role, self.lockable = ono, kind, container, role, lockable
        self.label, self.enabled, self.lock = "", True, None
        self.failing = False  # whether its hardware refuses to be changed
        self.state, self.names, self.low, self.high = state, names, low, high
        self.enableds = [True] * len(names) if names else None

    def copy(self):
        new = copy.copy(self)
        new.names, new.enableds = list(self.names or ()) or None, list(self.enableds or ()) or None
        return new

    def setting(self):
        return None if self.state is None else int(self.state)


def object_at(tree, ono):
    return next((o for o in tree if o.ono == ono), None)


def bench(channels=0):
    """The bench device's objects, and behind them so many channel strips."""
    own = [Object(100, "block", 0, "root"), Object(4096, "block", 100, "desk"), Object(4097, "mute", 4096, "mute", state=1),
        Object(4098, "polarity", 4096, "polarity", state=1), Object(4099, "switch", 4096, "input", state=0, names=["Line", "Mic", "Off"]),
        Object(4100, "int16", 4096, "trim", state=0, low=-600, high=600), Object(4101, "boolean", 4096, "lamp", state=False),
        Object(4102, "uint8", 4096, "dim", lockable=False, state=10, low=0, high=100)]
    for first in range(4103, 4103 + 4 * channels, 4):
        own += [Object(first, "block", 100, "strip"), Object(first + 1, "mute", first, "mute", state=1),
            Object(first + 2, "polarity", first, "polarity", state=1), Object(first + 3, "int16", first, "trim", state=0, low=-600, high=600)]
    return own


WORDS = {"mute": {"muted": 1, "unmuted": 2}, "polarity": {"non-inverted": 1, "inverted": 2}, "boolean": {"on": True, "off": False}}


class ObjectFault(Exception):
    """A line of a tree's text: its number and the word for its fault."""


def tree_of_text(text):
    """The objects that a text lists, a line each; or an ObjectFault."""
    tree = [Object(100, "block", 0, "root")]
    for k, line in enumerate(text.split(b"\n"), 1):
        if line and not line.startswith(b"#"):
            try:
                tree.append(listed(tree, line))
            except Fault as fault:
                raise ObjectFault(k, fault.kind) from None
    return tree


FIELD = re.compile(b'"([^"]*)"(?= |$)|(?!")([^ ]*)')


def parts(line):
    """The fields of a line, one at a time; one in quotes goes up to the next quote."""
    at = 0
    while at <= len(line):
        found = need(FIELD.match(line, at), "form")
        yield found[2] if found[1] is None else found[1]
        at = found.end() + 1


HIDDEN = {*range(0x20), *range(0x7f, 0xa0), 0x61c, 0x200e, 0x200f, *range(0x2028, 0x202f), *range(0x2066, 0x206a)}


def utf8(data):
    text = data.decode("utf-8", "surrogateescape")
    fails(any(ord(c) in HIDDEN or 0xdc80 <= ord(c) <= 0xdcff for c in text), "text")
    return text


def listed(tree, line):
    """The object of a line; the Fault has the word for what is wrong first from the left, or why it is not added."""
    fails(any(b < 32 for b in line), "form")
    fields = parts(line)
    field = lambda: need(next(fields, None), "form")
    word = lambda: field().decode("latin-1")
    ono, container = (need(digits(word(), 10, U32), "number") for _ in range(2))
    kind = word()
    state = names = low = high = None
    fails(kind not in CLASSES, "class")
    if kind in WORDS:
        state = need(WORDS[kind].get(word()), "value")
    elif kind == "switch":
        names = []
        for name in field().split(b","):
            names.append(utf8(name))
            fails(len(names) > 16, "range")
        wanted = field()
        state = need(next((n for n, name in enumerate(names) if name.encode() == wanted), None), "value")
    elif kind != "block":
        low, high, state = (need(digits(word(), 20, LIMITS[kind][1], LIMITS[kind][0]), "number") for _ in range(3))
    lockable = need({b"lockable": True, b"no-lock": False}.get(field()), "lockable")
    last = field()
    fails(next(fields, None) is not None, "form")
    new = Object(ono, kind, container, utf8(last), lockable, state, names, low, high)
    refuse(tree, new)
    return new


def refuse(tree, new):
    """Why an object is not added, in the order of the rules."""
    block = next((o for o in tree if o.ono == new.container and o.kind == "block"), None)
    deep, at = 1, block
    while at is not None and at.ono != 100:
        deep, at = deep + 1, object_at(tree, at.container)
    texts = [new.role] + (new.names or [])
    fails(len(tree) >= 4096, "full")
    fails(new.ono < 4096, "reserved")
    fails(object_at(tree, new.ono), "taken")
    fails(block is None, "container")
    fails(deep >= 8, "depth")
    fails(not new.role or any(len(t.encode()) > 64 for t in texts), "text")
    fails(new.low is not None and not new.low <= new.state <= new.high, "range")


def show(tree):
    return "".join(f"{o.ono} {'.'.join(map(str, CLASSES[o.kind]))} {o.container} {o.role}\n" for o in tree)


class Reader:
    def __init__(self, data):
        self.data = data

    def take(self, n):
        fails(len(self.data) < n, PARAMETER_ERROR)
        front, self.data = self.data[:n], self.data[n:]
        return front

    def number(self, n, signed=False):
        return int.from_bytes(self.take(n), "big", signed=signed)

    def text(self):
        count = self.number(2)
        for size in range(0, min(64, len(self.data)) + 1):
            with contextlib.suppress(UnicodeDecodeError):
                text = self.data[:size].decode("utf-8")
                if len(text) == count:
                    self.take(size)
                    return text
        raise Fault(PARAMETER_ERROR)

    def parameter(self, obj, letter):
        """By its letter: a truth, a text, an integer of one or two bytes, the value of the object's class, and a list of as many truths or texts
        as a switch has positions."""
        if letter in "BT":
            fails(self.number(2) != len(obj.names), PARAMETER_ERROR)
            return [self.parameter(obj, letter.lower()) for _ in obj.names]
        if letter == "t":
            return self.text()
        if letter == "v" and obj.kind in WIDTHS:
            return self.number(*WIDTHS[obj.kind])
        return self.number(int(letter)) if letter in "12" else self.number(1) != 0

    def all(self, obj, count, letters):
        """The parameters that these letters stand for, which are so many, and nothing behind them."""
        args = [self.parameter(obj, letter) for letter in letters]
        fails(self.data or count != len(letters), PARAMETER_ERROR)
        return args


def u16(n):
    return n.to_bytes(2, "big")


def text_bytes(text):
    return u16(len(text)) + text.encode("utf-8")


def members(tree, ono):
    return [o for o in tree if o.container == ono]


def descendants(tree, ono):
    inside = {ono}
    for o in tree:  # a container stands before its members
        if o.container in inside:
            inside.add(o.ono)
    return [o for o in tree if o.container in inside]


def listed_bytes(items):
    return u16(len(items)) + b"".join(items)


def class_bytes(obj):
    return listed_bytes([*map(u16, CLASSES[obj.kind])]) + u16(2)


def identification(obj, with_container=False):
    return obj.ono.to_bytes(4, "big") + class_bytes(obj) + (obj.container.to_bytes(4, "big") if with_container else b"")


def number_bytes(obj):
    size, signed = WIDTHS[obj.kind]
    return [value.to_bytes(size, "big", signed=signed) for value in (obj.state, obj.low, obj.high)]


def puts(name):
    """What sets this of an object, of a list one of its items."""
    def put(obj, peer, *args):
        if len(args) == 2:
            getattr(obj, name)[args[0]] = args[1]
        else:
            setattr(obj, name, args[0])
    return put


def locks(value):
    return lambda obj, peer: setattr(obj, "lock", value and (value, peer))


def nothing(*_):
    return []


def pair(level, index, letters, name, told):
    """A method that answers what an object has under this name, and the next one, which sets it: its last parameter is what the first answers."""
    return {(level, index): ("R", letters[:-1], told, nothing), (level, index + 1): ("W", letters, nothing, puts(name))}


# The methods of all classes and of each, by DefLevel and MethodIndex: what they need of a lock (R: read, W: write, L: lock), the letters of their
# parameters (`Reader.parameter`), what they answer, and what they change.
OF_ALL = {
    (1, 1): ("R", "", lambda tree, obj: [class_bytes(obj)], nothing), (1, 2): ("R", "", lambda tree, obj: [bytes([obj.lockable])], nothing),
    (1, 3): ("L", "", nothing, locks("total")), (1, 4): ("L", "", nothing, locks(None)), (1, 6): ("L", "", nothing, locks("read-only")),
    (1, 5): ("R", "", lambda tree, obj: [text_bytes(obj.role)], nothing),
    (2, 10): ("R", "", lambda tree, obj: [obj.container.to_bytes(4, "big")], nothing),
    **pair(2, 1, "b", "enabled", lambda tree, obj: [bytes([obj.enabled])]), **pair(2, 8, "t", "label", lambda tree, obj: [text_bytes(obj.label)])}
OF_BLOCK = {(3, 5): ("R", "", lambda tree, obj: [listed_bytes([identification(o) for o in members(tree, obj.ono)])], nothing),
    (3, 6): ("R", "", lambda tree, obj: [listed_bytes([identification(o, True) for o in descendants(tree, obj.ono)])], nothing)}
OF_STATE = pair(4, 1, "1", "state", lambda tree, obj: [bytes([obj.state])])
OF_SWITCH = {
    **pair(4, 1, "2", "state", lambda tree, obj: [u16(obj.state), u16(0), u16(len(obj.names) - 1)]),
    **pair(4, 3, "2t", "names", lambda tree, obj, at: [text_bytes(obj.names[at])]),
    **pair(4, 5, "T", "names", lambda tree, obj: [listed_bytes([text_bytes(name) for name in obj.names])]),
    **pair(4, 7, "2b", "enableds", lambda tree, obj, at: [bytes([obj.enableds[at]])]),
    **pair(4, 9, "B", "enableds", lambda tree, obj: [listed_bytes([bytes([it]) for it in obj.enableds])])}
OF_VALUE = pair(5, 1, "v", "state", lambda tree, obj: number_bytes(obj) if obj.kind in WIDTHS else [bytes([obj.state])])
METHODS = {kind: OF_ALL | {"block": OF_BLOCK, "mute": OF_STATE, "polarity": OF_STATE, "switch": OF_SWITCH}.get(kind, OF_VALUE) for kind in CLASSES}


def is_left_out(obj, level, index):
    """Whether the standard has a method of the object that the profile leaves out."""
    return level == 2 and 3 <= index <= 13 or obj.kind == "block" and level == 3 and 1 <= index <= 20


def takes(obj, value):
    """Whether an object can be set to this value of its class."""
    if obj.kind == "switch":
        return value < len(obj.names) and obj.enableds[value]
    return obj.low <= value <= obj.high if obj.kind in WIDTHS else obj.kind == "boolean" or value in (1, 2)


def execute(tree, peer, c):
    """(status, count, parameters); the tree is changed only where the status is 0."""
    try:
        items = carried_out(tree, peer, c)
    except Fault as fault:
        return fault.kind, 0, b""
    return OK, len(items), b"".join(items)


def carried_out(tree, peer, c):
    """What the method of a command answers, and the change is made; the Fault has the first status of a command that is refused."""
    obj, key = object_at(tree, c.target), (c.level, c.index)
    fails(obj is None, BAD_ONO)
    fails(key not in METHODS[obj.kind], NOT_IMPLEMENTED if is_left_out(obj, *key) else BAD_METHOD)
    access, letters, told, change = METHODS[obj.kind][key]
    fails(obj.lock and obj.lock[1] != peer and (obj.lock[0] == "total" or access != "R"), LOCKED)
    args = Reader(c.params).all(obj, c.count, letters)
    fails(key in ((4, 2), (5, 2)) and not takes(obj, args[0]), OUT_OF_RANGE)
    fails(obj.kind == "switch" and key in ((4, 3), (4, 4), (4, 7), (4, 8)) and args[0] >= len(obj.names), OUT_OF_RANGE)
    fails(key in ((1, 3), (1, 6)) and not obj.lockable or key == (1, 4) and obj.lock is None, INVALID)
    items = told(tree, obj, *args)
    fails(sum(map(len, items)) > 1452, OVERFLOW)
    fails(access == "W" and obj.failing, FAILED)
    change(obj, peer, *args)
    return items


def writes(tree, c, reply):
    """Whether the command wrote: it was carried out, and its method writes."""
    return reply[0] == OK and METHODS[object_at(tree, c.target).kind][c.level, c.index][0] == "W"


# ---- changes at the front

NO_OBJECT, NO_SETTING, OTHER_KIND, TOO_FAR = 1, 2, 3, 4
# What the front changes besides a setting, and the faults of that.
CHANGES = ("label", "enabled", "unlock", "failing")
BAD_LABEL, NOT_LOCKED = 2, 3


def local_fault(obj, kind, value):
    """Why the front does not set an object as its class's set method would, or does not change it so; or None."""
    if obj is None:
        return NO_OBJECT
    if kind in CHANGES:
        is_bad = kind == "label" and len(value.encode()) > 64
        return BAD_LABEL if is_bad else NOT_LOCKED if kind == "unlock" and obj.lock is None else None
    if obj.kind == "block":
        return NO_SETTING
    if obj.kind != kind:
        return OTHER_KIND
    return None if takes(obj, value) else TOO_FAR


def set_local(tree, ono, kind, value):
    """Sets or changes an object at the front, whoever has locked it. The number of the fault, which changes nothing, or None."""
    obj = object_at(tree, ono)
    fault = local_fault(obj, kind, value)
    if fault is None:
        name = "lock" if kind == "unlock" else kind if kind in CHANGES else "state"
        setattr(obj, name, bool(value) if kind in ("enabled", "failing", "boolean") else value)
    return fault


# ---- the device
class Session:
    def __init__(self, peer, now):
        self.peer, self.heard, self.heartbeat = peer, now, 5000
        self.accepted = []  # (command, reply), never cut

    def beat(self, ms):
        self.heartbeat = max(250, min(ms, 30000))

    def is_lapsed(self, now):
        return now - self.heard > 3 * self.heartbeat

    def stays(self, now):
        return now - self.heard <= 120000

    def judge(self, window, command):
        handles = [c.handle for c, _ in self.accepted]
        pushed_out = handles[:max(0, len(handles) - window)]
        if command.handle not in handles and all(h < command.handle for h in pushed_out):
            return "fresh", None
        for kept, reply in self.accepted[max(0, len(handles) - window):]:
            if kept.handle == command.handle:
                return ("duplicate", reply) if kept.asks() == command.asks() else ("reused", None)
        return "old", None


class Device:
    def __init__(self, tree=None, window=32, peers=16):
        self.tree, self.window, self.peers, self.now, self.sessions = tree or bench(), window, peers, 0, []
        self.written = []  # the objects that the last datagram wrote to

    def release(self, peer):
        for o in self.tree:
            if o.lock and o.lock[1] == peer:
                o.lock = None

    def advance(self, now):
        self.now = max(self.now, now)
        for s in self.sessions:
            if s.is_lapsed(self.now):
                self.release(s.peer)
        self.sessions = [s for s in self.sessions if s.stays(self.now)]

    def session_for(self, peer):
        session = next((s for s in self.sessions if s.peer == peer), None)
        if session is None and len(self.sessions) < self.peers:
            session = Session(peer, self.now)
            self.sessions.append(session)
        return session

    def datagram(self, peer, data, now):
        """(the verdict's text, the packets)"""
        self.advance(now)
        self.written = []
        try:
            messages = check(data)
        except Fault as f:
            return f"malformed {f.kind} at {f.at}", []
        session = self.session_for(peer)
        if session is None:
            return "no-room", []
        session.heard = self.now
        counts, answers = Counter(), []
        for message in messages:
            if message[0] == "keep-alive":
                session.beat(number(message[1]) * (1000 if len(message[1]) == 2 else 1))
                answers.append(("keep-alive", message[1]))
            elif message[0] == "command":
                counted, answer = self.command(session, *message[1:])
                counts[counted] += 1
                answers += answer
        reused = f" reused {counts['reused']}" if counts["reused"] else ""
        return f"served {counts['fresh']} {counts['duplicate']} {counts['old']}{reused}", packets(answers)

    def command(self, session, respond, command):
        """As what a command counts, and its answer, if it gets one."""
        judged, reply = session.judge(self.window, command)
        if judged == "fresh":
            reply = execute(self.tree, session.peer, command)
            session.accepted.append((command, reply))
            if writes(self.tree, command, reply):
                self.written.append(command.target)
        answered = respond and judged in ("fresh", "duplicate")
        return judged, [("response", response_body(command.handle, *reply))] if answered else []

    def set(self, ono, kind, value):
        return set_local(self.tree, ono, kind, value)


def packets(answers):
    """Neighbouring responses share one PDU while the datagram has at most 1,472 bytes; each keep-alive is alone."""
    groups = []
    for kind, body in answers:
        if kind == "response" and groups and groups[-1][0] == "response" and len(pdu(3, groups[-1][1] + [body])) <= LARGEST:
            groups[-1][1].append(body)
        else:
            groups.append((kind, [body]))
    return [pdu(3 if kind == "response" else 4, bodies) for kind, bodies in groups]


# ---- the controller
class Link:
    def __init__(self, device, first, span=16, now=0):
        self.device, self.next, self.span, self.now, self.given, self.lost = device, first, span, now, now, False
        self.untaken = []  # [command, times sent, last moment, answer or None]

    def submit(self, target, level, index, count, params, now):
        if self.lost:
            return "refused 1 lost"
        if self.next > U32:
            return "refused 2 handles-spent"
        if self.untaken and not self.next < self.untaken[0][0].handle + self.span:
            return "refused 3 span-full"
        if len(params) > 1445:
            return "refused 4 too-long"
        self.now = max(self.now, now)
        self.untaken.append([Command(self.next, target, level, index, count, params), 0, 0, None])
        self.next += 1
        return f"handle {self.next - 1}"

    def due(self, now):
        """("send", bytes), ("keep-alive", bytes), ("nothing", None) or ("lost", None)"""
        self.now = max(self.now, now)
        if self.lost:
            return "lost", None
        for u in self.untaken:
            if u[3] is None and (u[1] == 0 or self.now - u[2] >= 250):
                if u[1] == 20:
                    self.lost = True
                    return "lost", None
                u[1], u[2], self.given = u[1] + 1, self.now, self.now
                return "send", pdu(1, [u[0].body()])
        if self.now - self.given >= 2500:
            self.given = self.now
            return "keep-alive", pdu(4, [u16(5)])
        return "nothing", None

    def datagram(self, peer, data, now):
        self.now = max(self.now, now)
        if peer != self.device:
            return "stranger"
        try:
            messages = check(data)
        except Fault:
            return "malformed"
        taken = 0
        for m in messages:
            if m[0] == "response":
                for u in self.untaken:
                    if u[0].handle == m[1] and u[3] is None:
                        u[3] = m[2:]
                        taken += 1
        return f"answered {taken}" if taken else "nothing new"

    def take(self, handle):
        for u in self.untaken:
            if u[0].handle == handle and u[3] is not None:
                self.untaken.remove(u)
                return u[3]
        return None


# ---- a device and links over a network

DEVICE = (127, 0, 0, 1, 65000)


class Network:
    """A device, a link for each start (a peer and a first handle), and the datagrams sent to the device and to links,
    each with the link's peer. A step is a tuple, as `step_line` writes it."""

    def __init__(self, window, span, starts, peers=16):
        self.device = Device(window=window, peers=peers)
        self.links = [(peer, Link(DEVICE, first, span)) for peer, first in starts]
        self.sent = {"to-device": [], "to-link": []}

    def step(self, step):
        """The text of what the step led to, or None where it names what is not there."""
        kind, *rest = step
        if kind == "set":
            fault = self.device.set(*rest)
            return f"refused {fault}" if fault is not None else "changed" if rest[1] in CHANGES else "set"
        now = None if kind == "take" else rest.pop(0)
        if kind == "tick":
            self.device.advance(now)
            return "quiet"
        number, *rest = rest
        if kind == "other":
            return None if any(peer == number for peer, _ in self.links) else self.device.datagram(number, *rest, now)[0]
        its = self.sent.get(kind, self.links)
        if number >= len(its):
            return None
        peer, link = its[number]
        if kind == "to-device":
            text, out = self.device.datagram(peer, link, now)
            self.sent["to-link"] += [(peer, packet) for packet in out]
            return text
        if kind == "to-link":
            return next(its for p, its in self.links if p == peer).datagram(DEVICE, link, now)
        if kind == "take":
            return answer_line(link.take(*rest))
        if kind == "submit":
            return link.submit(*rest, now)
        if kind == "renew":
            first, span = rest
            if first < link.next:
                return "not renewed"
            self.links[number] = peer, Link(DEVICE, first, span, now)
            return "renewed"
        said, data = ("", pdu(4, [u16(5)])) if kind == "beside" else link.due(now)
        if data is None:
            return said
        self.sent["to-device"].append((peer, data))
        return f"sent {len(self.sent['to-device']) - 1}"

    def transcript(self, outcomes):
        sent = [f"{way} {peer_text(peer)} {hex_text(data)}" for way, its in self.sent.items() for peer, data in its]
        return ["schedule", *outcomes, *sent, f"sessions {len(self.device.sessions)}"]


def front_line(ono, kind, value):
    if kind == "label":
        return f"label {ono} {hex_text(value.encode())}"
    return f"unlock {ono}" if kind == "unlock" else f"{kind} {ono} {value}" if kind in CHANGES else f"set {ono} {kind} {value}"


def peer_text(peer):
    return "{}.{}.{}.{}:{}".format(*peer)


def step_line(step):
    kind, *rest = step
    if kind == "set":
        return front_line(*rest)
    kind = {"tick": ["quiet"], "other": []}.get(kind, [kind])
    now, *rest = [peer_text(it) if isinstance(it, tuple) else hex_text(it) if isinstance(it, bytes) else str(it) for it in rest]
    return " ".join([*kind, now, *rest] if kind == ["take"] else [now, *kind, *rest])


# ---- scripts
def digits(field, most, largest, least=None):
    """The number that so many digits at most are, behind a minus or not where there is a least number; None where it is another one or none."""
    is_one = re.fullmatch(rf"{'' if least is None else '-?'}[0-9]{{1,{most}}}", field)
    return int(field) if is_one and (least or 0) <= int(field) <= largest else None


def peer_of(field):
    address, _, port = field.partition(":")
    values = [*(digits(it, 3, 255) for it in address.split(".")), digits(port, 5, 65535)]
    return tuple(values) if len(values) == 5 and None not in values else None


def hex_of(field):
    if field == "-":
        return b""
    return bytes.fromhex(field) if re.fullmatch("([0-9a-fA-F]{2})+", field) else None


def hex_text(data):
    return data.hex() if data else "-"


def answer_line(answer):
    return "none" if answer is None else f"answer {answer[0]} {answer[1]} {hex_text(answer[2])}"


# How a field of a line is read, and the word for one that is wrong.
WORD, MOMENT, PEER, HEX = (str, "form"), (lambda it: digits(it, 20, U64), "moment"), (peer_of, "peer"), (hex_of, "hex")
ONE, TWO, FOUR = [(lambda it, size=size: digits(it, *size), "number") for size in ((3, 255), (5, 65535), (10, U32))]
# The lines of a controller's script but for `take`, by the word behind the moment.
LINK_LINES = {"due": (), "from": (PEER, HEX), "submit": (FOUR, TWO, TWO, ONE, HEX)}


def read_as(fields, *forms):
    """The fields of a line that is to have a field for each of these."""
    fails(len(fields) != len(forms), "form")
    return [need(read(field), word) for field, (read, word) in zip(fields, forms)]


def device_line(device, fields):
    if fields[1:2] == ["quiet"]:
        device.advance(read_as(fields, MOMENT, WORD)[0])
        return ["quiet"]
    now, peer, data = read_as(fields, MOMENT, PEER, HEX)
    text, out = device.datagram(peer, data, now)
    return [text] + ["> " + hex_text(p) for p in out]


def link_line(link, fields):
    if fields[0] == "take":
        return [answer_line(link.take(read_as(fields, WORD, FOUR)[1]))]
    keyword = fields[1] if len(fields) > 1 else ""
    fails(keyword not in LINK_LINES, "form")
    now, _, *rest = read_as(fields, MOMENT, WORD, *LINK_LINES[keyword])
    if keyword == "due":
        kind, data = link.due(now)
        return [kind if data is None else f"{kind} {hex_text(data)}"]
    return [(link.submit if keyword == "submit" else link.datagram)(*rest, now)]


def replay(script, serve):
    """(standard output, the fault's line or None, the exit status) of a script's bytes; serve answers a line's fields."""
    limit, out, end = 16777216, [], (None, 0)
    lines = script[:limit].split(b"\n")
    for k, line in enumerate(lines, 1):
        try:
            fails(len(line) > 4096, "too long")
            if len(script) > limit and k == len(lines):
                end = "too much input", 1
            elif line and not line.startswith(b"#"):
                fails(not line.isascii(), "form")
                out += serve(line.decode("ascii").split(" "))
        except Fault as fault:
            end = f"line {k}: {fault.kind}", 2
            break
    return "".join(line + "\n" for line in out).encode(), *end


def device_replay(script, window=32, peers=16, channels=0):
    device = Device(bench(channels), window, peers)
    return replay(script, lambda fields: device_line(device, fields))


def link_replay(script, device, first, span=16):
    link = Link(device, first, span)
    return replay(script, lambda fields: link_line(link, fields))
