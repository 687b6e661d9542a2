#!/usr/bin/env python3
"""A controller for an OCA device, written from docs/PROTOCOL.md with Python's standard library alone.

    controller.py HOST:PORT list              prints each object: ONO CLASS CONTAINER "ROLE" "LABEL"
    controller.py HOST:PORT get ONO..         prints the value of each; of a number its least and greatest, too
    controller.py HOST:PORT set ONO VALUE ..  sets each, in any order; none if a value is missing or fits no object
    controller.py HOST:PORT lock ONO..        locks each, keeps the locks until the input ends, and unlocks them

Up to 16 commands are in flight at once. The exit status is 0 if all is done, 1 if no answer came, 2 if the arguments
are invalid, and 4 if the device refused a command or its answer is unreadable."""
import json
import os
import select
import socket
import struct
import sys
import time
from dataclasses import dataclass, field
from itertools import islice

COMMAND, RESPONSE, KEEP_ALIVE = 1, 3, 4                     # PduType
SMALLEST = {0: 17, COMMAND: 17, RESPONSE: 10}               # bytes of a message
SPAN, TRIES, RESEND, IDLE, LATE = 16, 20, 0.25, 2.5, 15.0   # the rules for controllers; times in seconds
LARGEST, DEEPEST, MOST = 1472, 8, 4096                      # bytes of a datagram; objects below each other, and in all
ROOT, BLOCK = 100, (1, 1, 3)
STATUSES = {3: "Locked", 5: "BadONo", 6: "ParameterError", 7: "ParameterOutOfRange", 8: "NotImplemented",
            9: "InvalidRequest", 10: "ProcessingFailed", 11: "BadMethod", 14: "BufferOverflow"}


def clock():
    """The present moment in seconds, by a clock that goes on while the machine sleeps, where there is one."""
    return time.clock_gettime(getattr(time, "CLOCK_BOOTTIME", time.CLOCK_MONOTONIC))


class Lost(Exception):
    """No answer came in time. Whether the device executed the commands in flight is not known."""


class Invalid(Exception):
    """Arguments that mean nothing."""


class Refused(Exception):
    """What keeps a command from being sent: the answer to an earlier one."""


@dataclass(frozen=True)
class Request:
    """What a command asks of an object: a method, by DefLevel and MethodIndex, and its parameters."""
    ono: int
    level: int
    index: int
    count: int = 0
    parameters: bytes = b""


@dataclass(frozen=True)
class Response:
    """What came back under a handle."""
    handle: int
    status: int
    count: int
    parameters: bytes

    def taken(self, read):
        """Whether the command was carried out and its answer can be read; and what is read of the parameters, or why not."""
        if self.status:
            return False, STATUSES.get(self.status, f"status {self.status}")
        try:
            return True, read(self.parameters)
        except (struct.error, ValueError, KeyError):
            return False, "unreadable answer"


@dataclass(frozen=True)
class Kind:
    """A class with a value: `form` is its type, for `struct`. A number without words has limits."""
    name: str
    level: int
    form: str
    words: dict = field(default_factory=dict)

    def shown(self, parameters):
        """The value in the answer to the get method, LEVEL.1."""
        value, *limits = struct.unpack(">" + self.form * (1 if self.words else 3), parameters)
        return f"{value} ({limits[0]} to {limits[1]})" if limits else self.words[value]

    def packed(self, word):
        """The parameter of the set method, LEVEL.2."""
        numbers = {name: number for number, name in self.words.items()}
        try:
            return struct.pack(">" + self.form, numbers[word] if numbers else int(word))
        except (KeyError, ValueError, struct.error):
            raise Invalid(f"{word} is no {self.name}") from None


KINDS = {(1, 1, 1, 2): Kind("mute", 4, "B", {1: "muted", 2: "unmuted"}),
         (1, 1, 1, 3): Kind("polarity", 4, "B", {1: "non-inverted", 2: "inverted"}),
         (1, 1, 1, 4): Kind("switch", 4, "H"), (1, 1, 1, 1, 1): Kind("boolean", 5, "?", {False: "off", True: "on"})}
for at, its_name in enumerate("int8 int16 int32 int64 uint8 uint16 uint32 uint64".split()):
    KINDS[1, 1, 1, 1, 2 + at] = Kind(its_name, 5, "bhiqBHIQ"[at])


def split(form, data):
    """The numbers with which bytes begin, by a form of `struct`, and the bytes behind them."""
    size = struct.calcsize(form)
    return struct.unpack(form, data[:size]), data[size:]


def class_of(data):
    """The class that an OcaClassIdentification begins with, and the bytes behind its version."""
    (count,), data = split(">H", data)
    numbers, data = split(f">{count + 1}H", data)
    return numbers[:count], data


def whole_class(data):
    """The class in the answer to GetClassIdentification."""
    class_id, rest = class_of(data)
    if rest:
        raise struct.error("more than a class")
    return class_id


def members_of(data):
    """The members in the answer to GetMembers: of each its ONo and its class."""
    (count,), data = split(">H", data)
    found = []
    for _ in range(count):
        (ono,), data = split(">I", data)
        class_id, data = class_of(data)
        found.append((ono, class_id))
    if data:
        raise struct.error("more than the members")
    return found


def text_of(data):
    """An OcaString that is the last parameter, in quotes. Its count is of characters, not of bytes."""
    (count,), data = split(">H", data)
    if len(text := data.decode()) != count:
        raise struct.error("a text of another length")
    return json.dumps(text)


def pdu(kind, message):
    """A datagram of one PDU with one message."""
    return struct.pack(">BHIBH", 0x3B, 1, 9 + len(message), kind, 1) + message


def command(handle, its):
    """The datagram of a command."""
    size = 17 + len(its.parameters)
    return pdu(COMMAND, struct.pack(">IIIHHB", size, handle, its.ono, its.level, its.index, its.count) + its.parameters)


def responses(datagram):
    """The responses in every PDU of a datagram. One fault, a `struct.error`, makes the whole of it worth nothing."""
    found, rest = [], datagram
    if not 0 < len(datagram) <= LARGEST:
        raise struct.error("no datagram")
    while rest:
        (sync, version, size, kind, count), rest = split(">BHIBH", rest)
        if (sync, version) != (0x3B, 1) or not 11 <= size <= 9 + len(rest):
            raise struct.error("no PDU")
        body, rest = rest[:size - 9], rest[size - 9:]
        if kind != KEEP_ALIVE:
            found += responses_in(kind, count, body)
        elif count != 1 or len(body) not in (2, 4):
            raise struct.error("no keep-alive")
    return found


def responses_in(kind, count, body):
    """The responses in the messages of a PDU; a PDU of commands has none."""
    found = []
    if kind not in SMALLEST:
        raise struct.error("no PduType")
    for _ in range(count):
        (size,), _ = split(">I", body)
        if not SMALLEST[kind] <= size <= len(body):
            raise struct.error("no message")
        if kind == RESPONSE:
            found.append(Response(*struct.unpack(">IBB", body[4:10]), body[10:size]))
        body = body[size:]
    if body:
        raise struct.error("more than the messages")
    return found


@dataclass
class Flight:
    """A command that has no answer yet."""
    datagram: bytes
    submitted: float
    sent: float = float("-inf")
    tries: int = 0


@dataclass
class Link:
    """The rules for controllers, with neither socket nor clock: moments are handed in."""
    next_handle: int
    last_sent: float                               # at first the moment of its making
    flights: dict = field(default_factory=dict)    # by handle, rising

    def has_room(self):
        """Whether the next handle is below the lowest one in flight plus the span."""
        return self.next_handle < min(self.flights, default=self.next_handle) + SPAN

    def submit(self, request, now):
        """Takes a command, and gives it the next handle."""
        handle, self.next_handle = self.next_handle, self.next_handle + 1
        self.flights[handle] = Flight(command(handle, request), now)
        return handle

    def due(self, now):
        """The datagram to send now: that of the lowest handle that waited long enough, else a keep-alive, or none."""
        if any(now - flight.submitted > LATE for flight in self.flights.values()):
            raise Lost("a command is too old to be sent")
        for flight in self.flights.values():
            if now - flight.sent >= RESEND:
                if flight.tries == TRIES:
                    raise Lost("no answer")
                flight.sent, flight.tries, self.last_sent = now, flight.tries + 1, now
                return flight.datagram
        if now - self.last_sent < IDLE:
            return None
        self.last_sent = now
        return pdu(KEEP_ALIVE, struct.pack(">H", 5))

    def next_due(self):
        """The moment at which something will be due."""
        return min([self.last_sent + IDLE, *(flight.sent + RESEND for flight in self.flights.values())])

    def heard(self, datagram):
        """The answers that a datagram of the device brings: the first one to each command."""
        return [it for it in responses(datagram) if self.flights.pop(it.handle, None)]


class Controller:
    """A link over a socket that keeps one address and port."""

    def __init__(self, device):
        self.device = device
        with socket.socket(socket.AF_INET, socket.SOCK_DGRAM) as probe:
            probe.connect(device)    # sends nothing; shows from which address the device is reached
            own, _ = probe.getsockname()
        self.socket = socket.socket(socket.AF_INET, socket.SOCK_DGRAM)
        self.socket.bind((own, 0))
        # Handles begin with the time of day, so that a port that is used again sends higher ones.
        self.link = Link(int(time.time() * 10_000) % 2**31, last_sent=clock())

    def turn(self, *inputs):
        """Sends all that is due, waits until more is due or something comes, and returns the answers that came."""
        while datagram := self.link.due(clock()):
            try:
                self.socket.sendto(datagram, self.device)
            except OSError:
                pass    # as if the network had lost it
        wait = max(0.0, self.link.next_due() - clock())
        if self.socket not in select.select([self.socket, *inputs], [], [], wait)[0]:
            return []
        datagram, sender = self.socket.recvfrom(LARGEST + 1)
        try:
            return self.link.heard(datagram) if sender == self.device else []
        except struct.error:
            return []

    def ask(self, requests):
        """The answers to commands, in their order, with as many in flight at once as the span allows."""
        handles, answers, requests = [], {}, list(requests)
        while len(answers) < len(requests):
            while len(handles) < len(requests) and self.link.has_room():
                handles.append(self.link.submit(requests[len(handles)], clock()))
            answers.update((it.handle, it) for it in self.turn())
        return [answers[handle] for handle in handles]


def kinds_of(controller, onos):
    """The classes of objects, which must have a value."""
    kinds = []
    for ono, answer in zip(onos, controller.ask(Request(ono, 1, 1) for ono in onos)):
        is_taken, its = answer.taken(whole_class)
        if not is_taken or its not in KINDS:
            raise Refused(f"{ono} {'no value' if is_taken else its}")
        kinds.append(KINDS[its])
    return kinds


def report(controller, asked):
    """Asks for each request, prints what its reader makes of the answer, and returns of each whether it was carried out."""
    found = [answer.taken(read) for answer, (_, read) in zip(controller.ask(request for request, _ in asked), asked)]
    for (request, _), (_, said) in zip(asked, found):
        print(request.ono, said, flush=True)
    return [is_taken for is_taken, _ in found]


def get(controller, *onos):
    """Prints the value of each object."""
    kinds = kinds_of(controller, onos)
    return report(controller, [(Request(ono, kind.level, 1), kind.shown) for ono, kind in zip(onos, kinds)])


def set_each(controller, onos, values):
    """Sets each object to its value; sets none where one is no value of its object."""
    asked = [(Request(ono, kind.level, 2, 1, kind.packed(value)), lambda _, value=value: value)
             for ono, kind, value in zip(onos, kinds_of(controller, onos), values)]
    return report(controller, asked)


def lock(controller, *onos):
    """Locks each object until the input ends; the keep-alives of each turn hold the locks meanwhile."""
    locked = report(controller, [(Request(ono, 1, 3), lambda _: "locked") for ono in onos])
    while not select.select([sys.stdin], [], [], 0)[0] or os.read(sys.stdin.fileno(), 4096):
        controller.turn(sys.stdin)
    held = [ono for ono, is_held in zip(onos, locked) if is_held]
    return locked + report(controller, [(Request(ono, 1, 4), lambda _: "unlocked") for ono in held])


def members(controller, block=ROOT, depth=1):
    """Every object below a block as (container, ONo, class), the members of each block behind it; of a block that does
    not list its members (block, block, why)."""
    (answer,) = controller.ask([Request(block, 3, 5)])
    is_taken, its = answer.taken(members_of)
    if not is_taken:
        yield block, block, its
    for ono, class_id in its if is_taken else ():
        yield block, ono, class_id
        if class_id == BLOCK and depth < DEEPEST:
            yield from members(controller, ono, depth + 1)


def list_all(controller):
    """Prints a line for each object, and one for each block that does not list its members."""
    objects = [(0, ROOT, BLOCK), *islice(members(controller), MOST)]
    unlisted = [(ono, its) for _, ono, its in objects if isinstance(its, str)]
    objects = [it for it in objects if not isinstance(it[2], str)]
    answers = controller.ask(Request(ono, *method) for _, ono, _ in objects for method in ((1, 5), (2, 8)))
    found = [answer.taken(text_of) for answer in answers]
    for (container, ono, its), (_, role), (_, label) in zip(objects, found[::2], found[1::2]):
        name = "block" if its == BLOCK else KINDS[its].name if its in KINDS else ".".join(map(str, its))
        print(ono, name, container, role, label)
    for ono, why in unlisted:
        print(ono, why)
    return [not unlisted, *(is_taken for is_taken, _ in found)]


def device_at(place):
    """The address and port of a device, by the address or the name of its host."""
    host, _, port = place.rpartition(":")
    try:
        if host and 1 <= int(port) < 2**16:
            return socket.gethostbyname(host), int(port)
    except (OSError, ValueError):
        pass
    raise Invalid(f"{place} is no HOST:PORT, or nobody knows the host")


def numbers(words):
    """Object numbers."""
    try:
        struct.pack(f">{len(words)}I", *map(int, words))
    except (struct.error, ValueError):
        raise Invalid("an ONo is a number below 2^32") from None
    return [*map(int, words)]


def main(device="", name="", *words):
    """Runs a command; returns the exit status."""
    if not {"list": not words, "get": words, "set": words and len(words) % 2 == 0, "lock": words}.get(name):
        raise Invalid(__doc__)
    onos = numbers(words[::2] if name == "set" else words)
    controller = Controller(device_at(device))
    if name == "set":
        done = set_each(controller, onos, words[1::2])
    else:
        done = {"list": list_all, "get": get, "lock": lock}[name](controller, *onos)
    return 0 if all(done) else 4


if __name__ == "__main__":
    try:
        sys.exit(main(*sys.argv[1:]))
    except Lost as fault:
        print(f"lost: {fault}", file=sys.stderr)
        sys.exit(1)
    except (Invalid, Refused) as fault:
        print(fault, file=sys.stderr)
        sys.exit(2 if isinstance(fault, Invalid) else 4)
