"""Schedules for a device and links over a network: random ones, and directed ones for pairs of sizes. tools/world.py
runs them and holds them against the laws."""
import oca_profile as oca
from fuzz import ASKED, BENCH, usual, value

PEERS = [16, 16, 16, 16, 16, 1, 2, 15, 17, 64]
PAIRS = [(w, s) for s in range(1, 33) for w in range(2 * s - 1, 65)]


class Schedule:
    """A schedule in the making. Each step is taken by the second implementation at once, so that the next can name what is there."""

    def __init__(self, window, span, starts, peers=16, renews=False):
        self.window, self.span, self.starts, self.peers, self.renews = window, span, starts, peers, renews
        self.steps, self.outcomes, self.now, self.refusal = [], [], 0, None
        self.network, self.came = oca.Network(window, span, starts, peers), {"to-device": 0, "to-link": 0}
        self.sent = self.network.sent

    def add(self, *step):
        said = self.network.step(step)
        assert said is not None, step
        self.steps.append(step)
        self.outcomes.append(said)
        return said

    def timed(self, kind, *fields):
        return self.add(kind, self.now, *fields)

    def due(self, link):
        """What a link sends when it is asked: the number of its datagram, or nothing."""
        said = self.timed("due", link).split()
        return [int(said[1])] if said[0] == "sent" else []

    def sends(self, link):
        """The same, asked until it sends nothing more."""
        numbers = []
        while more := self.due(link):
            numbers += more
        return numbers

    def deliver(self, way, numbers=None, holds=lambda k: True, before=lambda: None):
        for k in range(len(self.sent[way])) if numbers is None else numbers:
            if holds(k):
                before()
                self.timed(way, k)
        return self

    def deliver_new(self, way, holds=lambda k: True):
        """What was sent this way since the last time."""
        first, self.came[way] = self.came[way], len(self.sent[way])
        self.deliver(way, range(first, self.came[way]), holds)

    def take_all(self):
        for i, (_, link) in enumerate(self.network.links):
            for untaken in list(link.untaken):
                self.add("take", i, untaken[0].handle)
        return self

    def text(self):
        starts = "".join(f" {oca.peer_text(p)}/{first}" for p, first in self.starts)
        sizes = f"{self.window} {self.span}" + (f" {self.peers}" if self.peers != 16 else "")
        return [f"schedule {sizes}{starts}"] + [oca.step_line(s) for s in self.steps]

    def refused(self, r):
        """With one more step that names what is not there, or two starts of one peer or one of the device's."""
        count, sent = len(self.starts), [(way, self.now, len(sent)) for way, sent in self.sent.items()]
        step = [*sent, ("take", count, 1), ("due", self.now, count), ("renew", self.now, count, 1, 1), ("beside", self.now, count),
                ("other", self.now, self.starts[-1][0], b""), None][r.randrange(8)]
        if step is None:
            self.starts, self.refusal = self.starts + [r.choice([(oca.DEVICE, 1), self.starts[0]])], "same peer"
        else:
            self.refusal = f"bad step {len(self.steps)}"
            self.steps = self.steps + [step] + self.steps[:1]
        return self

    def expected(self):
        return ["schedule", self.refusal] if self.refusal else self.network.transcript(self.outcomes)

    def front(self, count):
        short = Schedule(self.window, self.span, self.starts, self.peers)
        for step in self.steps[:count]:
            short.add(*step)
        return short.take_all()


def peer(number):
    return (127, 0, 0, 1 + number % 3, 9001 + number)


def linked(r, window, span, count):
    """A schedule with so many links, and room for some number of peers; in some of them links are renewed."""
    starts = [(peer(n), r.choice([0, 1, 1, 5, 1000, 2**31, oca.U32 - 300, oca.U32 - 3])) for n in range(count)]
    return Schedule(window, span, starts, r.choice(PEERS), renews=r.randrange(4) == 0)


CALM = [0] * 8 + [1, 1, 2, 5, 20, 100, 250, 300]
WILD = CALM + [2500, 3001, 15001, 60000, 119999, 120000, 120001, -50, -5000, -130000]


def later(r, now, steps):
    if r.randrange(400) == 0 and steps is WILD:
        return oca.U64
    return min(oca.U64, max(0, now + r.choice(steps) - (r.choice([1, 40, 3000]) if r.randrange(12) == 0 else 0)))


def some_comes(r, schedule, way, heard):
    """If datagrams were sent this way, one of the last comes, one of those that were not heard yet, or any; it is heard then."""
    if numbers := range(len(schedule.sent[way])):
        kind = r.randrange(10)
        left = [k for k in numbers if k not in heard] if 5 <= kind < 8 else []
        k = max(0, numbers[-1] - int(r.expovariate(0.4))) if kind < 5 else r.choice(left or numbers)
        heard.add(k)
        schedule.timed(way, k)


def submit(r, schedule, link, count=1):
    """So many commands that a panel would send; without r the same one each time."""
    for _ in range(count):
        *asked, params = usual(r) if r else (4097, 4, 1, 0, b"")
        schedule.timed("submit", link, *asked, params if not r or r.randrange(60) else bytes(r.choice([1445, 1446])))


def renew(r, schedule, link):
    """A link is renewed, mostly with another span, where the first handle is no lower than its next one; now and then it is lower."""
    first = schedule.network.links[link][1].next + r.choice([0, 0, 0, 1, 2, 40, -1, -1, -3])
    return schedule.timed("renew", link, min(oca.U32, max(0, first)), r.choice([schedule.span, r.randrange(1, 33), r.randrange(1, 33)]))


def some_renewed(r, schedule):
    """Where links are renewed, some are now."""
    for link in range(len(schedule.starts)) if schedule.renews else ():
        if r.randrange(3) == 0:
            renew(r, schedule, link)


def others_bytes(r):
    c = oca.Command(r.randrange(5), 4097, 1, r.choice([3, 4, 5, 6]), 0, b"")
    return r.choice([oca.pdu(1, [c.body()]), oca.pdu(4, [oca.u16(1)]), b"", b"\x3b\x00", oca.response(1), oca.pdu(1, [c.body(), c.body()])])


def wander(r, window, span):
    schedule = linked(r, window, span, r.choice([1, 1, 1, 2, 2, 3, 4, 4, 16]))
    network, pace = schedule.network, r.choice([CALM, CALM, WILD])
    length, links = r.choice([10, 16, 24, 40, 80, 150, 250]), len(network.links)
    strangers = [peer(n) for n in range(16, 16 + r.choice([0, 0, 1, 3, 20]))]
    kinds = ["submit", "due", "to-device", "to-link", "take"] + ["tick"] * r.randrange(2) + ["other"] * (len(strangers) > 0) \
        + ["set"] * (r.randrange(3) == 0) + ["renew"] * schedule.renews + ["beside"] * (r.randrange(4) == 0)
    weights = [r.choice([2, 3, 5]) for _ in kinds[:5]] + [1] * (len(kinds) - 5)
    heard = {"to-device": set(), "to-link": set()}
    if r.randrange(16) == 0:  # a link without answers, until it is lost
        pace, length, weights = [250, 250, 260], 80, [2, 12, 1, 0.05, 1] + weights[5:]
    while len(schedule.steps) < length:
        schedule.now = later(r, schedule.now, pace)
        kind, link = r.choices(kinds, weights)[0], r.randrange(links)
        if kind in heard:
            some_comes(r, schedule, kind, heard[kind])
        elif kind == "take":
            answered = [u[0].handle for u in network.links[link][1].untaken if u[3] is not None]
            schedule.add("take", link, r.choice(answered) if answered and r.randrange(8) else r.randrange(20))
        elif kind in ("submit", "renew"):
            {"submit": submit, "renew": renew}[kind](r, schedule, link)
        elif kind == "set":
            schedule.add(*some_change(r))
        else:
            schedule.timed(kind, *([r.choice(strangers), others_bytes(r)] if kind == "other" else [link] if kind != "tick" else []))
    return schedule


def some_change(r):
    """A step at the device's own front, now and then one that is refused: of another object or class, or beyond the limits."""
    ono = r.choice([*BENCH, 4097, 4097, 5000])
    kind = BENCH.get(ono, "block") if r.randrange(4) else "block"
    kind = kind if kind != "block" else r.choice([*oca.WORDS, "switch", *oca.WIDTHS])
    return "set", ono, *r.choice([(kind, value(r, kind))] * 3 + [("label", r.choice(["", "Vox", "B\u00fchne", "z" * 64, "z" * 65])),
        ("enabled", r.randrange(2)), ("unlock", None), ("failing", r.choice([0, 0, 1]))])


def fronts(r, window, span):
    """A link asks for and sets objects, one after another, and the device's own front changes them in between."""
    schedule = linked(r, window, span, 1)
    for _ in range(r.choice([10, 20, 40])):
        for _ in range(r.choice([0, 1, 1, 2])):
            schedule.add(*some_change(r))
        schedule.timed("submit", 0, *usual(r, ASKED))
        schedule.deliver("to-device", schedule.due(0))
        schedule.deliver_new("to-link")
        goes_on(r, schedule, [0, 1, 100])
    return schedule


def noise(r, schedule):
    """Now and then a copy of what was sent before, a clock reading, or other bytes; without r nothing."""
    if not r:
        return
    kind = r.randrange(14)
    schedule.now = later(r, schedule.now, [0, 0, 0, 1, 7])
    if kind < 2:
        way = ("to-device", "to-link")[kind]
        schedule.deliver(way, [r.randrange(len(schedule.sent[way]))] if schedule.sent[way] else [])
    elif kind == 2:
        schedule.timed("other", peer(20), others_bytes(r))
    elif kind == 3:
        schedule.timed("tick")
    elif kind == 4:
        schedule.add(*some_change(r))


def crowd(r, window, span):
    """Others have all the room when a link's first datagrams come; later they are forgotten, and its commands are executed."""
    schedule = linked(r, window, span, r.choice([1, 1, 2]))
    links = range(len(schedule.starts))
    for n in range(schedule.peers):
        schedule.timed("other", peer(16 + n), oca.pdu(4, [oca.u16(1)]))
    for _ in range(r.choice([1, 2])):
        for i in links:
            for _ in range(r.choice([1, 2, 4])):
                submit(r, schedule, i)
                schedule.timed("due", i)
        schedule.deliver("to-device", holds=lambda k: r.randrange(3)).deliver("to-link").take_all()
        some_renewed(r, schedule)
        schedule.now += r.choice([119999, 120000, 120001, 200000])
    return schedule.deliver("to-device").deliver("to-link")


def visitors(r, window, span):
    """Links go on while others come one after another, more than have room; most are forgotten when the next comes."""
    schedule = linked(r, window, span, r.choice([1, 1, 2]))
    links, pace = range(len(schedule.starts)), r.choice([[60001], [1, 60001], [119999, 120000]])
    for n in range(min(schedule.peers + 3, 20)):
        schedule.timed("other", peer(16 + n), r.choice([oca.pdu(4, [oca.u16(1)]), others_bytes(r)]))
        for i in links:
            submit(r, schedule, i, r.choice([1, 1, 2]))
            schedule.timed("due", i)
        for way in ("to-device", "to-link") * 3:
            some_comes(r, schedule, way, set())
        goes_on(r, schedule, pace)
    return schedule


def goes_on(r, schedule, pace):
    if r.randrange(3) == 0:
        schedule.take_all()
    some_renewed(r, schedule)
    schedule.now += r.choice(pace)


def lossy(r, window, span):
    """Links that are asked at least every 250 ms until no command is left, over a network that loses most datagrams."""
    schedule = linked(r, window, span, r.choice([1, 1, 2]))
    links, pace, loss = range(len(schedule.starts)), r.choice([[1, 20, 100], [100, 200, 250], [249, 250]]), r.choice([1, 2, 4, 30])
    for _ in range(r.choice([8, 12, 24, 60])):
        for i in links:
            submit(r, schedule, i, r.choice([0, 0, 1, 2]))
            schedule.sends(i)
        for way in ("to-device", "to-link"):
            schedule.deliver_new(way, lambda k: r.randrange(loss + 1) == 0)
        goes_on(r, schedule, pace)
    return schedule


def slow(r, window, span):
    """Links asked for 15,000 ms, datagrams held for 100,000 ms; some a little too late."""
    schedule = linked(r, window, span, r.choice([1, 1, 2]))
    for _ in range(r.choice([2, 3, 4])):
        for i in range(len(schedule.starts)):
            submit(r, schedule, i, r.choice([1, 1, 2]))
            left = dict.fromkeys(schedule.sends(i), schedule.now)
            schedule.deliver("to-device", left, lambda k: r.randrange(4))
            schedule.now += r.choice([250, 14999, 15000, 15000] + [15001] * (r.randrange(8) == 0))
            left |= dict.fromkeys(schedule.sends(i), schedule.now)
            schedule.now += r.choice([0, 99999, 100000, 100000] + [105001] * (r.randrange(8) == 0))
            schedule.deliver("to-device", left, lambda k: schedule.now - left[k] <= 100000 or r.randrange(8) == 0)
        some_renewed(r, schedule)
        schedule.deliver("to-link").take_all()
        schedule.now += r.choice([119999, 120000, 120001, 200000])
    return schedule


def marked_sent(schedule, count, r):
    """The numbers of the datagrams of so many new commands of the first link."""
    numbers = []
    for _ in range(count):
        noise(r, schedule)
        submit(r, schedule, 0)
    for _ in range(count):
        noise(r, schedule)
        numbers += schedule.due(0)
    return numbers


def take_others(schedule, pinned, order):
    """All answers come but the one to this handle, in this order, and are taken."""
    (_, link), sent = schedule.network.links[0], schedule.sent["to-link"]
    for k in order:
        message = oca.check(sent[k][1])[0]
        if message[0] == "response" and message[1] != pinned and any(u[0].handle == message[1] and u[3] is None for u in link.untaken):
            schedule.timed("to-link", k)
    for u in list(link.untaken):
        if u[3] is not None and u[0].handle != pinned:
            schedule.add("take", 0, u[0].handle)


def directed(window, span, r=None, left=0, gap=0):
    """The last command of a span overtakes the others, and a copy of it comes behind as many more; and behind so many of a link before,
    which left them unanswered so long before."""
    schedule = Schedule(window, span, [(peer(0), r.choice([1, 1, 1000]) if r else 1)])
    network, mixed, before = schedule.network, (lambda xs: r.sample(xs, len(xs))) if r else list, lambda: noise(r, schedule)
    late = marked_sent(schedule, left, r)
    if left:
        schedule.timed("renew", 0, network.links[0][1].next, span)
    schedule.now += gap
    for _ in range(r.choice([1, 1, 2]) if r and span < 20 else 1):
        first, untaken = marked_sent(schedule, span, r), network.links[0][1].untaken
        if not first or not untaken:
            break
        last = first[-1]
        pinned = oca.check(schedule.sent["to-device"][last][1])[0]
        pinned = pinned[2].handle if pinned[0] == "command" else untaken[-1][0].handle
        schedule.deliver("to-device", [last] + late + mixed(first[:-1]), before=before)
        take_others(schedule, pinned, mixed(range(len(schedule.sent["to-link"]))))
        schedule.deliver("to-device", mixed(marked_sent(schedule, span - 1, r)), before=before)
        schedule.timed("to-device", last)
        if r:
            schedule.take_all()
    return schedule
