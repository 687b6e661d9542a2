#!/usr/bin/env python3
"""The panel in the browser, without a browser: hostile requests, slow clients, a network that loses 20 % each way, a
device that goes and comes back, 4,096 objects, more connections than there are places, and requests without the token.

Usage: panel.py BIN     BIN is the folder with `ocapanel`, `ocadev` and `ocactl`

No wait fails but by many times its length. The last line is 'N passed, M failed'."""
import base64
import contextlib
import hashlib
import http.client
import itertools
import json
import os
import random
import re
import signal
import socket
import sys
import tempfile
import time
from collections import Counter
from concurrent.futures import ThreadPoolExecutor
from pathlib import Path

import oca_profile as oca
from checks import Ahead, Checks, Serving, bound, by_turns, comes, free_port, sockets, waited
from hands import DEVICES, OldSession, address, stagebox
from peers import Lossy, Peer, Served, commands_in
from scenes import Scene, scenes_of
from tables import TOP, as_it_stands, each, octets, whole

# A stage box of eight channels without labels, where all is muted and each trim is 0.
TREE = '4096 100 boolean off no-lock "phantom power"\n' + "".join(
    f'{n} 100 block lockable "channel {of}"\n{n + 1} {n} mute muted lockable mute\n{n + 2} {n} polarity non-inverted lockable polarity\n'
    f'{n + 3} {n} int16 -600 600 0 lockable trim\n{n + 4} {n} switch "Mic,Line,Stage left,Off" Mic lockable source\n'
    for of, n in enumerate(range(4097, 4137, 5), 1))
MUTE, TRIM = 4098, 4100
ITS, OWN_PORT = Checks(), free_port()
ROWS = as_it_stands("panel")
same = ITS.same


def check(is_so, what):
    return ITS.expect(what, is_so)


def file_of(text):
    """A file of this text, as long as it is open."""
    file = tempfile.NamedTemporaryFile()
    Path(file.name).write_bytes(octets(text))
    return file


class Device(Serving):
    """`ocadev serve` at a port, of the objects of a text, or of its own."""

    def __init__(self, port=0, tree=TREE):
        with file_of(tree or "") as file:
            super().__init__(f"{ITS.folder}/ocadev", "serve", "--port", port, "--peers", 64, *(["--tree", file.name] if tree else []))


def request(row):
    """The bytes of a request: its method, its path and its text, and as a field what has a name in capitals and is not empty."""
    if "raw" in row:
        return octets(row["raw"])
    text = row.get("text")
    fields = {name: value for name, value in row.items() if name[0].isupper() and value}
    fields |= {} if text is None else {"Content-Length": len(text.encode())}
    lines = [f"{row['method']} {row['path']} HTTP/1.1", *(f"{name}: {value}" for name, value in fields.items()), "", text or ""]
    return "\r\n".join(lines).encode()


class Connection(socket.socket):
    """A connection to a panel; of one that takes little the system keeps few bytes that come."""

    def __init__(self, to, small):
        super().__init__()
        self.settimeout(20)
        if small:
            self.setsockopt(socket.SOL_SOCKET, socket.SO_RCVBUF, 4096)
        self.begun = time.monotonic()
        self.connect(to)
        self.file = self.makefile("rb")

    def answer(self, has_text=True):
        """The status, the fields of the head and the text of the next answer; status 0 where none comes. The answer to HEAD has no text, whatever its
        head says."""
        with contextlib.suppress(OSError):
            status = re.match(rb"HTTP/1\.[01] (\d{3})", self.file.readline())
            if status:
                fields = http.client.parse_headers(self.file)
                return int(status[1]), fields, self.file.read(int(fields.get("content-length", 0)) if has_text else 0)
        return 0, {}, b""

    def close(self):
        self.file.close()
        super().close()


class Panel(Serving):
    """`ocapanel` at a port that the system chose, unless another is given, with no token unless `token` says so."""

    def __init__(self, device, *words, ip="127.0.0.1", port=0, token=False, notes=0, **settings):
        words += () if token else ("--no-token",)
        super().__init__(f"{ITS.folder}/ocapanel", "--device", address(device), "--listen", f"{ip}:{port}", *words, notes=notes, **settings)
        self.told_ip, self.ip, self.host = self.ip, ip, f"{ip}:{self.port}"
        self.since, self.epoch, self.run, self.shown, self.told, self.objects = 0, 0, None, {}, {}, {}

    def connected(self, small=False):
        return Connection((self.ip, self.port), small)

    def exchange(self, data, seconds=20):
        """What answers these bytes."""
        with contextlib.suppress(OSError), self.connected() as s:
            s.settimeout(seconds)
            s.sendall(data)
            return s.answer(not data.startswith(b"HEAD "))
        return 0, {}, b""

    def asks(self, path):
        cookie = self.token and f"ocapanel-{self.port}={self.token}"
        return request({"method": "GET", "path": path, "Host": self.host, "Cookie": cookie})

    def orders_by(self, path, body):
        fields = {"Host": self.host, "Origin": f"http://{self.host}", "Content-Type": "application/json"}
        return request({"method": "POST", "path": path, "text": json.dumps(body), **fields})

    def get(self, path):
        return json.loads(self.exchange(self.asks(path))[2])

    def post(self, path, body):
        status, _, text = self.exchange(self.orders_by(path, body))
        return status, json.loads(text) if text else None

    def read(self, wanted):
        """An order with what a page shows of its object: the role, that of its block, and the name of a switch's position. What it says itself stays."""
        if not isinstance(wanted, dict) or wanted.get("ono") is None:
            return wanted
        if wanted["ono"] not in self.objects:
            self.objects = self.in_tree()
        one = self.objects.get(wanted["ono"], {})
        names, at = one.get("names") or [], str(wanted.get("set", ""))
        named = {"name": names[int(at)]} if at.isdigit() and int(at) < len(names) else {}
        return {"role": one.get("role", ""), "block": self.objects.get(one.get("in"), {}).get("role", "")} | named | wanted

    def body(self, *wanted, **more):
        self.run = self.run or self.get("/values")["run"]
        return {"run": self.run, "orders": [self.read(one) for one in wanted]} | more

    def one(self, verb, ono, value=None, **more):
        """The body of one order: `verb` is /set, /lock or /unlock."""
        return self.body({"ono": ono, verb[1:]: True if value is None else value}, **more)

    def order(self, verb, ono, value=None, **more):
        status, answer = self.post("/orders", self.one(verb, ono, value, **more))
        return status, answer["tickets"][0] if status == 202 else answer

    def orders(self, *wanted, **more):
        return self.post("/orders", self.body(*wanted, **more))

    def look(self, extra="&first=0&count=512"):
        """Asks for what changed, as a page does that shows all."""
        values = self.get(f"/values?since={self.since}{extra}")
        if values["epoch"] != self.epoch:
            self.epoch, self.since, self.shown, self.objects = values["epoch"], 0, {}, {}
            return self.look(extra)
        self.since = values["change"]
        self.shown |= {o["ono"]: o for o in values["objects"]}
        self.told |= {t["ticket"]: t["trouble"] for t in values["told"]}
        return values

    def fare(self, path, ono, value=None, **more):
        status, ticket = self.order(path, ono, value, **more)
        return self.settled([ticket])[0] if status == 202 else f"status {status}"

    def settled(self, tickets, seconds=30.0):
        waited(lambda: self.look() and all(t in self.told for t in tickets), seconds)
        return [self.told.get(t, "not told") for t in tickets]

    def known(self, ono, name="value"):
        return self.shown.get(ono, {}).get(name)

    def in_tree(self):
        return {o["ono"]: o for o in self.get("/tree")["objects"]}


def ocactl(device_port, *words):
    """What `ocactl` prints, from a port of this tool's own."""
    return ITS.ran("ocactl", words[0], "--device", f"127.0.0.1:{device_port}", "--port", OWN_PORT, *words[1:])[0]


def open_ends(panel, connections):
    """Those of these connections of which the panel has its end open: before it takes one, and once it is closed, no file is behind it."""
    ports = {(own, its) for (_, own), (_, its), _, file in sockets("tcp") if file != "0"}
    return [s for s in connections if (panel.port, s.getsockname()[1]) in ports]


def closings(panel, ends, does, seconds):
    """How many seconds the panel had each of these connections before it closed it, while something is done with some of them. A connection that it
    never had, or does not close within so many seconds, is left out."""
    begun, had, closed = time.monotonic(), set(), {}
    while len(closed) < len(ends) and time.monotonic() < begun + seconds:
        for name, act in does.items():
            with contextlib.suppress(OSError):
                act(ends[name])
        there = open_ends(panel, ends.values())
        closed |= {name: time.monotonic() - ends[name].begun for name in had - closed.keys() if ends[name] not in there}
        had |= {name for name, s in ends.items() if s in there}
        time.sleep(0.1)
    return closed


def steady():
    """A connection with a request again and again, for longer than one on which nothing moves is kept (30 seconds), and one with a request at first:
    how many are answered and asked, and how long the panel has each of those that it closes."""
    counts = Counter()
    with Device() as device, Panel(device) as panel, panel.connected() as busy, panel.connected() as idle:
        def asks(s):
            s.sendall(panel.asks("/nothing"))
            counts["asked"] += 1
            counts["answered"] += s.answer()[0] == 404

        asks(idle)
        closed = closings(panel, {"busy": busy, "idle": idle}, {"busy": asks}, 41)
    return counts["answered"], counts["asked"], closed


def waiting(panel, s):
    """How many bytes of the panel's answers wait in the system on a connection, at either end."""
    own, its = s.getsockname()[1], panel.port
    queues = {(near, far): waits for (_, near), (_, far), waits, _ in sockets("tcp")}
    return queues.get((its, own), [0])[0] + queues.get((own, its), [0, 0])[1]


def many_tree():
    """A list of 4,095 objects, 80 in each block but the last one."""
    blocks = [range(ono, min(ono + 81, 8191)) for ono in range(4096, 8191, 81)]
    return "".join(f'{ono} 100 block no-lock "bank {at}"\n' if ono == its[0] else f"{ono} {its[0]} int16 -600 600 0 lockable gain\n"
                   for at, its in enumerate(blocks) for ono in its)


def used_by(panel, seconds):
    """The share of a processor that a panel's process uses in so many seconds."""
    def ticks():
        fields = Path(f"/proc/{panel.process.pid}/stat").read_text().rsplit(")", 1)[1].split()
        return int(fields[11]) + int(fields[12])
    begun = ticks()
    time.sleep(seconds)
    return (ticks() - begun) / os.sysconf("SC_CLK_TCK") / seconds


class Noting(Served):
    """The second implementation's device, of the objects of a text or of a bench, which notes what came when. It does what is given, and
    may change: of its answers about one thing, a value of an object or what another method answers, it keeps back those that come while it
    `holds`, says DeviceError while it `fails`, and needs so many seconds for each; the first that it keeps back it `returns` behind the
    answer to an order that sets the trim. It sends so many datagrams that are too large before each answer, and `misses` the first copies
    of so many commands."""

    def __init__(self, text=None, channels=0, ono=TRIM, method=(5, 1), **does):
        super().__init__(oca.tree_of_text(text.encode()) if text else oca.bench(channels))
        self.what, self.came, self.asked, self.copies = (ono, *method), {}, {}, Counter()
        self.holds, self.fails, self.returns, self.needs, self.large, self.misses = False, False, False, 0.0, 0, 0
        self.held, self.answered = [], 0.0  # what is kept back, and when the last of the other answers was asked for
        vars(self).update(does)

    def hears(self, _, data):
        return not any(self.copies[one.handle] == 1 and [*self.came].index(one.handle) < self.misses for one, _ in commands_in(data))

    def datagram(self, peer, data, now):
        for one, method in commands_in(data):
            self.came.setdefault(one.handle, time.monotonic())
            self.asked[one.handle] = (one.target, *method)
            self.copies[one.handle] += 1
        about_it = [one.handle for one, method in commands_in(data) if (one.target, *method) == self.what]
        time.sleep(self.needs if about_it else 0)
        said, packets = super().datagram(peer, data, now)
        if about_it and self.holds:
            self.held.append(packets)
            return said, []
        if about_it and self.fails:
            packets = [oca.pdu(3, [oca.response_body(handle, 2, 0, b"") for handle in about_it])]
        if self.returns and self.holds and any((one.target, method) == (TRIM, (5, 2)) for one, method in commands_in(data)):
            packets = packets + self.held[0] if self.held else packets
        self.answered = max([self.answered, *(self.came[handle] for handle in about_it)])
        return said, packets and [*self.large * [bytes(1473)], *packets]


def reached_from(host):
    """The address of this machine from which it reaches that host; nothing where there is no way."""
    with socket.socket(socket.AF_INET, socket.SOCK_DGRAM) as s:
        return None if s.connect_ex((host, 9)) else s.getsockname()[0]


def can_be_had(ip, port):
    with contextlib.suppress(OSError), socket.socket() as s:
        s.bind((ip, port))
        return True
    return False


def nulls(fields):
    """Fields of JSON, with no value where a row says `null`."""
    return {name: None if value == "null" else value for name, value in fields.items()}


def wanted_fields(row, fields):
    """The fields of the head of the answer that a row describes. The page has its policy too, whatever that says."""
    wanted = {"content-type": row.get("type"), "set-cookie": row.get("cookie"), "allow": row.get("allow")} | ({} if row.get("bare") else ROWS["protection"])
    if row.get("type", "").startswith("text/html"):
        wanted["content-security-policy"] = fields.get("content-security-policy", "a policy")
    return sorted((name, it) for name, it in wanted.items() if it)


class Bench(Scene):
    """A scene with a device, a way to it that may lose datagrams, and what a different controller locks."""

    def __init__(self, does, **names):
        self.device = self.way = None
        self.open, self.lock = contextlib.ExitStack(), contextlib.ExitStack()
        super().__init__(ITS, {
            "device": lambda text: self.begins(Device(0, text)),
            "device again": lambda text=None: self.begins(Device(self.device.port, text)),
            "device ends": lambda: self.device.end(),
            "way": self.begins_way,
            "loses": lambda share: setattr(self.way, "share", share),
            "locks": self.locks,
            "unlocks": self.lock.close,
            "file of": lambda text: self.open.enter_context(file_of(text)).name,
            "anew": self.open.close,
        } | does, tree=TREE, many=many_tree(), free=free_port(), **names)

    def begins(self, device):
        self.device = self.open.enter_context(device)
        self.names["address"] = address(device)

    def begins_way(self, share=0, seed=1):
        self.way = self.open.enter_context(Lossy(self.device.port, seed, share))

    def locks(self, ono):
        """From here on, until it `unlocks`, a different controller holds the lock of an object."""
        holder = ITS.start("ocactl", "lock", "--hold", "--device", address(self.device), "--port", free_port(), ono)
        same("a different controller locks", holder.stdout.readline(), f"{ono} locked\n")
        self.lock.callback(holder.wait)
        self.lock.callback(holder.stdin.close)  # which is done first

    def played(self, steps, **names):
        """Plays these steps, and ends what they began."""
        with self.open, self.lock:
            self.play(steps, **names)


class Desk(Bench):
    """A scene of the rows: a panel of a device, or two, and connections by their names."""

    def __init__(self):
        self.panel, self.other, self.ahead, self.ends, self.wrong = None, None, Ahead(), {}, []
        known = lambda ono, name="value": self.panel.known(ono, name)
        link = lambda name: self.panel.look()["link"][name]
        about_it = lambda: [handle for handle, what in self.device.asked.copy().items() if what == self.device.what]
        super().__init__({
            "second device": lambda how: self.begins(Noting(**how)),
            "device that only answers": lambda channels: self.begins(Served(oca.bench(channels))),
            "device of a kind": lambda kind: self.begins(DEVICES[kind]()),
            "device at": lambda place: setattr(self, "device", place),
            "device of an old session": lambda: self.begins(OldSession(stagebox(), [self.names["free"]])),
            "silent device": lambda: self.begins(bound()),
            "device stands still": lambda: self.device.process.send_signal(signal.SIGSTOP),
            "device goes on": lambda: self.device.process.send_signal(signal.SIGCONT),
            "does": lambda name, value: setattr(self.device, name, value),
            "lists too": self.lists_too,
            "lists no more": lambda at: self.device.tree.pop(at),
            "label in the device": lambda ono: next(it.label for it in self.device.tree if it.ono == ono),
            "asked": lambda *of: [[*it] for it in [*self.device.asked.values()] if [*it] in of],
            "asked first": lambda count: [*self.device.asked.values()][:count],
            "is asked about it": lambda times: self.panel.look() and len(about_it()) >= times,
            "copies about it": lambda: sum(self.device.copies[handle] for handle in about_it()),
            "holds answers": lambda: self.panel.look() and len(self.device.held) > 0,
            "copies": lambda: self.device.copies.total(),
            "seconds until heard": lambda count: waited(lambda: len(self.device.heard) >= count, 9) or 9,
            "keep-alives": lambda count: sum(data[7] == 4 for data, _ in list(self.device.heard)) >= count,
            "came all": lambda count: len(self.device.came) >= count,
            "are counted": self.are_counted,
            "reached": lambda hosts: [[host, ip] for host in hosts if (ip := reached_from(host))],
            "out of reach": lambda hosts: [[host] for host in hosts if not reached_from(host)],
            "where its socket is": self.socket_at,
            "where it is asked from": lambda: "{}:{}".format(*self.device.recvfrom(2000)[1]),
            "panel": self.begins_panel,
            "panel over": lambda settings: self.begins_panel(**settings),
            "panel with a clock": lambda: self.begins_panel(**self.ahead.settings),
            "panel stands still": self.stops_panel,
            "panel goes on": self.lets_go_on,
            "panel ends": lambda: self.panel.end(),
            "can be had": lambda places: [place for place in places if can_be_had(*place)],
            "by turns": by_turns,
            "first note": lambda: self.panel.notes[0],
            "handles": self.handles,
            "how many of": lambda handles: len({*handles}),
            "is the first again": lambda handles: handles.count(min(handles)) > 1,
            "share of a processor": lambda seconds: used_by(self.panel, seconds),
            "troubles": lambda: [[ono, it["trouble"]] for ono, it in self.panel.shown.items() if it["trouble"] is not None],
            "swap": self.swap,
            "ran": lambda words: ITS.ran("ocapanel", *words.split()),
            "write": lambda file, text: Path(file).write_bytes(octets(text)),
            "another": lambda *asked: Peer(self.device.port).status(*asked[:3], *map(bytes.fromhex, asked[3:])),
            "ocactl": lambda words: ocactl(self.device.port, *words.split()),
            "fares": lambda path, ono, value=None, more={}: self.panel.fare(path, ono, value, **nulls(more)),
            "fare at last": self.fare_at_last,
            "so many fare": lambda count, *order: sorted({self.panel.fare(*order) for _ in range(count)}, key=str),
            "fare": lambda *orders: self.panel.settled(self.panel.orders(*orders)[1]["tickets"]),
            "ordered": lambda ono, value: self.panel.order("/set", ono, value)[1],
            "status": lambda path, ono, value=None, more={}: self.panel.order(path, ono, value, **nulls(more))[0],
            "statuses": self.statuses,
            "orders": lambda *orders: self.panel.orders(*orders),
            "orders behind": lambda count, *orders: self.panel.orders(*[{"ono": MUTE, "set": "muted"}] * count, *orders),
            "orders but": lambda more: self.panel.orders({"ono": MUTE, "set": "muted"}, **nulls(more))[0],
            "posts": lambda path, body: self.panel.post(path, body),
            "fare until": lambda now, *orders: self.panel.settled(self.panel.orders(*orders, before=now - 1)[1]["tickets"]),
            "page shows": lambda ono, names: self.panel.objects.update({ono: self.panel.in_tree()[ono] | names}),
            "page reads anew": lambda: self.panel.objects.clear(),
            "fares on another": self.fares_on_another,
            "how 150 fare": self.fares_at_once,
            "settled": lambda tickets: self.panel.settled(tickets),
            "told from the first on": lambda: [[*it.values()] for it in self.panel.get("/values?since=0&told=1")["told"]],
            "tickets told": self.tickets_told,
            "told": lambda ticket: self.panel.settled([ticket], 0)[0],
            "is not sent": lambda ticket: self.panel.settled([ticket], 0)[0] in ("not sent: too late", "not sent: the link is lost"),
            "known": known,
            "is shown": lambda ono: self.panel.look() and known(ono) is not None,
            "shown": lambda ono, name: self.panel.look() and known(ono, name),
            "values in twenty looks": lambda ono: sorted({known(ono) for look in range(21) if not look or self.panel.look()} - {None}),
            "look": lambda name: self.panel.look()[name],
            "look and count": lambda: self.panel.look() and len(self.panel.shown),
            "first look": self.first_look,
            "asks for": self.asks_for,
            "commands": self.commands,
            "wait until old": lambda is_old: waited(lambda: self.is_old() == is_old, 30, 0.02),
            "is old": self.is_old,
            "told wrong": lambda: self.wrong[:5],
            "is told right behind": self.is_told_right_behind,
            "classes": self.classes,
            "page": self.page,
            # not by page.py, which made the policy
            "digest": lambda text: base64.b64encode(hashlib.sha256(text.encode()).digest()).decode(),
            "is found": lambda: waited(lambda: self.panel.look()["walked"], 20) is not None,
            "earlier": lambda name: self.names.get(name, "none"),
            "differ": lambda one, other: one != other,
            "sum": lambda one, other: one + other,
            "number": int,
            "of the tree": lambda name: self.panel.get("/tree")[name],
            "objects since": lambda change, run: len(self.panel.get(f"/values?since={change}&run={run}")["objects"]),
            "walked where asked": lambda query: self.panel.get(f"/values?{query}")["walked"],
            "in the tree": lambda ono, name: self.panel.in_tree().get(ono, {}).get(name),
            "numbers of the tree": lambda: [*self.panel.in_tree()],
            "how many in the tree": lambda: len(self.panel.in_tree()),
            "link": link,
            "is heard anew": lambda: link("heard") > link("heard"),
            "lost at least": lambda times: link("lost") >= int(times),
            "lost for more than": lambda ms: (link("lost_for") or 0) > ms,
            "lost for longer until lost again": self.is_lost_for_longer,
            "found anew": self.is_found_anew,
            "notes": self.notes,
            "rises": lambda numbers: [0, *map(int, numbers)] == sorted({0, *map(int, numbers)}),
            "asks": self.asks,
            "noise": self.noise,
            "status of": lambda text: self.panel.exchange(octets(text))[0],
            "connect": self.connects,
            "close": self.closes,
            "send": self.sends,
            "order at": lambda name, verb, ono, value, more={}: self.sends(name, self.panel.orders_by("/orders", self.panel.one(verb, ono, value, **more)).decode()),
            "orders at": self.sends_orders,
            "status at": lambda name: self.ends[name][0].answer()[0],
            "ticket at": self.ticket_at,
            "comes at": lambda name: self.ends[name][0].recv(100).decode(),
            "answered": self.answered,
            "whole answers": self.whole_answers,
            "fill": self.fills,
            "take all": self.takes_all,
            "closed": lambda name: [at for at, s in enumerate(self.ends[name]) if not open_ends(self.panel, [s])],
            "are kept": self.are_kept,
            "seconds until closed": self.seconds_until_closed,
        }, other_tree=TREE.replace(f"{MUTE} 4097 mute muted lockable mute", f"{MUTE} 4097 int16 -5 5 0 lockable mute"),
            other_roles=TREE.replace("channel", "monitor").replace('"Mic,Line,Stage left,Off" Mic', '"Tape,Radio,Stage left,Off" Tape'),
            own_roles=re.sub(r"(mute|trim|source)$", r"other-\1", TREE, flags=re.M))

    def begins_panel(self, words="", **settings):
        panel = self.panel = self.open.enter_context(Panel(self.way or self.device, *words.split(), **settings))
        token = panel.token or "?"
        self.names |= {"host": panel.host, "port": str(panel.port), "next": str(panel.port + 1), "listens": panel.told_ip,
                       "token": token, "short": token[:-1], "other": token[:-1] + "12"[token[-1] == "1"]}

    def notes(self):
        """What a panel noted up to its end, which is now."""
        self.panel.process.terminate()
        return self.panel.process.communicate(timeout=20)[1]

    def stops_panel(self):
        self.panel.process.send_signal(signal.SIGSTOP)
        waited(lambda: "T (stopped)" in Path(f"/proc/{self.panel.process.pid}/status").read_text())

    def lets_go_on(self, seconds):
        """Lets the panel go on, with its clocks set forward so far."""
        self.ahead.set(seconds)
        self.panel.process.send_signal(signal.SIGCONT)

    def handles(self, seconds):
        """The handles of the commands that come to a silent device in so many seconds."""
        until = time.monotonic() + seconds
        datagrams = itertools.takewhile(lambda _: time.monotonic() < until, comes(self.device))
        return [one.handle for data, _ in datagrams for one, _ in commands_in(data)]

    def lists_too(self, ono, block, at):
        """From here on this block has the object as a member too, which stands at this place of the device's objects."""
        one = next(it for it in self.device.tree if it.ono == ono).copy()
        one.container = block
        self.device.tree.insert(at, one)

    def are_counted(self):
        """Whether as many commands and copies of them are told as came."""
        link, came, copies = self.panel.look()["link"], len(self.device.came), self.device.copies.total()
        return (link["commands"], link["again"]) == (came, copies - came)

    def first_look(self):
        """What a panel tells at the first look of a walk that is over, and whether it heard the tenth answer when it came."""
        self.panel.epoch = 1  # else a page would look twice
        values = self.panel.look()
        # what came in the millisecond in which the link was made is not told of
        since = 1000 * (time.monotonic() - [*self.device.came.values()][9]) + 1
        told = {name: (values | values["link"])[name] for name in ("walked", "epoch", "commands", "in_flight")}
        return told | {"is_heard": (values["link"]["heard"] or 0) <= since}

    def socket_at(self):
        links = [os.readlink(it) for it in Path(f"/proc/{self.panel.process.pid}/fd").iterdir()]
        return [ip for (ip, _), _, _, file in sockets("udp") if f"socket:[{file}]" in links]

    def page(self):
        """The page, and its policy."""
        _, fields, text = self.panel.exchange(self.panel.asks("/"))
        return text.decode(), fields.get("content-security-policy")

    def classes(self):
        """Of each object the class, the value, the limits and so on are told as the device has them, to the last digit."""
        is_read = lambda: self.panel.look() and all(self.panel.known(o.ono) is not None for o in self.device.tree if o.kind != "block")
        check(waited(is_read, 20) is not None, "each class is read")
        told = self.panel.in_tree()
        for o in self.device.tree:
            wanted = {"class": o.kind, "in": o.container, "role": o.role, "lockable": o.lockable, "names": o.names or []}
            if o.kind == "switch":
                wanted["limits"] = ["0", str(len(o.names) - 1)]
            if o.kind in oca.WIDTHS:
                wanted |= {"value": str(o.state), "limits": [str(o.low), str(o.high)]}
            its = self.panel.shown[o.ono] | told[o.ono]
            same(f"{o.ono}: what is told of it", {name: its[name] for name in wanted}, wanted)

    def asks_for(self, seconds, query):
        """A page asks so, again and again for so many seconds; when it began."""
        begun = time.monotonic()
        while time.monotonic() < begun + seconds:
            self.panel.look(query)
            time.sleep(0.02)
        return begun

    def commands(self, begun, seconds, *kinds):
        """How many commands came in so many seconds that begin with each of these: an object, or a method of one, or nothing."""
        came = self.device.came
        asked = [[*what] for handle, what in [*self.device.asked.items()] if begun <= came[handle] < begun + seconds]
        return [sum(what[:len(kind)] == kind for what in asked) for kind in kinds]

    def is_old(self):
        """Whether the reading of the trim, at place 5, is told as old. What is told as younger than it is, or else wrong, is kept."""
        begun = time.monotonic()
        told = {one["ono"]: one["age"] for one in self.panel.look("&shown=0-1,5-1")["old"]}
        since = 1000 * (begun - self.device.answered)
        is_younger = self.panel.known(TRIM) is not None and since > told.get(TRIM, 1000) + 5
        if is_younger or not set(told) <= {TRIM} or min(told.values(), default=1001) <= 1000:
            self.wrong.append((since, told))
        return told.get(TRIM) is not None

    def is_told_right_behind(self, name):
        """Whether a page that asks right behind the answer to an order is told how it ended: of 400 tries three in a row must be told so, else
        what each was. Where the page itself took more than 1 ms it is no try."""
        s, told = self.ends[name][0], []
        for _ in range(4000):
            s.sendall(self.panel.orders_by("/orders", self.panel.one("/set", 4097, "muted")))
            (status, _, text), begun = s.answer(), time.monotonic()
            ticket = json.loads(text)["tickets"][0] if status == 202 else 0
            s.sendall(self.panel.asks("/values?since=0&told=0&first=0&count=512"))
            is_try, values = time.monotonic() < begun + 0.001, json.loads(s.answer()[2])
            told += [ticket in {one["ticket"] for one in values["told"]}] if is_try else []
            if told[-3:] == 3 * [True] or len(told) == 400:
                break
            self.panel.settled([ticket], 2)  # else the next order would wait behind this one
        return told[-3:] == 3 * [True] or told

    def tickets_told(self, query):
        """The first and the last ticket that are told, if none between them is left out."""
        told = [it["ticket"] for it in self.panel.get(f"/values?since=0{query}")["told"]]
        return told == [*range(told[0], told[-1] + 1)] and [told[0], told[-1]]

    def statuses(self, count, *order):
        """The statuses of the answers to so many orders: each with how many in a row have it."""
        return [[status, len([*those])] for status, those in itertools.groupby(self.panel.order(*order)[0] for _ in range(count))]

    def fare_at_last(self, *orders):
        """How orders fare that are given one by one. They are given again, up to eight times, only if a busy machine let one wait past its last moment,
        5 s after it was given, so that it was not sent; and if all others were carried out."""
        for _ in range(9):
            given, tickets = time.monotonic(), [self.panel.order(*one)[1] for one in orders]
            fared = self.panel.settled(tickets)
            if "not sent: too late" not in fared or not {*fared} <= {None, "not sent: too late"} or time.monotonic() - given < 5:
                break
        return fared

    def fares_at_once(self):
        """How 150 orders fare that are sent at once: 64 that mute and unmute eight channels, and 86 of their trims, of which the last sets 21. Those of a
        channel go one after another, so few are of each."""
        batches = [[{"ono": MUTE + 5 * (n % 8), "set": ("muted", "unmuted")[n // 8 % 2]} for n in range(64)]]
        batches += [[{"ono": TRIM + 5 * ((size - 1 - n) % 8), "set": str(n)} for n in range(size)] for size in (64, 22)]
        tickets = [ticket for batch in batches for ticket in self.panel.orders(*batch)[1]["tickets"]]
        return sorted({*self.panel.settled(tickets)}, key=str)

    def fares_on_another(self, gaps, *trees):
        """How orders fare of a page that read one device, where another one with the same numbers and classes takes its place so many seconds later, and
        what is then set in that one: [] each time."""
        told = []
        for at, gap in enumerate(gaps):
            it, other = trees[at % 2], trees[(at + 1) % 2]
            self.panel.objects = {}
            bodies = [self.panel.one("/set", 4098, "unmuted"), self.panel.one("/set", 4101, "1"), self.panel.one("/lock", 4100)]
            self.asks_for(0.7, "&shown=0-42")
            self.device.end()
            self.asks_for(gap, "&shown=0-42")
            self.begins(Device(self.device.port, other))
            tickets = []
            for body in bodies:
                tickets += (self.panel.post("/orders", body)[1] or {}).get("tickets", [])
                self.asks_for(0.1 * (at % 3), "&shown=0-42")
            fared = {*self.panel.settled(tickets)}
            is_held = ocactl(self.device.port, *"set 4100 0".split())
            told.append([ocactl(self.device.port, *"get 4098 4101".split()).split("\n")[:2], is_held, sorted(map(str, fared - self.UNSENT))])
            roles = {ono: re.search(rf'^{ono} .*?("[^"]*"|[\w-]+)$', other, re.M)[1].strip('"') for ono in (4097, 4098)}
            has_these = lambda: all(self.panel.in_tree()[ono]["role"] == role for ono, role in roles.items())
            check(waited(lambda: self.is_found_anew(0) and has_these(), 20) is not None,
                  f"a device that took the place of another {gap} s later is found")
        return told

    UNSENT = {"not sent: the device changed", "not sent: too late", "not sent: the link is lost", "lost"}

    def swap(self):
        self.panel, self.other = self.other, self.panel

    def is_lost_for_longer(self):
        """Whether the device is lost once more, and meanwhile the time since it was lost first grows."""
        times, before = [], self.panel.look()["link"]["lost"]
        is_lost_again = lambda link: times.append(link["lost_for"] or 0) or link["lost"] > before
        return waited(lambda: is_lost_again(self.panel.look()["link"])) is not None and times == sorted(times) or times[-9:]

    def is_found_anew(self, epoch):
        values = self.panel.look()
        return values["walked"] and values["epoch"] > epoch and values["link"]["lost_for"] is None

    def asks(self, kind, default="order"):
        """Each request of the rows of this kind is answered as its row says, and each answer of the panel, also a refusal, forbids keeping, guessing
        types and framing. The head of an answer has no other field but what the connection adds."""
        names = ROWS["text"] | {name: str(it) for name, it in self.names.items()} | {"run": self.panel.get("/values")["run"]}
        for row in (one for row in whole(ROWS[kind], names) for one in each(whole(ROWS[default], names) | row, *row)):
            data = request(row)
            status, fields, text = self.panel.exchange(data)
            head = sorted((name.lower(), it) for name, it in fields.items() if name.lower() not in ("content-length", "connection"))
            same(f"{data[:120]!r}: the fields of its answer", head, wanted_fields(row, fields))
            is_said = re.fullmatch(row.get("says", ".+" if "type" in row else ""), text.decode(), re.DOTALL) is not None
            same(f"{data[:120]!r}: its answer", (status, is_said), (row["status"], True))

    def noise(self):
        generator = random.Random(1)
        for _ in range(60):
            self.panel.exchange(generator.randbytes(generator.randrange(1, 3000)) + b"\r\n\r\n", 0.3)

    def connects(self, name, count=1, small=False):
        self.ends[name] = [self.open.enter_context(self.panel.connected(small)) for _ in range(count)]

    def closes(self, *names):
        for s in (s for name in names for s in self.ends.pop(name)):
            s.close()

    def sends(self, name, text):
        for s in self.ends[name]:
            with contextlib.suppress(OSError):
                s.sendall(octets(text))

    def sends_orders(self, name, *orders):
        """Sends a question, and behind it these orders, each in a body of its own, in one piece."""
        bodies = [self.panel.orders_by("/orders", self.panel.one(*order)) for order in orders]
        self.sends(name, b"".join([self.panel.asks("/values"), *bodies]).decode())

    def ticket_at(self, name):
        """The ticket in the next answer that is none to a question; 0 where it is none to an order either."""
        s = self.ends[name][0]
        s.setsockopt(socket.SOL_SOCKET, socket.SO_RCVBUF, 1 << 20)
        while (answer := s.answer())[0] == 200:
            pass
        return json.loads(answer[2])["tickets"][0] if answer[0] == 202 else 0

    def answered(self, name):
        """How many of these connections are answered, all of which ask at once."""
        for s in self.ends[name]:
            with contextlib.suppress(OSError):
                s.sendall(self.panel.asks("/values?since=0"))
        return sum(s.answer()[0] == 200 for s in self.ends[name])

    def whole_answers(self, name, count):
        """How many answers come in twenty seconds, each the same as the first one, which has text; no more than so many are taken."""
        s, until = self.ends[name][0], time.monotonic() + 20
        answers = (s.answer()[2] for _ in range(count) if time.monotonic() < until)
        first = next(answers)
        return 1 + sum(1 for _ in itertools.takewhile(lambda text: text == first != b"", answers))

    def fills(self, name):
        """Asks for the page on a connection, again and again, until the system does not take the whole of the last answer."""
        s, asked, count = self.ends[name][0], self.panel.asks("/"), 0
        size = len(self.panel.exchange(asked)[2])
        while not count or waited(lambda: waiting(self.panel, s) >= count * size, 0.5) is not None:
            count += 1
            s.sendall(asked)

    def takes_all(self, name):
        self.ends[name][0].settimeout(1)
        with contextlib.suppress(TimeoutError):
            while self.ends[name][0].recv(1 << 16):
                pass
        self.ends[name][0].settimeout(20)

    def are_kept(self, number, *names):
        """Whether the panel comes to have so many of these connections, ten times in a row; else how many it has."""
        # one that is taken is counted before the one that gives way to it is closed
        counts, ends = [], [s for name in names for s in self.ends[name]]
        is_so = waited(lambda: counts.append(len(open_ends(self.panel, ends))) or counts[-10:] == 10 * [number], 4)
        return is_so is not None or counts[-20:]

    def seconds_until_closed(self, *names):
        """How long the panel has each of these connections, where `sends` sends a byte again and again, and `takes` takes a little of its answers."""
        ends = {name: self.ends[name][0] for name in names}
        for s in ends.values():
            s.setblocking(False)
        closed = closings(self.panel, ends, {"sends": lambda s: s.send(b"x"), "takes": lambda s: s.recv(100)}, 20)
        return [[name, closed.get(name, 0)] for name in names]


def main():
    ITS.folder = os.path.abspath(sys.argv[1])
    beside = ThreadPoolExecutor(1).submit(steady)
    for steps, names in scenes_of("panel"):
        Desk().played(steps, **names)
    answered, asked, closed = beside.result()
    check(answered == asked > 30 and "busy" not in closed, f"a connection with a request again and again: {answered} of {asked} are answered")
    check(30 <= closed.get("idle", 0) < 40, f"a connection on which nothing moves is closed after {closed.get('idle')} s, not after 30")
    return ITS.verdict()


if __name__ == "__main__":
    sys.exit(main())
