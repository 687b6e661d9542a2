"""What tools share: checks that are counted, runs of programs, sockets and ports. It has no `main`."""
import atexit
import contextlib
import fcntl
import functools
import os
import random
import re
import select
import shutil
import socket
import subprocess
import sys
import tempfile
import threading
import time
from pathlib import Path

def by_turns():
    turn = int(time.time() * 100000) // 2**31 % 2
    return (65002, 65001) if turn else (65001, 65002)


@contextlib.contextmanager
def by_itself():
    """While this lasts no other tool is in it: that of who runs `ocactl` at its own ports, or holds one of them."""
    with open(f"/tmp/oca-own-ports-{os.getuid()}", "w", encoding="ascii") as file:  # whatever TMPDIR says
        fcntl.flock(file, fcntl.LOCK_EX)
        yield


def free_port():
    """A port of this machine that nobody has. It lies below those that the system chooses, so that it stays free while it is not bound."""
    with open("/proc/sys/net/ipv4/ip_local_port_range", encoding="ascii") as file:
        least = int(file.read().split()[0])
    while True:
        port = random.SystemRandom().randrange(10000, max(least, 20000))
        with socket.socket(socket.AF_INET, socket.SOCK_DGRAM) as s, contextlib.suppress(OSError):
            s.bind(("0.0.0.0", port))
            return port


def bound(ip="127.0.0.1", port=0):
    s = socket.socket(socket.AF_INET, socket.SOCK_DGRAM)
    s.bind((ip, port))
    s.settimeout(10)
    return s


def at(end):
    return "{}:{}".format(*end.getsockname())


def sockets(kind):
    """The sockets of this machine, `tcp` or `udp` of IPv4: of each the address and port at both ends, the bytes that wait to be sent and to be read,
    and the number of its file."""
    end = lambda text: (socket.inet_ntoa(bytes.fromhex(text[:8])[::-1]), int(text[9:], 16))
    for row in map(str.split, Path("/proc/net", kind).read_text().splitlines()[1:]):
        yield end(row[1]), end(row[2]), [int(it, 16) for it in row[4].split(":")], row[9]


def comes(end):
    """The datagrams that come to a socket, each with its sender, until none comes in its time."""
    with contextlib.suppress(TimeoutError):
        while True:
            yield end.recvfrom(2048)


def next_command(end, passed=()):
    """The next datagram that comes, and from where; nothing where none comes in its time. Keep-alives are passed over, and these."""
    return next(((data, sender) for data, sender in comes(end) if data[7:8] != b"\4" and data not in passed), (b"", None))


def heard(end):
    """The datagrams that are there at a socket."""
    found = []
    while select.select([end], [], [], 0)[0]:
        found.append(end.recv(2000))
    return found


def lines_in(path):
    """The lines of a file, none where it is not there."""
    return Path(path).read_text().splitlines() if Path(path).exists() else []


def ended(run, seconds=60, given=None):
    """What a run with this input printed, what it said of faults, and its status; that it did not end, where it does not in so many seconds."""
    try:
        return (*run.communicate(given, timeout=seconds), run.returncode)
    except subprocess.TimeoutExpired:
        run.kill()
        return ("it did not end", *run.communicate(timeout=60))


NOTE = "note: the system grants "  # what `ocadev serve` says of little room for datagrams that have not left


def are_few():
    """Whether that note is printed: Linux counts twice what it lets a socket ask for."""
    return 2 * min(4_000_000, int(Path("/proc/sys/net/core/wmem_max").read_text())) < 500_000


def next_line(run, seconds=10):
    """The next line that a run prints into a pipe; nothing if none comes in so many seconds."""
    return run.stdout.readline() if select.select([run.stdout], [], [], seconds)[0] else None


def read_until(file, holds, seconds=10):
    """What comes from the descriptor of a file until this holds of it, to its end, or for so many seconds."""
    said, until = b"", time.monotonic() + seconds
    with contextlib.suppress(OSError):  # of a terminal whose other end is closed
        while not holds(said) and select.select([file], [], [], max(0, until - time.monotonic()))[0] and (more := os.read(file, 4096)):
            said += more
    return said


def waited(holds, seconds=60.0, pause=0.01):
    """The seconds until this holds, or None where it does not in so many."""
    begun = time.monotonic()
    while not holds():
        if time.monotonic() - begun > seconds:
            return None
        time.sleep(pause)
    return time.monotonic() - begun


def tries(count, take, is_well):
    """What this gives, again and again until it is well, at most so many times: a machine may be busy."""
    found = [take()]
    while len(found) < count and not is_well(found[-1]):
        found.append(take())
    return found


def nulls_of(run, seconds=30):
    """The descriptors of a run at which the null device stands, once it has a socket; nothing where it has none in so many seconds."""
    def files():
        with contextlib.suppress(OSError):
            return {int(number): os.readlink(f"/proc/{run.pid}/fd/{number}") for number in os.listdir(f"/proc/{run.pid}/fd")}
        return {}

    is_there = lambda: any(what.startswith("socket:") for what in files().values())
    waited(lambda: is_there() or run.poll() is not None, seconds, 0.005)
    return sorted(number for number, what in files().items() if what == "/dev/null") if is_there() else None


class Beside:
    """What goes on in a thread of its own while a block lasts: `step`, again and again."""

    is_over = False

    def __enter__(self):
        self.thread = threading.Thread(target=self.run, daemon=True)
        self.thread.start()
        return self

    def run(self):
        while not self.is_over:
            self.step()

    def __exit__(self, *_):
        self.is_over = True
        self.thread.join()


def port_said(run):
    """The port at which a run says first that it listens; 0 if it does not."""
    found = re.fullmatch(r"listening [\d.]+:(\d+)\n", run.stderr.readline())
    return int(found[1]) if found else 0


class Serving:
    """A run of a program that serves: the notes that it says first, and where it says that it listens. It is ended with the block that it stands in."""

    def __init__(self, *words, notes=0, **how):
        how = {"stdout": subprocess.DEVNULL, "stderr": subprocess.PIPE, "text": True, **over_the_layer(how)}
        self.process = subprocess.Popen([*map(str, words)], **how)
        self.notes = [self.process.stderr.readline() for _ in range(notes)]
        self.said = self.process.stderr.readline()
        found = re.fullmatch(r"listening (?:http://)?([\d.]+):(\d+)(?:/(?:\?token=([\w-]+))?)?\n", self.said)
        self.ip, self.port, self.token = found.groups() if found else (None, 0, None)
        self.port = int(self.port)
        if "--token" in words:  # of a file: it is not printed, else the run counts as one that did not say where it listens
            self.port, self.token = 0 if self.token else self.port, Path(words[words.index("--token") + 1]).read_text().splitlines()[0]

    def __enter__(self):
        return self if self.port else sys.exit(f"{self.process.args[0]} said {self.said!r}")

    def end(self, *_):
        self.process.kill()
        self.process.wait()

    __exit__ = end


def verdict(passed, failed):
    print(f"{passed} passed, {failed} failed")
    return int(failed > 0 or not passed)


class Checks:
    """Counts checks, and runs the programs of a folder for them."""

    def __init__(self, folder=""):
        self.folder, self.passed, self.failed, self.started = os.path.abspath(folder) if folder else "", 0, 0, []
        self.late, self.repeated = 0, []

    def expect(self, what, good, told="", is_time=False):
        """A check, and whether it is so; `is_time` where it is wrong only since something took too long."""
        if good:
            self.passed += 1
        else:
            self.failed += 1
            self.late += is_time
            print(f"{'LATE' if is_time else 'WRONG'}: {what}{told and ': '}{told}", flush=True)
        return bool(good)

    def same(self, what, got, wanted, is_time=False):
        return self.expect(what, got == wanted, f"{got!r:.1000} in place of {wanted!r:.1000}", is_time)

    def all_but(self, count, faults):
        """So many checks, of which each of these faults is one that failed."""
        self.passed += max(0, count - len(faults))
        for fault in faults:
            self.expect(fault, False)

    def counted(self, what, out, status, said=""):
        """The checks of a run whose last line is 'N passed, M failed': none failed, and it says nothing of faults."""
        counts = re.search(r"(\d+) passed, (\d+) failed\n$", out)
        if not self.same(what, (counts and counts[2], status, said), ("0", 0, "")):
            print(out, end="")
        self.passed += int(counts[1]) if counts else 0

    def finds(self, where, text, there, other, faults_of):
        """A check that what is wrong is found: a text with the other one in the place of what stands there once."""
        is_found = text.count(there) == 1 and bool(faults_of(text.replace(there, other)))
        self.expect(f"not found: {other!r} in place of {there!r}{where}", is_found)

    def start(self, *words, given=None, text=True, **how):
        """A run of a program of the folder, with this input; without one it stays open. What is written in capitals is done by the layer."""
        how = {"stdin": subprocess.PIPE, "stdout": subprocess.PIPE, "stderr": subprocess.PIPE, **over_the_layer(how)}
        run = subprocess.Popen([f"{self.folder}/{words[0]}", *map(str, words[1:])], text=text, **how)
        self.started.append(run)
        if given is not None:
            write(run, given)
        return run

    def serve(self, *words, **how):
        """`ocadev serve` at a port that the system chooses, and this port; 0 if it does not listen."""
        run = self.start("ocadev", "serve", "--port", 0, *words, **how)
        port = port_said(run)
        for _ in range(are_few() + ("--keep" in words)):  # that note, and with what it began
            run.stderr.readline()
        return run, port

    def ran(self, *words, given="", seconds=60, **how):
        return ended(self.start(*words, **how), seconds, given)

    def part(self, part):
        """Runs a part, and ends what it started. If times alone were wrong it is tried twice more: a machine that stands still for a second or
        two is no fault of the programs. Whatever else is wrong has failed at once."""
        for left in (2, 1, 0):
            passed, failed, self.late = self.passed, self.failed, 0
            part(self)
            self.end()
            if self.failed == failed or self.failed > failed + self.late or not left:
                return
            print(f"once more: {part.__name__}: {self.late} times were too long", flush=True)
            self.repeated.append(part.__name__)
            self.passed, self.failed = passed, failed

    def parts(self, *parts):
        """Runs these parts; one that breaks off has failed."""
        for part in parts:
            try:
                self.part(part)
            except Exception as fault:  # nothing came, or something else than what was waited for
                self.expect(part.__name__, False, repr(fault))

    def tried(self, *parts):
        self.parts(*parts)
        return self.verdict()

    def end(self):
        """Ends what still runs."""
        for run in self.started:
            if run.poll() is None:
                run.kill()
                run.wait()

    def verdict(self):
        """Ends what still runs, prints the last line, and answers the exit status."""
        self.end()
        if self.repeated:
            print(f"parts that were repeated since times were too long: {', '.join(self.repeated)}")
        return verdict(self.passed, self.failed)


def write(run, given, ends=True):
    """Gives a run this input, and ends it there, or leaves it open; where the run has ended, nothing."""
    with contextlib.suppress(BrokenPipeError):
        run.stdin.write(given)
        run.stdin.flush()
    if ends:
        with contextlib.suppress(BrokenPipeError):
            run.stdin.close()
        run.stdin = None


@functools.cache
def layer(name):
    """The layer over the C library of the file `NAME.c` here, as LD_PRELOAD names it: built once, in a folder that goes with this process."""
    place, source = tempfile.mkdtemp(), os.path.join(os.path.dirname(os.path.abspath(__file__)), f"{name}.c")
    atexit.register(shutil.rmtree, place)
    subprocess.run(["gcc", "-O1", "-Wall", "-shared", "-fPIC", "-o", f"{place}/{name}.so", source, "-ldl"], check=True)
    return f"{place}/{name}.so"


def over_the_layer(how):
    """How a program is started: names in capitals are settings of the layer `unreliable.c`, and if there are any, it runs over that."""
    settings = {name: str(value) for name, value in how.items() if name.isupper()}
    rest = {name: value for name, value in how.items() if name not in settings}
    return rest | {"env": os.environ | {"LD_PRELOAD": layer("unreliable")} | settings} if settings else rest


class Ahead:
    """Clocks of the layer that are set forward while programs run: what is set for these, and `set` for so many seconds."""

    def __init__(self):
        self.file = tempfile.NamedTemporaryFile(buffering=0)
        self.settings = {"AHEAD": self.file.name}
        self.set(0)

    def set(self, seconds):
        os.pwrite(self.file.fileno(), int(1000 * seconds).to_bytes(8, sys.byteorder), 0)
