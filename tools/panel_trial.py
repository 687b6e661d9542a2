#!/usr/bin/env python3
"""The panel's page: its table of cases in node and in Chromium, wrong pages that the table must refuse, and the page in Chromium with the
programs: click, drag, keyboard, wheel, locks, labels, many at once, two windows, a network that loses datagrams, programs that stop and begin
again, another device, 4,096 objects, hostile texts, contrast, sizes, and no line in the console.

Usage: panel_trial.py BIN [PICTURES]    BIN is the folder with `ocapanel`, `ocadev` and `ocactl`; PICTURES is a folder for panel.png and
                                        panel-tablet.png
       panel_trial.py --cases [NAME]    the cases in node alone, of those whose name holds NAME

In the gate: panel_trial.py bin

Where there is no node or no Chromium, what needs it is left out, which is said. The last line is 'N passed, M failed'."""
import base64
import json
import os
import shutil
import signal
import subprocess
import sys
import tempfile
import time
from concurrent.futures import ThreadPoolExecutor
from pathlib import Path

import oca_profile as oca
import page
from checks import waited
from panel import ITS, MUTE, TREE, TRIM, Bench, Device, Panel, check, ocactl, same
from peers import Peer
from tables import as_it_stands, data, table, whole

CASES = Path(__file__).resolve().parent / "page_cases"
LOOKS = CASES / "looks.js"
EXAMPLES = CASES.parent.parent / "examples"
OTHER_MUTE, AT_ONCE = 4103, 8
DATA, BY_HAND = data("panel_trial"), as_it_stands("by_hand")
# One channel of the stage box, and a device whose texts are hostile.
STRIP = "".join(line for line in TREE.splitlines(True) if line[:4] in ("4096", "4097", "4098", "4099", "4100", "4101"))
HOSTILE = "".join(f'{5000 + 2 * n} 100 block lockable "{role}"\n{5001 + 2 * n} {5000 + 2 * n} mute muted lockable "{role}"\n'
                  for n, role in enumerate(DATA.hostile))
# A desk of 24 channels, of which a low window shows the first ones.
DESK = "".join(f'{5000 + 10 * n} 100 block lockable "channel {n}"\n{5001 + 10 * n} {5000 + 10 * n} mute muted lockable mute\n'
               f'{5002 + 10 * n} {5000 + 10 * n} int16 -600 600 0 lockable trim\n' for n in range(1, 25))


def prepared(sources, place):
    Path(place, "page.html").write_text(page.page(sources)[0])
    for name, before in (("stand", ""), ("cases", f"const ROWS={json.dumps(table('page_cases'))};")):
        Path(place, f"{name}.js").write_text(before + page.shorten((CASES / f"{name}.js").read_text(), sources))
    return [str(Path(place, name)) for name in ("page.html", "stand.js", "cases.js")]


def in_node(sources=page.SOURCES, name=""):
    with tempfile.TemporaryDirectory() as place:
        done = subprocess.run(["node", str(CASES / "run.js"), *prepared(sources, place), name], capture_output=True, text=True, timeout=120)
    lines = [json.loads(line) for line in done.stdout.splitlines() if line.startswith("{")]
    return lines or [{"name": "node", "ok": False, "wanted": "", "got": done.stderr[-500:]}]


def note_cases(lines, where):
    for line in lines:
        check(line["ok"], f"{where}: {line['name']}: {line.get('got')} in place of {line['wanted']}")


def is_refused(wrong):
    """Whether the line of a wrong page stands once in the sources, and whether its case refuses the page."""
    with tempfile.TemporaryDirectory() as place:
        folder = Path(shutil.copytree(page.SOURCES, Path(place, "page")))
        file, old, new = folder / wrong["file"], wrong["old"] + "\n", wrong["new"] + "\n"
        text = file.read_text()
        file.write_text(text.replace(old, new))
        return text.count(old) == 1, any(wrong["case"] in line["name"] and not line["ok"] for line in in_node(folder, wrong["case"]))


def wrong_pages():
    with ThreadPoolExecutor(4) as pool:
        for wrong, (stands, refused) in zip(DATA.wrong, pool.map(is_refused, DATA.wrong)):
            check(stands, f"wrong page: {wrong['does']}: its line does not stand once in {wrong['file']}")
            check(refused, f"a page is let through where {wrong['does']}")


class Browser:
    """A headless Chromium, spoken to over its descriptors 3 and 4 in the DevTools protocol."""

    def __init__(self, program, folder):
        words = "--headless=new --no-sandbox --disable-gpu --no-first-run --remote-debugging-pipe about:blank".split()
        self.process = subprocess.Popen(
            ["sh", "-c", 'exec "$@" 3<&0 4>&1 </dev/null >/dev/null', "sh", program, f"--user-data-dir={folder}", *words],
            start_new_session=True, stdin=subprocess.PIPE, stdout=subprocess.PIPE, stderr=subprocess.DEVNULL)
        self.number, self.held, self.lines, self.results = 0, b"", [], {}

    def message(self):
        while b"\0" not in self.held:
            more = self.process.stdout.read1()
            if not more:
                sys.exit("panel_trial: the browser ended")
            self.held += more
        one, self.held = self.held.split(b"\0", 1)
        return json.loads(one)

    def send(self, method, session=None, **params):
        self.number += 1
        sent = {"id": self.number, "method": method, "params": params} | ({"sessionId": session} if session else {})
        self.process.stdin.write(json.dumps(sent).encode() + b"\0")
        self.process.stdin.flush()
        return self.number

    def result(self, number):
        while number not in self.results:
            got = self.message()
            if got.get("method") in ("Runtime.consoleAPICalled", "Runtime.exceptionThrown", "Log.entryAdded"):
                self.lines.append(got["params"])
            if "id" in got:
                self.results[got["id"]] = got
        got = self.results.pop(number)
        if "error" in got:
            sys.exit(f"panel_trial: {got['error']}")
        return got["result"]

    def call(self, method, session=None, **params):
        return self.result(self.send(method, session, **params))

    def end(self):
        os.killpg(self.process.pid, signal.SIGKILL)
        self.process.wait()


class Window:
    """A window of the browser with the page in it. Scripts for it are written with the names of the page's sources."""

    def __init__(self, browser, address, width=1280, height=900, before="", **of):
        self.browser = browser
        self.target = browser.call("Target.createTarget", url="about:blank", **of or {"newWindow": True})["targetId"]
        self.session = browser.call("Target.attachToTarget", targetId=self.target, flatten=True)["sessionId"]
        for domain in ("Page", "Runtime", "Log"):
            self.call(f"{domain}.enable")
        if before:
            self.call("Page.addScriptToEvaluateOnNewDocument", source=before)
        self.size(width, height)
        self.call("Page.navigate", url=address)

    def call(self, method, **params):
        return self.browser.call(method, self.session, **params)

    def size(self, width, height, mobile=False):
        self.call("Emulation.setDeviceMetricsOverride", width=width, height=height, deviceScaleFactor=1, mobile=mobile)

    def ask(self, script):
        return self.browser.send("Runtime.evaluate", self.session, expression=script, returnByValue=True, awaitPromise=True)

    def answer(self, number):
        got = self.browser.result(number)
        if "exceptionDetails" in got:
            return f"error: {got['exceptionDetails'].get('exception', {}).get('description', got['exceptionDetails']['text'])}"
        return got["result"].get("value")

    def run(self, script):
        return self.answer(self.ask(page.shorten(script)))

    def looks(self, script):
        return self.answer(self.ask(f"(()=>{{{LOOKS.read_text()}\nreturn {script}}})()"))

    def wait(self, script, seconds=20.0):
        return waited(lambda: self.run(script) is True, seconds, 0.02) is not None

    def holds(self, script, what, seconds=20.0):
        is_so = self.wait(script, seconds)
        check(is_so, f"{what}: {'' if is_so else self.run('program.state+document.title')}")

    def place(self, what):
        return self.run(f"(()=>{{const e={what};e.scrollIntoView({{'block':'center'}});const r=e.getBoundingClientRect();"
                        "return[r.x+r.width/2,r.y+r.height/2]})()")

    def mouse(self, kind, x, y, buttons=0, **more):
        button = "left" if kind in ("mousePressed", "mouseReleased") or buttons else "none"
        self.call("Input.dispatchMouseEvent", type=kind, x=x, y=y, button=button, buttons=buttons, clickCount=1, **more)

    def click(self, what, held=0.0):
        place = self.place(what)
        self.mouse("mousePressed", *place, 1)
        time.sleep(held)
        self.mouse("mouseReleased", *place)

    def drag(self, what, by, steps=25, release=True):
        """Moves the mouse from the middle of an element upwards."""
        x, y = self.place(what)
        self.mouse("mousePressed", x, y, 1)
        for n in range(1, steps + 1):
            self.mouse("mouseMoved", x, y - by * n / steps, 1)
        if release:
            self.mouse("mouseReleased", x, y - by)

    def key(self, key, code=0, text=""):
        for kind, more in (("keyDown", {"text": text}) if text else ("rawKeyDown", {}), ("keyUp", {})):
            self.call("Input.dispatchKeyEvent", type=kind, key=key, code=key, windowsVirtualKeyCode=code, **more)

    def wheel(self, what):
        self.mouse("mouseWheel", *self.place(what), deltaX=0, deltaY=-100)

    def choose(self, ono, *children):
        """Opens the menu of an object's strip, and clicks what stands at this place of it."""
        self.click(row(ono, ".strip.menu"))
        self.wait("$('dialog').open")
        self.click("$('dialog').children[2]" + "".join(f".children[{it}]" for it in children))

    def close(self):
        self.browser.call("Target.closeTarget", targetId=self.target)


def row(ono, rest=""):
    return f"rows.get({ono}){rest}"


def shows(ono, value):
    return f"!!{row(ono)}&&!isOut({row(ono)},'set')&&!isOut({row(ono)},'lock')&&{row(ono, '.value')}==={json.dumps(value)}"


def cases_at_once(address, cases, group):
    """How these cases end, each in a window of its own."""
    for _, window in group:
        window.call("Page.navigate", url=address)
    asked = []
    for at, window in group:
        window.wait("document.readyState==='complete'&&typeof rows==='object'")
        asked.append((at, window, window.ask(f"{cases};runCase({at})")))
    said = [(at, window.answer(number)) for at, window, number in asked]
    return [json.loads(got) if str(got).startswith("{") else {"name": f"case {at}", "ok": False, "wanted": "", "got": got} for at, got in said]


def cases_in_browser(browser):
    """The cases in Chromium, each in a page of its own that the program sent: several at once, and those that fail again by themselves."""
    with tempfile.TemporaryDirectory() as place:
        _, stand, cases = (Path(file).read_text() for file in prepared(page.SOURCES, place))
    lines = []
    with Device() as device, Panel(device) as panel:
        address = f"http://{panel.host}/"
        same("the page that the program sends", panel.exchange(panel.asks("/"))[2].decode(), page.page()[0])
        windows = [Window(browser, address, before=stand) for _ in range(AT_ONCE)]
        windows[0].wait("document.readyState==='complete'")
        count = windows[0].answer(windows[0].ask(f"{cases};CASES.length"))
        for first in range(0, count, AT_ONCE):
            lines += cases_at_once(address, cases, list(zip(range(first, count), windows)))
        for at, line in enumerate(lines):  # a page counts by the browser's clock, and a busy machine lets it wait
            again = (cases_at_once(address, cases, [(at, windows[0])])[0] for _ in range(4))
            lines[at] = line if line["ok"] else next((one for one in again if one["ok"]), line)
        for window in windows:
            window.close()
    browser.lines.clear()
    return lines


# What the page shows of the trim, whether it counts as confirmed, and why the program is not sure.
SEEN = f"(()=>{{const r={row(TRIM)};return[r.value,isOpen()&&isSure(r),program.unsure]}})()"


class Trial(Bench):
    """A scene of tools/rows/by_hand.toml: a program of a device, or of one of two, and one window with the page, or two."""

    def __init__(self, browser, place=None):
        self.browser, self.other, self.program, self.one, self.two = browser, None, None, None, None
        sends = lambda number: lambda whom: getattr(self, whom).process.send_signal(number)
        in_one = lambda verb: lambda *given: getattr(self.one, verb)(*given)
        # a person acts once the page takes it, which it does not while a busy machine lets its link wait
        acts = lambda verb: lambda *given: self.one.wait("isOpen()") and getattr(self.one, verb)(*given)
        features = lambda what, value: [{"name": f"prefers-{what}", "value": value}]
        super().__init__({verb: in_one(verb) for verb in ("run", "wait", "holds", "size")} | {
            **{verb: acts(verb) for verb in ("click", "wheel", "key", "drag", "choose")},
            "press": in_one("click"),
            "type": lambda text: self.one.call("Input.insertText", text=text),
            "prefers": lambda what, value: self.one.call("Emulation.setEmulatedMedia", features=features(what, value)),
            "swap": self.swap,
            "program": self.begins_program,
            "program ends": lambda: self.program.end(),
            "stop": sends(signal.SIGSTOP),
            "go on": sends(signal.SIGCONT),
            "window": self.opens_window,
            "let go": lambda what: self.one.mouse("mouseReleased", *self.one.place(what)),
            "clicks": self.clicks,
            "mutes all": self.mutes_all,
            "other runs": lambda script: self.two.run(script),
            "other chooses": lambda *place: self.two.choose(*place),
            "other holds": lambda *what: self.two.holds(*what),
            "each holds": lambda *what: [window.holds(*what) for window in (self.one, self.two)],
            # once the page may order something of it, which it may not while a busy machine lets its link wait
            "changes": lambda ono, value: self.one.wait(f"!hindrance({row(ono)})") and self.one.run(f"change({row(ono)},'{value}')"),
            "fares": lambda ono, value, what: self.one.holds(shows(ono, value), what),
            "both": lambda value, what: self.one.holds(f"{shows(MUTE, value)}&&{shows(OTHER_MUTE, value)}", what),
            "is": lambda script, value, what: same(what, self.one.run(script), value),
            "looks": lambda script, value, what: same(what, self.one.looks(script), value),
            "label": lambda ono, text: Peer(self.device.port).ask(ono, 2, 9, oca.text_bytes(text)),
            "is told": lambda words, told, what: check(told in ocactl(self.device.port, *words.split()), what),
            "agrees": lambda ono, what: same(what, self.said(ono), [self.one.run(row(ono, ".value"))]),
            "device has": lambda onos, values, what: same(what, self.said(*onos), values),
            "ages": self.ages,
            "picture": lambda file: Path(place, file).write_bytes(base64.b64decode(
                self.one.call("Page.captureScreenshot", format="png")["data"])),
        }, strip=STRIP, hostile=HOSTILE, desk=DESK, stagebox=(EXAMPLES / "stagebox.tree").read_text(), units=EXAMPLES / "stagebox.units", **whole(BY_HAND["text"], BY_HAND["text"]))

    def swap(self):
        self.device, self.other = self.other, self.device
        self.names["address"] = f"127.0.0.1:{self.device.port}" if self.device else ""

    def begins_program(self, words="", port=0, token=False):
        """`ocapanel` for the device; tried again while its own port is still another one's."""
        found, begins = [], lambda: Panel(self.way or self.device, *words.split(), port=port, token=token)
        waited(lambda: found.append(begins()) or found[-1].port or not port, 20, 0.1)
        self.program = self.open.enter_context(found[-1])

    def opens_window(self, which, query="", height=900, is_clean=False):
        """Opens a window with the page; a clean one knows of no cookie."""
        of = {"browserContextId": self.browser.call("Target.createBrowserContext")["browserContextId"]} if is_clean else {}
        window = Window(self.browser, f"http://{self.program.host}/{query}{self.program.token if query else ''}", height=height, **of)
        self.open.callback(window.close)
        setattr(self, which, window)

    def clicks(self, wanted):
        """A click brings the mute to this. Where the machine was so busy that the program gave no answer in time, it is clicked again."""
        for _ in range(4):
            if self.one.run(row(MUTE, ".value")) != wanted:
                self.one.click(row(MUTE, ".view.main"))
            if self.one.wait(shows(MUTE, wanted), 10):
                return True
            self.one.wait("isOpen()", 20)
        return False

    def mutes_all(self, count):
        """All is muted, and told as done. Where the machine was so busy that the page told something else, it is done again."""
        for _ in range(20):
            self.one.wait("isOpen()", 60)
            self.one.run("$('log').replaceChildren();$('mute-all').click()")
            self.one.run("$('dialog').lastElementChild.lastElementChild.click()")
            if self.one.wait("$('log').textContent.includes('mute all')") and f"all {count} done" in self.one.run("$('log').textContent"):
                return True
        return False

    def said(self, *onos):
        return [line.split(" ", 1)[1] for line in ocactl(self.device.port, "get", *map(str, onos)).splitlines()]

    def ages(self, seconds=20):
        """What is shown as confirmed was so within the last 2 s; and another's change is seen."""
        # what the device had, each with the moment at which it was there and the one from which on it was surely gone
        had = [(self.said(TRIM)[0], time.monotonic(), None)]
        seen, wrong, looks, set_at, value = 0, [], 0, 0.0, 0
        until = time.monotonic() + seconds
        while time.monotonic() < until:
            begun = time.monotonic()
            shown, is_sure, _ = self.one.run(SEEN)
            looks += 1
            last = [gone for one, _, gone in had if one == shown][-1:]
            if is_sure and last != [None] and not (last and last[0] > begun - 2):
                wrong.append((shown, last, begun))
            if shown == had[-1][0] and set_at:
                seen, set_at = seen + 1, 0.0
            if not set_at and begun > had[-1][1] + 1:
                value += 1
                ocactl(self.device.port, "set", TRIM, value)
                set_at = time.monotonic()
                had[-1:] = [(*had[-1][:2], set_at), (str(value), set_at, None)]
            time.sleep(0.02)
        same("values that are shown as confirmed, and that the device had no longer 2 s before", wrong[:3], [])
        check(looks > 0 and seen > 0, "changes are seen")


def counted(name, part_of, *given):
    """Tries a part, and compares how many rows it has; one that has fewer tried too little."""
    before, begun = ITS.passed + ITS.failed, time.monotonic()
    part_of(*given)
    rows = ITS.passed + ITS.failed - before
    print(f"{name}: {rows} rows in {time.monotonic() - begun:.0f} s", flush=True)
    same(f"{name}: its rows", rows, DATA.rows[name])


def sources():
    check(page.TARGET.read_text() == page.made(), "page.rt is not what its sources make: run tools/page.py")
    size = len(page.page()[0].encode())
    check(size < page.MOST, f"the page has {size} bytes, not below {page.MOST}")


def in_chromium(chromium, place):
    # (a process of the browser that is not yet gone may still write there)
    with tempfile.TemporaryDirectory(ignore_cleanup_errors=True) as profile:
        browser = Browser(chromium, profile)
        try:
            counted("chromium", lambda: note_cases(cases_in_browser(browser), "in Chromium"))
            for name in [*DATA.rows][4:]:
                counted(name, Trial(browser).played, BY_HAND[name])
            if place:
                Trial(browser, place).played(BY_HAND["pictures"])
            lines = [line for line in browser.lines if "ERR_" not in str(line) and "Failed to load resource" not in str(line)]
            check(not lines, f"no line in the console: {lines[:3]}")
        finally:
            browser.end()


def main():
    if sys.argv[1] == "--cases":
        note_cases(in_node(page.SOURCES, *sys.argv[2:3]), "in node")
        return ITS.verdict()
    counted("sources", sources)
    if shutil.which("node"):
        counted("node", lambda: note_cases(in_node(), "in node"))
        counted("wrong pages", wrong_pages)
    else:
        print("LEFT OUT: the page's cases in node, and wrong pages: there is no node here")
    chromium = shutil.which("chromium") or shutil.which("chromium-browser") or shutil.which("google-chrome")
    if chromium:
        ITS.folder = os.path.abspath(sys.argv[1])
        in_chromium(chromium, sys.argv[2] if len(sys.argv) > 2 else None)
    else:
        print("LEFT OUT: the page in Chromium: there is none here (apt-get install chromium)")
    return ITS.verdict()


if __name__ == "__main__":
    sys.exit(main())
