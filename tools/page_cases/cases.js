// The page's functions, case by case: what stands on the page and what is sent, by state and event. Each case runs in a page of its
// own, in node and in the browser, behind stand.js and the page's script. Cases that are steps are rows of
// tools/rows/page_cases.toml, here ROWS; what needs more than steps is written out below: its name, what is to come, what is done.
const pause = ms => new Promise(done => setTimeout(done, ms));

async function until(test, ms = 4000) {
  const last = realNow() + ms;
  while (!test() && realNow() < last) await pause(3);
  return !!test();
}

// The page has read its objects, and all its strips have their controls.
async function started() {
  await until(() => rows.size === fake.objects.length && isOpen());
  for (const strip of strips) fill(strip);
  await answered();
}

// The program was asked again, and what it said is drawn.
async function answered() {
  for (const strip of strips) inView.add(strip);
  const asked = fake.paths.length;
  await until(() => fake.paths.slice(asked).filter(path => path.startsWith("/values")).length > 1);
  drawLink();
  drawSums();
}

const part = ono => rows.get(ono).view.main;
const words = ono => rows.get(ono).strip.message.textContent;
// What was ordered, without what the person read of its object.
const plain = orders => orders.map(({ "role": role, "block": block, "name": name, ...rest }) => rest);
const sent = () => plain(fake.bodies.flatMap(body => body.orders));
const tell = (ticket, trouble = null) => fake.told.push({ ticket, ono: 0, trouble });
const click = element => element.onclick({ detail: 1, target: element, preventDefault() {} });
const options = () => [...$("dialog").children[2].children];
const answerNamed = start => [...$("dialog").lastElementChild.children].find(button => button.textContent.startsWith(start));
const mutes = () => [...rows.values()].filter(row => row.kind === "mute");
const flying = (count = 1) => until(() => fake.bodies.length >= count && awaited.size > 0); // an order of an object is in flight

async function walk() {
  fake.epoch++;
  await until(() => program.epoch === fake.epoch && isOpen());
}

// The device has another object of this number now.
async function changedTree(ono, more) {
  fake.objects = fake.objects.map(object => object.ono === ono ? { ...object, ...more } : object);
  await walk();
  await started();
}

async function heard(ago) {
  program.heardAt = now() - ago;
  drawLink();
}

// The program takes these orders, and tells soon how each ended, by its ticket.
function tellSoon(orders, troubleOf = () => null) {
  const first = fake.tickets + 1;
  setTimeout(() => orders.forEach((_, at) => tell(first + at, troubleOf(first + at))), 5);
  return null;
}

async function typeIn(ono, text) {
  DOES["fill"](ono, text);
  DOES["key"](ono, "Enter");
  await pause(20);
}

function drag(ono) {
  const fader = rows.get(ono).view.second, mouse = { button: 0, pointerType: "mouse", pointerId: 1, clientX: 0, clientY: 300 };
  const event = more => ({ ...mouse, shiftKey: false, target: fader, ...more });
  fader.setPointerCapture = () => {};
  fader.getBoundingClientRect = () => ({ width: 60, height: 348 });
  return {
    down: more => fader.onpointerdown(event(more)), to: (clientY, more) => fader.onpointermove(event({ clientY, ...more })),
    up: more => fader.onpointerup(event(more)),
  };
}

const fakeOne = (ono, kind, role) => ({ ono, in: 100, class: kind, role, lockable: false, names: [] });
const manyMutes = count => [fakeObjects[0], ...Array.from({ length: count }, (_, at) => fakeOne(1000 + at, "mute", "mute " + at))];
const inAGroup = () => [fakeObjects[0], fakeOne(50, "block", "inputs"), { ...fakeObjects[2], in: 50 }, fakeObjects[3]];

async function startedWith(objects, value) {
  fake.objects = objects;
  for (const object of objects) if (object.class === "mute") fakeValues[object.ono] = value;
  await walk();
  for (const strip of strips) fill(strip);
  await answered();
}

// Parts of the page, by their first word.
const PARTS = {
  "fader": ono => rows.get(ono).view.second, "menu": ono => rows.get(ono).strip.menu,
  "select": ono => rows.get(ono).strip.select, "name": ono => rows.get(ono).strip.name, "role": ono => rows.get(ono).strip.role,
  "option": at => Number.isNaN(at) ? $("dialog").children[2] : options()[at], "head": () => groups[0].head, "members": () => groups[0].body, "sign": () => groups[0].sign,
  "sum": () => groups[0].sum, "cap": ono => [...rows.get(ono).view.second.children].find(one => one.className === "cap"),
};

function the(what) {
  if (typeof what === "number") return part(what);
  if (what.startsWith("answer ")) return answerNamed(what.slice(7));
  const [first, ...path] = what.split(" ");
  const found = first[0] === "#" ? $(first.slice(1)) : PARTS[first](Number(path.shift()));
  return path.reduce((element, at) => [...element.children].at(at), found);
}

let hand, marked = 0, prevented = false;
const aimed = more => more && more.target ? { ...more, target: the(more.target) } : more;
const beside = element => element.lastElementChild.hidden ? "" : element.lastElementChild.textContent;
const DOES = {
  "answered": answered, "started": started, "pause": pause, "says": says, "tell": tell, "flying": flying, "walk": walk,
  "heard": heard, "draw link": drawLink, "draw ages": drawAges, "filter": filter, "wake up": wakeUp, "guard": setGuard,
  "type": typeIn, "fake": more => Object.assign(fake, more), "link": more => Object.assign(fake.link, more),
  "skip": ms => skipped += ms, "unread": ono => says(ono, { value: null }), "unseen": ono => inView.delete(rows.get(ono).strip),
  "goes out of view": ono => {
    inView.delete(rows.get(ono).strip);
    document.activeElement.blur && document.activeElement.blur();
    empty(rows.get(ono).strip);
  },
  "comes into view": ono => {
    inView.add(rows.get(ono).strip);
    drawAges();
    drawLink();
  },
  "levels": count => startedWith([fakeObjects[0], { ...fakeObjects[2], ono: 1999 }, ...Array.from({ length: count }, (_, at) => ({ ...fakeOne(2000 + at, "int16", "level " + at), in: 1999 }))], ""),
  "changed": ago => changes.at(-1).at = now() - ago, "mutes": (count, value) => startedWith(manyMutes(count), value),
  "answers": (status, body = {}) => fake.answer = () => [status, body],
  "answers but for": (ono, status) => fake.answer = orders => {
    const at = orders.findIndex(one => one.ono === ono);
    return at < 0 ? null : [status, { at }];
  },
  "tells soon": every => fake.answer = orders => tellSoon(orders, ticket => every && ticket % every === 0 ? "lost" : null),
  "tells first": ticket => fake.answer = () => void tell(ticket),
  "no room once": thenTells => fake.answer = () => {
    fake.answer = thenTells ? orders => tellSoon(orders) : null;
    return [503, {}];
  },
  "takes all": most => {
    fake.answer = null;
    bodyMost = most;
  },
  "tell to": last => {
    while (fake.told.length < last) tell(fake.told.length + 1);
  },
  "takes no order": () => {
    const real = fetch;
    globalThis.fetch = (path, how) => how.method === "POST" ? Promise.reject(new TypeError("fetch failed")) : real(path, how);
  },
  "unit": (kind, factor, unit) => fake.units = [{ class: kind, ono: null, factor, unit }],
  "of another role": (ono, role) => changedTree(ono, { role }), "of another block": (ono, role) => changedTree(ono, { role }),
  "in a group": () => startedWith(inAGroup(), "muted"), "click each": () => mutes().forEach(row => click(row.view.main)),
  "mute each": below => changeMany(mutes().filter(row => row.ono < below), () => "muted", "mute all"),
  "jump": () => {
    strips[0].element.scrollIntoView = () => {};
    jumpTo("s0");
  },
  "click": what => click(the(what)), "put": (what, text) => the(what).value = text,
  "event": (what, name, more) => the(what)[name]({ target: the(what), preventDefault() {}, ...more }),
  "key": (what, name, shiftKey = false) => DOES["event"](what, "onkeydown", { key: name, shiftKey }),
  "fill": (ono, text) => {
    part(ono).focus();
    part(ono).value = text;
    part(ono).oninput({});
  },
  "enter": what => the(what).onkeydown({ key: "Enter", preventDefault: () => prevented = true }),
  "down": (ono, more) => (hand = drag(ono)).down(aimed(more)), "to": (clientY, more) => hand.to(clientY, aimed(more)),
  "up": more => hand.up(more), "mark": () => marked = fake.paths.length,
  "hide": is => {
    Object.defineProperty(document, "hidden", { configurable: true, value: is });
    document.onvisibilitychange();
  },
  "change": (ono, word) => change(rows.get(ono), word), "order": (ono, kind, word) => order(rows.get(ono), kind, word),
  "many": (name, of) => changeMany(Object.keys(of).map(ono => rows.get(Number(ono))), row => of[row.ono], name),
  "sent": count => until(() => sent().length >= count), "bodies": count => until(() => fake.bodies.length >= count),
  "said": (ono, start = "") => until(() => words(ono) && words(ono).startsWith(start) && !words(ono).includes("not yet confirmed")),
  "await": (read, ...given) => until(() => isSame(READS[read](...given), given.at(-1)), 6000),
  // an order is carried out under this ticket, and the device says so
  "fares": async (ono, value, ticket) => {
    await flying(ticket);
    says(ono, { value });
    tell(ticket);
    await until(() => !awaited.size && rows.get(ono).value === value);
  },
};
const READS = {
  "words": words, "sent": sent, "last sent": () => sent().at(-1), "sent to": () => sent().map(one => one.ono),
  "came": count => fake.bodies.length >= count, "bodies": () => fake.bodies.length,
  "paths": () => fake.bodies.map(body => body.path), "body sent": at => plain(fake.bodies[at].orders), "read as": () => fake.bodies.flatMap(body => body.orders),
  "sizes": () => fake.bodies.map(body => body.orders.length), "how many sent": () => sent().length, "ended": () => fake.tickets - awaited.size - outPosted,
  "are bodies": (most, size) => fake.bodies.length <= most && fake.bodies.every(body => body.orders.length <= size),
  "lives for": ms => Math.abs(fake.bodies[0].before - fake.bodies[0].posted - 700000 - ms) < 200,
  "tabs": () => strips.filter(strip => strip.select.tabIndex === 0).map(strip => strip.rows[0].ono),
  "tab of a new strip": () => newStrip(null, [rows.get(11)], "").select.tabIndex,
  "focused": () => strips.find(strip => strip.select === document.activeElement).rows[0].ono,
  "columns": ono => Number(/--u: ?(\d+)/.exec(rows.get(ono).strip.element.style.cssText)[1]),
  "class of strip": ono => rows.get(ono).strip.element.className,
  "waits for": ono => isOut(rows.get(ono), "set"), "unit": ono => rows.get(ono).unit.name,
  "children": what => the(what).children.length, "is short": (what, name) => the(what).getAttribute(name).length < 300,
  "acting": () => [...rows.values()].filter(row => row.view && row.view.main && row.view.main.tagName !== "OUTPUT").length
    + strips.filter(strip => strip.menu).length,
  "posting": () => !!posting, "retrying": () => !!retryTimer, "last body": () => fake.bodies.at(-1).orders.map(one => one.ono).sort(),
  "lasts as the first": () => Math.abs(fake.bodies.at(-1).before - fake.bodies[0].before) < 300,
  "locks from": first => sent().slice(first).map(one => one.ono + (one.lock ? " lock" : " unlock")).sort(),
  "asked": (most, start) => Math.min(most, fake.paths.slice(marked).filter(path => path.startsWith(start)).length),
  "runs": () => fake.bodies.map(body => body.run), "tickets": () => fake.tickets, "out": () => awaited.size,
  "out of": () => [...awaited.values()].map(one => one.ono).sort(), "waiting": ono => desks.get(ono).waits.map(one => one.word),
  "changes": () => changes.length,
  "looks": ono => [part(ono).textContent, part(ono).getAttribute("aria-pressed"), rows.get(ono).cell.classList.contains("busy")],
  "marked": ono => rows.get(ono).cell.classList.contains("unsure"), "unsure": ono => rows.get(ono).unsure,
  "sure": ono => isSure(rows.get(ono)), "goal": ono => goal(rows.get(ono)), "lock": ono => rows.get(ono).lock,
  "shown": (ono, word) => shown(rows.get(ono), word),
  "stands at": ono => rows.get(ono).view.second.getAttribute("aria-valuenow"),
  "beside fader": ono => beside(rows.get(ono).view.second), "beside": ono => beside(part(ono).parentNode || part(ono).parent),
  "text": what => the(what).textContent, "value": what => the(what).value,
  "attribute": (what, name) => the(what).getAttribute(name), "class": what => the(what).className,
  "inert": what => !!the(what).inert, "prevented": () => prevented, "hidden": what => the(what).hidden, "disabled": what => the(what).disabled,
  "has": (what, text) => the(what).textContent.includes(text), "begins": (what, text) => the(what).textContent.startsWith(text),
  "ends": (what, text) => the(what).textContent.endsWith(text), "body": name => document.body.classList.contains(name),
  "title": () => document.title, "state": () => program.state, "run": () => program.run, "read only": () => program.readOnly,
  "guarded": () => guarded, "is open": () => !!$("dialog").open, "strips": () => strips.length,
  "shown strips": () => strips.filter(strip => !strip.element.hidden).map(strip => strip.title),
  "notes": () => [...notes.values()].map(note => note.words), "options": () => options().map(option => option.textContent),
  "closed options": () => options().map(option => option.disabled),
};
const isSame = (got, wanted) => JSON.stringify(got) === JSON.stringify(wanted);

function ofRow([name, steps]) {
  const readings = steps.filter(([does]) => does === "is");
  return [name, readings.map(step => step.at(-1)), async () => {
    const got = [];
    for (const [does, ...given] of steps) {
      if (does === "is") got.push(READS[given[0]](...given.slice(1, -1)));
      else await DOES[does](...given);
    }
    return got;
  }];
}

const CASES = [
  ...Object.entries(ROWS).map(ofRow),
  ["what is seen is asked for in at most eight ranges, the root first", [[[0, 1], [2, 5]], 8, "0-1", true], async () => {
    inView.clear();
    inView.add(rows.get(11).strip);
    const one = shownRanges();
    await startedWith(manyMutes(40), "muted");
    inView.clear();
    const places = [20, 21, 22, 30, 31, 33, 200, 201, 300, 400, 500, 600, 700];
    inView.add({ block: null, rows: places.map(place => ({ place })) });
    const ranges = shownRanges();
    return [one, ranges.length, ranges[0].join("-"), places.every(place => ranges.some(([first, count]) => first <= place && place < first + count))];
  }],
  ["a tree of another run, of another walk or of none that is over is not shown", [3, 11], async () => {
    const real = fetch, wrong = [{ run: "70" }, { epoch: 9 }, { walked: false }], sizes = new Set();
    globalThis.fetch = async (path, how) => {
      const answer = await real(path, how), more = path === "/tree" && wrong.shift();
      return more ? { ...answer, json: async () => ({ ...await answer.json(), objects: [], ...more }) } : answer;
    };
    fake.epoch = 2;
    await until(() => sizes.add(rows.size) && !wrong.length && program.epoch === 2 && isOpen());
    return [3 - wrong.length, ...sizes];
  }],
  ["all objects are waited for longer than what changed", [2], async () => {
    const real = fetch;
    let isFirst = true;
    globalThis.fetch = async (path, how) => {
      if (isFirst && path.startsWith("/values?since=0&")) {
        isFirst = false;
        await new Promise((done, refused) => {
          setTimeout(done, 2300);
          how.signal.addEventListener("abort", () => refused(how.signal.reason));
        });
        fake.change++;
        isFirst = null;
      }
      return real(path, how);
    };
    fake.epoch = 2;
    await until(() => isFirst === null, 6000);
    await answered();
    return [isFirst === null ? fake.change : "it was given up"];
  }],
  ["a unit of the object goes before that of its class, one of another object is none, and none is of factor 0", ["dB", "mV", null, null], async () => {
    const units = [{ class: "int8", ono: 7, factor: "1", unit: "V" }, { class: "int16", ono: null, factor: "0.1", unit: "dB" }, { class: null, ono: 4, factor: "10", unit: "mV" }, { class: "int32", ono: null, factor: "0.0", unit: "s" }];
    const name = (ono, kind) => unitOf(units, { ono, class: kind })?.name ?? null;
    return [name(3, "int16"), name(4, "int16"), name(3, "int8"), name(3, "int32")];
  }],
  ["k is a thousand of some units, and small letters do where they can't be meant otherwise", ["20000", "20500", "20000", null, null, "3", null], async () => {
    const value = (unit, text) => typed({ ...rows.get(13), unit: { name: unit, times: 1n, places: 0 }, limits: null }, text).word ?? null;
    return [value("Hz", "20 kHz"), value("Hz", "20.5khz"), value("Hz", "20k"), value("dB", "1 kdB"), value("mW", "3 MW"), value("mW", "3 mW"), value("ms", "3 s")];
  }],
  ["a value in a unit, as it is shown and typed", ["+0.05", "−12.00", "0.00", "5", "-1200", "it has 2 decimals", "−12.00 to +6.00 dB", "−12.00 to +6.00 dB", "600", "300", "“x” is not its unit, dB", "“k” is not its unit, dB"], async () => {
    const row = { ...rows.get(13), unit: { name: "dB", times: 1n, places: 2 }, limits: ["-1200", "600"] };
    return [...["5", "-1200", "0"].map(word => shown(row, word)), ...["0,05", "−12", "0.006", "-12.01", "6.01", "+6.00 dB", "3 db", "3 x", "100k"].map(text => typed(row, text)).map(({ word, why }) => word || why)];
  }],
];

async function runCase(at) {
  const [name, wanted, act] = CASES[at];
  await started();
  let got;
  try {
    got = await act();
  } catch (fault) {
    got = String(fault && fault.stack || fault);
  }
  return JSON.stringify({ "name": name, "ok": isSame(got, wanted), "wanted": wanted, "got": got });
}
