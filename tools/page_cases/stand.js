// What stands for the program and for the clock, before the page's script runs, in node and in the browser.
const realNow = performance.now.bind(performance);
let skipped = 0;
performance.now = () => realNow() + skipped;
const fakeObjects = [
  { ono: 100, in: 100, class: "block", role: "root", lockable: false, names: [] },
  { ono: 5, in: 100, class: "boolean", role: "phantom power", lockable: false, names: [] },
  { ono: 10, in: 100, class: "block", role: "channel 1", lockable: true, names: [] },
  { ono: 11, in: 10, class: "mute", role: "mute", lockable: true, names: [] },
  { ono: 12, in: 10, class: "polarity", role: "polarity", lockable: true, names: [] },
  { ono: 13, in: 10, class: "int16", role: "trim", lockable: true, names: [] },
  { ono: 14, in: 10, class: "switch", role: "source", lockable: true, names: ["Mic", "Line", "Off"] },
  { ono: 20, in: 100, class: "block", role: "channel 2", lockable: true, names: [] },
  { ono: 21, in: 20, class: "mute", role: "mute", lockable: true, names: [] },
  { ono: 22, in: 20, class: "uint64", role: "count", lockable: false, names: [] },
  { ono: 23, in: 20, class: "unknown", role: "meter", lockable: false, names: [] },
];
const fakeValues = { 5: "off", 11: "muted", 12: "non-inverted", 13: "0", 14: "0", 21: "unmuted", 22: "18446744073709551615" };
const fakeLimits = { 13: ["-600", "600"], 14: ["0", "2"], 22: ["0", "18446744073709551615"] };
const fakeLink = { heard: 20, lost_for: null, in_flight: 0, commands: 9, again: 0, lost: 0 };
const fake = {
  run: "71", epoch: 1, walked: true, device: "192.0.2.7:65000", name: "Stage box", read_only: false, objects: fakeObjects, units: [], link: { ...fakeLink },
  tickets: 0, old: [], unread: 0, told: [], bodies: [], paths: [], answer: null, silent: false, refuses: 0, change: 1, changed: {},
};

// What the device says of an object from now on.
function says(ono, more) {
  fake.changed[ono] = { ...fake.changed[ono], ...more, change: ++fake.change };
}

function fakeShown(object) {
  const one = { ono: object.ono, value: fakeValues[object.ono] ?? null, limits: fakeLimits[object.ono] || null, trouble: null, lock: "free", enabled: true, label: "", flags: object.names.map(() => true), change: 1 };
  return { ...one, ...fake.changed[object.ono] };
}

function fakeAnswer(path, how) {
  const given = (status, body) => ({ status, ok: status < 300, json: async () => JSON.parse(JSON.stringify(body)) });
  if (fake.refuses) return given(fake.refuses, {});
  const of = { run: fake.run, epoch: fake.epoch, walked: fake.walked, device: fake.device };
  if (how && how.method === "POST") {
    fake.bodies.push({ path, posted: performance.now(), ...JSON.parse(how.body) });
    const orders = JSON.parse(how.body).orders;
    const own = fake.answer && fake.answer(orders);
    return own ? given(...own) : given(202, { tickets: orders.map(() => ++fake.tickets) });
  }
  if (path === "/tree") return given(200, { ...of, found: fake.objects.length, objects: fake.objects, units: fake.units });
  const since = Number(/since=(\d+)/.exec(path)[1]), told = Number(/told=(\d+)/.exec(path)[1]);
  return given(200, {
    ...of, now: Math.round(performance.now()) + 700000, change: fake.change, link: fake.link, name: fake.name, read_only: fake.read_only, found: fake.objects.length,
    objects: fake.objects.map(fakeShown).filter(one => one.change > since), old: fake.old, unread: fake.unread, told: fake.told.filter(one => one.ticket >= told),
  });
}

// Where the program is silent a request ends by the page's own limit alone.
globalThis.fetch = (path, how) => {
  fake.paths.push(path);
  if (!fake.silent) return new Promise(done => setTimeout(done, 1)).then(() => fakeAnswer(path, how));
  return new Promise((done, refused) => how.signal.addEventListener("abort", () => refused(how.signal.reason)));
};
