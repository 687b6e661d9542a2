// The link: what the program said last, when it was, and what that is worth now.
const NOTHING_SINCE = "18446744073709551615";
const SLOW_AFTER = 1000, OLD_AFTER = 2000, FETCH_MS = 2000, ALL_MS = 20000, LIFE_MS = 5000, SETTLE_MS = 300, SURE_MS = 2000, UNTOLD_MS = 1000;
const STATES = {
  live: ["●", "LIVE"], slow: ["▲", "SLOW"], read: ["◌", "READING"], silent: ["✕", "DEVICE SILENT"], lost: ["✕", "DEVICE LOST"],
  stale: ["■", "NO PROGRAM"], shut: ["■", "NOT LET IN"],
};
const program = {
  run: null, epoch: null, since: NOTHING_SINCE, ahead: 0, heardAt: null, waitsSince: now(), heardClock: "", device: "", name: "", found: 0, told: 0,
  news: null, opensAt: 0, unsure: 0, unread: 0, readOnly: false, shut: false, state: "read",
};
let rows = new Map();

// How long ago the program answered, and the device, in milliseconds; of the device null where that is not known.
const programAge = () => now() - (program.heardAt ?? program.waitsSince);
const deviceAge = () => program.news && program.news.heard !== null ? program.news.heard + programAge() : null;
const isOpen = () => program.state === "live" || program.state === "slow";

// What is so of the link now.
function stateNow() {
  if (program.shut) return "shut";
  if (programAge() > OLD_AFTER) return "stale";
  if (program.heardAt === null) return "read";
  if (program.news.lost_for !== null) return "lost";
  if (program.epoch === null || !rows.size || program.reads) return "read";
  if (deviceAge() === null) return "read";
  if (deviceAge() > OLD_AFTER) return "silent";
  return programAge() > SLOW_AFTER || deviceAge() > SLOW_AFTER ? "slow" : "live";
}

// What was read before a silence, or while no page looked, is read again before it counts as what is so.
function settled(linkState) {
  const opens = linkState === "live" || linkState === "slow";
  if (!opens) program.opensAt = 0;
  else if (!isOpen() && !program.opensAt) program.opensAt = now() + SETTLE_MS;
  return opens && now() < program.opensAt ? "read" : linkState;
}

const stateWord = linkState => STATES[linkState][1].toLowerCase();

// What is said over the page where it shows nothing that is so: a heading and what to do.
function warning(linkState) {
  const device = program.device || "The device", old = rows.size ? "What you see is old, and no new order is taken. " : "Nothing was heard of it yet. ", waits = "This page goes on by itself.";
  switch (linkState) {
    case "shut": return ["The panel program does not let this page in.", "Open the address that ocapanel printed at its start."];
    case "stale": return ["The panel program gives no answer" + (program.heardClock ? " since " + program.heardClock : "") + ".",
      old + "See whether ocapanel runs, and start it again. " + waits];
    case "silent": return [device + " gives no answer for " + seconds(deviceAge()) + ".", old + waits];
    case "lost": return [device + (rows.size ? " is lost." : " gives no answer."), old + "Check its power and network. Locks of this panel may be gone. " + waits];
    case "read": return !program.opensAt && (now() - program.waitsSince > 1500 || program.found) ? [device + " is being read: " + program.found + " objects so far.", "If this stays, check the address, and whether the device is on."] : ["", ""];
    default: return ["", ""];
  }
}

function noteState(linkState) {
  const was = program.state;
  program.state = linkState;
  if ([was, linkState].includes("slow") && ["live", "slow"].includes(was) && ["live", "slow"].includes(linkState)) return;
  log("link", stateWord(linkState) + ", was " + stateWord(was), !["live", "slow", "read"].includes(linkState));
  say(stateWord(linkState));
  if (!isOpen()) dropWaiting(stateWord(linkState));
  forgetHints();
}

// Draws what is so of the link: word, colour and shape, age, the device's name, and the warning.
function drawLink() {
  const linkState = settled(stateNow()), looks = linkState === "live" && program.unsure ? "slow" : linkState, [sign, word] = STATES[looks], age = deviceAge(), [head, text] = warning(linkState);
  if (linkState !== program.state) noteState(linkState);
  doc.body.dataset.state = looks;
  doc.body.classList.toggle("old", !isOpen());
  aria($("main"), "disabled", !isOpen());
  put($("state").firstElementChild, sign);
  put($("state").lastElementChild, word);
  const gone = linkState === "lost" && program.news ? program.news.lost_for + programAge() : age;
  put($("age"), gone === null ? "" : seconds(gone) + " ago");
  drawName(sign, looks === "live" ? "" : " — " + word);
  drawDialog();
  $("banner").hidden = !head;
  if ($("banner").textContent !== head + text) $("banner").replaceChildren(make("b", "", head), text);
}

// The device's name and address stand in the header and in the window's title.
function drawName(sign, word) {
  const name = clean(program.name) || program.device || "OCA panel", address = program.device && program.device !== name ? program.device : "";
  put($("device"), name);
  put($("about"), (address ? address + " · " : "") + strips.length + " strips, " + rows.size + " objects" + (program.unsure ? " · " + program.unsure + " not yet confirmed" : "") + (program.unread ? " · " + program.unread + " not read for 10 s" : ""));
  const title = sign + " " + name + (address ? " · " + address : "") + word;
  if (doc.title !== title) doc.title = title;
}

// An answer of the program. A request ends after 2 s; one that asks for all objects may take longer, and meanwhile all is old.
async function get(path, most = FETCH_MS) {
  const answer = await fetch(path, { signal: AbortSignal.timeout(most) });
  program.shut = answer.status === 401;
  if (!answer.ok) throw new Error("status " + answer.status);
  return answer.json();
}

// Results come in any order: those from the earliest on that is awaited.
const toldFrom = () => awaited.size ? min(...awaited.keys()) : program.told;
const valuesPath = ranges => "/values?since=" + program.since + (program.run === null ? "" : "&run=" + program.run) + "&told=" + toldFrom() + "&shown=" + ranges.map(([first, count]) => first + "-" + count).join();

// Another run of the program: its tickets, its changes and perhaps its device are others. Nothing of the old one stays.
function beginRun(update) {
  const first = program.run === null;
  if (!first) log(STARTED_ANEW, "all is read anew" + (program.device === update.device ? "" : "; the device is now " + update.device), true);
  dropAll(STARTED_ANEW, program.device === update.device);
  Object.assign(program, { run: update.run, epoch: null, since: NOTHING_SINCE, told: 0, readOnly: !!update.read_only, waitsSince: now() });
  clearStrips();
}

function takeLink(update) {
  Object.assign(program, { news: update.link, ahead: update.now - now(), device: clean(update.device), name: update.name, found: update.found || 0, unread: update.unread, heardAt: now(), heardClock: wallClock() });
  if (program.readOnly !== !!update.read_only) beginRun(update);
  doc.body.classList.toggle("watching", program.readOnly);
  $("watch").hidden = !program.readOnly;
}

// The objects are read, or were read again: once the walk is over, the strips of the one before go, and those of this one come.
async function takeTree(update) {
  program.since = NOTHING_SINCE;
  program.reads = true;
  if (!update.walked) return;
  const tree = await get("/tree", ALL_MS);
  if (tree.run !== update.run || tree.epoch !== update.epoch || !tree.walked) return;
  dropWaiting("the objects were read anew", "changed");
  build(tree);
  Object.assign(program, { epoch: tree.epoch, since: "0", reads: false });
  again = true;
}

// What the device said of its objects since the last answer.
function learn(objects) {
  for (const said of objects) {
    const row = rows.get(said.ono);
    if (!row) continue;
    const key = [said.value, said.lock, said.enabled, said.trouble].join();
    if (key !== row.key) stateChanged(row, key);
    for (const name of ["value", "limits", "trouble", "lock", "enabled", "label", "flags"]) row[name] = said[name];
    show(row);
  }
  $("main").removeAttribute("aria-busy");
  drawDialog();
}

// Since when each reading that was asked for is confirmed: the device had it behind that moment. One that the program does not tell as old
// is at most a second old.
function noteAges(old, ranges, askedAt) {
  const ages = new Map(old.map(({ ono, age }) => [ono, age]));
  for (const [first, count] of ranges) {
    for (const row of places.slice(first, first + count)) row.sureAt = max(row.sureAt, askedAt - (ages.get(row.ono) ?? UNTOLD_MS));
  }
  drawAges();
}

const isSure = row => row.value === null ? !!row.trouble || row.kind === "unknown" : now() - row.sureAt <= SURE_MS;

// Marks what is no longer confirmed, and takes the mark off again.
function drawAges() {
  program.unsure = 0;
  for (const strip of inView) {
    for (const row of strip.rows) {
      if (row.view && row.unsure === isSure(row)) show(row);
      program.unsure += !isSure(row);
    }
  }
}

// What was said of an object before its state is known again stays.
function stateChanged(row, key) {
  const note = notes.get(row.ono);
  if (note && note.how === "lost") note.read = true;
  else if (row.key) notes.delete(row.ono);
  row.key = key;
}

async function take(update, ranges, askedAt) {
  if (update.run === undefined) throw new Error("another version");
  if (update.run !== program.run) beginRun(update);
  takeLink(update);
  if (update.epoch !== program.epoch || !update.walked) await takeTree(update);
  else {
    program.since = update.change;
    program.reads = false;
    learn(update.objects);
    noteAges(update.old, ranges, askedAt);
  }
  hearResults(update.told);
}

let asking = false, again = false, pace = 2, pollTimer = 0;

async function poll() {
  clearTimeout(pollTimer);
  if (asking) {
    again = true;
    return;
  }
  asking = true;
  again = false;
  try {
    const ranges = shownRanges(), askedAt = now();
    await take(await get(valuesPath(ranges), program.since === "0" ? ALL_MS : FETCH_MS), ranges, askedAt);
  } catch (fault) {
    if (fault instanceof TypeError && !/fetch|network/i.test(fault.message)) console.error(fault);
  }
  asking = false;
  drawLink();
  const isOrderOut = awaited.size + posting > 0;
  if (!doc.hidden || isOrderOut) pollTimer = setTimeout(poll, again ? 0 : isOrderOut ? pace = min(40, 1.5 * pace) : 100);
}

// A window that was hidden asked for nothing: what it shows counts as old until an answer comes.
function wakeUp() {
  if (doc.hidden) return;
  Object.assign(program, { heardAt: null, waitsSince: now() });
  drawLink();
  poll();
}
