// Orders. For an object one is in flight, and of each of its controls the last one waits; each ends as done, refused, lost or not sent.
const MOST_IN_BODY = 64, MOST_OUT = 64, MOST_POSTS = 3, NO_WORD_MS = 8000;
const NOT_SENT = "not sent: ", STARTED_ANEW = "the panel program was started anew";
const desks = new Map();     // by ONo: the order in flight, and those that wait
const awaited = new Map();   // by ticket: orders that were taken, whose result was not told yet
const early = new Map();     // by ticket: results that were told while the answer with the tickets was on its way
const urgent = new Set(), patient = new Set();   // objects with an order that can be sent; those of many at once are patient
let posting = 0, bodyMost = MOST_IN_BODY, retryTimer = 0;

const controlOf = order => order.kind === "unlock" ? "lock" : order.kind;
const deskOf = ono => desks.get(ono) || desks.set(ono, { flying: null, waits: [] }).get(ono);
const isOut = (row, control) => {
  const desk = desks.get(row.ono);
  return !!desk && [desk.flying, ...desk.waits].some(order => order && controlOf(order) === control);
};
const goal = row => row.want ?? row.value;
const lastMoment = order => (order.gang ? order.gang.at : order.at) + LIFE_MS;

// Why this page takes no order now, or "".
const blocked = () => program.readOnly ? "read only" : guarded ? "the panel lock is on" : isOpen() ? "" : stateWord(program.state);

// Why an object takes no order now, or "".
function hindrance(row) {
  if (blocked()) return blocked();
  if (rows.get(row.ono) !== row) return "no longer there";
  return !row.enabled ? "not enabled" : row.value === null && row.kind !== "block" && row.kind !== "unknown" ? "not read yet" : "";
}

function can(row) {
  const why = hindrance(row);
  if (why) note(row.ono, "hint", NOT_SENT + why);
  return !why;
}

// Takes an order of a person: `word` is the value, or the label; `item` is its part of a change. It is for what the person
// read: this role, and of a switch this name of the position. One of many waits for the others, and goes with them.
function order(row, kind, word, gang, item) {
  const desk = deskOf(row.ono), one = { ono: row.ono, run: program.run, name: fullName(row), kind, word, gang: gang || null, item, at: now(), from: row.value, over: false };
  one.read = { role: row.role, "block": row.block };
  if (kind === "set" && row.kind === "switch") one.read.name = nameAt(row, word);
  const displaced = desk.waits.filter(another => controlOf(another) === controlOf(one));
  desk.waits = desk.waits.filter(another => controlOf(another) !== controlOf(one));
  if (displaced.length) one.from = displaced[0].from;
  desk.waits.push(one);
  if (kind === "set") row.want = word;
  notes.delete(row.ono);
  for (const another of displaced) end(another, "displaced", "");
  ready(row.ono);
  if (!gang) sendReady();
  show(row);
}

function ready(ono) {
  const desk = desks.get(ono);
  if (!desk || !desk.waits.length) return;
  (desk.waits[0].gang ? patient : urgent).add(ono);
}

// The next orders that go in one body, each for another object.
function takeBatch() {
  const batch = [];
  for (const lane of [urgent, patient]) {
    for (const ono of lane) {
      if (batch.length >= min(bodyMost, MOST_OUT - awaited.size - outPosted)) break;
      lane.delete(ono);
      const desk = desks.get(ono);
      if (!desk || desk.flying || !desk.waits.length) continue;
      desk.flying = desk.waits.shift();
      if (now() > lastMoment(desk.flying)) endUnsent([desk.flying], "it waited for 5 s");
      else batch.push(desk.flying);
    }
    if (batch.length) break;
  }
  return batch;
}

let outPosted = 0;

function sendReady() {
  while (posting < MOST_POSTS && !retryTimer) {
    const batch = takeBatch();
    if (!batch.length) return;
    post(batch);
  }
}

function bodyOf(batch) {
  const before = floor(min(...batch.map(lastMoment)) + program.ahead);
  const orders = batch.map(one => ({ ono: one.ono, ...one.read, [one.kind]: one.word ?? true }));
  return JSON.stringify({ run: program.run, before: max(0, before), orders });
}

async function post(batch) {
  const run = program.run;
  posting++;
  outPosted += batch.length;
  let fault = "";
  try {
    const answer = fetch("/orders", { method: "POST", headers: { "Content-Type": "application/json" }, body: bodyOf(batch), signal: AbortSignal.timeout(FETCH_MS) });
    pace = batch[0].gang ? 20 : 2;
    poll();
    await taken(batch, await answer);
  } catch (error) {
    fault = "the panel program gave no answer";
  }
  posting--;
  outPosted -= batch.length;
  if (fault) for (const one of batch) end(one, "lost", fault);
  if (!posting && run === program.run) early.clear();
  sendReady();
  poll();
}

// What the program said to a body with orders: it took all of them, or none.
async function taken(batch, answer) {
  switch (answer.status) {
    case 202: {
      const { tickets } = await answer.json();
      bodyMost = min(MOST_IN_BODY, bodyMost * 2);
      batch.forEach((one, at) => expect(one, tickets[at]));
      return;
    }
    case 503: return againLater(batch);
    case 404:
    case 422: return oneIsWrong(batch, answer);
    case 409: return endUnsent(batch, STARTED_ANEW);
    case 403: return endUnsent(batch, "read only");
    case 401:
      program.shut = true;
      return endUnsent(batch, "not let in");
    default: return endUnsent(batch, "the panel program answered " + answer.status);
  }
}

function endUnsent(batch, why) {
  for (const one of batch) end(one, "unsent", NOT_SENT + why);
}

function expect(one, ticket) {
  if (one.over) return;
  one.ticket = ticket;
  one.taken = now();
  if (early.has(ticket)) told(one, early.get(ticket));
  else awaited.set(ticket, one);
}

// Puts orders that were not taken back, behind none of their own control.
function putBack(batch) {
  for (const one of batch) {
    const desk = deskOf(one.ono);
    if (one.over || desk.flying !== one) continue;
    desk.flying = null;
    if (desk.waits.some(another => controlOf(another) === controlOf(one))) end(one, "displaced", "");
    else desk.waits.unshift(one);
    ready(one.ono);
  }
}

// The program has no room for all of a body: it is sent again in smaller ones, until its orders are too old.
function againLater(batch) {
  bodyMost = max(1, floor(batch.length / 2));
  putBack(batch);
  clearTimeout(retryTimer);
  retryTimer = setTimeout(() => {
    retryTimer = 0;
    sendReady();
  }, 50);
}

// One order of a body can't be: it ends, and the others go again.
async function oneIsWrong(batch, answer) {
  let at = 0;
  try {
    at = batch.length > 1 ? (await answer.json()).at : 0;
  } catch (fault) {
    at = -1;
  }
  if (!batch[at]) return endUnsent(batch, "one of these orders can't be");
  endUnsent([batch[at]], answer.status === 404 ? "no such object" : batch[at].kind === "label" ? "a name has at most 64 bytes, no control characters" : "no such value");
  putBack(batch.filter((_, place) => place !== at));
}

// The results that the program tells, each once.
function hearResults(results) {
  for (const { ticket, trouble } of results) {
    program.told = max(program.told, ticket + 1);
    const one = awaited.get(ticket);
    if (one) told(one, trouble);
    else if (posting) early.set(ticket, trouble);
  }
  sendReady();
}

function giveUpUnheard() {
  for (const one of awaited.values()) if (now() - one.taken > NO_WORD_MS) end(one, "lost", "no word of how it ended");
}

// How an order ended, by the word of the program.
function told(one, why) {
  if (!why) return end(one, "done", "");
  if (why === "lost" || why === "no answer") return end(one, "lost", "the device gave no answer");
  if (why === "not sent: the device changed") return end(one, "changed", why + "; this page reads what it has now");
  if (/^not sent/.test(why)) return end(one, "unsent", clean(why));
  end(one, "refused", "refused: " + (why === "Locked" ? "locked by another controller" : clean(why)));
}

// A strip shows the first words alone: that it may have been carried out is what a person must know.
const lostWords = why => "lost, may have been carried out: " + why;

function end(one, how, why) {
  if (one.over) return;
  one.over = true;
  awaited.delete(one.ticket);
  const desk = deskOf(one.ono), row = rows.get(one.ono), words = how === "lost" ? lostWords(why) : why;
  if (desk.flying === one) desk.flying = null;
  if (row && !isOut(row, "set") && !row.held) row.want = null;
  if (words && !desk.waits.some(another => controlOf(another) === controlOf(one))) note(one.ono, how, words);
  tellEnd(one, how, words);
  ready(one.ono);
  if (row) show(row);
}

// Nothing that waits is sent any more; what is in flight is told as it ends.
function dropWaiting(why, how) {
  for (const desk of desks.values()) for (const one of desk.waits.splice(0)) end(one, how || "unsent", NOT_SENT + why);
  urgent.clear();
  patient.clear();
}

// The program is another one: what was in flight may have been carried out. Notes stay where the device is the same.
function dropAll(why, sameDevice) {
  dropWaiting(why);
  for (const desk of desks.values()) if (desk.flying) end(desk.flying, "lost", why);
  awaited.clear();
  early.clear();
  desks.clear();
  forgetChanges();
  if (!sameDevice) notes.clear();
}
