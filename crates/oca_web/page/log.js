// What is said of an object, what this page did, and how its last changes are taken back.
const MOST_UNDO = 20, MOST_LINES = 200, UNSURE = "not yet confirmed";
const notes = new Map();   // by ONo: what is said of it, until its state changes; that an order was lost stays until a person acts
let changes = [];

// The one text of the page that a screen reader is told when it changes.
function say(text) {
  put($("say"), text);
}

function note(ono, how, words) {
  notes.set(ono, { how, words, read: false });
  const row = rows.get(ono);
  if (!row) return;
  drawMessage(row.strip);
  say(fullName(row) + ": " + words);
}

function unnote(ono) {
  const row = rows.get(ono);
  if (notes.delete(ono) && row) drawMessage(row.strip);
}

function forgetHints() {
  for (const [ono, { how }] of notes) if (how === "hint") unnote(ono);
}

// What is said of an object: what an order of it came to, else what keeps it from being set.
function wordsOf(row) {
  const said = notes.get(row.ono);
  if (said) return said.words + (said.how === "lost" && said.read ? " (read since: " + shown(row, row.value) + ")" : "");
  if (row.lock === "other") return "locked by another controller" + (row.unsure ? "; value " + UNSURE : "");
  if (!row.enabled) return "not enabled";
  if (row.trouble) return (row.kind === "block" ? "its members can't be listed: " : "not read: ") + clean(row.trouble);
  return row.kind === "unknown" ? "a class that is not known here" : row.unsure ? UNSURE : "";
}

// The message line of a strip: the same words of several objects once, and what is not confirmed only if nothing else is said.
function drawMessage(strip) {
  if (!strip || !strip.message) return;
  const byWords = new Map(), list = rowsOf(strip), isSaid = list.some(row => notes.has(row.ono));
  let onlyHints = true;
  for (const row of list) {
    const words = wordsOf(row), said = notes.get(row.ono);
    if (!words || isSaid && words === UNSURE) continue;
    byWords.set(words, [...byWords.get(words) || [], row === strip.block ? "block" : nameOf(row)]);
    onlyHints = onlyHints && (said ? said.how === "hint" : words === UNSURE);
  }
  const line = [...byWords].map(([words, names]) => (names.length > 1 && names.length >= strip.rows.length ? "" : names.join(", ") + ": ") + words).join("; ");
  put(strip.message, line);
  strip.message.title = line;
  strip.message.classList.toggle("hint", onlyHints && !!line);
}

function log(what, came, isBad) {
  const line = make("p", isBad ? "bad" : ""), list = $("log"), name = make("bdi", "", what);
  line.append(make("time", "", wallClock() + " "), name, make("b", "", came));
  list.prepend(line);
  if (list.children.length > MOST_LINES) list.lastElementChild.remove();
}

const changeOf = one => one.kind === "set" ? "" : one.kind === "label" ? "name “" + clean(one.word) + "”" : one.kind;

// Each order's end stands in the log: by itself, or in the line of the change of many that it belongs to. Where the strip of an order
// that was not done is out of sight, or has no room for a message, the result banner names it.
function tellEnd(one, how, words) {
  const row = rows.get(one.ono), ms = round(now() - one.at);
  keepEnd(one, how);
  if (one.gang) return tellGang(one, how, words);
  if (how === "displaced" || how === "done" && row && (row.held || isOut(row, controlOf(one)))) return;
  const value = one.kind === "set" && row ? shown(row, firstOf(one)) + " → " + shown(row, one.word) + unitName(row) : changeOf(one);
  log(one.name + ": " + value, words || "done, " + ms + " ms", how !== "done");
  if (words && (how === "changed" || !(row && inView.has(row.strip)) || row.strip.message.offsetHeight < 14)) tellUndone("Not done: " + value, [[one.name, words]]);
  drawUndo();
}

const firstOf = one => one.item ? one.item.from : one.from;

// How an order ended is kept with its part of a change: what was not carried out is not taken back.
function keepEnd(one, how) {
  const item = one.item;
  if (!item) return;
  if (how === "done" || how === "lost") Object.assign(item, { came: one.word, sure: how === "done" });
  else if (item.to === one.word && item.came !== undefined) item.to = item.came;
  else if (item.to === one.word) leaveOut(another => another === item);
}

function tellGang(one, how, words) {
  const gang = one.gang;
  gang.at = now();
  gang.left--;
  if (how === "displaced") gang.displaced++;
  else if (how !== "done") gang.bad.push([one.name, words]);
  drawUndo();
  if (gang.left) return;
  const bad = gang.bad.length, fewer = gang.displaced ? ", " + gang.displaced + " displaced by a later order" : "";
  const count = bad + " of " + gang.all + " not done", all = bad ? count + ": " + gang.bad.map(pair => pair.join(": ")).slice(0, 12).join("; ") + (bad > 12 ? " …" : "")
    : (gang.displaced ? gang.all - gang.displaced + " of " : "all ") + gang.all + " done, " + round(now() - gang.begun) + " ms";
  log(gang.what, all + fewer, bad > 0);
  if (bad) tellUndone(gang.what + ": " + count, gang.bad);
}

// What was not done stands in the result banner, the newest first, under its reasons, until a person dismisses it.
function tellUndone(head, bad) {
  const part = make("p"), list = $("result").firstElementChild, byWords = new Map(bad.map(pair => [pair[1], []]));
  for (const [name, words] of bad) byWords.get(words).push(name);
  part.append(make("b", "", head), ...[...byWords].map(([words, names]) => make("span", "", names.join(", ") + ": " + words)));
  list.prepend(part);
  if (list.children.length > MOST_UNDO) list.lastElementChild.remove();
  $("result").hidden = false;
  say(head);
}

function dismiss() {
  $("result").hidden = true;
  $("result").firstElementChild.replaceChildren();
}

// A person's change of one object. What follows within a second, or in one drag, is one change.
function change(row, word) {
  if (word === goal(row) || !can(row)) return;
  const last = changes.at(-1), isSame = last && !last.gang && last.list[0].ono === row.ono && (row.held ? last.held === row.held : now() - last.at < 1000);
  if (isSame) {
    last.at = now();
    last.list[0].to = word;
  } else keepChange({ list: [{ ono: row.ono, from: row.value, to: word }], at: now(), held: row.held, gang: null });
  order(row, "set", word, null, changes.at(-1).list[0]);
  drawUndo();
}

function keepChange(one) {
  changes.push(one);
  if (changes.length > MOST_UNDO) changes.shift();
  drawUndo();
}

// The object of this number is another one now: nothing is said of it, and nothing of it taken back.
function forget(ono) {
  notes.delete(ono);
  leaveOut(item => item.ono === ono);
  drawUndo();
}

function leaveOut(test) {
  for (const one of changes) one.list = one.list.filter(item => !test(item));
  changes = changes.filter(one => one.list.length);
}

function forgetChanges() {
  changes = [];
  drawUndo();
}

// Sets many objects, each to the word that is wanted of it, as one change. Each is ordered, whatever this page takes it to have: that
// may be old. What is seen goes first. Taken back is later what this page knew to be different: so many of all, as the button says.
function changeMany(list, wordFor, what, isUndo) {
  if (!list.length) return log(what, "nothing to do");
  const all = [...list].sort((a, b) => inView.has(b.strip) - inView.has(a.strip)), items = new Map();
  const gang = { what, all: all.length, left: all.length, bad: [], displaced: 0, begun: now(), at: now() };
  if (!isUndo) for (const row of all) if (row.value !== null && goal(row) !== wordFor(row)) items.set(row, { ono: row.ono, from: goal(row), to: wordFor(row) });
  if (items.size) keepChange({ list: [...items.values()], at: now(), gang });
  for (const row of all) order(row, "set", wordFor(row), gang, items.get(row));
  sendReady();
}

function undoWords(last) {
  if (last.gang) return "Undo " + last.gang.what + " (" + last.list.length + (last.gang.all > last.list.length ? " of " + last.gang.all : "") + (last.gang.left ? ", " + last.gang.left + " to go)" : ")");
  const row = rows.get(last.list[0].ono);
  return row ? "Undo " + fullName(row) + ": back to " + shown(row, last.list[0].from) + unitName(row) : "Undo";
}

function drawUndo() {
  const last = changes.at(-1), buttonElement = $("undo");
  buttonElement.disabled = !last;
  put(buttonElement, last ? undoWords(last) : "Nothing to undo");
  buttonElement.title = buttonElement.textContent;
}

// Takes the last change back. Where an object that had come to what this page ordered has something else now, it is asked first.
function undo() {
  const last = changes.at(-1), what = $("undo").textContent;
  if (!last || !mayAct(what)) return;
  const back = new Map(last.list.map(one => [one.ono, one.from])), list = last.list.map(one => rows.get(one.ono)).filter(Boolean);
  const since = last.list.filter(one => one.sure && rows.has(one.ono) && goal(rows.get(one.ono)) !== one.to).length;
  const go = () => {
    changes = changes.filter(one => one !== last);
    changeMany(list, row => back.get(row.ono), what, true);
    drawUndo();
  };
  if (!since) return go();
  askFirst("Undo?", (last.list.length > 1 ? since + " of " + last.list.length + " were" : "It was") + " changed since, by another controller or at the device. " + what + " all the same?",
    (options, answer) => answer("Undo", "go", go));
}

// Whether this page may act now; where it may not, that is said.
function mayAct(what) {
  const why = blocked();
  if (!why) return true;
  log(what, "not done: " + why, true);
  askFirst("Not done: " + why, "", () => {});
  return false;
}
