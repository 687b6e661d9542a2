// Strips: a name that selects, and controls, which are there only near what is seen.
const RANK = { switch: 1, boolean: 2, polarity: 3, mute: 4 };
const BANK = 8, MOST_COLUMNS = 5;
const rowsOf = strip => strip.block ? [strip.block, ...strip.rows] : strip.rows;
const isChosen = strip => !!strip.on;

// Draws an object again: its control, its strip's head, and what is said of it.
function show(row) {
  if (row.group) drawGroup(row.group);
  const strip = row.strip;
  if (!strip) return;
  if (row.view) drawControl(row, strip);
  drawHead(strip);
  drawMessage(strip);
}

function drawControl(row, strip) {
  row.view.draw();
  const name = nameOf(row), looks = row.cell.classList;
  row.unsure = !isSure(row);
  looks.toggle("unsure", row.unsure);
  looks.toggle("other", row.lock === "other");
  looks.toggle("busy", isOut(row, "set"));
  aria(row.cell, "busy", isOut(row, "set"));
  put(row.caption, name);
  row.caption.hidden = name === row.kind && !isLevel(row);
  for (const part of [row.view.main, row.view.second]) {
    if (!part) continue;
    aria(part, "label", name + (row.kind === "switch" ? " " + shown(row, row.value) : "") + ", " + strip.title + (row.lock === "other" ? ", locked by another controller" : "") + (row.unsure ? ", " + UNSURE : ""));
    aria(part, "disabled", !row.enabled || row.value === null);
  }
}

// The locks of a strip in one word, and in one number.
function locksOf(strip) {
  const all = rowsOf(strip), another = all.filter(row => row.lock === "other").length, own = all.filter(row => row.lock === "own").length;
  return another ? ["other", another + " by another controller"] : own ? ["own", own + " by this panel"] : ["free", "none"];
}

function drawHead(strip) {
  const title = strip.block ? nameOf(strip.block) : strip.title, isNew = title !== strip.title;
  strip.title = title;
  if (isNew) for (const row of strip.rows) if (row.view) drawControl(row, strip);
  put(strip.name, strip.title);
  strip.select.style.fontSize = max(13, min(22, floor(160 / max(...strip.title.split(/[ -]/).map(word => word.length))))) + "px";
  strip.select.title = strip.title;
  put(strip.role, strip.block && isOut(strip.block, "label") ? "another name: not yet" : strip.block && clean(strip.block.label) ? clean(strip.block.role) : "");
  aria(strip.select, "pressed", isChosen(strip));
  aria(strip.select, "label", "Select " + strip.title);
  strip.element.toggleAttribute("data-on", isChosen(strip));
  const muted = strip.rows.filter(row => row.value === "muted");
  strip.element.classList.toggle("closed", muted.length > 0);
  strip.element.classList.toggle("doubt", muted.length > 0 && !muted.some(isSure));
  strip.element.classList.toggle("vague", strip.rows.some(row => row.kind === "mute" && !isSure(row)));
  if (strip.menu) drawMenu(strip);
}

function drawMenu(strip) {
  const [word, locks] = locksOf(strip), isOut = rowsOf(strip).some(isLockOut), key = word + isOut;
  if (strip.menuKey !== key) {
    strip.menuKey = key;
    strip.menu.className = "menu " + word;
    strip.menu.replaceChildren(isOut ? "…" : rowsOf(strip).some(row => row.lockable) ? icon(word === "free" ? "free" : "held") : "Aa");
  }
  aria(strip.menu, "label", menuName(strip) + " of " + strip.title + (strip.menu.textContent === "Aa" ? "" : ", locked: " + locks) + (isOut ? "; an order is out" : ""));
}

const isLockOut = row => isOut(row, "lock");

function newStrip(block, members, title) {
  const count = test => members.filter(test).length;
  const strip = { block, rows: members, title, path: "", on: false, message: null, menu: null };
  const high = count(isLevel) + count(row => row.long), columns = min(MOST_COLUMNS, max(high, count(row => row.kind === "mute"), ceil(members.length / 6)));
  strip.element = make("section", "strip " + (columns > 1 ? "many" : "slim"));
  strip.element.style.cssText = "--u:" + columns + ";--v:" + ceil((members.length - high + !count(row => row.kind === "polarity")) / columns) + ";--w:" + (ceil(high / columns) || 1);
  strip.select = make("button", "select");
  strip.select.tabIndex = -1;
  strip.name = make("span");
  strip.role = make("small");
  strip.name.id = "strip-" + strips.length;
  strip.name.dir = "auto";
  strip.select.append(strip.name, strip.role);
  strip.select.onclick = () => chooseStrip(strip);
  strip.select.onkeydown = event => goByKey(event, strip);
  strip.select.onfocus = () => setCurrent(strip);
  strip.element.role = "group";
  aria(strip.element, "labelledby", strip.name.id);
  strip.element.append(strip.select);
  strip.element.strip = strip;
  for (const row of rowsOf(strip)) row.strip = strip;
  layOut(strip);
  drawHead(strip);
  return strip;
}

// A strip lies in a narrow window; one whose controls are not there yet is as high as it will be.
function layOut(strip) {
  strip.element.classList.toggle("flat", narrow.matches);
  strip.element.style.minHeight = strip.message || !narrow.matches ? "" : 74 + 36 * strip.rows.length + "px";
}

function fill(strip) {
  if (strip.message) return;
  strip.message = make("div", "message");
  strip.message.onclick = () => rowsOf(strip).forEach(row => unnote(row.ono));
  layOut(strip);
  let menu = program.readOnly ? null : newMenu(strip);
  for (const row of [...strip.rows].sort((a, b) => (RANK[a.kind] || 5) - (RANK[b.kind] || 5))) {
    const cell = newCell(row), isBeside = row.kind === "polarity";
    if (menu && (isBeside || RANK[row.kind] !== RANK.switch && RANK[row.kind] !== RANK.boolean)) {
      (isBeside ? cell : strip.element).append(menu);
      menu = null;
    }
    strip.element.append(cell);
  }
  strip.element.append(...menu ? [menu] : [], strip.message);
  for (const row of rowsOf(strip)) show(row);
  drawHead(strip);
  drawMessage(strip);
  setTabs(strip);
}

// One strip at a time is in the order of the Tab key; on a strip's name the arrow keys go to the next one, and PageUp and PageDown by a bank.
let current = null;

function setTabs(strip) {
  const parts = [strip.select, strip.menu, ...strip.rows.flatMap(row => row.view ? [row.view.main, row.view.second] : [])];
  for (const part of parts) if (part && part.tagName !== "OUTPUT") part.tabIndex = strip === current ? 0 : -1;
}

function setCurrent(strip) {
  const was = current;
  current = strip;
  if (was) setTabs(was);
  if (strip) setTabs(strip);
}

function goByKey(event, strip) {
  const all = strips.filter(one => !isAway(one)), by = { ArrowRight: 1, ArrowLeft: -1, PageDown: BANK, PageUp: -BANK, Home: -1e9, End: 1e9 }[event.key];
  if (!by) return;
  event.preventDefault();
  all[max(0, min(all.length - 1, all.indexOf(strip) + by))].select.focus();
}

function newCell(row) {
  row.cell = make("div", "cell " + (isLevel(row) ? "level" : row.kind) + (row.long ? " long" : ""));
  row.caption = make("small", "cut");
  row.caption.dir = "auto";
  row.view = control(row);
  row.cell.append(row.caption, ...row.view.parts);
  return row.cell;
}

function newMenu(strip) {
  strip.menu = make("button");
  strip.menuKey = "";
  strip.menu.ariaHasPopup = "dialog";
  strip.menu.onclick = () => stripMenu(strip);
  return strip.menu;
}

// Takes the controls away of a strip that is far from what is seen, but none that a person uses.
function empty(strip) {
  if (!strip.message || strip.element.contains(doc.activeElement) || strip.rows.some(row => row.held || isOut(row, "set"))) return;
  strip.element.style.minHeight = narrow.matches ? strip.element.offsetHeight + "px" : "";
  strip.element.replaceChildren(strip.select);
  strip.message = strip.menu = null;
  for (const row of strip.rows) row.cell = row.view = row.caption = null;
}

// One menu a strip: its locks and its names.
const LOCK_WORDS = { free: "not locked", own: "locked by this panel", other: "locked by another controller; the device does not say which" };

function stripMenu(strip) {
  const lockable = rowsOf(strip).filter(row => row.lockable), have = isOwn => lockable.filter(row => (row.lock === "own") === isOwn);
  const orderAll = (isOwn, kind) => have(isOwn).forEach(row => can(row) && order(row, kind));
  askFirst(menuName(strip) + ": " + strip.title, lockable.length ? "A lock keeps other controllers out until it is taken off or this panel ends. The block's lock is not that of its controls." : "", (options, answer) => {
    for (const row of rowsOf(strip)) options.append(menuLine(strip, row));
    if (have(true).length) answer("Unlock all", "", () => orderAll(true, "unlock"));
    if (have(false).length) answer("Lock all", "go", () => orderAll(false, "lock"));
  }, () => rowsOf(strip).map(row => row.lock + isLockOut(row) + nameOf(row)).join());
}

const menuName = strip => rowsOf(strip).some(row => row.lockable) ? "Locks and names" : "Names";

function menuLine(strip, row) {
  const line = make("div", "row"), text = make("span", "", row === strip.block ? "the block" : nameOf(row)), rename = make("button", "", "Rename");
  if (row.lockable) text.append(make("small", "", LOCK_WORDS[row.lock] + (isLockOut(row) ? "; an order is out" : "")));
  line.append(text);
  if (row.lockable) line.append(lockButton(row, text.firstChild.data));
  rename.ariaLabel = "Rename " + text.firstChild.data;
  rename.onclick = () => askName(row);
  line.append(rename);
  return line;
}

function lockButton(row, name) {
  const kind = row.lock === "own" ? "unlock" : "lock", buttonElement = make("button", "", row.lock === "other" ? "Try to lock" : row.lock === "own" ? "Unlock" : "Lock");
  buttonElement.ariaLabel = buttonElement.textContent + " " + name;
  buttonElement.onclick = () => {
    popUp.close();
    if (can(row)) order(row, kind);
  };
  return buttonElement;
}

// Asks for an object's name, which is a label in the device.
function askName(row) {
  askFirst("Rename " + nameOf(row), "All controllers see the name. Its role stays: " + clean(row.role) + ".", (options, answer) => {
    const input = make("input");
    input.maxLength = 64;
    input.value = row.label;
    input.ariaLabel = "Name";
    const go = answer("Rename", "go", () => input.value !== row.label && can(row) && order(row, "label", input.value));
    input.onkeydown = event => {
      if (event.key !== "Enter") return;
      event.preventDefault();
      go.click();
    };
    options.append(input);
    setTimeout(() => input.focus(), 0);
  });
}

const chosenStrips = () => strips.filter(isChosen);
const mutesOf = list => list.flatMap(strip => strip.rows.filter(row => row.kind === "mute"));

function chooseStrip(strip) {
  strip.on = !strip.on;
  drawHead(strip);
  drawChosen();
}

function chooseNone() {
  for (const strip of chosenStrips()) {
    strip.on = false;
    drawHead(strip);
  }
  drawChosen();
}

// A search or a closed group hides strips, but does not take them out of the selection: how many are not shown is said.
function drawChosen() {
  const chosen = chosenStrips(), away = chosen.filter(strip => isAway(strip)).length;
  $("chosen").hidden = !chosen.length;
  doc.body.classList.toggle("picked", !!chosen.length);
  put($("chosen").firstElementChild, chosen.length + " selected" + (away ? ", " + away + " not shown" : ""));
}

function isAway(strip) {
  for (let group = strip.up; group.up; group = group.up) if (group.body.hidden) return true;
  return strip.element.hidden;
}
