// Controls: each shows what the device said last, or is marked as not yet; and what a person does with it is an order.
const HOLD_MS = 800;

// Asks in a dialog: `fill` puts options into it, and answers that close it. What it shows of the device, which `look` gives as one text, is
// drawn again when it changes.
let asked = null;

function askFirst(title, text, fill, look) {
  asked = { title, text, fill, look: look || (() => ""), drawn: null };
  fillDialog();
  if (!popUp.open) popUp.showModal();
}

function fillDialog() {
  const head = make("h2", "", asked.title), options = make("div", "options"), acts = make("div", "acts"), at = tabStops().indexOf(doc.activeElement);
  head.id = "dialog-title";
  popUp.replaceChildren(head, make("p", "", asked.text), options, acts);
  asked.drawn = asked.look();
  const answer = (words, look, then) => {
    const buttonElement = make("button", look, words);
    buttonElement.onclick = () => {
      popUp.close();
      if (then) then();
    };
    acts.append(buttonElement);
    return buttonElement;
  };
  answer("Cancel");
  asked.fill(options, answer);
  greyDialog();
  if (tabStops()[at]) tabStops()[at].focus();
}

const tabStops = () => popUp.lastElementChild ? [...popUp.children[2].children, ...popUp.lastElementChild.children].flatMap(one => one.children.length ? [...one.children] : [one]) : [];

// Where the link is not open, nothing in a dialog acts but Cancel, and it says why.
function greyDialog() {
  const [, text, options, acts] = popUp.children;
  options.inert = !isOpen();
  [...acts.children].slice(1).forEach(buttonElement => buttonElement.inert = !isOpen());
  put(text, (isOpen() || acts.children.length < 2 && !options.children.length ? "" : "What stands here is old: " + stateWord(program.state) + ". ") + asked.text);
}

function drawDialog() {
  if (!popUp.open) return;
  if (asked.look() !== asked.drawn) fillDialog();
  else greyDialog();
}

// A press that is held for 0.8 s acts. A click without pointer or key, as assistive tools make it, is asked about; `plain`
// says whether a click acts at once, and acts.
function onHold(buttonElement, act, { early, title, plain }) {
  let timer = 0, fired = false;
  const isPress = event => event.key === " " || event.key === "Enter";
  const up = () => {
    if (!timer) return;
    clearTimeout(timer);
    timer = 0;
    buttonElement.classList.remove("down");
    if (early) early();
  };
  const down = () => {
    if (timer || plain && plain.is()) return;
    buttonElement.classList.add("down");
    timer = setTimeout(() => {
      timer = 0;
      fired = true;
      buttonElement.classList.remove("down");
      act();
    }, HOLD_MS);
  };
  buttonElement.classList.add("hold");
  buttonElement.onpointerdown = event => {
    fired = false;
    if (!event.button) down();
  };
  buttonElement.onpointerup = buttonElement.onpointerleave = buttonElement.onpointercancel = buttonElement.onblur = up;
  buttonElement.oncontextmenu = event => event.preventDefault();
  buttonElement.onkeydown = event => {
    if (!isPress(event)) return;
    event.preventDefault();
    if (event.repeat) return;
    fired = false;
    if (plain && plain.is()) buttonElement.click();
    else down();
  };
  buttonElement.onkeyup = event => {
    if (!isPress(event)) return;
    event.preventDefault();
    up();
  };
  buttonElement.onclick = event => {
    if (fired) fired = false;
    else if (plain && plain.is()) plain.act();
    else if (!event.detail) askFirst(title(), "", (options, answer) => answer(title(), "go", act));
  };
}

const OTHER = { muted: "unmuted", unmuted: "muted", inverted: "non-inverted", "non-inverted": "inverted", on: "off", off: "on" };
const WORDS = {
  mute: { on: "muted", words: { muted: "MUTED", unmuted: "Mute" } },
  polarity: { on: "inverted", words: { inverted: "Ø INV", "non-inverted": "Ø" } },
  boolean: { on: "on", words: { on: "ON · hold", off: "OFF · hold" } },
};

// A button that shows one of two values, by its word and by whether it is pressed.
function drawToggle(buttonElement, row) {
  const { on, words } = WORDS[row.kind];
  put(buttonElement, words[row.value] || "–");
  aria(buttonElement, "pressed", row.value === on);
}

// A press orders the other one of what the control shows, and a control shows what the device has. So while an order is not answered
// another press orders nothing, and that is said: it would be for what nobody sees yet.
const otherOf = row => OTHER[row.value] || WORDS[row.kind].on;

function press(row) {
  if (isOut(row, "set")) note(row.ono, "hint", NOT_SENT + "an order is out");
  else change(row, otherOf(row));
}

function toggle(row) {
  const buttonElement = make("button");
  buttonElement.onclick = () => press(row);
  return { parts: [buttonElement], main: buttonElement, draw: () => drawToggle(buttonElement, row) };
}

// Phantom power and the like: held for 0.8 s, so that no touch in passing switches it.
function heldToggle(row) {
  const buttonElement = make("button");
  onHold(buttonElement, () => press(row), {
    early: () => can(row) && note(row.ono, "hint", "hold for 1 s to switch " + otherOf(row)),
    title: () => "Switch " + fullName(row) + " " + otherOf(row),
  });
  return { parts: [buttonElement], main: buttonElement, draw: () => drawToggle(buttonElement, row) };
}

// A source and the like: select, then switch.
function choice(row) {
  const buttonElement = make("button"), text = make("span", "cut");
  buttonElement.append(text, "▾");
  buttonElement.ariaHasPopup = "dialog";
  buttonElement.onclick = () => {
    const picked = { word: null };
    if (can(row)) askFirst(fullName(row), "Select, then switch.", (options, answer) => choose(row, picked, options, answer), () => [row.value, row.flags, row.limits].join());
  };
  return { parts: [buttonElement], main: buttonElement, draw: () => put(text, shown(row, row.value)) };
}

// The position that the device has is marked; the one that is picked is switched to.
function choose(row, picked, options, answer) {
  const go = answer("Switch", "go", () => change(row, picked.word)), least = row.limits ? Number(row.limits[0]) : 0, greatest = row.limits ? Number(row.limits[1]) : row.names.length - 1;
  const drawGo = () => {
    go.disabled = picked.word === null || picked.word === row.value;
    put(go, go.disabled ? "Switch" : "Switch to " + position(row, picked.word));
  };
  options.role = "radiogroup";
  for (let at = least; at <= greatest; at++) {
    const word = String(at), option = make("button", "", position(row, word) + (word === row.value ? " ● now" : ""));
    option.role = "radio";
    aria(option, "checked", word === (picked.word ?? row.value));
    option.disabled = row.flags[at - least] === false;
    option.onclick = () => {
      picked.word = word;
      for (const another of options.children) aria(another, "checked", another === option);
      drawGo();
    };
    options.append(option);
  }
  drawGo();
}

// Where nothing may be done, a control is a text.
function plainText(row) {
  const text = make("output");
  const draw = () => {
    put(text, WORDS[row.kind] ? row.value ?? "–" : shown(row, row.value) + unitName(row));
    text.classList.toggle("on", !!WORDS[row.kind] && row.value === WORDS[row.kind].on);
  };
  return { parts: [text], main: text, draw };
}

function control(row) {
  if (row.kind === "unknown" || row.kind === "block") return { parts: [], main: null, draw() {} };
  if (program.readOnly) return plainText(row);
  switch (row.kind) {
    case "mute":
    case "polarity": return toggle(row);
    case "boolean": return heldToggle(row);
    case "switch": return choice(row);
    default: return row.long ? fieldAlone(row) : level(row);
  }
}
