// Levels: a field, and a fader where the number is not one of 64 bits.
const DOUBLE_TAP_MS = 350, FINE_AT = 80, CAP = 48;

const limitsOf = row => row.limits ? row.limits.map(Number) : [0, 0];

// A field shows the device's value, but while a person types in it; what the device has then stands beside it.
function field(row) {
  const box = make("div", "value"), input = make("input", "field"), beside = make("b", "beside");
  let typing = false;
  input.inputMode = "text";
  input.autocomplete = "off";
  box.append(input, make("i", "", row.unit ? row.unit.name : ""), beside);
  const draw = () => {
    const isAway = typing && input.value !== shown(row, row.value);
    if (!typing && input.value !== shown(row, goal(row))) input.value = shown(row, goal(row));
    beside.hidden = !isAway;
    if (isAway) put(beside, "device " + shown(row, row.value));
    input.title = limitWords(row);
  };
  const leave = () => {
    typing = false;
    draw();
  };
  const send = () => {
    if (!typing) return;
    const text = input.value, { word, why } = typed(row, text);
    leave();
    if (why) note(row.ono, "hint", "“" + clean(text) + "” not sent: " + why);
    else change(row, word);
    draw();
  };
  input.onfocus = () => input.select();
  input.oninput = () => {
    typing = true;
    draw();
  };
  input.onblur = leave;
  input.onchange = send;
  input.onkeydown = event => {
    if (event.key === "Enter") send();
    else if (event.key === "Escape") leave();
  };
  return { box, input, draw };
}

function fieldAlone(row) {
  const { box, input, draw } = field(row);
  return { parts: [box], main: input, draw };
}

function faderParts() {
  const parts = { rail: make("i", "rail"), zero: make("i", "zero"), high: make("small", "limit high"), low: make("small", "limit low"), cap: make("div", "cap"), mark: make("b", "mark") };
  const fader = make("div", "fader");
  fader.append(...Object.values(parts));
  fader.tabIndex = 0;
  fader.role = "slider";
  return { fader, ...parts };
}

// Moves a fader to a number within the limits.
function moveTo(row, number) {
  const [least, greatest] = limitsOf(row);
  change(row, String(round(min(greatest, max(least, number)))));
}

function moveToZero(row) {
  const [least, greatest] = limitsOf(row);
  if (!can(row)) return;
  if (least <= 0 && greatest >= 0) moveTo(row, 0);
  else note(row.ono, "hint", "not set to 0: that is out of the limits");
}

// One step: a whole unit where there is one, else a hundredth of the range; a fine one is the least that there is.
function step(row, count, isFine) {
  const [least, greatest] = limitsOf(row), whole = row.unit ? max(1, round(10 ** row.unit.places / Number(row.unit.times))) : max(1, round((greatest - least) / 100));
  if (row.value !== null && can(row)) moveTo(row, Number(goal(row)) + count * (isFine ? 1 : whole));
}

// A drag moves by as much as the pointer does, so that a tap moves nothing; by touch the cap alone drags, and the rest scrolls.
function onDrag(row, fader, cap) {
  let drag = null, tappedAt = -1e9;
  fader.onpointerdown = event => {
    if (event.button || drag || row.value === null || event.pointerType !== "mouse" && event.target !== cap || !can(row)) return;
    if (now() - tappedAt < DOUBLE_TAP_MS) {
      tappedAt = -1e9;
      return moveToZero(row);
    }
    const place = fader.getBoundingClientRect(), isUpright = place.height > place.width;
    fader.setPointerCapture(event.pointerId);
    drag = { isUpright, long: max(1, (isUpright ? place.height : place.width) - CAP), at: Number(goal(row)), x: event.clientX, y: event.clientY, x0: event.clientX, y0: event.clientY, moved: false };
    row.held = {};
    row.want = goal(row);
    show(row);
  };
  fader.onpointermove = event => {
    if (!drag) return;
    const by = drag.isUpright ? drag.y - event.clientY : event.clientX - drag.x, [least, greatest] = limitsOf(row);
    const isFine = event.shiftKey || Math.abs(drag.isUpright ? event.clientX - drag.x0 : event.clientY - drag.y0) > FINE_AT;
    Object.assign(drag, { x: event.clientX, y: event.clientY });
    fader.classList.toggle("fine", isFine);
    if (!by) return;
    drag.moved = true;
    drag.at = min(greatest, max(least, drag.at + by / drag.long * (greatest - least) * (isFine ? 0.1 : 1)));
    moveTo(row, drag.at);
  };
  fader.onpointerup = fader.onpointercancel = fader.onlostpointercapture = () => {
    if (!drag) return;
    tappedAt = drag.moved ? -1e9 : now();
    drag = row.held = null;
    fader.classList.remove("fine");
    if (!isOut(row, "set")) row.want = null;
    show(row);
  };
}

function onKeysAndWheel(row, fader) {
  const counts = { ArrowUp: 1, ArrowRight: 1, ArrowDown: -1, ArrowLeft: -1, PageUp: 10, PageDown: -10 };
  fader.onkeydown = event => {
    const count = counts[event.key];
    if (!count && event.key !== "Delete") return;
    event.preventDefault();
    if (count) step(row, count, event.shiftKey);
    else moveToZero(row);
  };
  fader.addEventListener("wheel", event => {
    if (doc.activeElement !== fader) return;
    event.preventDefault();
    step(row, event.deltaY + event.deltaX < 0 ? 1 : -1, event.shiftKey);
  }, { passive: false });
}

// A fader shows the hand, or what was ordered and is not so yet; where the device has something else, that stands beside it. Without a
// value or limits it has no cap.
function drawFader(row, { fader, cap, zero, high, low, mark }) {
  const [least, greatest] = limitsOf(row), word = goal(row), place = number => String((number - least) / (greatest - least || 1)), isAway = row.held && row.value !== row.want;
  fader.style.setProperty("--p", word === null ? "0" : place(Number(word)));
  fader.style.setProperty("--z", place(0));
  cap.hidden = word === null || !row.limits;
  zero.hidden = cap.hidden || least > 0 || greatest < 0;
  mark.hidden = !isAway;
  if (isAway) {
    fader.style.setProperty("--d", place(Number(row.value)));
    put(mark, "device " + shown(row, row.value));
  }
  aria(fader, "valuemin", least);
  aria(fader, "valuemax", greatest);
  aria(fader, "valuenow", word ?? least);
  aria(fader, "valuetext", shown(row, word) + unitName(row));
  aria(fader, "orientation", narrow.matches ? "horizontal" : "vertical");
  put(high, row.limits ? shown(row, String(greatest)) : "");
  put(low, row.limits ? shown(row, String(least)) : "");
}

function level(row) {
  const parts = faderParts(), { box, input, draw } = field(row);
  onDrag(row, parts.fader, parts.cap);
  onKeysAndWheel(row, parts.fader);
  return {
    parts: [parts.fader, box], main: input, second: parts.fader,
    draw() {
      drawFader(row, parts);
      draw();
    },
  };
}
