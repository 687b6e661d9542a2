// Elements and texts. What comes from the device goes in as text and as attributes alone, never as HTML.
const { ceil, floor, max, min, round } = Math;
const doc = document;
const $ = id => doc.getElementById(id);
const popUp = $("dialog");
const now = () => performance.now();
const wallClock = () => new Date().toLocaleTimeString("en-GB");

function make(tag, look, text) {
  const element = doc.createElement(tag);
  if (look) element.className = look;
  if (text != null) element.textContent = text;
  return element;
}

// What did not change is left alone, so that nothing is laid out again for it.
function put(element, text) {
  if (element.textContent !== text) element.textContent = text;
}

function aria(element, name, amount) {
  if (element.getAttribute("aria-" + name) !== String(amount)) element.setAttribute("aria-" + name, String(amount));
}

function icon(name) {
  const drawing = $("guard").firstElementChild.cloneNode(true);
  drawing.firstElementChild.setAttribute("href", "#icon-" + name);
  return drawing;
}

// A text of the device within one of the page's own: no line breaks, no marks that turn the order of letters, no endless words.
function clean(text) {
  const plain = String(text).replace(/[\u0000-\u001f\u007f-\u009f\u061c\u200b-\u200f\u2028-\u202e\u2060-\u206f\ufeff]/g, "\ufffd").trim();
  return plain.length > 120 ? plain.slice(0, 119) + "…" : plain;
}

const nameOf = row => clean(row.label) || clean(row.role) || "object " + row.ono;
const fullName = row => !row.strip || row.strip.block === row ? nameOf(row) : row.strip.title + " · " + nameOf(row);

// A unit of the file that the program was given: of this object, else of its class.
function unitOf(units, object) {
  const ownUnit = units.find(u => u.ono === object.ono) || units.find(u => u.ono == null && u.class === object.class);
  const matched = ownUnit && /^(\d+)(?:\.(\d+))?$/.exec(ownUnit.factor);
  if (!matched) return null;
  const part = matched[2] || "", times = BigInt(matched[1] + part);
  return times ? { name: clean(ownUnit.unit), times, places: part.length } : null;
}

const isLevel = row => /int/.test(row.kind);
const unitName = row => row.unit ? " " + row.unit.name : "";

// A whole number times the unit's factor, exact however large it is.
function scaled(word, ownUnit, isSigned) {
  const amount = BigInt(word) * ownUnit.times, digits = String(amount < 0n ? -amount : amount).padStart(ownUnit.places + 1, "0"), at = digits.length - ownUnit.places;
  return (amount < 0n ? "−" : amount > 0n && isSigned ? "+" : "") + digits.slice(0, at) + (ownUnit.places ? "." + digits.slice(at) : "");
}

// The name of a switch's position, as the device has it.
const nameAt = (row, word) => row.names[word - (row.limits ? row.limits[0] : 0)] || "";

const position = (row, word) => clean(nameAt(row, word)) || "position " + word;

// A value of an object as it is shown.
function shown(row, word) {
  if (word == null) return "–";
  if (row.kind === "switch") return position(row, word);
  if (!isLevel(row)) return word;
  return row.unit ? scaled(word, row.unit, !row.limits || row.limits[0] < "0") : word.replace("-", "−");
}

const limitWords = row => row.limits ? shown(row, row.limits[0]) + " to " + shown(row, row.limits[1]) + unitName(row) : "";

// The value that a person typed, and else why it is none: a number, and behind it nothing or the object's own unit, of some units with
// k for a thousand. A comma before three digits may mean a thousand, so it is refused.
function typed(row, text) {
  const matched = /^([+-]?)(\d+)(?:\.(\d+)|,(\d\d?|\d{4,}))?\s*([^\d\s,.]\S*|)$/.exec(text.trim().replace(/[−–]/, "-")), ownUnit = row.unit || { times: 1n, places: 0, name: "" };
  if (!matched) return { why: "write digits, with a point before decimals, and no other unit than " + (ownUnit.name || "none") };
  const part = matched[3] || matched[4] || "", times = timesOf(matched[5], ownUnit.name);
  if (!times) return { why: "“" + clean(matched[5]) + "” is not its unit" + (ownUnit.name && ", " + ownUnit.name) };
  if (part.length > ownUnit.places && times < 2n) return { why: ownUnit.places ? "it has " + ownUnit.places + (ownUnit.places > 1 ? " decimals" : " decimal") : "it has no decimals" };
  const top = BigInt(matched[2] + part) * times * 10n ** BigInt(ownUnit.places), below = ownUnit.times * 10n ** BigInt(part.length);
  const size = (2n * top + below) / (2n * below), amount = matched[1] === "-" ? -size : size;
  if (row.limits && (amount < BigInt(row.limits[0]) || amount > BigInt(row.limits[1]))) return { why: limitWords(row) };
  return { word: String(amount) };
}

// By how much a unit that was typed is larger than the object's own; 0n where it is another one. Small letters do for all but m and M.
function timesOf(typedUnit, own) {
  const isOwn = name => name === own || !/^m/i.test(own) && name.toLowerCase() === own.toLowerCase();
  if (!typedUnit || isOwn(typedUnit)) return 1n;
  return /^k/i.test(typedUnit) && /^(Hz|V|W|Ω|Pa|m)$/.test(own) && (typedUnit.length === 1 || isOwn(typedUnit.slice(1))) ? 1000n : 0n;
}

const seconds = ms => ms < 9950 ? (ms / 1000).toFixed(1) + " s" : ms < 60000 ? round(ms / 1000) + " s" : floor(ms / 60000) + " min";
