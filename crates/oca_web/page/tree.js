// The tree: a group for a block that holds blocks, a strip for each other one; what is found, filtered and summed up.
const MOST_RANGES = 8, OPEN_BELOW = 400, MOST_JUMPS = 100;
let strips = [], groups = [], places = [], root = { strips: [], groups: [] };
let near = null, seen = null;
const inView = new Set();
const wasOpen = new Map();      // by ONo of a group's block: whether a person opened or closed it
const narrow = matchMedia("(max-width:600px)");

function newRow(object, place, units, block) {
  return {
    ono: object.ono, kind: object.class, role: object.role, block, names: object.names, lockable: object.lockable, place, label: "", flags: [], value: null, limits: null,
    lock: "free", enabled: true, trouble: null, key: "", want: null, held: null, strip: null, group: null, cell: null, view: null, caption: null, sureAt: -1e9, unsure: false,
    long: object.class.endsWith("64"), unit: /int/.test(object.class) ? unitOf(units, object) : null,
  };
}

// No strip stays, and no object.
function clearStrips() {
  if (near) near.disconnect();
  if (seen) seen.disconnect();
  rows = new Map();
  strips = [];
  groups = [];
  places = [];
  inView.clear();
  const main = make("main");
  main.id = "main";
  main.addEventListener("focusin", event => {
    const element = event.target.closest(".strip");
    if (element) setCurrent(element.strip);
  });
  current = null;
  aria(main, "busy", true);
  $("main").replaceWith(main);
  if (popUp.open) popUp.close();
  root = { element: main, strips: [], groups: [], up: null };
  drawChosen();
  return main;
}

// Makes the strips of a tree: they stand there with their names, and get their controls when they come near.
function build(tree) {
  const height = scrollY, was = rows, main = clearStrips(), kids = new Map(), top = tree.objects[0], roles = new Map(tree.objects.map(object => [object.ono, object.role]));
  tree.objects.forEach((object, place) => {
    const row = newRow(object, place, tree.units || [], roles.get(object.in) ?? "");
    rows.set(object.ono, row);
    places.push(row);
    if (place) kids.set(object.in, [...kids.get(object.in) || [], row]);
  });
  if (top) addMembers(rows.get(top.ono), root, main, kids);
  for (const row of was.values()) if (!isSameObject(row, rows.get(row.ono))) forget(row.ono);
  if (!strips.length) main.append(make("p", "none", "The device has no objects."));
  scrollTo(0, height);
  watchStrips();
  listJumps();
  filter();
  drawSums();
}

const isSameObject = (one, another) => !!another && one.kind === another.kind && one.role === another.role && one.block === another.block && one.names.join("\n") === another.names.join("\n");
const membersOf = (kids, row) => kids.get(row.ono) || [];
const isBlock = row => row.kind === "block";

function addMembers(block, group, box, kids) {
  const members = membersOf(kids, block), own = members.filter(row => !isBlock(row));
  let grid = make("div", "grid");
  if (own.length) addStrip(newStrip(block.place ? block : null, own, "device"), group, grid);
  for (const inner of members.filter(isBlock)) {
    if (!membersOf(kids, inner).some(isBlock)) {
      addStrip(newStrip(inner, membersOf(kids, inner), ""), group, grid);
      continue;
    }
    const next = newGroup(inner, group);
    box.append(grid, next.element);
    grid = make("div", "grid");
    addMembers(inner, next, next.body, kids);
  }
  box.append(grid);
}

function addStrip(strip, group, grid) {
  strips.push(strip);
  group.strips.push(strip);
  strip.up = group;
  grid.append(strip.element);
}

function newGroup(block, up) {
  const group = { block, up, head: make("button"), sign: make("span"), name: make("b"), sum: make("small"), trouble: make("p"), body: make("div"), element: make("div", "group"), strips: [], groups: [] };
  group.name.dir = "auto";
  group.head.append(group.sign, group.name, group.sum);
  group.element.append(group.head, group.trouble, group.body);
  groups.push(group);
  up.groups.push(group);
  block.group = group;
  group.open = wasOpen.get(block.ono) ?? (rows.size < OPEN_BELOW || groups.length < 3);
  group.head.onclick = () => foldBy(group, !group.open);
  drawGroup(group);
  return group;
}

function drawGroup(group) {
  const words = group.block.strip ? "" : wordsOf(group.block);
  put(group.name, nameOf(group.block));
  put(group.trouble, words);
  group.trouble.hidden = !words;
}

function fold(group) {
  const isShown = group.open || !!isFiltered();
  group.body.hidden = !isShown;
  put(group.sign, isShown ? "▾" : "▸");
  aria(group.head, "expanded", isShown);
}

function foldBy(group, isOpen) {
  wasOpen.set(group.block.ono, group.open = isOpen);
  fold(group);
  drawChosen();
}

// Controls are made within 80 % of a window of what is seen; what is seen is what the program is asked to read often.
function watchStrips() {
  near = new IntersectionObserver(all => {
    for (const one of all) (one.isIntersecting ? fill : empty)(one.target.strip);
  }, { rootMargin: "80% 0px", scrollMargin: "0px 80%" });
  seen = new IntersectionObserver(all => {
    for (const one of all) inView[one.isIntersecting ? "add" : "delete"](one.target.strip);
    drawAges();
    drawLink();
    poll();
  });
  for (const strip of strips) {
    near.observe(strip.element);
    seen.observe(strip.element);
  }
}

// The places that are seen, as at most eight ranges, each its first place and how many: the nearest ones are joined. The root is always one
// of them.
function shownRanges() {
  const all = new Set([0]);
  for (const strip of inView) for (const row of rowsOf(strip)) all.add(row.place);
  const ranges = [];
  for (const place of [...all].sort((a, b) => a - b)) {
    const last = ranges.at(-1);
    if (last && place <= last[1] + 1) last[1] = place;
    else ranges.push([place, place]);
  }
  while (ranges.length > MOST_RANGES) {
    let at = 1;
    for (let n = 2; n < ranges.length; n++) if (ranges[n][0] - ranges[n - 1][1] < ranges[at][0] - ranges[at - 1][1]) at = n;
    ranges.splice(at - 1, 2, [ranges[at - 1][0], ranges[at][1]]);
  }
  return ranges.map(([first, last]) => [first, last - first + 1]);
}

function listJumps() {
  const jump = $("jump");
  jump.replaceChildren(new Option("Jump to…", ""));
  groups.forEach((group, at) => {
    let indent = "";
    for (let up = group.up; up.up; up = up.up) indent += "\u2003";
    jump.append(new Option(indent + nameOf(group.block), "g" + at));
  });
  if (strips.length < MOST_JUMPS) strips.forEach((strip, at) => jump.append(new Option(strip.title, "s" + at)));
}

function jumpTo(choice) {
  const target = (choice[0] === "g" ? groups : strips)[choice.slice(1)];
  if (!target) return;
  for (let group = target; group && group.up; group = group.up) {
    if (!group.body) continue;
    group.open = true;
    fold(group);
  }
  target.element.scrollIntoView();
}

// By a bank: as many strips as are seen whole, in the row of the strip that the keys are at.
function goByBank(by) {
  const row = current && current.element.parentNode;
  if (row) row.scrollBy({ left: by * floor(row.clientWidth / 124) * 124, behavior: "smooth" });
}

// A filtered list does not change under the hand: "Update list" takes in what changed.
const isMuted = strip => strip.rows.some(row => row.value === "muted");
const isLocked = strip => rowsOf(strip).some(row => row.lock !== "free");
const isPressed = id => $(id).getAttribute("aria-pressed") === "true";
const wanted = () => $("find").value.trim().toLowerCase();
const isFiltered = () => wanted() || isPressed("only-muted") || isPressed("only-locked");

function isHit(strip) {
  const text = () => (strip.path + rowsOf(strip).map(row => row.label + " " + row.role + " " + row.ono).join(" ")).toLowerCase();
  return (!wanted() || text().includes(wanted())) && (!isPressed("only-muted") || isMuted(strip)) && (!isPressed("only-locked") || isLocked(strip));
}

function filter() {
  const hits = isFiltered() ? filterIn(root, "", isHit) : filterIn(root, "", () => true);
  put($("hits"), isFiltered() ? hits + " of " + strips.length + " strips" : "");
  if (isFiltered()) say($("hits").textContent);
  drawChosen();
  if (!current || isAway(current)) setCurrent(strips.find(strip => !isAway(strip)) || null);
  $("renew").hidden = true;
}

function filterIn(group, path, test) {
  let hits = 0;
  for (const strip of group.strips) {
    strip.path = path;
    strip.hit = test(strip);
    strip.element.hidden = !strip.hit;
    hits += strip.hit;
  }
  for (const inner of group.groups) {
    const hitsIn = filterIn(inner, path + nameOf(inner.block) + " ", test);
    inner.element.hidden = !hitsIn;
    fold(inner);
    hits += hitsIn;
  }
  return hits;
}

// How many strips a group has, muted ones and locked ones.
function sumOf(group) {
  const sum = [group.strips.length, group.strips.filter(isMuted).length, group.strips.filter(isLocked).length];
  for (const inner of group.groups) sumOf(inner).forEach((count, at) => sum[at] += count);
  if (group.sum) put(group.sum, sum[0] + (sum[0] === 1 ? " strip" : " strips") + (sum[1] ? " · " + sum[1] + " muted" : "") + (sum[2] ? " · " + sum[2] + " locked" : "") + (areCountsOld() ? " · not all confirmed" : ""));
  return sum;
}

// What is out of view is read less often, and so these counts are marked where some of it was not read for long.
const areCountsOld = () => program.unread > 0 || !isOpen();

function drawSums() {
  const [, muted, locked] = sumOf(root), mark = areCountsOld() ? "?" : "";
  put($("only-muted").lastElementChild, muted + mark);
  put($("only-locked").lastElementChild, locked + mark);
  if (isPressed("only-muted") || isPressed("only-locked")) $("renew").hidden = !strips.some(strip => isHit(strip) !== strip.hit);
}

// Another width: strips lie or stand.
function layOutAgain() {
  for (const strip of strips) {
    layOut(strip);
    if (strip.message) for (const row of strip.rows) show(row);
  }
}
