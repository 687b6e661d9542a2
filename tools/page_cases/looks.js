// How the page looks, for tools/panel_trial.py: the contrasts of texts, and of edges; targets that are too small, and controls without a name.
const parse = c => (c.match(/[\d.]+/g) || [0, 0, 0, 0]).map(Number);
const part = v => v / 255 <= .03928 ? v / 255 / 12.92 : ((v / 255 + .055) / 1.055) ** 2.4;
const brightness = c => .2126 * part(c[0]) + .7152 * part(c[1]) + .0722 * part(c[2]);
const fill = e => parse(getComputedStyle(e).backgroundColor);
const under = e => {
  for (; e; e = e.parentElement) {
    const c = fill(e);
    if (c.length < 4 || c[3] > .9) return c;
  }
  return fill(document.documentElement);
};
const ratio = (a, b) => {
  const [x, y] = [brightness(a), brightness(b)].sort((p, q) => q - p);
  return (x + .05) / (y + .05);
};
const below = (least, list) => list.length ? list.filter(([contrast]) => !(contrast >= least)) : ["there is none"];
const seen = e => e.getClientRects().length > 0;
const all = what => [...document.querySelectorAll(what)];
const isWritten = e => [...e.childNodes].some(n => n.nodeType === 3 && n.data.trim());
const shown = () => all("body *").filter(e => seen(e) && !e.closest("svg") && !e.disabled && e.getAttribute("aria-disabled") !== "true");
const texts = () => shown().filter(isWritten).map(e => [ratio(parse(getComputedStyle(e).color), under(e)), e.className + " " + e.textContent.slice(0, 20)]);
const edges = () => {
  const framed = shown().filter(e => /^(BUTTON|INPUT|SELECT)$/.test(e.tagName) && !e.classList.contains("select"));
  const frames = framed.map(e => [ratio(parse(getComputedStyle(e).borderTopColor), under(e.parentElement)), e.outerHTML.slice(0, 60)]);
  return [...frames, ...all(".cap").map(e => [ratio(fill(e), under(e.parentElement)), "cap"])];
};
const isSmall = r => r.width < 43.9 || r.height < 43.9;
const small = () => all("button,input,select,.cap").filter(e => seen(e) && isSmall(e.getBoundingClientRect())).map(e => e.outerHTML.slice(0, 80));
const isNamed = e => (e.getAttribute("aria-label") || e.textContent).trim();
const nameless = () => all("button,input,select,[role=slider]").filter(e => seen(e) && !isNamed(e)).length;
