// What stands for a document in node: as much of it as the page's script uses. It runs before the page's script, with the page's HTML
// as `HTML`.
class Part {
  constructor(tag) {
    Object.assign(this, { tagName: tag.toUpperCase(), attributes: {}, nodes: [], parent: null, hidden: false, disabled: false, value: "", checked: false, open: false });
    const names = () => (this.attributes.class || "").split(" ").filter(Boolean), keep = list => this.attributes.class = [...new Set(list)].join(" ");
    this.classList = {
      add: name => keep([...names(), name]), remove: name => keep(names().filter(one => one !== name)), contains: name => names().includes(name),
      toggle: (name, on = !names().includes(name)) => on ? keep([...names(), name]) : keep(names().filter(one => one !== name)),
    };
    this.style = { setProperty: (name, value) => this.style[name] = value };
    this.dataset = {};
  }
  get textContent() { return this.nodes.map(node => typeof node === "string" ? node : node.textContent).join(""); }
  set textContent(text) { this.nodes = [String(text)]; }
  get children() { return this.nodes.filter(node => typeof node !== "string"); }
  get firstElementChild() { return this.children[0] || null; }
  get lastElementChild() { return this.children.at(-1) || null; }
  get firstChild() { return typeof this.nodes[0] === "string" ? { data: this.nodes[0] } : this.nodes[0] || null; }
  get offsetHeight() { return 100; }
  adopt(nodes) {
    return nodes.map(node => {
      if (typeof node === "string" || typeof node === "number") return String(node);
      if (node.parent) node.remove();
      node.parent = this;
      return node;
    });
  }
  append(...nodes) { this.nodes.push(...this.adopt(nodes)); }
  prepend(...nodes) { this.nodes.unshift(...this.adopt(nodes)); }
  replaceChildren(...nodes) { this.nodes = this.adopt(nodes); }
  replaceWith(node) {
    const parent = this.parent;
    parent.nodes[parent.nodes.indexOf(this)] = node;
    node.parent = parent;
    this.parent = null;
  }
  remove() {
    if (this.parent) this.parent.nodes = this.parent.nodes.filter(node => node !== this);
    this.parent = null;
  }
  cloneNode() {
    const copy = new Part(this.tagName);
    copy.attributes = { ...this.attributes };
    copy.append(...this.nodes.map(node => typeof node === "string" ? node : node.cloneNode()));
    return copy;
  }
  contains(other) { return other === this || this.children.some(child => child.contains(other)); }
  getAttribute(name) { return name in this.attributes ? this.attributes[name] : null; }
  setAttribute(name, value) { this.attributes[name] = String(value); }
  removeAttribute(name) { delete this.attributes[name]; }
  toggleAttribute(name, on) { on ? this.attributes[name] = "" : delete this.attributes[name]; }
  addEventListener() {}
  getBoundingClientRect() { return { width: 60, height: 348, x: 0, y: 0 }; }
  focus() {
    document.activeElement = this;
    if (this.onfocus) this.onfocus({});
  }
  click() { if (!this.disabled && this.onclick) this.onclick({ detail: 0, target: this, preventDefault() {} }); }
  select() {}
  setPointerCapture() {}
  scrollIntoView() {}
  showModal() { this.open = true; }
  close() { this.open = false; }
}
for (const [name, attribute] of [["id", "id"], ["className", "class"], ["role", "role"], ["ariaLabel", "aria-label"], ["ariaHasPopup", "aria-haspopup"], ["dir", "dir"]]) {
  Object.defineProperty(Part.prototype, name, { get() { return this.attributes[attribute] || ""; }, set(text) { this.attributes[attribute] = String(text); } });
}

function partsOf(html) {
  const top = new Part("top"), open = [top];
  for (const [, end, tag, words, , text] of html.matchAll(/<(\/?)([a-z0-9]+)((?:\s+[a-z-]+(?:="[^"]*")?)*)\s*(\/?)>|([^<]+)/gi)) {
    if (text !== undefined) open.at(-1).nodes.push(text);
    else if (end) open.pop();
    else {
      const part = new Part(tag);
      for (const [, name, , value] of words.matchAll(/([a-z-]+)(="([^"]*)")?/gi)) part.attributes[name] = value || "";
      part.hidden = "hidden" in part.attributes;
      part.disabled = "disabled" in part.attributes;
      open.at(-1).append(part);
      if (!["input", "use", "path", "meta"].includes(tag)) open.push(part);
    }
  }
  return top;
}

const body = partsOf(/<body[^>]*>([^]*)<script>/.exec(HTML)[1]);
const within = (part, id) => part.attributes.id === id ? part : part.children.reduce((found, child) => found || within(child, id), null);
globalThis.document = { body, hidden: false, title: "", activeElement: body, createElement: tag => new Part(tag), getElementById: id => within(body, id) };
globalThis.Option = function (text, value) { return Object.assign(new Part("option"), { textContent: text, value }); };
globalThis.IntersectionObserver = class { observe() {} disconnect() {} };
globalThis.matchMedia = () => ({ matches: false });
globalThis.innerWidth = 1280;
globalThis.scrollY = 0;
globalThis.scrollTo = () => {};
globalThis.location = { search: "", pathname: "/" };
