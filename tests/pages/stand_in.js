"use strict";
// Stands in for a browser where a test asks what a page says, and not how it looks: elements with texts, children,
// attributes and classes, and no layout. A line of standard input is an object with `page`, the file of a page to be
// opened; `script` and `arguments`, a function's body to be called in it; or `key`, a key to be pressed. A line of the
// answer is an object with `result`, or with `error`.

const fs = require("fs");
const readline = require("readline");
const vm = require("vm");

const VOID = new Set(["meta", "input", "br", "link"]);
const WIDTH = 800; // pixels, of each element

const dashed = (name) => `data-${name.replace(/[A-Z]/g, (letter) => `-${letter.toLowerCase()}`)}`;

class Classes {
  constructor(element) {
    this.element = element;
  }

  all() {
    return this.element.className.split(/\s+/).filter(Boolean);
  }

  contains(name) {
    return this.all().includes(name);
  }

  toggle(name, is = !this.contains(name)) {
    const others = this.all().filter((one) => one !== name);
    this.element.className = [...others, ...(is ? [name] : [])].join(" ");
  }

  add(name) {
    this.toggle(name, true);
  }

  remove(name) {
    this.toggle(name, false);
  }
}

class Element {
  constructor(tag) {
    Object.assign(this, { tag, nodes: [], attributes: new Map(), parentElement: null, value: "", open: false,
      scrollLeft: 0, scrollTop: 0, offsetTop: 0, clientWidth: WIDTH, clientHeight: WIDTH });
    this.classList = new Classes(this);
    this.style = { setProperty() {} };
    this.dataset = new Proxy({}, {
      get: (_, name) => this.attributes.get(dashed(name)),
      set: (_, name, value) => this.setAttribute(dashed(name), value) ?? true,
    });
  }

  get tagName() {
    return this.tag.toUpperCase();
  }

  get children() {
    return this.nodes.filter((node) => node instanceof Element);
  }

  get textContent() {
    return this.nodes.map((node) => node.textContent ?? node).join("");
  }

  set textContent(text) {
    this.replaceChildren(String(text));
  }

  get className() {
    return this.attributes.get("class") ?? "";
  }

  set className(text) {
    this.setAttribute("class", text);
  }

  get hidden() {
    return this.attributes.has("hidden");
  }

  set hidden(is) {
    if (is) this.setAttribute("hidden", "");
    else this.attributes.delete("hidden");
  }

  setAttribute(name, value) {
    this.attributes.set(name, String(value));
  }

  getAttribute(name) {
    return this.attributes.get(name) ?? null;
  }

  removeAttribute(name) {
    this.attributes.delete(name);
  }

  append(...nodes) {
    for (const node of nodes) {
      if (node instanceof Element) {
        node.remove();
        node.parentElement = this;
        this.nodes.push(node);
      } else this.nodes.push(String(node));
    }
  }

  appendChild(node) {
    this.append(node);
    return node;
  }

  prepend(...nodes) {
    this.replaceChildren(...nodes, ...this.nodes);
  }

  replaceChildren(...nodes) {
    for (const child of this.children) child.parentElement = null;
    this.nodes = [];
    this.append(...nodes);
  }

  remove() {
    if (this.parentElement) this.parentElement.nodes = this.parentElement.nodes.filter((node) => node !== this);
    this.parentElement = null;
  }

  /** The elements in this one, each before those in it. */
  *within() {
    for (const child of this.children) {
      yield child;
      yield* child.within();
    }
  }

  matches(selector) {
    return selector.split(",").some((one) => this.isAt(one.trim().split(/\s+/)));
  }

  /** Whether this is what the last of these names, within what the others name. */
  isAt(names) {
    if (!this.isNamed(names.at(-1))) return false;
    return names.length < 2 || Boolean(this.parentElement?.closest(names.slice(0, -1).join(" ")));
  }

  /** Whether this has the name, such as button.play[data-by="1"]:not([hidden]). */
  isNamed(name) {
    return name.match(/:not\([^)]*\)|\[[^\]]*\]|[#.]?[\w-]+/g).every((part) => {
      if (part.startsWith(":not(")) return !this.isNamed(part.slice(5, -1));
      if (part[0] === "#") return this.attributes.get("id") === part.slice(1);
      if (part[0] === ".") return this.classList.contains(part.slice(1));
      const [, attribute, value] = part.match(/^\[([\w-]+)(?:=["']?([^"'\]]*)["']?)?\]$/) ?? [];
      if (!attribute) return this.tag === part;
      return this.attributes.has(attribute) && (value === undefined || this.attributes.get(attribute) === value);
    });
  }

  querySelectorAll(selector) {
    return [...this.within()].filter((one) => one.matches(selector));
  }

  querySelector(selector) {
    return this.querySelectorAll(selector)[0] ?? null;
  }

  closest(selector) {
    return this.matches(selector) ? this : this.parentElement?.closest(selector) ?? null;
  }

  contains(other) {
    return other === this || Boolean(other?.parentElement && this.contains(other.parentElement));
  }

  focus() {
    page.document.activeElement = this;
  }

  getBoundingClientRect() {
    return { left: 0, top: 0, width: WIDTH, height: WIDTH };
  }

  scrollIntoView() {}
  addEventListener() {}
  showModal() {}
  select() {}
}

/** The element of a page's text. What stands in a script or a style is taken as it is. */
function parsed(text) {
  const root = new Element("root");
  let at = root;
  const pieces = /<(script|style)([^>]*)>(.*?)<\/\1>|<\/[\w-]+>|<([\w-]+)([^>]*?)(\/?)>|<![^>]*>|([^<]+)/gs;
  for (const [whole, raw, rawRest, inner, tag, rest, isClosed, plain] of text.matchAll(pieces)) {
    if (whole.startsWith("</")) at = at.parentElement ?? root;
    else if (plain !== undefined) at.append(plain);
    else if (raw ?? tag) {
      const made = new Element(raw ?? tag);
      for (const [, name, value] of (rawRest ?? rest).matchAll(/([\w-]+)(?:="([^"]*)")?/g)) {
        made.setAttribute(name, value ?? "");
      }
      at.append(made);
      if (raw) made.append(inner);
      else if (!isClosed && !VOID.has(tag)) at = made;
    }
  }
  return root;
}

let page; // the page that is open: its document, and the context in which its script runs

function open(file) {
  const root = parsed(fs.readFileSync(file, "utf8"));
  const ids = new Map([...root.within()].map((one) => [one.getAttribute("id"), one]));
  const body = root.querySelector("body");
  const document = { body, activeElement: body, getElementById: (id) => ids.get(id) ?? root.querySelector(`#${id}`),
    createElement: (tag) => new Element(tag), createElementNS: (_, tag) => new Element(tag),
    querySelector: (selector) => root.querySelector(selector),
    querySelectorAll: (selector) => root.querySelectorAll(selector) };
  const location = { hash: "", href: `file://${file}`, pathname: file, search: "" };
  const handlers = { keydown: [] };
  const context = vm.createContext({ document, location, history: { replaceState() {} }, navigator: {},
    addEventListener: (name, act) => handlers[name]?.push(act), requestAnimationFrame: (act) => act() ?? 0,
    setInterval: () => 1, clearInterval() {}, setTimeout() {} });
  page = { document, context, handlers };
  const script = root.querySelectorAll("script").at(-1);
  vm.runInContext(script.textContent, context, { filename: `${file}.js` });
}

function press(key) {
  const event = { key, target: page.document.activeElement, preventDefault() {} };
  for (const act of page.handlers.keydown) act(event);
}

function answer(asked) {
  if (asked.page) return open(asked.page);
  if (asked.key) return press(asked.key);
  return vm.runInContext(`(function () {${asked.script}\n})`, page.context).apply(null, asked.arguments);
}

readline.createInterface({ input: process.stdin }).on("line", (line) => {
  let told;
  try {
    told = { result: answer(JSON.parse(line)) ?? null };
  } catch (error) {
    told = { error: String(error.stack ?? error) };
  }
  process.stdout.write(`${JSON.stringify(told)}\n`);
});
