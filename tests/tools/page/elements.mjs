// Elements for modules that make some, where there is no browser: each is what it says.

class Element {
  constructor(name) {
    this.name = name;
    this.parts = [];
    this.attributes = {};
    this.classList = { toggle() {} };
  }

  setAttribute(name, value) {
    this.attributes[name] = value;
  }

  getAttribute(name) {
    return this.attributes[name] ?? null;
  }

  addEventListener(name, listener) {
    this[`on${name}`] = listener;
  }

  append(...parts) {
    this.parts.push(...parts);
  }

  replaceChildren(...parts) {
    this.parts = parts;
  }

  set textContent(told) {
    this.parts = [told];
  }

  get textContent() {
    return this.parts.map((part) => part.textContent ?? part).join('');
  }

  toString() {
    return this.textContent;
  }
}

export function withElements() {
  globalThis.document = { createElement: (name) => new Element(name) };
}
