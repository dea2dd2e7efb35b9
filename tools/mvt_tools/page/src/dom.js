// Elements of the page.

/** An element with its attributes and children; an attribute that begins with `on` is a listener. */
export function element(name, attributes = {}, children = []) {
  const made = document.createElement(name);
  for (const [key, value] of Object.entries(attributes)) {
    if (key.startsWith('on')) made.addEventListener(key.slice(2), value);
    else if (value !== null && value !== false) made.setAttribute(key, value === true ? '' : value);
  }
  made.append(...children);
  return made;
}

/** A part of the page that opens; what is in it is made when it opens for the first time. */
export function folded(title, make, isOpen = false) {
  const box = element('details', {}, [element('summary', {}, [title])]);
  box.addEventListener('toggle', () => {
    if (box.open && box.children.length === 1) box.append(make());
  });
  box.open = isOpen;
  return box;
}

/** Hands bytes to the person as a file. */
export function save(name, type, bytes) {
  const url = URL.createObjectURL(new Blob([bytes].flat(), { type }));
  const link = element('a', { href: url, download: name });
  document.body.append(link);
  link.click();
  link.remove();
  setTimeout(() => URL.revokeObjectURL(url), 60_000);
}
