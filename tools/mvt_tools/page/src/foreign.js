// Texts from files, which may hold anything: shown apart from the page's own words, with their controls told.
import {element} from './dom.js';
import {grouped} from './text.js';

/** So many letters of a text are shown at first. */
const SHOWN = 120;

/** Controls, and what turns the direction of a text or can't be seen; a joiner belongs to the words of many languages. */
const CONTROLS =
  /[\u0000-\u001f\u007f-\u009f\u00ad\u061c\u200b\u200e\u200f\u2028-\u202e\u2060-\u206f\ufeff\ufff9-\ufffb]|[\u{e0000}-\u{e007f}]/gu;

function spelledControl(letter) {
  return `U+${letter.codePointAt(0).toString(16).toUpperCase().padStart(4, '0')}`;
}

/** The letters of a text, up to a number, and whether there are more. */
function frontOf(whole, most) {
  if (whole.length <= most) return { front: whole, isCut: false };
  let front = whole.slice(0, most);
  if (/[\ud800-\udbff]$/.test(front)) front = front.slice(0, -1);
  return { front, isCut: true };
}

/** A text without controls, for a place that takes no elements: a name for a screen reader, a file's name. */
export function plain(whole, most = SHOWN) {
  const { front, isCut } = frontOf(whole, most);
  const told = front.replace(CONTROLS, (letter) => `‹${spelledControl(letter)}›`);
  return `\u2068${told}${isCut ? '…' : ''}\u2069`;
}

function lettersOf(whole) {
  const parts = [];
  let from = 0;
  for (const found of whole.matchAll(CONTROLS)) {
    parts.push(whole.slice(from, found.index), element('span', { class: 'control' }, [spelledControl(found[0])]));
    from = found.index + found[0].length;
  }
  parts.push(whole.slice(from));
  return parts.filter((part) => part !== '');
}

/** A text in an element of its own, in one line: what doesn't fit is cut. */
export function foreignLine(whole, most = SHOWN) {
  const { front, isCut } = frontOf(whole, most);
  return element('bdi', {}, [...lettersOf(front), isCut ? '…' : '']);
}

/** A text in an element of its own; a long one is cut, and a button shows the rest. */
export function foreign(whole, most = SHOWN) {
  const { front, isCut } = frontOf(whole, most);
  const box = element('bdi', {}, lettersOf(front));
  if (!isCut) return box;
  const more =
    element('button', { type: 'button', class: 'link more', 'aria-expanded': 'false', onclick: () => turn() }, []);
  const turn = (isOpen = more.getAttribute('aria-expanded') === 'false') => {
    box.replaceChildren(...lettersOf(isOpen ? whole : front), isOpen ? '' : '…');
    box.classList.toggle('long', isOpen);
    more.textContent = isOpen ? 'show less' : `show all ${grouped(whole.length)} letters`;
    more.setAttribute('aria-expanded', String(isOpen));
  };
  turn(false);
  return element('span', {}, [box, ' ', more]);
}
