// The bytes as a table: a part of them at a time, with a place marked.
import {grouped, hexOffset} from './text.js';
import {element} from './dom.js';
import {plain} from './foreign.js';
import {spelledOffset} from './spelled.js';

const ROWS = 128;

export class HexView {
  #bytes;
  #mark;
  #perRow;
  #start = 0;

  /** `mark` is `{start, end}`, bytes or, where both are one, the place before a byte; null is none. */
  constructor(bytes, mark) {
    this.#bytes = bytes;
    this.#mark = mark;
    this.#perRow = matchMedia('(max-width: 40rem)').matches ? 8 : 16;
    this.table = element('tbody');
    this.frame = element('div', { class: 'hex', tabindex: '0', role: 'region', 'aria-label': 'The bytes' }, [
      element('table', {}, [this.#caption(), this.table]),
    ]);
    this.told = element('span', { class: 'quiet', role: 'status' });
    this.earlier = element('button', { type: 'button', onclick: () => this.#turn(-1) }, ['Earlier bytes']);
    this.later = element('button', { type: 'button', onclick: () => this.#turn(1) }, ['Later bytes']);
    const goto =
      element('input', { type: 'text', size: '10', spellcheck: 'false', autocomplete: 'off', placeholder: 'e.g. 1A0' });
    const label = element('label', {}, ['Go to byte (hexadecimal) ', goto]);
    const form =
      element('form', { onsubmit: (event) => this.#go(event, goto.value) }, [label, element('button', {}, ['Go'])]);
    this.root = element(
      'div', {}, [this.frame, element('div', { class: 'buttons' }, [this.earlier, this.later, form, this.told])]);
    this.show(this.#mark?.start ?? 0);
  }

  /** Shows the bytes round an offset, and scrolls to it. */
  show(offset) {
    const span = ROWS * this.#perRow;
    const start = Math.max(0, offset - span / 2);
    this.#start = start - (start % this.#perRow);
    this.#fill();
    const row = Math.floor((offset - this.#start) / this.#perRow);
    requestAnimationFrame(() => {
      const target = this.table.rows[row];
      if (target) this.frame.scrollTop = Math.max(0, target.offsetTop - this.frame.clientHeight / 3);
    });
  }

  #caption() {
    return element(
      'caption', { class: 'spoken' },
      ['Each row: the offset of its first byte, the bytes in hexadecimal, and as text.']);
  }

  #turn(step) {
    this.show(this.#start + ROWS * this.#perRow * (step + 0.5));
    this.frame.scrollTop = 0;
  }

  #go(event, value) {
    event.preventDefault();
    const offset = spelledOffset(value);
    const isThere = offset !== null && offset < this.#bytes.length;
    if (isThere) this.show(offset);
    this.told.textContent = isThere ?
      `Byte ${grouped(offset)} (0x${hexOffset(offset)}).` :
      `No such byte: ${plain(value)}. The last is ${
        hexOffset(Math.max(0, this.#bytes.length - 1))}, in hexadecimal as the view shows it.`;
  }

  #fill() {
    const end = Math.min(this.#bytes.length, this.#start + ROWS * this.#perRow);
    const rows = [];
    for (let at = this.#start; at < end; at += this.#perRow) rows.push(this.#row(at, Math.min(end, at + this.#perRow)));
    this.table.replaceChildren(...rows);
    this.earlier.disabled = this.#start === 0;
    this.later.disabled = end === this.#bytes.length;
    this.earlier.hidden = this.later.hidden = this.earlier.disabled && this.later.disabled;
    this.told.textContent = this.#bytes.length === 0 ?
      'There are no bytes.' :
      `Bytes ${grouped(this.#start)} to ${grouped(end - 1)} of ${grouped(this.#bytes.length)}, offsets in hexadecimal.`;
  }

  #row(start, end) {
    const digits = hexOffset(this.#bytes.length).length;
    return element('tr', {}, [
      element('th', { scope: 'row' }, [hexOffset(start, Math.max(4, digits))]),
      element('td', {}, this.#runs(start, end, (byte) => `${hexOffset(byte, 2)} `)),
      element(
        'td', { class: 'letters' },
        this.#runs(start, end, (byte) => (byte > 31 && byte < 127 ? String.fromCharCode(byte) : '·'))),
    ]);
  }

  /** The bytes of a row, with those of the mark in an element. */
  #runs(start, end, spell) {
    const { start: from, end: to } = this.#mark ?? { start: -1, end: -1 };
    const [low, high] = [from, to].map((at) => Math.min(Math.max(at, start), end));
    const spelled = (first, last) => Array.from(this.#bytes.subarray(first, last), spell).join('');
    const isBefore = from === to && from === low && (from < end || end === this.#bytes.length);
    if (low === high && !isBefore) return [spelled(start, end)];
    const marked = spelled(low, high);
    const gap = marked.endsWith(' ') ? ' ' : '';
    return [spelled(start, low), element('mark', {}, [gap ? marked.slice(0, -1) : marked]), gap, spelled(high, end)];
  }
}
