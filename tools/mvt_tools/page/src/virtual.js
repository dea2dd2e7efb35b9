// A table of any length of which only the rows in view are made. All rows are of one height.
import {element} from './dom.js';

/** A row's height, in letters of the page. */
const ROW = 2.25;
/** So many rows beyond the view are made. */
const BEYOND = 8;
/** No browser lays out boxes that are much higher, in pixels. */
const HIGHEST = 8_000_000;
/** The width of a column of sizes (text.js), in wide letters too. */
export const SIZES = '7.5rem';

export class VirtualRows {
  #count = 0;
  #made = { from: 0, end: 0 };
  #turn = 0;
  #wish = null;

  /**
   * `heads` are the cells of the head; `rowsOf(from, end)` gives what some rows show, or promises it; `cellsOf(shown, index)`
   * makes a row's cells, and `classOf(shown)` its class.
   */
  constructor({ label, heads, widths, rowsOf, cellsOf, classOf = () => null, height = 12 }) {
    this.rowsOf = rowsOf;
    this.cellsOf = cellsOf;
    this.classOf = classOf;
    this.rowHeight = Math.round(ROW * parseFloat(getComputedStyle(document.documentElement).fontSize));
    this.body = element('tbody');
    this.table = element('table', { 'aria-label': label }, [
      element('colgroup', {}, widths.map((width) => element('col', { style: width && `width: ${width}` }))),
      element('thead', {}, [element('tr', { 'aria-rowindex': 1 }, heads)]),
      this.body,
    ]);
    this.root = element(
      'div',
      { class: 'rows', tabindex: '0', role: 'region', 'aria-label': label, onkeydown: (event) => this.#press(event) },
      [this.table]);
    this.root.style.setProperty('--row', `${this.rowHeight}px`);
    this.root.style.maxHeight = `${height * ROW}rem`;
    this.root.addEventListener('scroll', () => this.#fill(), { passive: true });
    new ResizeObserver(() => this.#fill()).observe(this.root);
  }

  get count() {
    return this.#count;
  }

  /** How many rows there are now; those in view are asked for again where that is wanted. */
  resize(count, isNew = false) {
    this.#count = count;
    this.table.setAttribute('aria-rowcount', count + 1);
    this.#fill(true, isNew);
  }

  /** Makes the rows in view anew. */
  refresh() {
    this.#fill(true, true);
  }

  get #height() {
    return this.#count * this.rowHeight;
  }

  /** How many pixels of rows one pixel of scrolling passes. */
  get #pace() {
    return Math.max(1, this.#height / HIGHEST);
  }

  #inView() {
    const rows = Math.ceil((this.root.clientHeight || 10 * this.rowHeight) / this.rowHeight) + 1;
    const first =
      Math.min(Math.floor((this.root.scrollTop * this.#pace) / this.rowHeight), Math.max(0, this.#count - rows + 1));
    return { first, last: Math.min(this.#count, first + rows) };
  }

  async #fill(isWanted = false) {
    const { first, last } = this.#inView();
    if (!isWanted && first >= this.#made.from && last <= this.#made.end) return;
    const from = Math.max(0, first - BEYOND);
    const end = Math.min(this.#count, last + BEYOND);
    this.#turn += 1;
    const turn = this.#turn;
    this.#made = { from, end };
    const asked = this.rowsOf(from, end);
    const shown = asked instanceof Promise ? await asked.catch(() => null) : asked;
    if (turn === this.#turn && shown !== null) this.#put(from, end, shown);
  }

  #put(from, end, shown) {
    const held = this.#heldRow();
    const rows = shown.map(
      (each, place) => element(
        'tr', { class: this.classOf(each), 'aria-rowindex': from + place + 2 }, this.cellsOf(each, from + place)));
    const total = Math.min(this.#height, HIGHEST);
    const above = this.#pace === 1 ?
      from * this.rowHeight :
      Math.max(0, Math.min(this.root.scrollTop - BEYOND * this.rowHeight, total - (end - from) * this.rowHeight));
    const below = Math.max(0, total - above - (end - from) * this.rowHeight);
    this.body.replaceChildren(gap(above), ...rows, gap(below));
    this.#made = { from, end };
    this.#focus(this.#wish ?? held);
  }

  #heldRow() {
    const row = this.body.contains(document.activeElement) ? document.activeElement.closest('tr') : null;
    return row === null ? null : Number(row.getAttribute('aria-rowindex')) - 2;
  }

  #focus(index) {
    if (index === null) return;
    this.#wish = null;
    this.rowAt(index)?.querySelector('button, input')?.focus({ preventScroll: true });
  }

  /** The row of an index, if it is there. */
  rowAt(index) {
    return this.body.querySelector(`tr[aria-rowindex="${index + 2}"]`);
  }

  /** Brings a row into view; the focus goes there where that is wanted. */
  reveal(index, isFocused = false) {
    const top = (index * this.rowHeight) / this.#pace;
    const room = this.root.clientHeight - 2 * this.rowHeight;
    const { scrollTop } = this.root;
    if (top < scrollTop || top > scrollTop + room) this.root.scrollTop = Math.max(0, top - room / 2);
    this.#wish = isFocused ? index : null;
    this.#fill(true);
  }

  #press(event) {
    const steps = { ArrowDown: 1, ArrowUp: -1, PageDown: 10, PageUp: -10, Home: -Infinity, End: Infinity };
    if (!(event.key in steps) || event.target.closest('input, select, thead') || this.#count === 0) return;
    event.preventDefault();
    const here = this.#heldRow() ?? (event.key === 'ArrowDown' ? this.#inView().first - 1 : this.#inView().first);
    this.reveal(Math.min(this.#count - 1, Math.max(0, here + steps[event.key])), true);
  }
}

function gap(height) {
  return element('tr', { class: 'gap', 'aria-hidden': 'true', style: `height: ${height}px` }, []);
}
