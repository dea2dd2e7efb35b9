// Wheel, fingers and keys on the picture.
import {moved, zoomed} from './view.js';

/** So many pixels a pointer may move in a click. */
const STILL = 5;

/**
 * Listens on the paper. `hands` are `{view(), go(view), whole(), click(x, y), hover(x, y), leave()}`; places are in parts of
 * the paper's side.
 */
export class Gestures {
  #paper;
  #hands;
  #pointers = new Map();
  #start = null;
  #isStill = true;

  constructor(paper, hands) {
    this.#paper = paper;
    this.#hands = hands;
    const on = (name, listener, how) => paper.addEventListener(name, listener.bind(this), how);
    on('wheel', this.#wheel, { passive: false });
    on('keydown', this.#key);
    on('pointerdown', this.#down);
    on('pointermove', this.#move);
    on('pointerup', this.#up);
    on('pointercancel', this.#cancel);
    on('pointerleave', () => this.#hands.leave());
  }

  #at({ clientX, clientY }) {
    const box = this.#paper.getBoundingClientRect();
    return { x: (clientX - box.left) / box.width, y: (clientY - box.top) / box.height, side: box.width };
  }

  #wheel(event) {
    event.preventDefault();
    const lines = event.deltaMode === 1 ? 20 : 1;
    const { x, y } = this.#at(event);
    this.#hands.go(zoomed(this.#hands.view(), 2 ** ((-event.deltaY * lines) / 250), x, y));
  }

  #key(event) {
    const { key } = event;
    if (event.ctrlKey || event.altKey || event.metaKey || event.target !== this.#paper) return;
    const steps = { ArrowLeft: [-0.2, 0], ArrowRight: [0.2, 0], ArrowUp: [0, -0.2], ArrowDown: [0, 0.2] };
    if (key in steps) this.#hands.go(moved(this.#hands.view(), ...steps[key]));
    else if (key === '+' || key === '=') this.#hands.go(zoomed(this.#hands.view(), 1.6));
    else if (key === '-') this.#hands.go(zoomed(this.#hands.view(), 1 / 1.6));
    else if (key === '0' || key === 'Home') this.#hands.whole();
    else if (key === 'Enter') this.#hands.click(0.5, 0.5);
    else return;
    event.preventDefault();
  }

  #down(event) {
    if (event.target.closest('button')) return;
    this.#pointers.set(event.pointerId, this.#at(event));
    this.#paper.setPointerCapture(event.pointerId);
    if (this.#pointers.size === 1) this.#isStill = true;
    this.#begin();
  }

  /** Notes from where the fingers, as they are now, move. */
  #begin() {
    this.#start = { view: this.#hands.view(), ...middleOf([...this.#pointers.values()]) };
  }

  #move(event) {
    const here = this.#at(event);
    if (!this.#pointers.has(event.pointerId)) {
      if (event.pointerType === 'mouse') this.#hands.hover(here.x, here.y);
      return;
    }
    this.#pointers.set(event.pointerId, here);
    const now = middleOf([...this.#pointers.values()]);
    const { view, x, y, spread } = this.#start;
    const way = Math.hypot(now.x - x, now.y - y) * here.side;
    if (this.#isStill && this.#pointers.size === 1 && way < STILL) return;
    this.#isStill = false;
    const grown = spread > 0 && now.spread > 0 ? zoomed(view, now.spread / spread, x, y) : view;
    this.#hands.go(moved(grown, x - now.x, y - now.y));
  }

  #up(event) {
    if (!this.#pointers.delete(event.pointerId)) return;
    if (this.#pointers.size > 0) this.#begin();
    else if (this.#isStill) this.#hands.click(this.#at(event).x, this.#at(event).y);
  }

  #cancel(event) {
    this.#pointers.delete(event.pointerId);
    this.#isStill = false;
    if (this.#pointers.size > 0) this.#begin();
  }
}

/** The middle of some places, and how far two of them are apart. */
function middleOf(places) {
  const sum = (of) => places.reduce((total, place) => total + place[of], 0) / places.length;
  const [a, b = a] = places;
  return { x: sum('x'), y: sum('y'), spread: Math.hypot(a.x - b.x, a.y - b.y) };
}
