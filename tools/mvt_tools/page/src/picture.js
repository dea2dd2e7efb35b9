// The picture of a tile: the worker draws it, and the page moves what was drawn until the next frame comes.
import {element} from './dom.js';
import {foreignLine} from './foreign.js';
import {Gestures} from './gestures.js';
import {onTurned, paletteNow} from './palette.js';
import {counted, grouped} from './text.js';
import {ROUND, WHOLE, transformOf, viewOf, zoomed} from './view.js';

/** What is so near the pointer, in pixels, is found. */
const REACH = 8;
/** A frame's side has at most so many pixels. */
const MOST_PIXELS = 2048;
/** So many of the features under the pointer are named there. */
const TIPS = 6;

export class Picture {
  #client;
  #facts;
  #view = WHOLE;
  #frames = { base: WHOLE, marks: WHOLE };
  #marked = [];
  #asked = 0;
  #isHovering = false;
  #first = Promise.withResolvers();
  hidden;
  chosenColours = {};

  /** `facts` are the counts of a tile's rows; `chosen(found)` is told what was clicked at. */
  constructor(client, facts, chosen) {
    this.#client = client;
    this.#facts = facts;
    this.chosen = chosen;
    this.hidden = new Uint8Array(facts.layers);
    const told = `The tile’s picture: ${counted(facts.layers, 'layer')}, ${counted(facts.features, 'feature')}, ${
      counted(facts.points, 'position')}.`;
    this.base = element('canvas', { class: 'base', role: 'img', 'aria-label': told });
    this.marks = element('canvas', { class: 'marks', 'aria-hidden': 'true' });
    this.tip = element('div', { class: 'tip', 'aria-hidden': 'true', hidden: true });
    this.state = element('span', { class: 'state', role: 'status' });
    this.stop =
      element('button', { type: 'button', hidden: true, onclick: () => client.ask('stopDrawing') }, ['Stop drawing']);
    this.paper = element(
      'div', {
        class: 'paper',
        tabindex: '0',
        role: 'group',
        'aria-label': 'Picture. Arrow keys move it, plus and minus zoom, 0 shows the whole tile.'
      },
      [this.base, this.marks, this.tip]);
    this.beyond = element('input', { type: 'checkbox', onchange: () => this.whole() });
    this.root = element('div', { class: 'sheet' }, [this.paper, this.#tools()]);
    new Gestures(this.paper, {
      view: () => this.#view,
      go: (view) => this.go(view),
      whole: () => this.whole(),
      click: (x, y) => this.#click(x, y),
      hover: (x, y) => this.#hover(x, y),
      leave: () => this.#leave(),
    });
    new ResizeObserver(() => this.#resized()).observe(this.paper);
    onTurned(() => this.paper.isConnected && this.redraw());
  }

  #tools() {
    const tool = (title, name, act) =>
      element('button', { type: 'button', class: 'tool', 'aria-label': name, title: name, onclick: act }, [title]);
    return element('div', { class: 'buttons tools' }, [
      tool('+', 'Zoom in', () => this.go(zoomed(this.#view, 2))),
      tool('−', 'Zoom out', () => this.go(zoomed(this.#view, 0.5))),
      tool('Whole tile', 'Show the whole tile', () => this.whole()),
      element('label', {}, [this.beyond, ' what lies beyond the edge']),
      this.stop,
      this.state,
    ]);
  }

  /** Resolves when the picture has been drawn for the first time, or its drawing was stopped. */
  get drawn() {
    return this.#first.promise;
  }

  get #home() {
    return this.beyond.checked ? ROUND : WHOLE;
  }

  whole() {
    this.go(this.#home);
  }

  /** Shows another part of the tile. */
  go(view) {
    this.#view = view;
    this.paper.classList.toggle('moved', view !== WHOLE && view !== ROUND);
    this.#lay();
    this.redraw();
  }

  /** Shows a feature's box, `[left, top, right, bottom]`. */
  goTo(box) {
    if (box.every(Number.isFinite)) this.go(viewOf(box));
  }

  #lay() {
    for (const layer of ['base', 'marks']) this[layer].style.transform = transformOf(this.#frames[layer], this.#view);
  }

  #resized() {
    if (this.paper.clientWidth > 0 && this.base.width !== this.#width) this.redraw();
  }

  get #width() {
    return Math.max(1, Math.min(MOST_PIXELS, Math.round(this.paper.clientWidth * devicePixelRatio)));
  }

  #plan() {
    const { layers, edge, ink, paper } = paletteNow();
    return {
      view: this.#view,
      width: this.#width,
      scale: this.#width / Math.max(1, this.paper.clientWidth),
      hidden: this.hidden,
      palette: layers,
      chosen: this.chosenColours,
      isCut: !this.beyond.checked,
      edge,
      ink,
      paper,
    };
  }

  /** Has the frame drawn anew, once for all that happens until the browser shows the next. */
  redraw() {
    this.#asked += 1;
    const asked = this.#asked;
    this.paper.dataset.state = 'drawing';
    requestAnimationFrame(() => asked === this.#asked && this.#draw(asked).catch((error) => this.#fail(error)));
  }

  async #draw(asked) {
    const plan = this.#plan();
    const show = ({ frame, behind }) => {
      if (asked !== this.#asked) return frame.close();
      this.#show('base', frame, plan.view);
      return this.#say(behind, false);
    };
    const last = await this.#client.ask('draw', plan, show);
    if (asked !== this.#asked) return last.frame.close();
    this.#show('base', last.frame, plan.view);
    this.#say(last.behind, true, last.isDone);
    this.#first.resolve();
    return this.#mark();
  }

  #fail(error) {
    this.#first.reject(error);
    throw error;
  }

  #show(layer, frame, view) {
    const canvas = this[layer];
    [canvas.width, canvas.height] = [frame.width, frame.height];
    canvas.getContext('bitmaprenderer').transferFromImageBitmap(frame);
    this.#frames[layer] = view;
    this.#lay();
  }

  #say(behind, isLast, isDone = false) {
    this.stop.hidden = isLast;
    const part = `${grouped(behind)} of ${counted(this.#facts.features, 'feature')}`;
    this.state.textContent = isDone ? '' : isLast ? `Stopped after ${part}.` : `Drawing: ${part} …`;
    if (isLast) this.paper.dataset.state = isDone ? 'drawn' : 'stopped';
  }

  // ---- features that are marked

  /** Marks features, by their places. */
  mark(places) {
    this.#marked = places;
    return this.#mark();
  }

  async #mark() {
    const plan = this.#plan();
    const { frame } = await this.#client.ask('mark', { plan, places: this.#marked });
    if (plan.view === this.#view) this.#show('marks', frame, plan.view);
    else frame.close();
  }

  #near(x, y) {
    const { view, hidden } = this.#plan();
    const reach = (REACH / this.paper.clientWidth) * view.size;
    return this.#client.ask('near', { x: view.x + x * view.size, y: view.y + y * view.size, reach, hidden });
  }

  async #click(x, y) {
    this.tip.hidden = true;
    this.chosen(await this.#near(x, y));
  }

  // One question at a time: while it waits, further moves are let go.
  async #hover(x, y) {
    if (this.#isHovering) return;
    this.#isHovering = true;
    const { count, features } = await this.#near(x, y).finally(() => {
      this.#isHovering = false;
    });
    this.paper.classList.toggle('near', count > 0);
    this.tip.hidden = count === 0;
    const lines = features.slice(0, TIPS).map((feature) => element('div', {}, tipOf(feature)));
    this.tip.replaceChildren(...lines, count > TIPS ? element('div', {}, [`and ${grouped(count - TIPS)} more`]) : '');
    this.tip.style.left = `${100 * Math.min(x, 0.55)}%`;
    this.tip.style.top = y < 0.7 ? `calc(${100 * y}% + 1rem)` : 'auto';
    this.tip.style.bottom = y < 0.7 ? 'auto' : `calc(${100 - 100 * y}% + 1rem)`;
  }

  #leave() {
    this.tip.hidden = true;
  }
}

/** A feature in a few words: its layer, and what tells it from others. */
export function tipOf({layerName, index, id, shape, first}) {
  const name = layerName === '' ? '(no name)' : layerName;
  return [
    element('b', {}, [foreignLine(name, 40)]),
    ` ${shape} ${grouped(index)}`,
    id === null ? '' : `, id ${id}`,
    ...(first === null ? [] : [', ', foreignLine(first.key, 24), ' ', foreignLine(first.text, 40)]),
  ];
}
