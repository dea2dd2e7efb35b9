// A small map of a zoom of a store: where its tiles lie, and which of them are broken.
import {element} from './dom.js';
import {counted, grouped} from './text.js';

/** So many cells are on a side at most; where there are more tiles, a cell is a square of several. */
const CELLS = 64;
/** So many tiles are on a map at most. */
const MAPPED = 200_000;
/** The side of the picture in pixels, and the least side of a broken cell. */
const PIXELS = 512;
const LEAST_BROKEN = 7;

export class StoreMap {
  #codec;
  #path;
  #hands;
  #turn = 0;
  #asking = new AbortController();
  #tiles = [];
  #z = 0;

  /** `path` is the store's; `hands` are `{open(place), failed(error)}`. */
  constructor(codec, path, hands) {
    this.#codec = codec;
    this.#path = path;
    this.#hands = hands;
    this.zoom = element(
      'input', { type: 'number', min: '0', max: '30', value: '0', required: true, 'aria-label': 'Zoom of the map' });
    this.ending = element('button', { type: 'button', hidden: true, onclick: () => this.#stopped() }, ['Stop']);
    const form =
      element('form', {}, [element('label', {}, ['Zoom ', this.zoom]), element('button', {}, ['Draw']), this.ending]);
    form.addEventListener('submit', (event) => {
      event.preventDefault();
      this.draw(Number(this.zoom.value));
    });
    this.canvas = element('canvas', { width: PIXELS, height: PIXELS, role: 'img', hidden: true });
    this.canvas.addEventListener('click', (event) => this.#choose(event));
    this.told = element('p', { class: 'quiet', role: 'status' });
    this.root =
      element('div', { class: 'map' }, [element('div', { class: 'buttons' }, [form]), this.canvas, this.told]);
  }

  /** Ends what is asked for. */
  stop() {
    this.#asking.abort();
    this.#asking = new AbortController();
    this.#turn += 1;
    this.ending.hidden = true;
    return this.#turn;
  }

  /** Draws a zoom, some tiles after others. */
  async draw(z) {
    const turn = this.stop();
    this.#z = z;
    this.#tiles = [];
    this.zoom.value = String(z);
    this.ending.hidden = false;
    this.#show('…');
    try {
      let next = '';
      while (next !== null && this.#tiles.length < MAPPED) {
        const told = await this.#codec.told(`${this.#path}/zoom?z=${z}${next}`, this.#asking.signal);
        if (turn !== this.#turn) return;
        for (const tile of told.tiles) this.#tiles.push(tile);
        next = told.next === null ? null : `&from=${encodeURIComponent(told.next)}`;
        this.#show(next === null ? '' : this.#tiles.length < MAPPED ? ' so far …' : '; there may be more.');
      }
      this.ending.hidden = true;
    } catch (error) {
      if (turn === this.#turn) this.#failed(error);
    }
  }

  #failed(error) {
    this.ending.hidden = true;
    this.told.textContent = '';
    this.#hands.failed(error);
  }

  #stopped() {
    this.stop();
    this.#show('; stopped.');
  }

  /** Shows what is there, and tells of it; `behind` ends the sentence. */
  #show(behind) {
    const broken = this.#tiles.filter(([, , isBroken]) => isBroken).length;
    const words = `Zoom ${this.#z}: ${counted(this.#tiles.length, 'tile')}, ${grouped(broken)} broken${behind}`;
    const hint = broken > 0 ? ' A click opens a broken one.' : '';
    this.told.textContent = `${words}${behind === '' ? '.' : ''}${hint}`;
    this.canvas.setAttribute('aria-label', words);
    this.canvas.hidden = this.#tiles.length === 0;
    if (this.#tiles.length > 0) this.#paint();
  }

  /** The cells by their number, each `{x, y, tile}`: the tile is the first broken one in it, or else the first. */
  #cells() {
    const { left, top, shift, count } = boxOf(this.#tiles);
    const cells = new Map();
    for (const tile of this.#tiles) {
      const [x, y] = [(tile[0] - left) >> shift, (tile[1] - top) >> shift];
      const held = cells.get(y * count + x);
      if (held === undefined || (tile[2] && !held.tile[2])) cells.set(y * count + x, { x, y, tile });
    }
    return { cells: [...cells.values()], side: PIXELS / count };
  }

  #paint() {
    const context = this.canvas.getContext('2d');
    const colour = (name) => getComputedStyle(document.documentElement).getPropertyValue(name);
    const { cells, side } = this.#cells();
    context.fillStyle = colour('--card');
    context.fillRect(0, 0, PIXELS, PIXELS);
    for (const isBroken of [false, true]) {
      context.fillStyle = colour(isBroken ? '--bad' : '--edge');
      const grown = isBroken ? Math.max(0, LEAST_BROKEN - side) / 2 : 0;
      for (const { x, y, tile } of cells) {
        if (tile[2] === isBroken)
          context.fillRect(
            x * side - grown, y * side - grown, side + 2 * grown - (side > 8 ? 1 : 0),
            side + 2 * grown - (side > 8 ? 1 : 0));
      }
    }
  }

  /** Opens what was clicked: a broken tile within some pixels, or else the tile there. */
  #choose({ offsetX, offsetY }) {
    const scale = PIXELS / this.canvas.clientWidth;
    const { cells, side } = this.#cells();
    const far = ({ x, y }) =>
      Math.max(Math.abs((x + 0.5) * side - offsetX * scale), Math.abs((y + 0.5) * side - offsetY * scale)) - side / 2;
    const near = cells.filter((cell) => far(cell) <= (cell.tile[2] ? LEAST_BROKEN : 0))
                   .sort((a, b) => b.tile[2] - a.tile[2] || far(a) - far(b));
    if (near.length > 0) this.#hands.open({ z: this.#z, x: near[0].tile[0], y: near[0].tile[1] });
  }
}

/** A square round tiles, in cells: where it begins, by how many bits a cell's place is shorter, and how many are on a side. */
export function boxOf(tiles) {
  const edges = [Infinity, Infinity, -Infinity, -Infinity];
  for (const [x, y] of tiles) {
    edges[0] = Math.min(edges[0], x);
    edges[1] = Math.min(edges[1], y);
    edges[2] = Math.max(edges[2], x);
    edges[3] = Math.max(edges[3], y);
  }
  const [left, top, right, bottom] = edges;
  const side = Math.max(right - left, bottom - top) + 1;
  const shift = Math.max(0, Math.ceil(Math.log2(side / CELLS)));
  return { left, top, shift, count: ((side - 1) >> shift) + 1 };
}
