// The part of the page about one tile.
import {element, folded} from './dom.js';
import {foreign, plain} from './foreign.js';
import {HexView} from './hex.js';
import {jsonView} from './json-view.js';
import {Look} from './look.js';
import {isCurable, mendingOf} from './mended.js';
import {showFindings, showNotes} from './notes.js';
import {showFault} from './refused.js';
import {placeIn, stemOf} from './names.js';
import {Saving} from './saving.js';
import {counted, grouped, size, sizeWith} from './text.js';
import {lineOf, titleOf} from './verdict.js';
import {sayDifference} from './words.js';

/** Of a tile up to so many bytes it is looked at once whether it can be mended. */
const MOST_ASKED = 500_000;
const CANONICAL =
  'A tile may be spelled in many ways: fields in another order, numbers with more bytes than they need, keys that no feature has. The canonical form is one of them, the same for equal tiles, and never needed to draw them. “Save canonical bytes” writes it.';

/**
 * Shows a tile that the worker has open; `ways` lead back to a list, `place` is where it is in a store, and `data` are the rules
 * and what notes mean.
 */
export class TileView {
  #client;
  #name;
  #opened;
  #placed;
  #data;
  #jump = (layer, feature) => this.look?.chooseIn(layer, feature);

  constructor(client, name, opened, { ways = [], place = null, data }) {
    this.#client = client;
    this.#name = name;
    this.#opened = opened;
    this.#placed = place ?? placeIn(name);
    this.#data = data;
    const { verdict, note } = opened;
    this.title = element('h2', { tabindex: '-1' }, [foreign(name)]);
    this.rest = element('div');
    this.root = element('article', {}, [
      element('div', { class: 'titled' }, [this.title, ...ways]),
      element('p', { class: `verdict ${verdict.kind}` }, [this.#verdict]),
      note ? element('p', { class: 'note' }, [note]) : '',
      this.rest,
    ]);
  }

  get #verdict() {
    return titleOf(this.#opened.verdict, this.#opened.facts?.layers);
  }

  /** What is spoken of the tile: more, once the notes are known. */
  get told() {
    return `${plain(this.#name)}: ${this.#verdict}. ${lineOf(this.#opened.verdict)}`;
  }

  /** Makes the rest: for an accepted tile what it holds, for a refused one the fault. */
  async fill() {
    const { verdict, facts, place, shape } = this.#opened;
    if (place !== null) {
      const bytes = await this.#client.ask('bytes');
      const [fault, ...hex] = showFault(bytes, verdict, { place, shape }, this.#data.rules);
      this.rest.append(fault, ...(isCurable(verdict.fault) ? [this.#mending()] : []), ...hex);
    } else if (facts !== null) await this.#fillAccepted();
  }

  /** A button that mends the tile, and shows it then as any other. */
  #mending() {
    const stem = stemOf(this.#name);
    return mendingOf(stem, () => this.#client.ask('mended'), async (bytes) => {
      const name = `${stem}.mended.mvt`;
      const opened = await this.#client.ask('open', { source: bytes, name });
      return new TileView(this.#client, name, opened, { place: this.#placed, data: this.#data });
    }, this.#opened.length <= MOST_ASKED);
  }

  /** What takes longer, the notes and the canonical form, comes when the picture is drawn. */
  async #fillAccepted() {
    const { facts, why } = this.#opened;
    const canonical = element('p', { class: 'canonical' }, ['…']);
    const about = folded('What is canonical?', () => element('p', {}, [CANONICAL]));
    const notes = element('div');
    const saving = new Saving(this.#client, this.#name, this.#placed);
    if (why === null) this.look = new Look(this.#client, facts, (picture) => saving.layers(picture));
    const looking = this.look?.root ?? element('p', { class: 'quiet' }, [`There is no picture: ${why}.`]);
    const buttons = element(
      'div', { class: 'buttons' },
      [saving.canonical, saving.picture(() => this.look?.picture), saving.json, saving.geojson, saving.told]);
    this.rest.append(
      this.#facts(), canonical, about, notes, looking, buttons, folded('JSON', () => jsonView(this.#client)),
      this.#bytes());
    if (!document.hidden) await this.look?.picture.drawn;
    notes.append(this.#notes(await this.#client.ask('report')));
    notes.append(this.#findings(await this.#client.ask('lint')));
    this.look?.layers.weigh(await this.#client.ask('sizes'));
    this.#sayCanonical(canonical, await this.#client.ask('canonical'));
  }

  #facts() {
    const { length, size: own, note, facts: { layers, features, points } } = this.#opened;
    const positions = points === undefined ? '' : `, ${counted(points, 'position')}`;
    return element(
      'p', { class: 'facts' },
      [`${sizeWith(own, length, note)}, ${counted(layers, 'layer')}, ${counted(features, 'feature')}${positions}.`]);
  }

  #notes({ notes, why }) {
    this.#opened.verdict.notes = notes;
    if (why !== null) return element('p', { class: 'quiet' }, [`Whether there are notes isn’t known: ${why}.`]);
    return notes.length === 0 ? '' : showNotes(this.#client, notes, this.#data.notes ?? {}, this.#jump);
  }

  #findings(kinds) {
    if (kinds === null)
      return element(
        'p', { class: 'quiet' }, ['Whether viewers stumble over it isn’t known: there is no memory for it.']);
    return kinds.length === 0 ? '' : showFindings(this.#client, kinds, this.#data.findings ?? {}, this.#jump);
  }

  #sayCanonical(box, { isSame, length, difference, status }) {
    if (isSame) box.textContent = 'In canonical form.';
    else if (status !== undefined)
      box.textContent = 'Not in canonical form, which would be more than 64 MiB or more than the memory there is.';
    else {
      const first = difference === null ? '' : ` First difference, at byte ${sayDifference(difference)}`;
      const long = length === this.#opened.length ? 'is as long' : `has ${size(length)}`;
      box.textContent = `Not in canonical form, which ${long}.${first}`;
    }
  }

  #bytes() {
    return folded('Bytes', () => {
      const box = element('div');
      this.#client.ask('bytes').then((bytes) => box.append(new HexView(bytes, null).root));
      return box;
    });
  }
}
