// The layers of a tile: switched on, off or alone, in colours that may be chosen, each with a way to its features.
import {element} from './dom.js';
import {foreignLine, plain} from './foreign.js';
import {paletteNow} from './palette.js';
import {counted, grouped, shortSize} from './text.js';
import {VirtualRows} from './virtual.js';

export class LayerList {
  #client;
  #picture;
  #alone = null;
  #sizes = [];

  /** `picture` shows the layers; `open(layer)` shows the table of one. */
  constructor(client, facts, picture, open) {
    this.#client = client;
    this.#picture = picture;
    this.count = facts.layers;
    this.open = open;
    const heads = ['Layer', 'Features', 'Size', ''].map(
      (head) => element('th', { scope: 'col', class: (head === 'Features' || head === 'Size') && 'number' }, [head]));
    this.table = new VirtualRows({
      label: 'Layers',
      heads,
      widths: [null, '5.5rem', '5.5rem', '8rem'],
      height: 9,
      rowsOf: (from, end) => client.ask('layers', { from, end }),
      cellsOf: (layer) => this.#cells(layer),
    });
    const all = (name, act) => element('button', { type: 'button', onclick: act }, [name]);
    this.root = element('section', { class: 'layers', 'aria-label': 'Layers' }, [
      this.table.root,
      element(
        'div', { class: 'buttons' },
        this.count > 1 ? [all('All layers', () => this.#only(null)), all('No layer', () => this.#only(-1))] : []),
    ]);
    this.table.resize(this.count);
  }

  /** Tells the layers' sizes, by their indices; null where they aren't known. */
  weigh(sizes) {
    this.#sizes = sizes ?? [];
    this.table.refresh();
  }

  /** Shows one layer alone; -1 is none, and null all. */
  #only(index) {
    this.#picture.hidden.fill(index === null ? 0 : 1);
    if (index !== null && index >= 0) this.#picture.hidden[index] = 0;
    this.#alone = index;
    this.table.refresh();
    this.#picture.redraw();
  }

  #cells(layer) {
    const name = layer.name === '' ? '(no name)' : layer.name;
    if (layer.version !== 2) {
      const told = `Layer ${grouped(layer.index)}: version ${grouped(layer.version)}, not looked into, ${
        counted(layer.bytes, 'byte')}`;
      return [element('th', { scope: 'row', colspan: 4, class: 'foreign', title: told }, [told])];
    }
    const { hidden } = this.#picture;
    const spoken = plain(name, 60);
    const isOn = hidden[layer.index] !== 1;
    const box = element('input', { type: 'checkbox', checked: isOn, 'aria-label': `Show ${spoken}` });
    box.addEventListener('change', () => {
      hidden[layer.index] = box.checked ? 0 : 1;
      this.#alone = null;
      this.table.refresh();
      this.#picture.redraw();
    });
    const isAlone = this.#alone === layer.index;
    const alone = element(
      'button', {
        type: 'button',
        'aria-pressed': String(isAlone),
        'aria-label': `Show only ${spoken}`,
        onclick: () => this.#only(isAlone ? null : layer.index)
      },
      ['only']);
    const open = element(
      'button', { type: 'button', 'aria-label': `The features of ${spoken}`, onclick: () => this.open(layer) },
      ['table']);
    const { bytes, geometry } = this.#sizes[layer.index] ?? {};
    const weight =
      bytes === undefined ? '' : `, ${counted(bytes, 'byte')}, of which ${grouped(geometry)} are geometries`;
    const about = `${counted(layer.features.len, 'feature')}, extent ${grouped(layer.extent)}, ${
      counted(layer.keys.len, 'key')}, ${counted(layer.values.len, 'value')}${weight}`;
    return [
      element(
        'th', { scope: 'row', title: `${plain(name, 500)}: ${about}` },
        [element('label', {}, [box, ' ', this.#colour(layer, spoken), ' ', foreignLine(name)])]),
      element('td', { class: 'number' }, [grouped(layer.features.len)]),
      element('td', { class: 'number' }, [bytes === undefined ? '' : shortSize(bytes)]),
      element('td', { class: 'acts' }, [this.count > 1 ? alone : '', ' ', open]),
    ];
  }

  #colour({ index }, spoken) {
    const { layers } = paletteNow();
    const value = this.#picture.chosenColours[index] ?? layers[index % layers.length];
    const input =
      element('input', { type: 'color', value, 'aria-label': `The colour of ${spoken}`, title: 'Choose a colour' });
    input.addEventListener('input', () => {
      this.#picture.chosenColours[index] = input.value;
      this.#picture.redraw();
    });
    return input;
  }
}
