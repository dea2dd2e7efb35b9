// The table of a layer's features: a row leads to the picture, and a feature there leads back.
import {element} from './dom.js';
import {foreignLine, plain} from './foreign.js';
import {counted, grouped} from './text.js';
import {VirtualRows} from './virtual.js';

/** The widths of a column of keys and of the first three, in letters. */
const COLUMN = 10;
const FIRST = [6, 8, 6];

export class FeatureView {
  #client;
  #layer;
  #asked = 0;
  #chosen = null;

  /** `choose(place)` shows a feature in the picture. */
  constructor(client, layer, choose) {
    this.#client = client;
    this.#layer = layer;
    this.choose = choose;
    this.name = layer.name === '' ? '(no name)' : layer.name;
    const filter = element(
      'input', { type: 'search', 'aria-label': 'Filter the features', placeholder: 'filter by id, shape or value' });
    filter.addEventListener('input', () => this.filter(filter.value));
    this.filterField = filter;
    this.told = element('span', { class: 'quiet', role: 'status' });
    this.box = element('div');
    this.title = element('h3', { tabindex: '-1' }, ['Features of ', foreignLine(this.name)]);
    this.root = element('section', { class: 'features', 'aria-label': `Features of ${plain(this.name, 60)}` }, [
      this.title,
      element('div', { class: 'buttons' }, [filter, this.told]),
      this.box,
    ]);
  }

  /** Lets through the features with a text; the table is made when it is asked for the first time. */
  async filter(wanted) {
    this.#asked += 1;
    const asked = this.#asked;
    const { count, columns, keyCount } = await this.#client.ask('table', { layer: this.#layer.index, wanted });
    if (asked !== this.#asked) return;
    this.table ??= this.#made(columns);
    const all = this.#layer.features.len;
    const cut =
      keyCount > columns.length && columns.length === 60 ? ` The first ${columns.length} keys have columns.` : '';
    this.told.textContent =
      `${count === all ? counted(all, 'feature') : `${grouped(count)} of ${counted(all, 'feature')}`}.${cut}`;
    this.table.resize(count, true);
  }

  #made(columns) {
    const table = new VirtualRows({
      label: `Features of ${plain(this.name, 60)}`,
      height: 12,
      heads: ['feature', 'id', 'shape']
               .map((head) => element('th', { scope: 'col' }, [head]))
               .concat(
                 columns.map((key) => element('th', { scope: 'col', title: plain(key, 500) }, [foreignLine(key, 60)]))),
      widths: [...FIRST, ...columns.map(() => COLUMN)].map((width) => `${width}rem`),
      rowsOf: (from, end) => this.#client.ask('tableRows', { layer: this.#layer.index, from, end }),
      cellsOf: (row) => this.#cells(row, columns),
      classOf: ({ place }) => (place === this.#chosen ? 'current' : null),
    });
    table.table.style.width = `${[...FIRST, ...columns.map(() => COLUMN)].reduce((sum, width) => sum + width, 0)}rem`;
    table.table.style.minWidth = '100%';
    this.box.replaceChildren(table.root);
    return table;
  }

  #cells({ place, index, id, shape, cells }, columns) {
    const first = cells.findIndex((cell) => cell !== null);
    const about = [
      id === null ? null : `id ${id}`, first === -1 ? null : `${plain(columns[first], 40)} ${plain(cells[first], 40)}`
    ];
    const name = `Show feature ${[grouped(index), ...about.filter(Boolean)].join(', ')} in the picture`;
    const button = element(
      'button', {
        type: 'button',
        class: 'link',
        'aria-label': name,
        'aria-current': place === this.#chosen && 'true',
        onclick: () => this.choose(place)
      },
      [grouped(index)]);
    return [
      element('th', { scope: 'row' }, [button]),
      element('td', {}, [id ?? '']),
      element('td', {}, [shape]),
      ...cells.map(
        (cell) => element('td', { title: cell && plain(cell, 500) }, cell === null ? [] : [foreignLine(cell)])),
    ];
  }

  /** Tells which feature is chosen; null where it is none of this layer. */
  mark(place) {
    this.#chosen = place;
    this.table?.refresh();
  }

  /** Brings a feature's row into view, and the focus to it. */
  async show(place) {
    let row = await this.#client.ask('rowOf', { layer: this.#layer.index, place });
    if (row === -1) {
      this.filterField.value = '';
      await this.filter('');
      row = await this.#client.ask('rowOf', { layer: this.#layer.index, place });
    }
    this.root.scrollIntoView({ block: 'nearest' });
    this.table.reveal(row, true);
  }
}
