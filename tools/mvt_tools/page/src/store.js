// A store of tiles: its list, which comes some at a time as it is looked at, and the search for broken ones.
import {element, folded} from './dom.js';
import {foreign, foreignLine} from './foreign.js';
import {StoreMap} from './map.js';
import {beyondOf, placeOf, spelledPlace, verdictOfRow} from './stored.js';
import {counted, grouped, size} from './text.js';
import {lineOf} from './verdict.js';
import {SIZES, VirtualRows} from './virtual.js';
import {BRIEF} from './words.js';

/** So many tiles are asked for at a time. */
const ASKED_TILES = 200;

export class StoreList {
  #codec;
  #path;
  #hands;
  #rows = [];
  #next = null;
  #isAtStart = true;
  #isLoading = false;
  #isStopped = false;
  #turn = 0;
  #asking = new AbortController();
  #open = null;
  #openRow = null;

  /**
   * The store of a number, `{name, kind}`. `hands` are `{open(tile), busy(words, stop), done(), failed(error)}`: a tile is
   * `{key, name, place, source}`, where the place is null for one that has none.
   */
  constructor(codec, number, { name, kind }, hands) {
    this.#codec = codec;
    this.#path = `stores/${number}`;
    this.#hands = hands;
    this.title = element('h2', { tabindex: '-1' }, [foreign(name), ` (${kind})`]);
    this.told = element('span', { class: 'quiet', role: 'status' });
    this.problem = element('span', { class: 'problem', role: 'alert' });
    const heads = [['Tile'], ['Size', 'size'], ['Verdict']].map(
      ([head, kindOf]) => element('th', { scope: 'col', class: kindOf ?? null }, [head]));
    this.table = new VirtualRows({
      label: 'Tiles',
      heads,
      widths: ['9rem', SIZES, null],
      height: 13,
      classOf: (row) => `${row.told.kind}${row === this.#openRow ? ' current' : ''}`,
      rowsOf: (from, end) => this.#some(from, end),
      cellsOf: (row) => this.#cells(row),
    });
    this.map =
      new StoreMap(codec, this.#path, { open: (place) => hands.open(this.tileAt(place)), failed: hands.failed });
    const map = folded('Map of a zoom', () => this.#mapped());
    this.root = element('div', { class: 'list store' }, [
      this.title,
      element('div', { class: 'buttons' }, [...this.#searching(), ...this.#placing(), this.told, this.problem]), map,
      this.table.root
    ]);
  }

  /** The map, at first of the zoom of the tile that is open, or of the first tile. */
  #mapped() {
    const z = this.#open?.place?.z ?? this.#rows.find((row) => row.z !== null)?.z ?? 0;
    this.map.draw(z);
    return this.map.root;
  }

  // ---- what can be done

  #searching() {
    const options = [
      ['', 'all tiles'], ['broken', 'broken tiles'],
      ...Object.entries(BRIEF).map(([cause, words]) => [cause, `${cause}: ${words}`])
    ];
    this.only = element(
      'select', { 'aria-label': 'Which tiles' },
      options.map(([value, words]) => element('option', { value }, [words])));
    this.only.addEventListener('change', () => this.load());
    const first = element('button', { type: 'button', onclick: () => this.search('') }, ['First broken']);
    const next = element('button', { type: 'button', onclick: () => this.searchOn() }, ['Next broken']);
    return [this.only, first, next];
  }

  #placing() {
    const input = element('input', {
      type: 'text',
      'aria-label': 'A tile’s zoom, column and row',
      placeholder: 'z/x/y',
      size: '14',
      spellcheck: 'false'
    });
    const form = element('form', {}, [input, element('button', {}, ['Go'])]);
    form.addEventListener('submit', (event) => {
      event.preventDefault();
      const place = placeOf(input.value);
      this.problem.textContent = place === null ? 'A tile is named z/x/y, as 5/17/11.' : '';
      if (place !== null) this.#hands.open(this.tileAt(place));
    });
    this.start = element('button', { type: 'button', hidden: true, onclick: () => this.load() }, ['From the start']);
    this.on = element('button', { type: 'button', hidden: true, onclick: () => this.#more() }, ['Go on']);
    return [form, this.start, this.on];
  }

  /** A tile by its place, whose key isn't known. */
  tileAt(place) {
    return { key: null, name: spelledPlace(place), place, source: `${this.#path}/${spelledPlace(place)}` };
  }

  #tileOf({ key, z, x, y, name }) {
    const place = z === null ? null : { z, x, y };
    return {
      key,
      name: name ?? spelledPlace(place),
      place,
      source: `${this.#path}/tile?key=${encodeURIComponent(key)}`
    };
  }

  // ---- the list

  /** Begins the list anew: at the start, or as `from` says, which is words of the query. */
  async load(from = '') {
    this.stop();
    this.#isLoading = true;
    this.#rows = [];
    this.#openRow = null;
    this.#next = from;
    this.#isAtStart = from === '';
    this.start.hidden = this.#isAtStart;
    this.table.root.scrollTop = 0;
    this.table.resize(0, true);
    await this.#more();
  }

  /** Ends what is asked for. */
  stop() {
    this.#nextTurn();
    this.#isLoading = false;
    this.#hands.done();
  }

  /** Gives up what is asked for, and begins a turn. */
  #nextTurn() {
    this.#asking.abort();
    this.#asking = new AbortController();
    this.#turn += 1;
    return this.#turn;
  }

  #some(from, end) {
    if (end === this.#rows.length && this.#next !== null && !this.#isLoading && !this.#isStopped) this.#more();
    return this.#rows.slice(from, end);
  }

  /** Asks for more of the list, until some come or there are none. */
  async #more() {
    const before = this.#rows.length;
    this.#setStopped(false);
    await this.#ask(true, async (turn) => {
      while (this.#next !== null && this.#rows.length === before) {
        const told = await this.#tiles(`count=${ASKED_TILES}&only=${this.only.value}&${this.#next}`);
        if (turn !== this.#turn) return;
        const rows = told.tiles.map((row) => ({...row, told: verdictOfRow(row) }));
        this.#rows.push(...rows);
        this.#openRow ??= this.#openAmong(rows);
        this.#next = told.next === null ? null : behind(told.next);
      }
      this.#isLoading = false;
      this.#say();
    });
  }

  #tiles(query) {
    return this.#codec.told(`${this.#path}/tiles?${query}`, this.#asking.signal);
  }

  /** Does what asks the server, and tells meanwhile that it may be stopped; `turn` tells whether it was. */
  async #ask(isLoading, does) {
    this.#isLoading = isLoading;
    const turn = this.#nextTurn();
    const isNow = () => turn === this.#turn;
    const timer =
      setTimeout(() => isNow() && this.#hands.busy(['Looking through the store …'], () => this.#stopped()), 200);
    try {
      await does(turn);
    } catch (error) {
      if (isNow()) this.#hands.failed(error);
    }
    clearTimeout(timer);
    if (isNow()) this.#hands.done();
  }

  #stopped() {
    this.stop();
    this.#setStopped(true);
    this.told.textContent = `Stopped. ${this.told.textContent}`;
  }

  #setStopped(isStopped) {
    this.#isStopped = isStopped;
    this.on.hidden = !isStopped;
  }

  #say() {
    const what = counted(this.#rows.length, this.only.value === '' ? 'tile' : 'broken tile');
    const where = this.#isAtStart ? '' : ' from here on';
    this.told.textContent =
      this.#next === null ? `${what}${where}, which are all.` : `${what}${where} so far; scroll on for more.`;
    this.table.resize(this.#rows.length, true);
  }

  #cells(row) {
    const tile = this.#tileOf(row);
    const line = [lineOf(row.told), beyondOf(tile.place)].filter(Boolean).join('; ');
    const open = element(
      'button', {
        type: 'button',
        class: 'link',
        'aria-current': row === this.#openRow && 'true',
        onclick: () => this.#hands.open(tile)
      },
      [foreignLine(tile.name, 200)]);
    return [
      element('th', { scope: 'row' }, [open]),
      element('td', { class: 'size' }, [row.size === null ? '' : size(row.size)]),
      element('td', { title: line }, [line]),
    ];
  }

  /** Tells which tile is open below. */
  choose(tile) {
    this.#open = tile;
    this.#openRow = this.#openAmong(this.#rows);
    this.table.refresh();
  }

  /** The row of the open tile, if some rows have it: by its key, or by its place where the key isn't known. */
  #openAmong(rows) {
    if (this.#open === null) return null;
    const { key, place } = this.#open;
    const isOpen =
      key !== null ? (row) => row.key === key : ({ z, x, y }) => z === place.z && x === place.x && y === place.y;
    return rows.find(isOpen) ?? null;
  }

  /** Brings the open tile's row into view, and the focus to it. */
  reveal() {
    const row = this.#openRow;
    if (row !== null) this.table.reveal(this.#rows.indexOf(row), true);
    else this.title.focus();
  }

  // ---- broken tiles

  /** Searches behind the tile that is open, or from the first on. */
  searchOn() {
    const { key = null, name } = this.#open ?? {};
    return this.search(key !== null ? behind(key) : name === undefined ? '' : `past=${name}`);
  }

  /** Opens the first broken tile from a place of the list on: one that breaks the rule that is chosen, or any. */
  search(from) {
    return this.#ask(false, async (turn) => {
      const only = this.only.value === '' ? 'broken' : this.only.value;
      let looked = 0;
      for (let next = from;;) {
        const told = await this.#tiles(`count=1&only=${only}&${next}`);
        if (turn !== this.#turn) return;
        looked += told.looked;
        if (told.tiles.length > 0) return void this.#found(told.tiles[0]);
        if (told.next === null) return void this.#sayNone(from, looked);
        next = behind(told.next);
        this.told.textContent = `Looked through ${grouped(looked)} tiles: none is broken so far.`;
      }
    });
  }

  async #found(row) {
    if (!this.#rows.some(({ key }) => key === row.key)) await this.load(`from=${encodeURIComponent(row.key)}`);
    this.#hands.open(this.#tileOf(row));
  }

  #sayNone(from, looked) {
    const what =
      this.only.value === '' || this.only.value === 'broken' ? 'is broken' : `breaks rule ${this.only.value}`;
    this.told.textContent =
      `${from === '' ? 'None' : 'Behind the open tile none'} of ${counted(looked, 'tile')} ${what}.`;
  }
}

/** Words of a query: what stands behind a key. */
function behind(key) {
  return `after=${encodeURIComponent(key)}`;
}
