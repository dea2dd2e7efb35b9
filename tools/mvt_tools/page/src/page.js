// What the page has open: one tile, or a list and one tile of it. Each has a worker of its own. Whatever an older worker
// was asked is never answered, so nothing that is old can show itself.
import {Client} from './client.js';
import {element} from './dom.js';
import {foreign, plain} from './foreign.js';
import {TileList} from './list.js';
import {StoreList} from './store.js';
import {WAYS, beyondOf, placeOf, spelledPlace, wayFrom, wayOfKey} from './stored.js';
import {counted} from './text.js';
import {TileView} from './tile.js';

/** So many files are handed to the worker at once: each handing over takes the page some time. */
const HANDED = 100;

const part = (id) => document.getElementById(id);

export class Page {
  #data;
  #codec;
  #newClient;
  #tiles = null;
  #coming = null;
  #lists = null;
  #list = null;
  #store = null;
  #place = null;
  #given = null;
  #inputs = [];
  #waysNow = () => {};
  #working = new Map();
  #scrolled = 0;

  /** `make` makes a worker, `codec` asks the server at an address, `data` are the rules, and once something is taken what notes and findings mean. */
  constructor(make, codec, address, data) {
    this.#data = data;
    this.#codec = codec;
    this.#newClient = () => new Client(make, address, () => this.sayGone());
  }

  /** Tells that the server has ended. */
  sayGone() {
    part('gone').textContent =
      'The command mvt-page has ended, so nothing more can be judged. What is shown stays. Start it again, and it says where the page is then.';
  }

  /** Whether the server is there: if it has ended, that is told, and what is shown stays. */
  async #isServed() {
    document.body.classList.add('busy');
    const isThere = await this.#codec.isThere();
    document.body.classList.toggle('busy', this.#working.size > 0);
    if (!isThere) this.sayGone();
    return isThere;
  }

  /**
   * Opens inputs, `{name, source, note}`, whose source is a file, bytes or a path of the server: one is shown, several become
   * a list. What was open is stopped.
   */
  async open(inputs) {
    if (inputs.length === 0 || !(await this.#isServed())) return;
    const store = inputs.length === 1 ? this.#storeOf(inputs[0].source) : -1;
    if (store !== -1) {
      await this.openStore(store);
      return;
    }
    this.#clear();
    this.#inputs = inputs;
    await (inputs.length === 1 ? this.#show(0) : this.#listAll());
  }

  /** The number of the store that a file is which the command was started with, by its name and size; else -1. */
  #storeOf(source) {
    return (this.#given ?? [])
      .findIndex(({ name, size }) => source instanceof File && source.name === name && source.size === size);
  }

  /** Shows a tile of the list. */
  async #choose(index) {
    if (await this.#isServed()) await this.#show(index);
  }

  #clear() {
    this.#lists?.stop();
    this.#store?.stop();
    this.#store?.map.stop();
    this.#comes();
    [this.#list, this.#store, this.#inputs] = [null, null, []];
    part('list').replaceChildren();
    this.#clearTile();
    this.#done('list');
    document.body.classList.add('opened');
  }

  #clearTile(client = this.#newClient()) {
    this.#tiles?.stop();
    this.#place = null;
    this.#tiles = client;
    this.#done('tile');
    this.#waysNow = () => {};
    part('tile').replaceChildren();
  }

  // ---- one tile

  async #show(index) {
    await this.#showInput(this.#inputs[index], () => this.#ways(index), () => this.#list?.choose(index));
  }

  /** Shows an input, with ways from it; `chosen` tells its list. The client is one that perhaps has it already. */
  async #showInput({ name, source, note = null, place = null }, ways, chosen, client = undefined) {
    this.#clearTile(client);
    chosen();
    this.#begin('tile', [`Reading ${plain(name)} …`], () => this.#stopTile(name));
    try {
      const opened = await this.#tiles.ask('open', { source, name });
      opened.note = [note, opened.note].filter(Boolean).join(' ') || null;
      const view = new TileView(this.#tiles, name, opened, { ways: ways(), place, data: this.#data });
      this.#put(view);
      const { told } = view;
      this.#say(told);
      await view.fill();
      this.#stay(view);
      if (view.told !== told) this.#say(view.told);
    } catch (error) {
      if (error.name !== 'Gone') console.error(error);
      part('tile').append(
        element('p', { class: 'verdict unjudged' }, [foreign(name), ` can’t be shown: ${error.message}`]));
    }
    this.#done('tile');
  }

  #put({ root, title }) {
    part('tile').replaceChildren(root);
    root.scrollIntoView({ block: 'start' });
    title.focus({ preventScroll: true });
    this.#scrolled = scrollY;
  }

  /** Brings the tile's heading to the top once more, now that there is enough below it, unless the person has gone on. */
  #stay({ root, title }) {
    if (document.activeElement === title && scrollY === this.#scrolled) root.scrollIntoView({ block: 'start' });
  }

  #stopTile(name) {
    this.#tiles.stop();
    this.#done('tile');
    const told = element('p', { class: 'verdict unjudged' }, ['Stopped: ', foreign(name), ' wasn’t read to its end.']);
    part('tile').querySelector('article') ? part('tile').append(told) : part('tile').replaceChildren(told);
  }

  /** Ways to the list, and to the tiles before and behind. */
  #ways(index) {
    if (this.#list === null) return [];
    const list = this.#list;
    const to = (title, step) =>
      element('button', { type: 'button', onclick: () => this.#choose(list.beside(index, step)) }, [title]);
    const back = element('button', { type: 'button', onclick: () => this.#back(index) }, ['Back to the list']);
    const [previous, next] = [to('Previous', -1), to('Next', 1)];
    this.#waysNow = () => {
      previous.disabled = list.beside(index, -1) === null;
      next.disabled = list.beside(index, 1) === null;
    };
    this.#waysNow();
    return [element('div', { class: 'buttons ways' }, [back, previous, next])];
  }

  #back(index) {
    part('list').scrollIntoView({ block: 'start' });
    this.#list.reveal(index);
  }

  // ---- a list

  async #listAll() {
    const inputs = this.#inputs;
    const list = new TileList(inputs, { open: (index) => this.#choose(index), turned: () => this.#waysNow() });
    const judging = this.#newClient();
    this.#list = list;
    this.#lists = judging;
    part('list').append(list.root);
    const stopped = () => {
      judging.stop();
      this.#done('list');
      list.end(false);
    };
    this.#begin('list', [`Judging ${counted(inputs.length, 'file')} …`], stopped);
    list.title.focus();
    try {
      for (let from = 0; from < inputs.length; from += HANDED) {
        const sources = inputs.slice(from, from + HANDED).map(({ name, source }) => ({ name, source }));
        list.add(await judging.ask('judgeAll', { sources, from }, (rows) => list.add(rows)));
      }
      list.end(true);
      this.#say(list.title.textContent);
    } catch (error) {
      if (error.name !== 'Gone') console.error(error);
      list.end(false);
    }
    judging.stop();
    this.#done('list');
  }

  // ---- a store

  /** Shows what the command was given: one thing at once, and buttons for more. */
  async take({ files, stores, first, meanings }) {
    this.#given = stores;
    Object.assign(this.#data, meanings);
    const inputs = files.map((name, index) => ({ name, source: `files/${index}` }));
    const button = (words, act) => element('button', { type: 'button', onclick: act }, words);
    const buttons = stores.map(({ name }, number) => button([foreign(name)], () => this.openStore(number)));
    if (inputs.length > 0)
      buttons.push(button(
        inputs.length === 1 ? [foreign(inputs[0].name)] : [counted(inputs.length, 'file')], () => this.open(inputs)));
    if (stores.length > 0 || inputs.length > 1)
      part('given').replaceChildren(element('div', { class: 'buttons' }, ['Given to mvt-page: ', ...buttons]));
    if (first !== null) await this.openStore(first.store, first.place);
    else if (stores.length > 0) await this.openStore(0);
    else await this.open(inputs);
  }

  /** Opens a store of a number, and perhaps a tile of it by its place. */
  async openStore(number, place = null) {
    if (!(await this.#isServed())) return;
    this.#clear();
    const store = new StoreList(this.#codec, number, this.#given[number], {
      open: (tile) => this.#openTile(tile),
      busy: (words, stop) => this.#begin('list', words, stop),
      done: () => this.#done('list'),
      failed: (error) => this.#failed(error),
    });
    this.#store = store;
    part('list').append(store.root);
    store.title.focus();
    const isLoaded = store.load(place === null ? '' : `at=${place}`);
    if (place !== null) await this.#openTile(store.tileAt(placeOf(place)));
    await isLoaded;
  }

  /** Opens a tile of the store, if it is there: what is shown stays where it isn't. */
  async #openTile(tile) {
    const store = this.#store;
    const client = this.#newClient();
    this.#comes(client);
    this.#begin('coming', [`Reading ${plain(tile.name)} …`], () => this.#comes());
    try {
      const isThere = await client.ask('fetch', { path: tile.source });
      this.#coming = null;
      this.#done('coming');
      this.#problem(isThere ? '' : `The store has no tile ${plain(tile.name)}.`);
      const beyond = beyondOf(tile.place);
      const note = beyond && `The store has it, but ${beyond}.`;
      if (isThere)
        await this.#showInput(
          { name: tile.name, source: null, note, place: beyond ? null : tile.place }, () => this.#waysRound(tile.place),
          () => store.choose(tile), client);
      else client.stop();
    } catch (error) {
      this.#comes();
      this.#failed(error);
    }
  }

  /** Which client gets a tile now, or none; whatever another one gets is given up. */
  #comes(client = null) {
    this.#coming?.stop();
    this.#coming = client;
    this.#done('coming');
  }

  #failed(error) {
    if (error.name === 'Gone') this.sayGone();
    else this.#problem(error.message);
  }

  #problem(told) {
    this.#say(told);
    this.#store.problem.textContent = told;
  }

  /** Ways to the list, to the next broken tile, and to those round a tile. */
  #waysRound(place) {
    const act = (words, label, to) =>
      element('button', { type: 'button', 'aria-label': label, title: label, onclick: to }, [words]);
    const back = act('Back to the list', 'Back to the list', () => this.#backToStore());
    const next = act('Next broken', 'The next broken tile (N)', () => this.#store.searchOn());
    this.#place = place;
    const round = place === null ? [] : WAYS.map((way) => [way, wayFrom(place, way)]).map(([way, to]) => {
      const button = act(
        way.sign, to === null ? way.name : `${way.name}, ${spelledPlace(to)} (${way.key})`,
        () => this.#openTile(this.#store.tileAt(to)));
      button.disabled = to === null;
      return button;
    });
    return [
      element('div', { class: 'buttons ways' }, [back, next]),
      element('div', { class: 'buttons ways', role: 'group', 'aria-label': 'Tiles round it' }, round)
    ];
  }

  #backToStore() {
    part('list').scrollIntoView({ block: 'start' });
    this.#store.reveal();
  }

  /** Goes where a key leads from the tile of a store that is open. */
  press(event) {
    if (
      this.#store === null || event.defaultPrevented ||
      event.target.closest('input, select, textarea, .paper, .rows, .hex, pre'))
      return;
    const way = wayOfKey(event);
    const to = way && this.#place && wayFrom(this.#place, way);
    if (to) this.#openTile(this.#store.tileAt(to));
    else if (event.key === 'n' && !event.ctrlKey && !event.altKey && !event.metaKey) this.#store.searchOn();
    else return;
    event.preventDefault();
  }

  // ---- what is going on

  #begin(what, words, stop) {
    this.#done(what);
    const button = element('button', { type: 'button', onclick: stop }, ['Stop']);
    const line = element('p', {}, [...words, ' ', button]);
    this.#working.set(what, line);
    part('working').append(line);
    document.body.classList.add('busy');
  }

  #done(what) {
    this.#working.get(what)?.remove();
    this.#working.delete(what);
    document.body.classList.toggle('busy', this.#working.size > 0);
  }

  #say(told) {
    part('told').textContent = told;
  }
}
