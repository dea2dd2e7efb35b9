// The features of a layer as a table: columns for the keys, and the features that a filter lets through.
import {SHAPES} from './rows.js';

/** So many keys become columns; the other attributes stand with the feature alone. */
const COLUMNS = 60;
/** A cell's text, and of a text in a filter: no more is wanted in one line. */
const CELL = 120;

export class FeatureTable {
  #rows;
  #layer;
  #columnOf;
  #places = null;

  constructor(rows, index) {
    this.#rows = rows;
    this.#layer = rows.layer(index);
    const names = new Map();
    this.#columnOf = Int32Array.from(this.#namedKeys(), (isNamed, key) => {
      if (isNamed === 0) return -1;
      const name = rows.key(this.#layer, key);
      if (!names.has(name)) names.set(name, names.size);
      return names.get(name) < COLUMNS ? names.get(name) : -1;
    });
    this.columns = [...names.keys()].slice(0, COLUMNS).map((name) => name.slice(0, CELL));
    this.keyCount = names.size;
  }

  /** For each key of the layer whether a feature names it: 1 or 0. */
  #namedKeys() {
    const { keys, features } = this.#layer;
    const isNamed = new Uint8Array(keys.len);
    for (let place = features.start; place < features.start + features.len; place += 1) {
      this.#rows.eachTag(place, (key) => (isNamed[key] = 1));
    }
    return isNamed;
  }

  get count() {
    return this.#places === null ? this.#layer.features.len : this.#places.length;
  }

  /** Lets through the features with a text in their id, their shape or a value; an empty text lets all through. */
  filter(wanted) {
    const sought = wanted.trim().toLowerCase();
    this.#places = sought === '' ? null : this.#found(sought);
    return this.count;
  }

  #found(sought) {
    const rows = this.#rows;
    const { values, features } = this.#layer;
    const isFound = Uint8Array.from(
      { length: values.len }, (_, value) => rows.value(values.start + value).text.toLowerCase().includes(sought));
    const shapes = SHAPES.map((shape) => shape.includes(sought));
    const places = [];
    for (let place = features.start; place < features.start + features.len; place += 1) {
      let isIn = shapes[rows.shapeOf(place)] || (rows.idOf(place)?.toString().includes(sought) ?? false);
      if (!isIn) rows.eachTag(place, (key, value) => (isIn ||= isFound[value] === 1));
      if (isIn) places.push(place);
    }
    return Uint32Array.from(places);
  }

  /** Some rows: `{place, index, id, shape, cells}`. */
  some(from, end) {
    const made = [];
    for (let row = from; row < Math.min(end, this.count); row += 1) made.push(this.#row(this.#placeOf(row)));
    return made;
  }

  #placeOf(row) {
    return this.#places === null ? this.#layer.features.start + row : this.#places[row];
  }

  /** The row of a feature; -1 where the filter leaves it out. */
  rowOf(place) {
    return this.#places === null ? place - this.#layer.features.start : this.#places.indexOf(place);
  }

  #row(place) {
    const cells = Array(this.columns.length).fill(null);
    this.#rows.eachTag(place, (key, value) => {
      const column = this.#columnOf[key];
      if (column >= 0) cells[column] = this.#rows.value(this.#layer.values.start + value).text.slice(0, CELL);
    });
    const index = place - this.#layer.features.start;
    return {
      place,
      index,
      id: this.#rows.idOf(place)?.toString() ?? null,
      shape: SHAPES[this.#rows.shapeOf(place)],
      cells
    };
  }
}
