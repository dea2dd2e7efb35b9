// Where the layers and the features of a tile's JSON stand in its bytes, so that a part of it can be shown.
import {text} from './text.js';

const QUOTE = 0x22;
const BACKSLASH = 0x5c;
const OPENING = [0x5b, 0x7b];
const CLOSING = [0x5d, 0x7d];

/** How deep a layer, its list of features, and a feature stand. */
const LAYER_DEPTH = 3;
const LIST_DEPTH = 4;
const FEATURE_DEPTH = 5;
/** So many bytes of a part are shown. */
const SHOWN = 20_000;

export class JsonIndex {
  #bytes;
  #layers = [];

  constructor(bytes) {
    this.#bytes = bytes;
    let depth = 0;
    for (let at = 0; at < bytes.length; at += 1) {
      const byte = bytes[at];
      if (byte === QUOTE) at = endOfString(bytes, at);
      else if (OPENING.includes(byte)) {
        depth += 1;
        this.#begin(depth, at);
      } else if (CLOSING.includes(byte)) {
        this.#end(depth, at + 1);
        depth -= 1;
      }
    }
  }

  #begin(depth, at) {
    if (depth === LAYER_DEPTH) this.#layers.push({ start: at, end: at, list: null, features: [] });
    const layer = this.#layers.at(-1);
    if (depth === LIST_DEPTH && this.#bytes[at] === OPENING[0]) layer.list = [at, at];
    if (depth === FEATURE_DEPTH && layer.list !== null) layer.features.push(at);
  }

  #end(depth, end) {
    const layer = this.#layers.at(-1);
    if (depth === LAYER_DEPTH) layer.end = end;
    if (depth === LIST_DEPTH && this.#bytes[end - 1] === CLOSING[0]) layer.list[1] = end;
    if (depth === FEATURE_DEPTH && layer.list !== null) layer.features.push(end);
  }

  get layerCount() {
    return this.#layers.length;
  }

  /** Some layers, `{json, features}`, with dots in place of the features. */
  layers(from, end) {
    return this.#layers.slice(from, end).map(({ start, end: last, list, features }) => {
      const dots = features.length === 0 ? '[]' : '[…]';
      const json =
        list === null ? this.#text(start, last) : `${this.#text(start, list[0])}${dots}${this.#text(list[1], last)}`;
      return { json, features: features.length / 2 };
    });
  }

  /** Some features of a layer, `{json, isWhole}`. */
  features(layer, from, end) {
    const places = this.#layers[layer].features.slice(2 * from, 2 * end);
    const made = [];
    for (let at = 0; at < places.length; at += 2) {
      const isWhole = places[at + 1] - places[at] <= SHOWN;
      made.push({ json: this.#text(places[at], isWhole ? places[at + 1] : places[at] + SHOWN), isWhole });
    }
    return made;
  }

  #text(start, end) {
    return text(this.#bytes.subarray(start, end));
  }
}

/** The last quote of a string that begins at a place. */
function endOfString(bytes, start) {
  let at = start + 1;
  while (at < bytes.length && bytes[at] !== QUOTE) at += bytes[at] === BACKSLASH ? 2 : 1;
  return at;
}
