// The rows of a tile (library/c/mvt.h), read where they lie in the library's memory. Spans are read by their lower 32 bits:
// no list of a tile of 64 MiB is longer.
import {floatText} from './floats.js';
import {FEATURE_ROW, KIND, LAYER_ROW, PART_ROW, POINT_ROW, SPAN_ROW, VALUE_KIND, VALUE_ROW} from './layout.js';
import {text} from './text.js';

export const {UNKNOWN, POINTS, LINES, POLYGONS} = KIND;
export const SHAPES = wordsOf(KIND);
const VALUE_KINDS = {
  ...wordsOf(VALUE_KIND),
  [VALUE_KIND.TEXT]: 'string'
};

/** The names of numbers in small letters, each at its number. */
function wordsOf(numbers) {
  const named = [];
  for (const [name, number] of Object.entries(numbers)) named[number] = name.toLowerCase();
  return named;
}

/** The span that begins at a word. */
function spanAt(words, at) {
  return { start: words[at + SPAN_ROW.start], len: words[at + SPAN_ROW.len] };
}

/** The first row of the span that begins at a word, and the one behind the last. */
function endsAt(words, at) {
  const start = words[at + SPAN_ROW.start];
  return [start, start + words[at + SPAN_ROW.len]];
}

export class Rows {
  #lists;
  #buffer;

  /** `lists` are `{at, count}` by name, in a memory that doesn't grow any more. */
  constructor({ memory, ...lists }) {
    this.#lists = lists;
    this.#buffer = memory().buffer;
    this.memory = memory();
    const words = ({ at, count }, width) => new Uint32Array(this.#buffer, at, count * width);
    this.layerWords = words(lists.layers, LAYER_ROW.words);
    this.featureWords = words(lists.features, FEATURE_ROW.words);
    this.partWords = words(lists.parts, PART_ROW.words);
    this.tags = words(lists.tags, 1);
    // x and y of one position behind those of another, as POINT_ROW says
    this.points = new Int32Array(this.#buffer, lists.points.at, lists.points.count * POINT_ROW.words);
    this.keyWords = words(lists.keys, SPAN_ROW.words);
    this.valueWords = words(lists.values, VALUE_ROW.words);
  }

  get layerCount() {
    return this.#lists.layers.count;
  }

  get featureCount() {
    return this.#lists.features.count;
  }

  get pointCount() {
    return this.#lists.points.count;
  }

  /** How many layers are of another version than 2. */
  get foreignCount() {
    let count = 0;
    for (let index = 0; index < this.layerCount; index += 1) count += this.#versionOf(index) === 2 ? 0 : 1;
    return count;
  }

  layer(index) {
    const at = LAYER_ROW.words * index;
    const words = this.layerWords;
    return {
      index,
      version: words[at + LAYER_ROW.version],
      extent: words[at + LAYER_ROW.extent],
      name: this.#text(words, at + LAYER_ROW.name),
      features: spanAt(words, at + LAYER_ROW.features),
      keys: spanAt(words, at + LAYER_ROW.keys),
      values: spanAt(words, at + LAYER_ROW.values),
      bytes: words[at + LAYER_ROW.bytes + SPAN_ROW.len],
    };
  }

  /** What of a layer drawing wants: no text is made. */
  layerBox(index) {
    const at = LAYER_ROW.words * index;
    const words = this.layerWords;
    const [start, end] = endsAt(words, at + LAYER_ROW.features);
    return { version: words[at + LAYER_ROW.version], extent: words[at + LAYER_ROW.extent], start, end };
  }

  /** How many positions the features of a layer's box have. */
  pointsIn({ start, end }) {
    if (start === end) return 0;
    const [first] = this.partsOf(start);
    const [, behind] = this.partsOf(end - 1);
    return first === behind ? 0 : this.pointsOf(behind - 1)[1] - this.pointsOf(first)[0];
  }

  /** The layer that holds a feature, by the feature's place among all. */
  layerOf(feature) {
    let low = 0;
    for (let high = this.layerCount - 1; low < high;) {
      const middle = (low + high + 1) >> 1;
      if (this.#nextStart(middle) <= feature) low = middle;
      else high = middle - 1;
    }
    return low;
  }

  // A layer of another version has no features, and its span may begin at 0: the next one of version 2 tells.
  #nextStart(from) {
    for (let index = from; index < this.layerCount; index += 1) {
      if (this.#versionOf(index) === 2)
        return this.layerWords[LAYER_ROW.words * index + LAYER_ROW.features + SPAN_ROW.start];
    }
    return Infinity;
  }

  #versionOf(index) {
    return this.layerWords[LAYER_ROW.words * index + LAYER_ROW.version];
  }

  shapeOf(feature) {
    return this.featureWords[FEATURE_ROW.words * feature + FEATURE_ROW.kind];
  }

  /** The parts of a feature: the first and the one behind the last. */
  partsOf(feature) {
    return endsAt(this.featureWords, FEATURE_ROW.words * feature + FEATURE_ROW.parts);
  }

  /** The points of a part: the first and the one behind the last. */
  pointsOf(part) {
    return endsAt(this.partWords, PART_ROW.words * part + PART_ROW.points);
  }

  idOf(feature) {
    const at = FEATURE_ROW.words * feature;
    if (this.featureWords[at + FEATURE_ROW.has_id] !== 1) return null;
    const low = at + FEATURE_ROW.id;
    return (BigInt(this.featureWords[low + 1]) << 32n) | BigInt(this.featureWords[low]);
  }

  /** A feature by its place among all, to be told. */
  feature(place) {
    const layer = this.layer(this.layerOf(place));
    const [first, end] = this.partsOf(place);
    let points = 0;
    for (let part = first; part < end; part += 1)
      points += spanAt(this.partWords, PART_ROW.words * part + PART_ROW.points).len;
    return {
      place,
      layer: layer.index,
      layerName: layer.name,
      index: place - layer.features.start,
      id: this.idOf(place)?.toString() ?? null,
      shape: SHAPES[this.shapeOf(place)],
      attributes: this.attributes(layer, place),
      parts: end - first,
      points,
      integers: spanAt(this.featureWords, FEATURE_ROW.words * place + FEATURE_ROW.integers).len,
    };
  }

  /** Each attribute of a feature, `{key, kind, text, bits}`; or the first few. */
  attributes(layer, place, most = Infinity) {
    const { start, len } = spanAt(this.featureWords, FEATURE_ROW.words * place + FEATURE_ROW.tags);
    const pairs = Math.min(most, len / 2);
    return Array.from({ length: pairs }, (_, pair) => ({
                                           key: this.key(layer, this.tags[start + 2 * pair]),
                                           ...this.value(layer.values.start + this.tags[start + 2 * pair + 1]),
                                         }));
  }

  /** Key by key, the index of the value in the layer; called with each pair of tags. */
  eachTag(place, told) {
    const [start, end] = endsAt(this.featureWords, FEATURE_ROW.words * place + FEATURE_ROW.tags);
    for (let at = start; at < end; at += 2) told(this.tags[at], this.tags[at + 1]);
  }

  key(layer, index) {
    return this.#text(this.keyWords, SPAN_ROW.words * (layer.keys.start + index));
  }

  /** A value by its place among all: its kind, its text, and of a float its bits. */
  value(place) {
    const at = VALUE_ROW.words * place;
    const kind = VALUE_KINDS[this.valueWords[at + VALUE_ROW.kind]];
    const bits = this.#lists.values.at + 4 * (at + VALUE_ROW.bits);
    switch (kind) {
      case 'string':
        return { kind, text: this.#text(this.valueWords, at + VALUE_ROW.text) };
      case 'float':
      case 'double':
        return { kind, ...floatText(kind, this.memory.getBigUint64(bits, true)) };
      case 'uint':
        return { kind, text: String(this.memory.getBigUint64(bits, true)) };
      case 'bool':
        return { kind, text: this.memory.getUint32(bits, true) === 1 ? 'true' : 'false' };
      default:
        return { kind, text: String(this.memory.getBigInt64(bits, true)) };
    }
  }

  /** The text whose span begins at a word. */
  #text(words, at) {
    const { start, len } = spanAt(words, at);
    return text(new Uint8Array(this.#buffer, this.#lists.texts.at + start, len));
  }
}
