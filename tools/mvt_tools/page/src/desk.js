// The tile that is open, and what the page may ask of it. It lives in the worker, so that nothing here makes the page wait.
import {Gone, NO_LAYER, OK} from './codec.js';
import {FeatureTable} from './features.js';
import {prepared, readFile} from './files.js';
import {JsonIndex} from './json-index.js';
import {allJudged, judged, readRows} from './judging.js';
import {Finder} from './near.js';
import {Painter} from './painter.js';
import {Findings} from './remarks.js';
import {SHAPES} from './rows.js';
import {styled} from './styled.js';
import {text} from './text.js';

/** So many bytes, or so many files, are judged by one question. */
const ASKED_BYTES = 1 << 20;
const ASKED_FILES = 100;

export class Desk {
  #codec;
  #fetched = null;
  #bytes = null;
  #tile = null;
  #survey = null;
  #findings = null;
  #rows = null;
  #painter = null;
  #finder = null;
  #tables = new Map();
  #json = null;

  constructor(codec) {
    this.#codec = codec;
  }

  /** Gets what stands at a path of the server, or why it can't be read, which `open` then takes: whether there is such. */
  async fetch({ path }) {
    this.#fetched = await this.#takeOrWhy(path);
    return this.#fetched.verdict?.status !== 404;
  }

  /**
   * Reads and judges a file, bytes, or what stands at a path of the server; null is what was fetched. `facts` are the counts
   * of an accepted tile, and `why` the reason where it can't be drawn; `place` is that of a fault with the integers round it,
   * and `shape` what can be drawn of its feature.
   */
  async open({ source, name }) {
    const { size, read, verdict: unread } = source === null ? this.#fetched : await this.#take(source);
    if (read === undefined)
      return { size, note: null, verdict: unread, facts: null, why: null, place: null, shape: null };
    this.#bytes = read.bytes;
    this.#tile = this.#codec.open(read.bytes);
    const { verdict, facts = null, why = null } = await this.#read(read, name);
    const { fault } = verdict;
    const { shape = null, ...place } = fault ? await this.#placeOf() : {};
    return { size, length: read.bytes.length, note: read.note, verdict, facts, why, place: fault && place, shape };
  }

  /** The place of the fault, with the integers round it and the shape of its feature. */
  async #placeOf() {
    const [{ place }, { status, bytes }] = [await this.#tile.explain(), await this.#tile.around()];
    if (place === undefined || status !== OK) throw new RangeError('there is no memory for it');
    return {...place, ...JSON.parse(text(bytes)) };
  }

  /** The bytes of a source that are to be judged, `read`, and the size of all of it. */
  async #take(source) {
    const held = typeof source === 'string' ? await this.#codec.bytes(source) : source;
    const read = held instanceof Uint8Array ? await prepared(held) : await readFile(held);
    return { size: held.size ?? held.length, read };
  }

  /** Reads the rows; where there is no memory for them, only judges. */
  async #read(read, name) {
    const { verdict, rows } = await readRows(this.#codec, read, name);
    if (verdict.kind === 'unjudged') {
      const { survey = null, ...told } = await this.#judge(read, name);
      return {...told, facts: survey?.counts, why: verdict.why };
    }
    if (rows === undefined) return { verdict };
    this.#rows = rows;
    this.#painter = new Painter(rows);
    this.#finder = new Finder(rows);
    return { verdict, facts: { layers: rows.layerCount, features: rows.featureCount, points: rows.pointCount } };
  }

  async #judge(read, name) {
    const told = await judged(this.#codec, read, name);
    this.#survey = told.survey ?? null;
    return told;
  }

  /**
   * Judges sources in order and tells of several at a time: their index, size and verdict. `from` is the index of the first.
   */
  async judgeAll({ sources, from }, told) {
    let some = [];
    let size = 0;
    for (const [place, { source, name }] of sources.entries()) {
      some.push({ index: from + place, name, ...(await this.#takeOrWhy(source)) });
      size += some.at(-1).read?.bytes.length ?? 0;
      if (size < ASKED_BYTES && some.length < ASKED_FILES) continue;
      told(await this.#judgeSome(some));
      some = [];
      size = 0;
    }
    return this.#judgeSome(some);
  }

  /** What `#take` gives; or the verdict on what can't be read. */
  async #takeOrWhy(source) {
    try {
      return await this.#take(source);
    } catch (error) {
      if (error instanceof Gone) throw error;
      return {
        size: source.size ?? 0,
        verdict: { kind: 'unread', fault: null, why: error.message, status: error.status, notes: [], foreign: 0 }
      };
    }
  }

  async #judgeSome(some) {
    const files = some.filter(({ read }) => read !== undefined);
    const verdicts = files.length === 0 ? [] : await allJudged(this.#codec, files);
    files.forEach((file, index) => Object.assign(file, { verdict: verdicts[index] }));
    return some.map(({ index, size, read, verdict }) => ({ index, size, note: read?.note ?? null, verdict }));
  }

  /** A copy of the bytes that were judged. */
  bytes() {
    return this.#bytes.slice();
  }

  /** The notes by kind; or `why` they can't be told. */
  async report() {
    const { why = null } =
      this.#survey === null ? (await this.#judge({ bytes: this.#bytes, damaged: null }, '')).verdict : {};
    return { notes: this.#survey?.kinds() ?? [], why };
  }

  notes({ kind, from, end }) {
    return this.#survey.some(kind, from, end);
  }

  /** The findings by kind; null where there is no memory for them. */
  async lint() {
    const { status, bytes } = await this.#tile.findings();
    if (status !== OK) return null;
    this.#findings = new Findings(bytes);
    return this.#findings.kinds();
  }

  findings({ kind, from, end }) {
    return this.#findings.some(kind, from, end);
  }

  /** Some layers, by their indices. */
  layers({ from, end }) {
    const last = Math.min(end, this.#rows.layerCount);
    return Array.from({ length: last - from }, (_, index) => this.#rows.layer(from + index));
  }

  // ---- the canonical bytes, and other forms

  /** Whether the bytes are the canonical ones; if not, the length of those, and what differs first. */
  async canonical() {
    if (this.#survey?.isCanonical) return { isSame: true };
    const { status, bytes } = await this.#tile.canonical();
    return status === OK ? JSON.parse(text(bytes)) : { isSame: false, status };
  }

  /** `{status, told, bytes}`: the tile mended, which is a copy. */
  async mended() {
    const { status, told, mended } = await this.#tile.mend();
    return { status, told, bytes: mended?.slice() };
  }

  /** Of each layer the bytes and those of its geometries; null where there is no memory for it. */
  async sizes() {
    const { status, bytes } = await this.#tile.sizes();
    return status === OK ? JSON.parse(text(bytes)).map(([whole, geometry]) => ({ bytes: whole, geometry })) : null;
  }

  /** `{status, bytes}` of what is saved: `rewrite`, `json`, `geojson` (of a place or none), `svg` or `extract`. */
  made({ what, place = null, hidden = null, colours = [], chosen = {} }) {
    if (what === 'geojson') return this.#tile.geojson(place);
    if (what === 'svg') return this.#svg(hidden ?? [], (index) => chosen[index] ?? colours[index % colours.length]);
    if (what === 'extract') return this.#extract(hidden);
    return what === 'json' ? this.#tile.json() : this.#tile.rewrite();
  }

  #extract(hidden) {
    const names = [];
    for (let index = 0; index < this.#rows.layerCount; index += 1) {
      const layer = this.#rows.layer(index);
      if (layer.version === 2 && hidden[index] !== 1) names.push(layer.name);
    }
    return names.length === 0 ? { status: NO_LAYER } : this.#tile.extract(names);
  }

  /** The library's picture, with the page's colours round it and without the layers that are off; where no rows are, as it is. */
  async #svg(hidden, colourOf) {
    const answer = await this.#tile.svg();
    if (answer.status !== OK || this.#rows === null) return answer;
    const indices = Array.from({ length: this.#rows.layerCount }, (_, index) => index);
    const drawn = indices.filter((index) => this.#rows.layerBox(index).version === 2);
    return {
      status: OK,
      bytes: styled(answer.bytes, drawn.map((index) => (hidden[index] === 1 ? null : colourOf(index))))
    };
  }

  /** Makes the JSON: how many bytes and layers it has. */
  async json() {
    const { status, bytes } = await this.#tile.json();
    if (status !== OK) throw new RangeError('there is no memory for it');
    this.#json = new JsonIndex(bytes);
    return { length: bytes.length, layers: this.#json.layerCount };
  }

  jsonLayers({ from, end }) {
    return this.#json.layers(from, end);
  }

  jsonFeatures({ layer, from, end }) {
    return this.#json.features(layer, from, end);
  }

  // ---- the picture

  async draw(plan, told) {
    return this.#painter.draw(this.#planned(plan), told);
  }

  stopDrawing() {
    this.#painter?.stop();
  }

  mark({ plan, places }) {
    return this.#painter.mark(this.#planned(plan), places);
  }

  #planned(plan) {
    const { hidden, palette, chosen = {} } = plan;
    return {
      ...plan,
      isShown: (index) => hidden[index] !== 1,
      colours: (index) => chosen[index] ?? palette[index % palette.length]
    };
  }

  /** What is near a point of the tile: how many, and the first of them. */
  near({ x, y, reach, hidden }) {
    const { count, places } = this.#finder.near({ x, y, reach, isShown: (index) => hidden[index] !== 1 });
    return { count, features: places.map((place) => this.#told(place)) };
  }

  /** A feature for a list: what tells it from others. */
  #told(place) {
    const rows = this.#rows;
    const layer = rows.layer(rows.layerOf(place));
    const [first = null] = rows.attributes(layer, place, 1);
    const index = place - layer.features.start;
    const id = rows.idOf(place)?.toString() ?? null;
    return { place, layer: layer.index, layerName: layer.name, index, id, shape: SHAPES[rows.shapeOf(place)], first };
  }

  /** All about a feature, and the box that it fills in parts of the tile. */
  feature({ place }) {
    const { extent } = this.#rows.layerBox(this.#rows.layerOf(place));
    return {...this.#rows.feature(place), box: this.#finder.boxOf(place).map((edge) => edge / extent) };
  }

  /** The place of a feature among all, by its layer and its index there. */
  placeOf({ layer, feature }) {
    return this.#rows.layerBox(layer).start + feature;
  }

  // ---- the table of a layer's features

  table({ layer, wanted = '' }) {
    if (!this.#tables.has(layer)) this.#tables.set(layer, new FeatureTable(this.#rows, layer));
    const table = this.#tables.get(layer);
    return { count: table.filter(wanted), columns: table.columns, keyCount: table.keyCount };
  }

  tableRows({ layer, from, end }) {
    return this.#tables.get(layer).some(from, end);
  }

  rowOf({ layer, place }) {
    return this.#tables.get(layer).rowOf(place);
  }
}
