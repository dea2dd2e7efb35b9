// What the page's calls answer of a tile, and what of it isn't as the program says.
import {isDeepStrictEqual} from 'node:util';
import {Findings, Survey} from '../../../tools/mvt_tools/page/src/remarks.js';
import {LINES, POLYGONS, Rows, SHAPES} from '../../../tools/mvt_tools/page/src/rows.js';

/** The answers over one tile, as JSON has them. It stands alone, so that it can be sent into a browser. */
export async function answersOf(codec, bytes, layers) {
  const in64 = (block) => {
    let text = '';
    for (const byte of block) text += String.fromCharCode(byte);
    return btoa(text);
  };
  const tile = codec.open(bytes);
  const told = { layers: [] };
  for (const name of ['judge', 'explain', 'rewrite', 'json', 'svg', 'survey', 'findings', 'mend']) {
    const { status, fault, place, bytes: made, mended = made } = await tile[name]();
    told[name] = { status, fault, place, made: mended && in64(mended) };
  }
  for (const layer of layers) told.layers.push(in64((await tile.extract([layer])).bytes));
  const { status, fault, rows } = await tile.read();
  told.read = { status, fault };
  if (rows) {
    const { memory, ...lists } = rows;
    Object.assign(told.read, { lists, memory: in64(new Uint8Array(memory().buffer)) });
  }
  return told;
}

const partsOf = (rows, feature) => {
  const [first, end] = rows.partsOf(feature);
  return Array.from({ length: end - first }, (_, index) => {
    const [start, behind] = rows.pointsOf(first + index);
    const points = Array.from(
      { length: behind - start },
      (__, at) => [...rows.points.slice(2 * (start + at), 2 * (start + at) + 2)].map(String));
    return { points, isExterior: rows.partWords[6 * (first + index)] === 1 };
  });
};

function geometryOf(rows, feature, integers) {
  const kind = SHAPES[rows.shapeOf(feature)];
  const parts = partsOf(rows, feature);
  if (kind === 'unknown') return { unknown: integers(feature) };
  if (rows.shapeOf(feature) === LINES) return { lines: parts.map(({ points }) => points) };
  if (rows.shapeOf(feature) !== POLYGONS) return { points: parts.flatMap(({ points }) => points) };
  const polygons = [];
  for (const { points, isExterior } of parts) {
    if (isExterior) polygons.push({ outer: points, rest: [] });
    else polygons.at(-1).rest.push(points);
  }
  return { polygons };
}

const valueOf = ({ kind, text, bits }) => {
  if (kind === 'string') return { string: text };
  if (kind === 'bool') return { bool: text === 'true' };
  return bits === undefined ? { [kind]: text } : { [`${kind}_bits`]: BigInt(bits).toString() };
};

/** The rows in the form of `mvt show`, with texts in the place of numbers. */
function shownOf({ lists, memory }) {
  const block = Uint8Array.from(Buffer.from(memory, 'base64'));
  const view = new DataView(block.buffer);
  const rows = new Rows({...lists, memory: () => view });
  const integers = (feature) => {
    const [start, len] = [12, 14].map((word) => rows.featureWords[16 * feature + word]);
    return Array.from(
      { length: len }, (_, index) => String(view.getUint32(lists.integers.at + 4 * (start + index), true)));
  };
  const featureOf = (layer, feature) => ({
    attributes: rows.attributes(layer, feature).map(({ key, ...value }) => [key, valueOf(value)]),
    geometry: geometryOf(rows, feature, integers),
    id: rows.idOf(feature)?.toString() ?? null,
  });
  const layerOf = (index) => {
    const layer = rows.layer(index);
    if (layer.version !== 2) return { foreign: { length: String(layer.bytes), version: String(layer.version) } };
    const features =
      Array.from({ length: layer.features.len }, (_, each) => featureOf(layer, layer.features.start + each));
    return { extent: String(layer.extent), features, name: layer.name };
  };
  return { layers: Array.from({ length: rows.layerCount }, (_, index) => layerOf(index)) };
}

/** JSON with texts in the place of numbers, none of which is rounded then. */
const withTexts = (json) =>
  JSON.parse(json.replace(/"(?:[^"\\]|\\.)*"|-?\d+/g, (it) => (it.startsWith('"') ? it : `"${it}"`)));

const linesOf = (remarks) =>
  remarks.kinds().flatMap(({ kind, count }) => remarks.some(kind, 0, count)).map(({ line }) => line).sort();
const sorted = (text = '') => text.split('\n').slice(0, -1).sort();

/** What isn't as the case says, of an accepted tile: pairs of what was got and wanted, by name. */
function accepted({ said, layers }, told) {
  const made = (name) => Buffer.from(told[name].made, 'base64');
  const survey = new Survey(Uint8Array.from(made('survey')));
  const first = `ok layers ${survey.counts.layers} features ${survey.counts.features} canonical ${
    survey.isCanonical ? 'yes' : 'no'}`;
  return {
    statuses: [Object.values(told).filter(({ status = 0 }) => status !== 0), []],
    check: [[first, ...linesOf(survey)].sort(), sorted(said.check)],
    lint: [linesOf(new Findings(Uint8Array.from(made('findings')))), sorted(said.lint)],
    json: [`${made('json')}\n`, said.show],
    svg: [`${made('svg')}\n`, said.draw],
    canonical:
      [[made('rewrite').toString('hex'), made('mend').toString('hex')], Array(2).fill(said.canonical.trimEnd())],
    layers:
      [told.layers.map((each) => Buffer.from(each, 'base64').toString('hex')), layers.map(([, digits]) => digits)],
    rows: [shownOf(told.read), withTexts(said.show)],
  };
}

function refused({ said }, told) {
  const line = ({ layer, feature, at, cause, name }) =>
    `layer ${layer ?? '-'} feature ${feature ?? '-'} at ${at}: ${cause} ${name}\n`;
  const { start, end, sentence } = told.explain.place;
  const { mend, layers, ...others } = told;
  const mended = mend.status === 0 ? `${Buffer.from(mend.made, 'base64').toString('hex')}\n` : line(mend.fault);
  return {
    lines: [Object.values(others).map(({ fault }) => line(fault)), Object.values(others).map(() => said.fault)],
    place: [`${start} ${end}\n`, said.place],
    sentence: [`${sentence}\n`, said.sentence],
    mended: [mended, said.mended ?? said.fault],
  };
}

/** What is wrong with the answers over a case, or nothing. */
export function wrongOf(one, told) {
  const found = one.said.fault === undefined ? accepted(one, told) : refused(one, told);
  const wrong = Object.entries(found).filter(([, [got, wanted]]) => !isDeepStrictEqual(got, wanted));
  return wrong
    .map(([name, [got, wanted]]) => `${one.name}: ${name}: ${JSON.stringify(got)}, wanted ${JSON.stringify(wanted)}`)
    .join('\n');
}
