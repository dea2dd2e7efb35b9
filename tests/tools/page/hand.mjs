// Rows made by hand, laid out as library/c/mvt.h says, for tests of what reads them.

const KINDS = {
  unknown: 0,
  points: 1,
  lines: 2,
  polygons: 3
};
const VALUES = {
  string: 1,
  float: 2,
  double: 3,
  int: 4,
  uint: 5,
  sint: 6,
  bool: 7
};

/**
 * The rows of layers, `{name, extent, version, features, spare, bytes}`; a feature is `{id, shape, parts, attributes}`, a part a
 * list of `[x, y]`, an attribute `[key, kind, value]`, where the value of a number is its 64 bits as a BigInt. No feature names
 * the keys to spare.
 */
export function handMade(layers) {
  const lists = {
    layers: [],
    features: [],
    keys: [],
    values: [],
    tags: [],
    parts: [],
    points: [],
    integers: [],
    texts: []
  };
  const texts = [];
  const spelled = (text) => {
    const bytes = new TextEncoder().encode(text);
    texts.push(...bytes);
    return [texts.length - bytes.length, bytes.length];
  };
  for (const { name = '', extent = 4096, version = 2, features = [], spare = [], bytes = 0 } of layers) {
    const start = { features: lists.features.length, keys: lists.keys.length, values: lists.values.length };
    for (const key of spare) lists.keys.push(spelled(key));
    for (const feature of features) lists.features.push(featureRow(feature, lists, start, spelled));
    const span = (of) => [start[of], lists[of].length - start[of]];
    lists.layers.push([version, extent, spelled(name), span('features'), span('keys'), span('values'), [0, bytes]]);
  }
  lists.texts = texts;
  return laid(lists);
}

function featureRow({ id = null, shape, parts = [], attributes = [] }, lists, start, spelled) {
  const tags = lists.tags.length;
  for (const [key, kind, value] of attributes) {
    lists.tags.push(lists.keys.length - start.keys, lists.values.length - start.values);
    lists.keys.push(spelled(key));
    lists.values.push([VALUES[kind], kind === 'string' ? 0n : value, kind === 'string' ? spelled(value) : [0, 0]]);
  }
  const first = lists.parts.length;
  for (const part of parts) {
    lists.parts.push([1, [lists.points.length, part.length]]);
    lists.points.push(...part);
  }
  return [id ?? 0n, id === null ? 0 : 1, KINDS[shape], [tags, lists.tags.length - tags], [first, parts.length], [0, 0]];
}

const SIZES = {
  layers: 88,
  features: 64,
  keys: 16,
  values: 32,
  tags: 4,
  parts: 24,
  points: 8,
  integers: 4,
  texts: 1
};

function laid(lists) {
  let end = 16;
  const places = {};
  for (const [name, size] of Object.entries(SIZES)) {
    places[name] = { at: end, count: lists[name].length };
    end += Math.ceil((size * lists[name].length) / 16) * 16;
  }
  const view = new DataView(new ArrayBuffer(end + 16));
  const span = (at, [start, len]) => {
    view.setBigUint64(at, BigInt(start), true);
    view.setBigUint64(at + 8, BigInt(len), true);
  };
  const put = {
    layers: (at, [version, extent, ...spans]) => {
      view.setUint32(at, version, true);
      view.setUint32(at + 4, extent, true);
      spans.forEach((each, index) => span(at + 8 + 16 * index, each));
    },
    features: (at, [id, hasId, kind, ...spans]) => {
      view.setBigUint64(at, id, true);
      view.setUint32(at + 8, hasId, true);
      view.setUint32(at + 12, kind, true);
      spans.forEach((each, index) => span(at + 16 + 16 * index, each));
    },
    keys: span,
    values: (at, [kind, bits, text]) => {
      view.setUint32(at, kind, true);
      view.setBigUint64(at + 8, BigInt.asUintN(64, bits), true);
      span(at + 16, text);
    },
    tags: (at, tag) => view.setUint32(at, tag, true),
    parts: (at, [exterior, points]) => {
      view.setUint32(at, exterior, true);
      span(at + 8, points);
    },
    points: (at, [x, y]) => {
      view.setInt32(at, x, true);
      view.setInt32(at + 4, y, true);
    },
    integers: (at, integer) => view.setUint32(at, integer, true),
    texts: (at, byte) => view.setUint8(at, byte),
  };
  for (const [name, { at }] of Object.entries(places))
    lists[name].forEach((row, index) => put[name](at + SIZES[name] * index, row));
  return {...places, memory: () => view };
}
