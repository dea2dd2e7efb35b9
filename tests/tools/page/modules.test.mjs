// The page's own modules, those that want no codec. Expected values are by hand.
import {deflateSync, gzipSync} from 'node:zlib';
import {csvOf} from '../../../tools/mvt_tools/page/src/csv.js';
import {FeatureTable} from '../../../tools/mvt_tools/page/src/features.js';
import {packing, prepared} from '../../../tools/mvt_tools/page/src/files.js';
import {floatText, shortFloat} from '../../../tools/mvt_tools/page/src/floats.js';
import {foreign, plain} from '../../../tools/mvt_tools/page/src/foreign.js';
import {JsonIndex} from '../../../tools/mvt_tools/page/src/json-index.js';
import {coloured, laidOut} from '../../../tools/mvt_tools/page/src/json.js';
import {allJudged} from '../../../tools/mvt_tools/page/src/judging.js';
import {FINDING, LOOKALIKE, NOTE} from '../../../tools/mvt_tools/page/src/layout.js';
import {sayLookalike} from '../../../tools/mvt_tools/page/src/lookalikes.js';
import {boxOf} from '../../../tools/mvt_tools/page/src/map.js';
import {placeIn, stemOf} from '../../../tools/mvt_tools/page/src/names.js';
import {Finder} from '../../../tools/mvt_tools/page/src/near.js';
import {Findings, Survey} from '../../../tools/mvt_tools/page/src/remarks.js';
import {Rows} from '../../../tools/mvt_tools/page/src/rows.js';
import {spelledBytes, spelledOffset} from '../../../tools/mvt_tools/page/src/spelled.js';
import {answerOf, explainedOf, framesOf, partsOf, rowsOf} from '../../../tools/mvt_tools/page/src/spelling.js';
import {sortedInSteps, withOthers} from '../../../tools/mvt_tools/page/src/steps.js';
import {styled} from '../../../tools/mvt_tools/page/src/styled.js';
import {WAYS, beyondOf, placeOf, verdictOfRow, wayFrom, wayOfKey} from '../../../tools/mvt_tools/page/src/stored.js';
import {grouped, shortSize} from '../../../tools/mvt_tools/page/src/text.js';
import {WHOLE, moved, transformOf, viewOf, zoomed} from '../../../tools/mvt_tools/page/src/view.js';
import {check, is} from './checks.mjs';
import {withElements} from './elements.mjs';
import {handMade} from './hand.mjs';

withElements();

// ---- pasted bytes

const FIVE = [0x1a, 3, 10, 1, 0x61];
const SPELLED = {
  'hexadecimal': ['1A 03\n0a0161', FIVE],
  'hexadecimal of PostgreSQL': ['\\x1a03', [0x1a, 3]],
  'hexadecimal of C': ['0x1A, 0x03', [0x1a, 3]],
  'base64': ['GgMKAWE=', FIVE],
  'base64 of a URL': ['data:application/x-protobuf;base64,GgMKAWE=', FIVE],
  'base64 with other letters': ['-_8', [251, 255]],
  'decimals': ['26 3 10 1 97', FIVE],
  'a list of decimals': ['[26, 3, 10, 1, 97]', FIVE],
  'decimals of two digits with commas': ['10,11', [10, 11]],
  'pairs of digits are hexadecimal': ['10 11', [16, 17]],
  'an array of JavaScript': ['Uint8Array(2) [26, 255]', [26, 255]],
  'xxd': ['00000000: 1a03 0a01 61                             ....a', FIVE],
  'two lines of xxd': [
    '00000000: 0001 0203 0405 0607 0809 0a0b 0c0d 0e0f  ................\n00000010: 1011                                     ..',
    [...Array(18).keys()]
  ],
  'xxd whose letters look like bytes':
    ['00000000: 6162 6364                                abcd', [0x61, 0x62, 0x63, 0x64]],
  'hexdump -C': ['00000000  1a 03 0a 01 61                                    |....a|\n00000005', FIVE],
};
for (const [name, [pasted, wanted]] of Object.entries(SPELLED))
  await is(name, [...(spelledBytes(pasted)?.bytes ?? [])], wanted);
await is('neither', spelledBytes('not a tile!'), null);
await is('nothing', spelledBytes('  '), null);
await is('a number above 255 is no byte', spelledBytes('[26, 256]'), null);
await is(
  'offsets', ['1A0', '0x1a0', '0', '1,234', '100', 'x', '-1', ''].map(spelledOffset),
  [416, 416, 0, 1234, 256, null, null, null]);

// ---- files

await is('gzip is seen', packing(Uint8Array.of(0x1f, 0x8b, 8)), 'gzip');
await is('zlib is seen', packing(Uint8Array.of(0x78, 0x9c)), 'deflate');
await is('a tile is neither', packing(Uint8Array.of(0x1a, 0x8b)), null);
const joined = (...parts) => new Uint8Array(Buffer.concat(parts));
const [one, two] = [gzipSync(Buffer.from('ab')), gzipSync(Buffer.from('cd'))];
const zeros = Buffer.alloc(1000);
const cut = (bytes, by) => bytes.subarray(0, bytes.length - by);
const PACKED = {
  'gzip': [one, 'ab'],
  'gzip of two members': [joined(one, two), 'abcd'],
  'gzip of three members': [joined(one, two, one), 'abcdab'],
  'gzip with zeros behind it': [joined(one, zeros), 'ab'],
  'members and zeros': [joined(one, two, zeros), 'abcd'],
  'gzip of nothing with a zero behind it': [joined(gzipSync(Buffer.alloc(0)), Buffer.alloc(1)), ''],
  'zlib': [deflateSync(Buffer.from('ab')), 'ab'],
};
for (const [name, [bytes, wanted]] of Object.entries(PACKED)) {
  const { bytes: made, damaged } = await prepared(new Uint8Array(bytes));
  await is(name, [Buffer.from(made).toString(), damaged], [wanted, null]);
}
const DAMAGED = {
  'gzip that is cut': [cut(one, 3), 'gzip'],
  'zlib that is cut': [cut(deflateSync(Buffer.from('ab')), 3), 'zlib'],
  'a second member that is cut': [joined(one, cut(two, 1)), 'gzip']
};
for (const [name, [bytes, wanted]] of Object.entries(DAMAGED)) {
  const made = await prepared(new Uint8Array(bytes));
  await is(name, [made.damaged, made.bytes.length], [wanted, bytes.length]);
}

// Each kind has a name without the library's way of writing it.
const looks = (kind) => ({ kind, sentence: 'This isn’t a tile.' });
const NAMED = [
  'gzip',       'zlib', 'zstd',  'PNG', 'SQLite', 'PMTiles', 'JSON', 'HTML', 'JPEG',   'GIF',    'WebP',
  'FlatGeobuf', 'xz',   'bzip2', 'ZIP', 'PDF',    'OSM',     'XML',  'text', 'brotli', 'MBTiles'
];
await is(
  'each kind has a name', Object.values(LOOKALIKE).map((kind) => sayLookalike(looks(kind), 'a.mvt').name), NAMED);
await is('a kind of a later library', sayLookalike(looks(99), 'a.mvt').name, 'kind 99');
await is(
  'a picture is what the library says', sayLookalike(looks(LOOKALIKE.Jpeg), 'a.mvt').sentence, 'This isn’t a tile.');
await is('a broken tile is a tile', sayLookalike(null, 'a.mvt'), null);
await is('brotli by its name', sayLookalike(null, '1451.pbf.br')?.name, 'brotli');
await is('what the library sees is more than a name', sayLookalike(looks(LOOKALIKE.PlainText), 'a.br').name, 'text');
for (const kind of ['Pmtiles', 'Mbtiles', 'Sqlite']) {
  await check(
    `of a store it is said what to do: ${kind}`,
    () => sayLookalike(looks(LOOKALIKE[kind]), 'a').sentence.includes('`mvt-page` with the file’s name opens it'));
}

// ---- several files, judged by one question

const survey = {
  status: 0,
  bytes: new Uint8Array(24)
};
const file = (...bytes) => ({ read: { bytes: Uint8Array.from(bytes), damaged: null }, name: 'a.mvt' });
const files = [file(1), file(2), file(3)];
const answering = (answers, alone = () => survey) => ({
  surveys: async () => answers,
  open: (bytes) => ({ survey: async () => alone(bytes) }),
});
const kinds = async (codec) => (await allJudged(codec, files)).map(({ kind }) => kind);
const failing = {
  get status() {
    throw new RangeError('Maximum call stack size exceeded');
  }
};
await is(
  'what fails in one file is told of that one', await kinds(answering([survey, failing, survey])),
  ['accepted', 'unjudged', 'accepted']);
await is(
  'where there is no memory for all, each is judged alone',
  await kinds(answering(Array(3).fill({ status: 2 }), ([byte]) => (byte === 2 ? { status: 2 } : survey))),
  ['accepted', 'unjudged', 'accepted']);

// ---- texts

await is('a text without controls', foreign('High Street').textContent, 'High Street');
await is('controls are told', foreign('a\u202Eb\n').textContent, 'aU+202EbU+000A');
await is('joiners are left', foreign('می\u200Cخواهم').textContent, 'می\u200Cخواهم');
await is('a long text is cut', foreign('x'.repeat(3000)).textContent, `${'x'.repeat(120)}… show all 3,000 letters`);
await is('no letter is cut in two', plain('😀'.repeat(3), 3), '\u2068😀…\u2069');
await is('a plain text', plain('a\u2067b'), '\u2068a‹U+2067›b\u2069');
await is(
  'names keep zoom and column',
  ['tiles/12/2120/1451.pbf', 'a/b.mvt', 'b.pbf.gz', '12/2120/1451.mvt', '.mvt'].map(stemOf),
  ['12-2120-1451', 'b', 'b', '12-2120-1451', 'tile']);
await is('CSV', csvOf([['a', 'b'], ['x,y', 1], ['say "so"', null]]), 'a,b\r\n"x,y",1\r\n"say ""so""",\r\n');
await is(
  'CSV without formulas', csvOf([['a'], ['=1+1'], ['-2.mvt'], ['@x'], ['+1'], ['\t=1'], [-1], ['a=1']]),
  "a\r\n'=1+1\r\n'-2.mvt\r\n'@x\r\n'+1\r\n'\t=1\r\n-1\r\na=1\r\n");
const scattered = Array.from({ length: 9000 }, (_, index) => (index * 7919) % 9001);
const upwards = (a, b) => a - b;
await is('sorted in steps', await sortedInSteps(scattered, upwards), [...scattered].sort(upwards));
await is(
  'sorted in one step, and nothing', [await sortedInSteps([3, 1, 2], upwards), await sortedInSteps([], upwards)],
  [[1, 2, 3], []]);
await is(
  'equal ones stay in order', (await sortedInSteps(scattered, (a, b) => (a % 3) - (b % 3))).slice(0, 3),
  scattered.filter((each) => each % 3 === 0).slice(0, 3));
await check('sorting is given up', async () => {
  let asked = 0;
  return (await sortedInSteps(scattered, upwards, () => (asked += 1) < 3)) === null && asked === 3;
});
await is(
  'others among sorted ones',
  [withOthers([1, 3, 5], [4, 0, 5, 9], upwards), withOthers([], [2, 1], upwards), withOthers([1], [], upwards)],
  [[0, 1, 3, 4, 5, 5, 9], [1, 2], [1]]);
await is('groups', [1, 1234, 67108864].map(grouped), ['1', '1,234', '67,108,864']);
await is(
  'JSON keeps its digits', laidOut('{"id":18446744073709551615,"a":["b, {c","\\""]}'),
  '{"id": 18446744073709551615, "a": ["b, {c", "\\""]}');
const long = `[${'"abcdefghij",'.repeat(20)}[]]`;
await is('long JSON stays what it was', JSON.parse(laidOut(long)), JSON.parse(long));
await check('long JSON gets lines', () => laidOut(long).split('\n').length === 23);

const json = new JsonIndex(new TextEncoder().encode(
  '{"layers":[{"extent":4096,"features":[{"a":"{[\\"","g":{"points":[[1,2]]}},{"a":{}}],"name":"x"},{"foreign":{"length":4,"version":1}}]}'));
await is('the layers of JSON', json.layers(0, 9), [
  { json: '{"extent":4096,"features":[…],"name":"x"}', features: 2 },
  { json: '{"foreign":{"length":4,"version":1}}', features: 0 }
]);
await is(
  'a layer of JSON without features',
  new JsonIndex(new TextEncoder().encode('{"layers":[{"features":[],"name":"x"}]}')).layers(0, 1),
  [{ json: '{"features":[],"name":"x"}', features: 0 }]);
await is(
  'dots are laid out', coloured(laidOut('{"extent":4096,"features":[…]}')).join(''),
  '{"extent": 4096, "features": […]}');
await is(
  'the features of JSON', json.features(0, 0, 9).map((each) => each.json),
  ['{"a":"{[\\"","g":{"points":[[1,2]]}}', '{"a":{}}']);
await is(
  'coloured JSON is what it was', coloured(laidOut('{"a": ["b\\"", -1, true]}')).join(''), '{"a": ["b\\"", -1, true]}');

// ---- a saved picture: a style round the library's

await is('a picture in colours', Buffer.from(styled(Uint8Array.of(0x3c, 0xff), ['#f51c35', null])).toString('latin1'), [
  '<svg xmlns="http://www.w3.org/2000/svg" viewBox="0 0 1 1">', '<style>path.polygons{fill-rule:nonzero}',
  'svg>svg>svg:nth-of-type(1){color:#f51c35}', 'svg>svg>svg:nth-of-type(2){display:none}</style>', '<\xff', '</svg>'
].join('\n'));

// ---- floats: patterns of IEEE 754

await is('a float', shortFloat(Math.fround(0.1)), '0.1');
await is('a long float', shortFloat(Math.fround(16777217)), '16777216');
await is('a float and its bits', floatText('float', 0x3dcccccdn), { text: '0.1', bits: '0x3dcccccd' });
await is('minus nothing', [floatText('float', 0x80000000n).text, floatText('double', 1n << 63n).text], ['-0', '-0']);
await is('a double', floatText('double', 0x3fb999999999999an), { text: '0.1', bits: '0x3fb999999999999a' });
await is('no number', floatText('float', 0x7fc00000n).text, 'NaN');

// ---- notes and findings

/** Rows of words of 32 bits, behind counts. */
const wordsOf = (...words) => new Uint8Array(Int32Array.from(words.flat()).buffer);
const foreignLayer = (layer, version) => [NOTE.Foreign, version, layer, 0, 0, 0, 0, 0, 0, 0];
const noted = new Survey(
  wordsOf([3, 0, 7, 0, 1, 0], foreignLayer(0, -1), [NOTE.RepeatedId, 0, 1, 0, 2, 0, 0, 0, 0, 0], foreignLayer(2, 3)));
await is('what a survey counts', [noted.counts, noted.isCanonical], [{ layers: 3, features: 7 }, true]);
await is(
  'a note of a layer', noted.some('Foreign', 0, 1),
  [{ line: 'note Foreign layer 0 version 4294967295', layer: 0, feature: null }]);
await is('notes by kind', noted.kinds(), [{ kind: 'Foreign', count: 2 }, { kind: 'RepeatedId', count: 1 }]);
await is('layers that were not looked into', noted.foreign, 2);
await is(
  'a note leads to its feature', noted.some('RepeatedId', 0, 9),
  [{ line: 'note RepeatedId layer 1 feature 2 earlier 0', layer: 1, feature: 2 }]);

const findings = new Findings(
  wordsOf([FINDING.ZeroExtent, 0, 1, 0, 0, 0, 0, 0, 0, 0], [FINDING.FarPoint, 1, 2, 0, 3, 0, 0, 0, 20000, -7]));
await is('findings by kind', findings.kinds(), [{ kind: 'ZeroExtent', count: 1 }, { kind: 'FarPoint', count: 1 }]);
await is(
  'a finding leads to its feature', findings.some('FarPoint', 0, 9),
  [{ line: 'lint FarPoint layer 2 feature 3 position 20000 -7', layer: 2, feature: 3 }]);
await is('no findings', new Findings(new Uint8Array(0)).kinds(), []);

// ---- rows

const rows = new Rows(handMade([
  {
    name: 'land',
    extent: 100,
    spare: ['unused'],
    features: [
      {
        id: 7n,
        shape: 'polygons',
        parts: [[[10, 10], [90, 10], [90, 90], [10, 90]], [[40, 40], [40, 60], [60, 60], [60, 40]]],
        attributes: [['kind', 'string', 'wood'], ['area', 'float', 0x3dcccccdn]]
      },
      { shape: 'lines', parts: [[[0, 20], [100, 20]]], attributes: [['kind', 'string', 'path']] },
    ]
  },
  { version: 1, bytes: 9 },
  {
    name: 'places',
    extent: 1000,
    features: [{ id: 18446744073709551615n, shape: 'points', parts: [[[300, 210], [800, 800]]] }, { shape: 'unknown' }]
  },
]));
await is(
  'a feature', rows.feature(0).attributes,
  [{ key: 'kind', kind: 'string', text: 'wood' }, { key: 'area', kind: 'float', text: '0.1', bits: '0x3dcccccd' }]);
await is('the layers of features', [0, 1, 2, 3].map((place) => rows.layerOf(place)), [0, 0, 2, 2]);
await is('an id', rows.feature(2).id, '18446744073709551615');
await is('a layer of another version', [rows.layer(1).version, rows.layer(1).bytes], [1, 9]);

const finder = new Finder(rows);
const near = (x, y, hidden = -1) => finder.near({ x, y, reach: 0.02, isShown: (layer) => layer !== hidden }).places;
await is('a point before a line before an area', near(0.3, 0.2), [2, 1, 0]);
await is('a layer that is off is not found', near(0.3, 0.2, 2), [1, 0]);
await is('in a hole nothing is', near(0.5, 0.5), []);
await is('near the edge of a hole its area is', near(0.41, 0.5), [0]);
await is('nothing beyond the reach', near(0.95, 0.5), []);
await is('boxes', finder.boxOf(0), [10, 10, 90, 90]);

const table = new FeatureTable(rows, 0);
await is('columns of the keys that a feature names', [table.columns, table.keyCount], [['kind', 'area'], 2]);
await is('cells', table.some(0, 9).map((row) => row.cells), [['wood', '0.1'], ['path', null]]);
await is(
  'a filter by value', [table.filter('PATH'), table.some(0, 9).map((row) => row.index), table.rowOf(1), table.rowOf(0)],
  [1, [1], 0, -1]);
await is('a filter by id', [table.filter('7'), table.filter('polyg'), table.filter('')], [1, 1, 2]);

// ---- views

await is('zoom keeps the point under the pointer', zoomed(WHOLE, 2, 0.25, 1), { x: 0.125, y: 0.5, size: 0.5 });
await is('a move', moved({ x: 0, y: 0, size: 0.5 }, 0.5, -1), { x: 0.25, y: -0.5, size: 0.5 });
await is(
  'a frame of the whole under a view of its middle', transformOf(WHOLE, { x: 0.25, y: 0.25, size: 0.5 }),
  'translate(-50%, -50%) scale(2)');
await check('a view of a box holds it', () => {
  const { x, y, size } = viewOf([0.1, 0.2, 0.3, 0.9]);
  return x < 0.1 && y < 0.2 && x + size > 0.3 && y + size > 0.9;
});

// ---- colours: contrast of WCAG 2.2, and distance in OKLab

globalThis.matchMedia = () => ({ matches: false, addEventListener() {} });
const { LIGHT, DARK } = await import('../../../tools/mvt_tools/page/src/palette.js');
const linear = (colour) => [1, 3, 5]
                             .map((at) => parseInt(colour.slice(at, at + 2), 16) / 255)
                             .map((part) => (part <= 0.04045 ? part / 12.92 : ((part + 0.055) / 1.055) ** 2.4));
const light = (colour) => linear(colour).reduce((sum, part, index) => sum + part * [0.2126, 0.7152, 0.0722][index], 0);
const contrast = (a, b) => (Math.max(light(a), light(b)) + 0.05) / (Math.min(light(a), light(b)) + 0.05);
function oklab(colour) {
  const [r, g, b] = linear(colour);
  const [l, m, s] = [
    [0.4122214708, 0.5363325363, 0.0514459929], [0.2119034982, 0.6806995451, 0.1073969566],
    [0.0883024619, 0.2817188376, 0.6299787005]
  ].map((row) => Math.cbrt(row[0] * r + row[1] * g + row[2] * b));
  return [
    0.2104542553 * l + 0.793617785 * m - 0.0040720468 * s, 1.9779984951 * l - 2.428592205 * m + 0.4505937099 * s,
    0.0259040371 * l + 0.7827717662 * m - 0.808675766 * s
  ];
}
for (const [name, { paper, layers }] of Object.entries({ LIGHT, DARK })) {
  await is(`${name}: sixteen colours`, new Set(layers).size, 16);
  await is(`${name}: 3:1 to the paper`, layers.filter((colour) => contrast(colour, paper) < 3), []);
  const labs = layers.map(oklab);
  const pairs =
    labs.flatMap((a, index) => labs.slice(index + 1).map((b) => Math.hypot(...a.map((part, axis) => part - b[axis]))));
  await check(`${name}: told apart`, () => Math.min(...pairs) > 0.15 || String(Math.min(...pairs)));
}

// ---- the shape of a faulty feature

const { boxOfShape, polygonsOf } = await import('../../../tools/mvt_tools/page/src/shape.js');
const isIn = (shape, [x, y]) => {
  const box = boxOfShape({ mark: null, extent: 4096, ...shape });
  return x >= box.x && y >= box.y && x <= box.x + box.size && y <= box.y + box.size;
};
const beyond = {
  parts: [[[4200, 500], [4300, 500], [4300, 600]]]
};
await is(
  'a shape beyond the tile is seen whole, with the nearest edge',
  [[4200, 500], [4300, 600], [4096, 550], [0, 0]].map((point) => isIn(beyond, point)), [true, true, true, false]);
await is(
  'a shape beyond a corner is seen with the corner', isIn({ parts: [[[-300, -900], [-200, -800]]] }, [0, 0]), true);
const square = (side, at = 0) => [[at, at], [at + side, at], [at + side, at + side], [at, at + side], [at, at]];
const back = (ring) => ring.toReversed();
const flat = [[0, 0], [9, 9], [0, 0]];
await is(
  'holes stand behind the polygon that they are cut out of',
  polygonsOf([square(9), back(square(5, 2)), square(1, 4), back(square(2, 20))]),
  [[square(9), back(square(5, 2))], [square(1, 4), back(square(2, 20))]]);
await is(
  'the first ring with area says which direction begins a polygon',
  polygonsOf([flat, back(square(9)), square(5, 2), flat, back(square(1, 4))]),
  [[back(square(9)), square(5, 2)], [back(square(1, 4))]]);
await is(
  'rings of one direction are polygons of their own', polygonsOf([back(square(9)), back(square(5, 2))]),
  [[back(square(9))], [back(square(5, 2))]]);
await is('there is no polygon without area', polygonsOf([flat]), []);
await is(
  'a shape in the tile fills the square', boxOfShape({ parts: [[[100, 100], [300, 200]]], mark: null, extent: 4096 }),
  { x: 70, y: 20, size: 260 });
await is('a mark beyond the tile is seen', isIn({ parts: [[[10, 10]]], mark: [9000, 10] }, [9000, 10]), true);

// ---- questions and answers: bytes by hand, as tools/mvt_tools/page/calls.py says

const FAULT = [
  1, 0, 0, 0, 0, 0, 0,    0,   ...Array(8).fill(255), 2, 0, 0, 0, 0, 0, 0, 0, 8, 1, 0, 0, 0, 0, 0, 0, 22, 0,
  0, 0, 2, 0, 0, 0, 0x61, 0x62
];
await is(
  'an answer of bytes', {...answerOf(Uint8Array.of(0, 0, 0, 0, 0, 0, 0, 0, 7, 8)), bytes: undefined }, { status: 0 });
await is('its bytes', [...answerOf(Uint8Array.of(0, 0, 0, 0, 0, 0, 0, 0, 7, 8)).bytes], [7, 8]);
await is(
  'an answer with a fault', answerOf(Uint8Array.from(FAULT)),
  { status: 1, fault: { layer: null, feature: 2, at: 264, cause: 22, name: 'ab' }, looks: null });
await is(
  'an answer that stands within others', answerOf(Uint8Array.from([9, 9, 9, ...FAULT]).subarray(3)).fault.at, 264);
const counted = (...numbers) => numbers.flatMap((number) => [number, 0, 0, 0, 0, 0, 0, 0]);
const short = (...numbers) => numbers.flatMap((number) => [number, 0, 0, 0]);
const PLACE =
  [...FAULT, ...short(1, 1), ...Array(8).fill(255), ...counted(9, 11), ...short(2, 3), 0xc3, 0xa4, 0x63, 0x64, 0x2e];
await is(
  'a place', explainedOf(Uint8Array.from([7, ...PLACE]).subarray(1)).place,
  { start: 9, end: 11, layerName: 'ä', featureId: '18446744073709551615', sentence: 'cd.' });
await is('its fault', explainedOf(Uint8Array.from(PLACE)).fault, answerOf(Uint8Array.from(FAULT)).fault);
const LOOKING = [...FAULT.with(4, 9), 3, 0, 0, 0, 101, 102, 46];
await is(
  'what refused bytes look like', answerOf(Uint8Array.from([7, ...LOOKING]).subarray(1)).looks,
  { kind: 9, sentence: 'ef.' });
await is(
  'a place behind it', explainedOf(Uint8Array.from([...LOOKING, ...PLACE.slice(FAULT.length)])).place,
  explainedOf(Uint8Array.from(PLACE)).place);
const nameless = explainedOf(Uint8Array.from([...FAULT, ...short(0, 0), ...counted(0, 1, 2), ...short(0, 0)])).place;
await is(
  'a place without a name and an id', nameless, { start: 1, end: 2, layerName: null, featureId: null, sentence: '' });
await is('no place where nothing is refused', explainedOf(Uint8Array.of(0, 0, 0, 0, 0, 0, 0, 0)).place ?? null, null);
await is(
  'frames', [...framesOf([Uint8Array.of(1, 2), Uint8Array.of(), Uint8Array.of(3)])],
  [3, 0, 0, 0, 2, 0, 0, 0, 0, 0, 0, 0, 1, 0, 0, 0, 1, 2, 3]);
await is(
  'parts of frames',
  partsOf(framesOf([Uint8Array.of(1, 2), Uint8Array.of(), Uint8Array.of(3)])).map((part) => [...part]),
  [[1, 2], [], [3]]);
const lists =
  rowsOf(answerOf(Uint8Array.from([...counted(0), ...counted(1, 1, 1, 1, 3, 1, 1, 1, 5), ...Array(300)])).bytes);
await is('where rows lie', Object.entries(lists).slice(0, 9).map(([name, { at, count }]) => `${name} ${at} ${count}`), [
  'layers 80 1', 'features 168 1', 'keys 232 1', 'values 248 1', 'tags 280 3', 'parts 296 1', 'points 320 1',
  'integers 328 1', 'texts 336 5'
]);

// ---- tiles of a store

await is(
  'places', ['5/17/11', ' 0/0/0 ', '0/1/0', '5/17', '31/0/0', '1/0/0.mvt', ''].map(placeOf),
  [{ z: 5, x: 17, y: 11 }, { z: 0, x: 0, y: 0 }, { z: 0, x: 1, y: 0 }, null, null, null, null]);
const ways = (place) => WAYS.map((way) => wayFrom(place, way)).map((to) => to && `${to.z}/${to.x}/${to.y}`);
await is(
  'ways from a tile', ways({ z: 2, x: 3, y: 1 }),
  ['2/2/1', '2/3/0', '2/3/2', '2/0/1', '1/1/0', '3/6/2', '3/7/2', '3/6/3', '3/7/3']);
await is(
  'ways from the whole world', ways({ z: 0, x: 0, y: 0 }),
  ['0/0/0', null, null, '0/0/0', null, '1/0/0', '1/1/0', '1/0/1', '1/1/1']);
await is(
  'places beyond the world',
  [
    null, { z: 0, x: 0, y: 0 }, { z: 1, x: 1, y: 1 }, { z: 0, x: 1, y: 0 }, { z: 2, x: 0, y: 4 }, { z: 2, x: 0, y: -1 }
  ].map(beyondOf),
  [null, null, null, 'zoom 0 has no such place', 'zoom 2 has no such place', 'zoom 2 has no such place']);
await is(
  'ways from beyond the world', ways({ z: 0, x: 1, y: 0 }),
  ['0/0/0', null, null, '0/0/0', null, '1/2/0', '1/3/0', '1/2/1', '1/3/1']);
await is(
  'keys',
  [
    { key: 'ArrowLeft', shiftKey: true }, { key: 'ArrowLeft' }, { key: '0' }, { key: '3', ctrlKey: true }, { key: 'x' }
  ].map((event) => wayOfKey(event)?.name ?? null),
  ['West', null, 'Parent', null, null]);
const row = {
  verdict: 'accepted',
  cause: null,
  cause_name: null,
  layer: null,
  feature: null,
  place: null,
  notes: '',
  noted: []
};
const notedAs = (...noted) => ({...row, noted: noted.map(([kind, count]) => ({ kind, count })) });
await is(
  'verdicts of rows',
  [
    row, notedAs(['NoFeatures', 1], ['FlatRing', 2]), notedAs(['Foreign', 1]),
    {...notedAs(['NoLayers', 1]), verdict: 'empty' }, {...row, verdict: 'not unpacked', notes: 'cut off' },
    {...row, verdict: 'unread', notes: 'gone' }
  ].map(verdictOfRow)
    .map(({ kind, notes, foreign: old }) => [kind, notes.map((note) => note.kind + note.count).join(), old]),
  [
    ['accepted', '', 0], ['accepted', 'NoFeatures1,FlatRing2', 0], ['partly', 'Foreign1', 1],
    ['accepted', 'NoLayers1', 0], ['other', '', 0], ['unread', '', 0]
  ]);
await is(
  'the fault of a row',
  verdictOfRow({...row, verdict: 'refused', cause: 22, cause_name: 'FirstRing', layer: 0, feature: 3, place: 8 }).fault,
  { layer: 0, feature: 3, at: 8, cause: 22, name: 'FirstRing' });
// ---- places and sizes

await is(
  'the place in a name',
  ['tiles/12/2120/1451.pbf', '14-8192-8191.mvt', '14/8192/8191', 'a/3/9/1.mvt', '31/0/0.mvt', 'town.mvt'].map(placeIn),
  [{ z: 12, x: 2120, y: 1451 }, { z: 14, x: 8192, y: 8191 }, { z: 14, x: 8192, y: 8191 }, null, null, null]);
await is(
  'sizes for a narrow column', [0, 999, 1000, 9949, 9951, 12_345_678].map(shortSize),
  ['0 B', '999 B', '1.0 kB', '9.9 kB', '10.0 kB', '12 MB']);
await is('a map of one tile', boxOf([[5, 9]]), { left: 5, top: 9, shift: 0, count: 1 });
await is('a map of a few', boxOf([[5, 9], [7, 8], [68, 8]]), { left: 5, top: 8, shift: 0, count: 64 });
await is('a map of many has squares of several', boxOf([[0, 0], [64, 0]]), { left: 0, top: 0, shift: 1, count: 33 });
