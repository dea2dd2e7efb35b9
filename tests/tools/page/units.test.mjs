// What the page shows of the faults of tiles: what the program says of tiles is compared elsewhere
// (agree.test.mjs, test_places.py).
import {readFileSync} from 'node:fs';
import {Codec} from '../../../tools/mvt_tools/page/src/codec.js';
import {CAUSE} from '../../../tools/mvt_tools/page/src/layout.js';
import {BRIEF, sayHolders, sayPlace} from '../../../tools/mvt_tools/page/src/words.js';
import {casesByFile} from './cases.mjs';
import {check, is, same} from './checks.mjs';
import {withElements} from './elements.mjs';
import {Serving} from './serving.mjs';

withElements();
const top = new URL('../../../', import.meta.url).pathname;

// The bytes of each fault, by hand from the tiles' bytes: the integer of an index, or the field.
const MARKS = {
  '01-Truncated-field': [0, 1],
  '01-Truncated-name': [4, 7],
  '01-Truncated-geometry': [9, 12],
  '02-VarintRange': [0, 11],
  '03-FieldNumber-zero': [0, 2],
  '03-FieldNumber-large': [0, 6],
  '04-WireType': [0, 1],
  '04-WireType-gzip': [0, 2],
  '05-WrongType': [0, 2],
  '06-NumberRange': [7, 13],
  '07-NotUtf8': [4, 7],
  '08-NoVersion': [0, 5],
  '10-NoName': [0, 4],
  '11-ValueKind-none': [7, 9],
  '11-ValueKind-several': [7, 13],
  '12-GeomType': [9, 11],
  '13-OddTags': [11, 12],
  '14-KeyIndex': [11, 12],
  '15-ValueIndex': [12, 13],
  '16-RepeatedKey': [13, 14],
  '17-Command': [13, 14],
  '18-Count': [13, 14],
  '19-Parameters': [13, 14],
  '20-ZeroSegment': [17, 18],
  '21-CoordinateRange': [20, 21],
  '22-FirstRing': [21, 22],
  '23-EndsEarly': [16, 16],
  '24-RepeatedName': [23, 26],
  '26-ParameterRange': [14, 19],
};
const serving = await Serving.start();
const codec = new Codec(serving.address);
for (const [name, mark] of Object.entries(MARKS)) {
  const { place } = await codec.open(readFileSync(`${top}fixtures/tiles/broken/${name}.mvt`)).explain();
  await is(`the mark of ${name}`, [place.start, place.end], mark);
}
await is(
  'an accepted tile has no place',
  await codec.open(readFileSync(`${top}fixtures/tiles/gdal.mvt`)).explain().then(({ status,
                                                                                    place }) => [status, place]),
  [0, undefined]);

// What is shown of any refused tile fits what the library says of its fault.
for (const [file, cases] of casesByFile()) {
  await check(`the places in ${file}`, async () => {
    const wrong = [];
    for (const { name, tile, said } of cases)
      if (said.fault && !(await fitsIn(tile))) wrong.push(name);
    return same(wrong, []);
  });
}

async function fitsIn(bytes) {
  const { fault } = await codec.open(bytes).judge();
  return fits(bytes, fault, await codec.open(bytes).explain(), await aroundOf(bytes));
}

async function aroundOf(bytes) {
  return JSON.parse(new TextDecoder().decode((await codec.open(bytes).around()).bytes));
}

function fits(bytes, fault, told, { integers }) {
  const { start, end, sentence } = told.place;
  const isSame = JSON.stringify(told.fault) === JSON.stringify(fault);
  const isInside = start >= 0 && start <= end && end <= bytes.length;
  // The integer that is shown is spelled by the bytes of the place.
  const isThere =
    integers === null || integers.value === null || numberOf(bytes.subarray(start, end)) === integers.value;
  const said = [sentence, sayPlace({ start, end, integers }), ...sayHolders(fault, told.place)].join(' ');
  return isSame && isInside && isThere && !/undefined|null|NaN/.test(said);
}

/** The number that bytes spell; above 2^53 it is rounded. */
function numberOf(spelling) {
  return spelling.reduceRight((number, byte) => number * 128 + (byte & 127), 0);
}

const rules = readFileSync(`${top}docs/FORMAT.md`, 'utf8').matchAll(/^\| (\d+) \| (\w+) \|/gm);
for (const [, cause, name] of rules) {
  await check(`${name} has few words`, () => BRIEF[cause]?.length < 50);
  await is(`${name} has its number`, CAUSE[name], Number(cause));
}
const [list, index, count] = ['tags', 3, 4];
const places = [
  [4, 6, null], [4, 5, null], [16, 16, null], [4, 5, { list, index, count, value: 1234 }],
  [4, 5, { list, index: count, count, value: null }]
];
await is('places in words', places.map(([start, end, integers]) => sayPlace({ start, end, integers })), [
  'Marked: bytes 4 to 5.', 'Marked: byte 4.', 'The place is before byte 16 (0x10).',
  'Marked: byte 4: the tag of index 3 in the tags, counted from 0, which is 1,234.', 'Marked: byte 4. In all: 4 tags.'
]);
await serving.end();
