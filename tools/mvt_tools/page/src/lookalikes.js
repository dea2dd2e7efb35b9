// What files are that are no tiles, in words: those of the library, and what this page and the tools can do with them.
import {LOOKALIKE} from './layout.js';

/** What bytes look like in a word, for lists, where the library's name isn't that word. */
const SHORT_NAMES = {
  Gzip: 'gzip',
  Zlib: 'zlib',
  Zstd: 'zstd',
  Png: 'PNG',
  Sqlite: 'SQLite',
  Pmtiles: 'PMTiles',
  Json: 'JSON',
  Html: 'HTML',
  Jpeg: 'JPEG',
  Gif: 'GIF',
  Webp: 'WebP',
  Xz: 'xz',
  Bzip2: 'bzip2',
  Zip: 'ZIP',
  Pdf: 'PDF',
  OsmPbf: 'OSM',
  Xml: 'XML',
  PlainText: 'text',
  Brotli: 'brotli',
  Mbtiles: 'MBTiles',
};

const OPENED_BY =
  '`mvt-page` with the file’s name opens it here. Started with the name of its folder, `mvt-page` opens it also when it is dropped here.';

/** What this page and the tools can do with a file. */
const ADVICE = {
  Gzip: 'It was compressed twice.',
  Zlib: 'It was compressed twice.',
  Pmtiles: `It holds many tiles: \`mvt-audit\` judges each of them. ${OPENED_BY}`,
  Mbtiles: OPENED_BY,
  Sqlite:
    'If it is an MBTiles store, `mvt-page` with the file’s name opens it here, and `mvt-audit` judges each tile in it.',
};

const BROTLI = {
  name: 'brotli',
  sentence: 'This isn’t a tile, but compressed with brotli, as its name ends with .br: unpack it first.'
};

/** What a refused file is if it is no tile, `{name, sentence}`: what the library says that it looks like; else null. */
export function sayLookalike(looks, fileName) {
  if (looks === null) return /\.br$/i.test(fileName) ? BROTLI : null;
  const [name] = Object.entries(LOOKALIKE).find(([, number]) => number === looks.kind) ?? [`kind ${looks.kind}`];
  return { name: SHORT_NAMES[name] ?? name, sentence: [looks.sentence, ADVICE[name]].filter(Boolean).join(' ') };
}
