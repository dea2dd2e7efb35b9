// The bytes of files: read, unpacked, and cut behind the limit.
import {LIMIT} from './layout.js';

/** One byte more than a tile may have: what is longer is judged the same. */
const MOST = LIMIT + 1;

/** The least bytes of a gzip member, and of its trailer. */
const LEAST_MEMBER = 18;
const TRAILER = 8;

/** So many members a tile may come in, as for mvt-audit. */
const MEMBERS = 4096;

/** So many wrong guesses of a member's end are made before the input counts as damaged. */
const GUESSES = 100;

/** `gzip`, `deflate` (zlib) or null, by how the bytes begin. */
export function packing(bytes) {
  if (bytes.length < 2) return null;
  if (isGzipAt(bytes, 0)) return 'gzip';
  const isZlib = (bytes[0] & 15) === 8 && bytes[0] >> 4 <= 7 && (256 * bytes[0] + bytes[1]) % 31 === 0;
  return isZlib ? 'deflate' : null;
}

function isGzipAt(bytes, at) {
  return bytes[at] === 0x1f && bytes[at + 1] === 0x8b;
}

/** Unpacks bytes, up to a number of them; null where they aren't packed so, or not wholly. */
async function unpacked(bytes, format) {
  const reader = new Blob([bytes]).stream().pipeThrough(new DecompressionStream(format)).getReader();
  const parts = [];
  let length = 0;
  try {
    while (length < MOST) {
      const { done, value } = await reader.read();
      if (done) return joined(parts, length);
      parts.push(value);
      length += value.length;
    }
  } catch {
    return null;
  }
  await reader.cancel();
  return joined(parts, length).subarray(0, MOST);
}

/** Parts behind each other, which have so many bytes. */
export function joined(parts, length) {
  const all = new Uint8Array(length);
  let at = 0;
  for (const part of parts) {
    all.set(part, at);
    at += part.length;
  }
  return all;
}

/** Where a member of gzip that begins at `from` may end: before the next one, at the end, or before zeros there. */
function* endsOf(bytes, from) {
  for (let at = bytes.indexOf(0x1f, from + LEAST_MEMBER); at !== -1; at = bytes.indexOf(0x1f, at + 1)) {
    if (isGzipAt(bytes, at) && bytes[at + 2] === 8) yield at;
  }
  yield bytes.length;
  const bare = bytes.findLastIndex((byte) => byte !== 0) + 1;
  for (let end = bare; end <= Math.min(bare + TRAILER, bytes.length - 1); end += 1) yield end;
}

/** The members of gzip, one behind another, perhaps with zeros behind the last; null where one is damaged, or they are too many. */
async function membersOf(bytes) {
  const parts = [];
  let at = 0;
  let length = 0;
  while (at < bytes.length && bytes[at] !== 0 && length < MOST) {
    const member = parts.length === MEMBERS ? null : await memberAt(bytes, at);
    if (member === null) return null;
    parts.push(member.bytes);
    length += member.bytes.length;
    at = member.end;
  }
  return { bytes: joined(parts, length).subarray(0, MOST), count: parts.length };
}

async function memberAt(bytes, from) {
  let guesses = 0;
  for (const end of endsOf(bytes, from)) {
    const made = await unpacked(bytes.subarray(from, end), 'gzip');
    if (made !== null) return { bytes: made, end };
    guesses += 1;
    if (guesses === GUESSES) return null;
  }
  return null;
}

/**
 * The bytes to be judged; `note`, what was done to get them, in words or null; and `damaged`, the packing that they begin
 * with where they can't be unpacked, else null.
 */
export async function prepared(bytes) {
  const format = packing(bytes);
  if (format === null) return { bytes, note: null, damaged: null };
  const whole = await unpacked(bytes, format);
  const made = whole === null && format === 'gzip' ? await membersOf(bytes) : { bytes: whole, count: 1 };
  const name = format === 'gzip' ? 'gzip' : 'zlib';
  if (made === null || made.bytes === null) return { bytes, note: null, damaged: name };
  const how = made.count > 1 ? `${name}, in ${made.count} members` : name;
  const note = `The input was compressed (${how}). The browser unpacked it, and the tile inside was judged.`;
  return { bytes: made.bytes, note, damaged: null };
}

/** The bytes of a file, and no more of them than are judged. */
export async function readFile(file) {
  return prepared(new Uint8Array(await file.slice(0, MOST).arrayBuffer()));
}
