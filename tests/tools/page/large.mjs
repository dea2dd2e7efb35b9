// Large tiles: of lines, of points, and of many layers.

export function varint(number) {
  const bytes = [];
  let left = number;
  while (left >= 128) {
    bytes.push((left % 128) + 128);
    left = Math.floor(left / 128);
  }
  return [...bytes, left];
}

const field = (number, bytes) => [8 * number + 2, ...varint(bytes.length), ...bytes];
const HEAD = [0x78, 2, ...field(1, [0x61])];

function layerOf(payload) {
  return Buffer.concat([Buffer.from([0x1a, ...varint(payload.length)]), payload]);
}

/** A line of some steps; a broken one begins with a LineTo. */
function line(isBroken, count = 500, at = [2, 2]) {
  const steps = Array.from({ length: count }, (_, index) => [2 + (index % 5), 4 * (index % 7)]).flat();
  return field(
    2, [0x18, 2, ...field(4, [isBroken ? 10 : 9, ...at.flatMap(varint), ...varint(8 * count + 2), ...steps])]);
}

/** A tile of so many bytes or a few more, of one layer of lines; where it is broken, its last feature is. */
export function largeTile(size, isBroken = false) {
  const one = Buffer.from(line(false));
  const last = Buffer.from(line(isBroken));
  const features = Math.ceil(size / one.length);
  return { bytes: layerOf(Buffer.concat([Buffer.from(HEAD), ...Array(features - 1).fill(one), last])), features };
}

/** A tile of so many points, each a feature with an id and an attribute, of some 20 bytes: `{bytes, features}`. */
export function pointTile(features) {
  const parts = [Buffer.from([...HEAD, ...field(3, [0x6b]), ...field(4, [0x0a, 1, 0x76])])];
  for (let index = 0, seed = 1; index < features; index += 1) {
    seed = (seed * 48271) % 2147483647;
    const [x, y] = [seed % 4096, (seed >> 12) % 4096].map((place) => varint(2 * place));
    parts.push(Buffer.from(
      field(2, [0x08, ...varint(2_000_000 + index), 0x12, 2, 0, 0, 0x18, 1, ...field(4, [9, ...x, ...y])])));
  }
  return { bytes: layerOf(Buffer.concat(parts)), features };
}

/** A tile of so many layers, each of some lines: `{bytes, layers}`. */
export function layeredTile(layers, bytes) {
  const lines = Math.ceil(bytes / layers / line(false, 50).length);
  const made = Array.from({ length: layers }, (_, index) => {
    const name = [...Buffer.from(`layer ${index}`)];
    const features = Array.from(
      { length: lines },
      (__, each) => Buffer.from(line(false, 50, [2 * ((37 * index + 97 * each) % 4096), 2 * ((61 * each) % 4096)])));
    return layerOf(Buffer.concat([Buffer.from([0x78, 2, ...field(1, name)]), ...features]));
  });
  return { bytes: Buffer.concat(made), layers };
}
