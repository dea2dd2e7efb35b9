// Bytes that a person pastes as text.

/** The bytes that a text spells, `{bytes, as}`; null where it spells none. `as` says how it was read. */
export function spelledBytes(pasted) {
  const bare = pasted.trim();
  return dumped(bare) ?? decimals(bare) ?? hexadecimal(bare) ?? base64(bare);
}

const DUMP_LINE = /^([0-9a-f]{4,16})(:?)\s+((?:[0-9a-f]{2}){1,16}(?: +(?:[0-9a-f]{2})+)*)(?: *$|  +.*$| *\|.*$)/i;

/** What `xxd` and `hexdump -C` print: an offset, bytes, and perhaps the letters. */
function dumped(bare) {
  const bytes = [];
  for (const line of bare.split(/\r?\n/)) {
    if (/^([0-9a-f]{8,16}|\*)$/i.test(line.trim())) continue;  // the last line of hexdump is an offset
    const read = DUMP_LINE.exec(line.trim());
    if (read === null || parseInt(read[1], 16) !== bytes.length) return null;
    const digits = dumpDigits(read[2] === ':' ? read[3].split('  ')[0] : read[3]);
    for (const pair of digits.match(/../g)) bytes.push(parseInt(pair, 16));
  }
  return bytes.length > 0 ? { bytes: Uint8Array.from(bytes), as: 'a dump with offsets' } : null;
}

function dumpDigits(text) {
  return text.replaceAll(' ', '');
}

/** Numbers up to 255, as `[26, 3, 10]`, or `26 3 10` where a number has one digit or three. */
function decimals(bare) {
  const inner =
    bare.replace(/^(?:new )?(?:Uint8Array|Buffer|bytes)?(?:\(\d+\))?(?:\.of|\.from)?\s*[([{]+|[)\]}]+$/g, '').trim();
  const words = inner.split(/\s*,\s*|\s+/).filter((word) => word !== '');
  const areNumbers = words.length > 0 && words.every((word) => /^(?:0|[1-9]\d{0,2})$/.test(word) && Number(word) < 256);
  const isListed = inner !== bare || (words.length > 1 && inner.includes(','));
  const areUneven = words.length > 1 && words.some((word) => word.length !== 2);
  return areNumbers && (isListed || areUneven) ? { bytes: Uint8Array.from(words, Number), as: 'decimal numbers' } :
                                                 null;
}

function hexadecimal(bare) {
  const digits = bare.replace(/^["'`]|["'`]$/g, '').replace(/0x|\\x|[\s,:;_-]/gi, '');
  if (!/^([0-9a-f]{2})+$/i.test(digits)) return null;
  return { bytes: Uint8Array.from(digits.match(/../g), (pair) => parseInt(pair, 16)), as: 'hexadecimal' };
}

function base64(bare) {
  const inner = bare.replace(/^data:[^,]*,/, '').replace(/^["'`]|["'`]$/g, '');
  const letters = inner.replace(/\s/g, '').replaceAll('-', '+').replaceAll('_', '/');
  try {
    const bytes = Uint8Array.from(atob(letters), (letter) => letter.charCodeAt(0));
    return bytes.length > 0 ? { bytes, as: 'base64' } : null;
  } catch {
    return null;
  }
}

/** The offset that a person names: hexadecimal as the view shows it, with or without 0x, or `1,234` in decimal; else null. */
export function spelledOffset(written) {
  const bare = written.trim();
  if (/^\d{1,3}(,\d{3})+$/.test(bare)) return Number(bare.replaceAll(',', ''));
  return /^(0x)?[0-9a-f]{1,13}$/i.test(bare) ? parseInt(bare.replace(/^0x/i, ''), 16) : null;
}
