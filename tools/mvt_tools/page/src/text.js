// Texts of the library, and numbers as a person reads them.

const utf8 = new TextDecoder('utf-8', { ignoreBOM: true });

/** The text of bytes in UTF-8. */
export function text(bytes) {
  return utf8.decode(bytes);
}

/** 1234567 as 1,234,567. */
export function grouped(number) {
  return String(number).replace(/\B(?=(\d{3})+$)/g, ',');
}

/** A number that may be negative, with the sign that is as wide as a plus. */
export function signed(number) {
  return number < 0 ? `−${grouped(-number)}` : grouped(number);
}

/** `1 layer`, `7 features`. */
export function counted(number, noun) {
  return `${grouped(number)} ${noun}${number === 1 ? '' : 's'}`;
}

/** A size in bytes, and from 10,000 on in kB or MB. */
export function size(bytes) {
  if (bytes < 10_000) return counted(bytes, 'byte');
  return bytes < 10_000_000 ? `${grouped(Math.round(bytes / 1000))} kB` : `${grouped(Math.round(bytes / 1e6))} MB`;
}

/** The same for a narrow column. */
export function shortSize(bytes) {
  return bytes < 1000 ? `${bytes} B` : bytes < 10_000 ? `${(bytes / 1000).toFixed(1)} kB` : size(bytes);
}

/** The size of a file, and of what was unpacked from it. */
export function sizeWith(own, inside, note) {
  return note === null || own === inside ? size(inside) : `${size(own)} (${size(inside)} unpacked)`;
}

/** An offset in decimal, and as the hex view writes it. */
export function offsetText(offset) {
  return offset < 10 ? String(offset) : `${grouped(offset)} (0x${hexOffset(offset)})`;
}

/** An offset as the hex view writes it. */
export function hexOffset(offset, digits = 0) {
  return offset.toString(16).toUpperCase().padStart(digits, '0');
}
