// Floats as a person reads them.

const cell = new DataView(new ArrayBuffer(8));

/** The number of a pattern of bits, in the shortest form that is read as the same, and the bits in hexadecimal. */
export function floatText(kind, bits) {
  const isFloat = kind === 'float';
  cell.setBigUint64(0, isFloat ? bits << 32n : bits);
  const value = isFloat ? cell.getFloat32(0) : cell.getFloat64(0);
  return {
    text: isFloat ? shortFloat(value) : shortest(value),
    bits: `0x${bits.toString(16).padStart(isFloat ? 8 : 16, '0')}`
  };
}

function shortest(value) {
  return Object.is(value, -0) ? '-0' : String(value);
}

/** The shortest decimal that is read as the same float. */
export function shortFloat(value) {
  for (let digits = 1; digits < 9; digits += 1) {
    const short = Number(value.toPrecision(digits));
    if (Math.fround(short) === value) return shortest(Object.is(value, -0) ? -0 : short);
  }
  return shortest(value);
}
