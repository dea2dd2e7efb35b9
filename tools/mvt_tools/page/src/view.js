// What part of the tile the picture shows. The tile is the square from 0 to 1; a view is `{x, y, size}`: the corner and the
// side of the square that is shown.

export const WHOLE = {
  x: 0,
  y: 0,
  size: 1
};
/** The tile with what lies round it. */
export const ROUND = {
  x: -0.125,
  y: -0.125,
  size: 1.25
};

const LEAST = 1 / 16_384;
const MOST = 16;
const FAR = 64;

/** A view that keeps the point (px, py) of the frame, in parts of its side, where it is. */
export function zoomed(view, factor, px = 0.5, py = 0.5) {
  const size = Math.min(MOST, Math.max(LEAST, view.size / factor));
  return bounded({ x: view.x + px * (view.size - size), y: view.y + py * (view.size - size), size });
}

/** A view moved by parts of its side. */
export function moved(view, dx, dy) {
  return bounded({...view, x: view.x + dx * view.size, y: view.y + dy * view.size });
}

// The middle of what is shown stays near the tile.
function bounded({ x, y, size }) {
  const kept = (start) => Math.min(1 + FAR, Math.max(-FAR, start + size / 2)) - size / 2;
  return { x: kept(x), y: kept(y), size };
}

/** A view that shows a box, `[left, top, right, bottom]`, with room round it. */
export function viewOf([left, top, right, bottom]) {
  const size = Math.min(MOST, Math.max(LEAST, 1.4 * Math.max(right - left, bottom - top), 1 / 64));
  return bounded({ x: (left + right - size) / 2, y: (top + bottom - size) / 2, size });
}

/** How a frame of one view is laid so that it fits another: a transform of CSS. */
export function transformOf(frame, view) {
  const scale = frame.size / view.size;
  const shift = (of) => (100 * (frame[of] - view[of])) / view.size;
  return `translate(${shift('x')}%, ${shift('y')}%) scale(${scale})`;
}
