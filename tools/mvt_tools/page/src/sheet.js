// Pixels of one colour, set one by one: of layers with very many positions, which a canvas would be slow to stroke.

export class Sheet {
  #width;
  #pixels;
  #canvas;
  #colour;
  #isBlank = true;

  /** `colour` is written as `#rrggbb`. */
  constructor(width, colour) {
    this.#width = width;
    this.#pixels = new Uint32Array(width * width);
    this.#canvas = new OffscreenCanvas(width, width);
    const [red, green, blue] = [1, 3, 5].map((at) => parseInt(colour.slice(at, at + 2), 16));
    this.#colour = (0xff000000 | (blue << 16) | (green << 8) | red) >>> 0;
  }

  /** A square round a place. */
  dot(x, y, side) {
    const width = this.#width;
    const left = Math.round(x - side / 2);
    const top = Math.round(y - side / 2);
    const right = Math.min(width, left + side);
    const bottom = Math.min(width, top + side);
    for (let row = Math.max(0, top); row < bottom; row += 1) {
      for (let at = row * width + Math.max(0, left); at < row * width + right; at += 1) this.#pixels[at] = this.#colour;
    }
    this.#isBlank = false;
  }

  /** A step of a line. */
  line(ax, ay, bx, by, side) {
    const inside = clipped(ax, ay, bx, by, this.#width);
    if (inside === null) return;
    const [from, to] = inside;
    const [dx, dy] = [bx - ax, by - ay];
    const steps = Math.ceil(Math.max(Math.abs(dx), Math.abs(dy)) * (to - from)) || 1;
    for (let step = 0; step <= steps; step += 1) {
      const part = from + ((to - from) * step) / steps;
      const [x, y] = [Math.floor(ax + part * dx), Math.floor(ay + part * dy)];
      if (side > 1) this.dot(x, y, side);
      else if (x >= 0 && y >= 0 && x < this.#width && y < this.#width) this.#pixels[y * this.#width + x] = this.#colour;
    }
    this.#isBlank = false;
  }

  /** Puts the pixels on a canvas, and begins anew. */
  flush(context) {
    if (this.#isBlank) return;
    const bytes = new Uint8ClampedArray(this.#pixels.buffer);
    this.#canvas.getContext('2d').putImageData(new ImageData(bytes, this.#width, this.#width), 0, 0);
    context.drawImage(this.#canvas, 0, 0);
    this.#pixels.fill(0);
    this.#isBlank = true;
  }
}

/** The part of a step that lies in the square from 0 to `width`, `[from, to]` in parts of it; null where none does. */
export function clipped(ax, ay, bx, by, width) {
  let from = 0;
  let to = 1;
  for (const [start, way] of [[ax, bx - ax], [ay, by - ay]]) {
    if (way === 0 && (start < 0 || start > width)) return null;
    if (way === 0) continue;
    const [near, far] = way > 0 ? [-start / way, (width - start) / way] : [(width - start) / way, -start / way];
    from = Math.max(from, near);
    to = Math.min(to, far);
  }
  return from <= to ? [from, to] : null;
}
