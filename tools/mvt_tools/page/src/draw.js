// Draws a tile's rows on a canvas, in pieces, so that whoever draws can stop or do other things between them.
import {LINES, POINTS, POLYGONS} from './rows.js';
import {Sheet} from './sheet.js';

/** So many milliseconds a piece may last. */
const PIECE = 40;
/** So many segments are stroked at once: long paths are slow. */
const STROKED_AT_ONCE = 600;
/** A layer of more positions is drawn pixel by pixel, but for what is filled. */
const DENSE = 50_000;
/** How far areas let through what lies below them. */
const FILLED = '40';

/** A point's width, in pixels of the frame: enough to be seen and small enough to see the map. */
function dotWidth(view, scale) {
  return scale * Math.min(8, Math.max(3, 3 + Math.log2(1 / view.size)));
}

/**
 * Draws the layers of a tile, and yields whenever it has worked for a while: the number of features that are behind it.
 * `plan` is `{view, width, scale, colours, isShown(layer), isCut}`; `isCut` leaves out what lies beyond the tile.
 */
export function* drawing(context, rows, plan) {
  let end = performance.now() + PIECE;
  for (let index = 0; index < rows.layerCount; index += 1) {
    const layer = rows.layerBox(index);
    if (layer.version !== 2 || !plan.isShown(index)) continue;
    const pen = new LayerPen(context, rows, plan, layer, plan.colours(index));
    for (let place = layer.start; place < layer.end; place += 1) {
      if (performance.now() > end) {
        pen.flush();
        yield place;
        end = performance.now() + PIECE;
      }
      pen.draw(place);
    }
    pen.flush();
  }
}

/** Draws some features, by their places, in the plan's `colour`. */
export function drawFeatures(context, rows, plan, places) {
  for (const place of places) {
    const layer = rows.layerBox(rows.layerOf(place));
    const pen = new LayerPen(context, rows, plan, layer, plan.colour);
    pen.draw(place);
    pen.flush();
  }
}

/** Draws the features of one layer. */
class LayerPen {
  #context;
  #rows;
  #sheet = null;
  #stroked = 0;

  constructor(context, rows, { view, width, scale }, layer, colour) {
    this.#context = context;
    this.#rows = rows;
    this.width = width;
    this.factor = width / view.size / layer.extent;
    this.left = (view.x * width) / view.size;
    this.top = (view.y * width) / view.size;
    this.dot = Math.round(dotWidth(view, scale));
    this.line = 1.5 * scale;
    this.pixels = Math.max(1, Math.round(scale));
    if (rows.pointsIn(layer) > DENSE) this.#sheet = new Sheet(width, colour);
    this.colour = colour;
    context.lineJoin = 'round';
    context.lineCap = 'round';
  }

  draw(place) {
    switch (this.#rows.shapeOf(place)) {
      case POINTS:
        return this.#points(place);
      case LINES:
        return this.#lines(place);
      case POLYGONS:
        return this.#polygons(place);
      default:
        return undefined;
    }
  }

  x(point) {
    return this.#rows.points[2 * point] * this.factor - this.left;
  }

  y(point) {
    return this.#rows.points[2 * point + 1] * this.factor - this.top;
  }

  #points(place) {
    const [first, end] = this.#rows.partsOf(place);
    this.#context.fillStyle = this.colour;
    for (let part = first; part < end; part += 1) {
      const [from, behind] = this.#rows.pointsOf(part);
      for (let point = from; point < behind; point += 1) this.#dotAt(this.x(point), this.y(point));
    }
  }

  #dotAt(x, y) {
    const side = this.dot;
    if (this.#sheet !== null) this.#sheet.dot(x, y, side);
    else if (x > -side && y > -side && x < this.width + side && y < this.width + side) {
      this.#context.fillRect(x - side / 2, y - side / 2, side, side);
    }
  }

  #lines(place) {
    const [first, end] = this.#rows.partsOf(place);
    for (let part = first; part < end; part += 1) {
      if (this.#sheet !== null) this.#plot(part, false);
      else this.#trace(part, false);
    }
    if (this.#stroked > STROKED_AT_ONCE) this.#stroke();
  }

  // All rings of a feature together, and nonzero: rings that overlap are one area, as maps draw them.
  #polygons(place) {
    this.#stroke();
    const [first, end] = this.#rows.partsOf(place);
    if (!this.#isInView(first, end)) return;
    this.#context.fillStyle = `${this.colour}${FILLED}`;
    for (let part = first; part < end; part += 1) this.#trace(part, true);
    this.#context.fill('nonzero');
    if (this.#sheet === null) this.#stroke();
    else
      for (let part = first; part < end; part += 1) this.#plot(part, true);
    this.#stroked = 0;
  }

  /** Sets the pixels of a line or a ring. */
  #plot(part, isRing) {
    const [from, behind] = this.#rows.pointsOf(part);
    const last = isRing ? behind - 1 : from;
    let [lastX, lastY] = [this.x(last), this.y(last)];
    for (let point = isRing ? from : from + 1; point < behind; point += 1) {
      const [x, y] = [this.x(point), this.y(point)];
      this.#sheet.line(lastX, lastY, x, y, this.pixels);
      [lastX, lastY] = [x, y];
    }
  }

  #isInView(first, end) {
    const sides = { left: false, right: false, above: false, below: false, seen: false };
    for (let part = first; part < end && !sides.seen; part += 1) {
      const [from, behind] = this.#rows.pointsOf(part);
      for (let point = from; point < behind && !sides.seen; point += 1) this.#place(point, sides);
    }
    return sides.seen;
  }

  #place(point, sides) {
    const [x, y] = [this.x(point), this.y(point)];
    sides.left ||= x <= this.width;
    sides.right ||= x >= 0;
    sides.above ||= y <= this.width;
    sides.below ||= y >= 0;
    sides.seen = sides.left && sides.right && sides.above && sides.below;
  }

  /** Puts a line or a ring on the path, without the points that fall on the last one's pixel. */
  #trace(part, isRing) {
    const context = this.#context;
    const [from, behind] = this.#rows.pointsOf(part);
    if (this.#stroked === 0) context.beginPath();
    let [lastX, lastY] = [this.x(from), this.y(from)];
    context.moveTo(lastX, lastY);
    for (let point = from + 1; point < behind; point += 1) {
      const [x, y] = [this.x(point), this.y(point)];
      const isNear = Math.abs(x - lastX) < 0.5 && Math.abs(y - lastY) < 0.5 && point < behind - 1;
      if (isNear) continue;
      if (!isRing) this.#breakUp(lastX, lastY);
      context.lineTo(x, y);
      this.#stroked += 1;
      [lastX, lastY] = [x, y];
    }
    this.#stroked += 1;
    if (isRing) context.closePath();
  }

  #breakUp(x, y) {
    if (this.#stroked < STROKED_AT_ONCE) return;
    this.#stroke();
    this.#context.beginPath();
    this.#context.moveTo(x, y);
  }

  /** Strokes what is on the path. */
  #stroke() {
    if (this.#stroked === 0) return;
    this.#context.strokeStyle = this.colour;
    this.#context.lineWidth = this.line;
    this.#context.stroke();
    this.#stroked = 0;
  }

  /** Brings everything so far onto the canvas. */
  flush() {
    this.#stroke();
    this.#sheet?.flush(this.#context);
  }
}
