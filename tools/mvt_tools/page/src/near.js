// Which features are near a point of the picture.
import {POINTS, POLYGONS, UNKNOWN} from './rows.js';

/** So many are told; their number is told in any case. */
const TOLD = 100;

export class Finder {
  #rows;
  #boxes = null;

  constructor(rows) {
    this.#rows = rows;
  }

  /**
   * The features within `reach` of the point (x, y), all in parts of the tile's side: points first, then lines, then areas;
   * of each the nearest first, and of equally near ones the one that is drawn last. `{count, places}`.
   */
  near({ x, y, reach, isShown }) {
    const found = [];
    for (let index = 0; index < this.#rows.layerCount; index += 1) {
      const layer = this.#rows.layerBox(index);
      if (layer.version === 2 && isShown(index)) this.#inLayer(layer, x, y, reach, found);
    }
    found.sort((a, b) => a.shape - b.shape || a.distance - b.distance || b.place - a.place);
    return { count: found.length, places: found.slice(0, TOLD).map(({ place }) => place) };
  }

  #inLayer({ extent, start, end }, x, y, reach, found) {
    const spot = { x: x * extent, y: y * extent, reach: reach * extent };
    const boxes = this.boxes();
    for (let place = start; place < end; place += 1) {
      const at = 4 * place;
      if (spot.x + spot.reach < boxes[at] || spot.x - spot.reach > boxes[at + 2]) continue;
      if (spot.y + spot.reach < boxes[at + 1] || spot.y - spot.reach > boxes[at + 3]) continue;
      const shape = this.#rows.shapeOf(place);
      const distance = shape === UNKNOWN ? Infinity : this.#distance(place, shape, spot);
      if (distance <= spot.reach) found.push({ place, shape, distance: distance / extent });
    }
  }

  /** The box of each feature in its layer's units, `[left, top, right, bottom]`; made once. */
  boxes() {
    if (this.#boxes !== null) return this.#boxes;
    const rows = this.#rows;
    this.#boxes = new Float64Array(4 * rows.featureCount);
    for (let place = 0; place < rows.featureCount; place += 1) this.#boxes.set(this.boxOf(place), 4 * place);
    return this.#boxes;
  }

  boxOf(place) {
    const { points } = this.#rows;
    const box = [Infinity, Infinity, -Infinity, -Infinity];
    const [first, end] = this.#rows.partsOf(place);
    for (let part = first; part < end; part += 1) {
      const [from, behind] = this.#rows.pointsOf(part);
      for (let at = 2 * from; at < 2 * behind; at += 2) {
        if (points[at] < box[0]) box[0] = points[at];
        if (points[at + 1] < box[1]) box[1] = points[at + 1];
        if (points[at] > box[2]) box[2] = points[at];
        if (points[at + 1] > box[3]) box[3] = points[at + 1];
      }
    }
    return box;
  }

  #distance(place, shape, spot) {
    const [first, end] = this.#rows.partsOf(place);
    const { points } = this.#rows;
    let least = Infinity;
    let winding = 0;
    for (let part = first; part < end; part += 1) {
      const [from, behind] = this.#rows.pointsOf(part);
      if (shape === POINTS) least = Math.min(least, toPoints(points, from, behind, spot));
      else least = Math.min(least, toSegments(points, from, behind, spot, shape === POLYGONS));
      if (shape === POLYGONS) winding += windingOf(points, from, behind, spot);
    }
    return shape === POLYGONS && winding !== 0 ? 0 : least;
  }
}

function toPoints(points, from, behind, { x, y }) {
  let least = Infinity;
  for (let at = 2 * from; at < 2 * behind; at += 2)
    least = Math.min(least, Math.hypot(points[at] - x, points[at + 1] - y));
  return least;
}

/** The distance to a line, or to a ring, whose last point is joined to its first. */
function toSegments(points, from, behind, { x, y }, isRing) {
  let least = Infinity;
  let last = 2 * (isRing ? behind - 1 : from);
  for (let at = 2 * (isRing ? from : from + 1); at < 2 * behind; at += 2) {
    least = Math.min(least, toSegment(points[last] - x, points[last + 1] - y, points[at] - x, points[at + 1] - y));
    last = at;
  }
  return least;
}

/** The distance of (0, 0) to the segment from a to b. */
function toSegment(ax, ay, bx, by) {
  const [dx, dy] = [bx - ax, by - ay];
  const length = dx * dx + dy * dy;
  const part = length === 0 ? 0 : Math.min(1, Math.max(0, -(ax * dx + ay * dy) / length));
  return Math.hypot(ax + part * dx, ay + part * dy);
}

/** How often a ring goes round a point. */
function windingOf(points, from, behind, { x, y }) {
  let turns = 0;
  let last = 2 * (behind - 1);
  for (let at = 2 * from; at < 2 * behind; at += 2) {
    const isUp = points[last + 1] <= y;
    if (isUp !== points[at + 1] <= y) {
      const side =
        (points[at] - points[last]) * (y - points[last + 1]) - (x - points[last]) * (points[at + 1] - points[last + 1]);
      if (isUp && side > 0) turns += 1;
      if (!isUp && side < 0) turns -= 1;
    }
    last = at;
  }
  return turns;
}
