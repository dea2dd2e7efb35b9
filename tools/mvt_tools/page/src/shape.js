// The picture of a faulty feature: what was drawn before the fault, and where that lies.
import {element} from './dom.js';
import {onTurned, paletteNow} from './palette.js';
import {counted, signed} from './text.js';

const SIDE = 320;
const FAULT = {
  light: '#c21807',
  dark: '#ff8d7a'
};
/** Arrows show where to, where there are few steps. */
const ARROWS = 60;
/** How much of the colour a filled pixel has. */
const FILLED = 0.35;

/** A figure of a shape (around.py), with words in front of those that it has. */
export function shapeOf(shape, front = '') {
  const { count, mark } = shape;
  const before = count === 0 ? 'It has no position before the fault.' :
                               `The feature up to its fault: ${counted(count, 'position')}.`;
  const what = mark === null ?
    `The feature, as far as it can be read: ${counted(count, 'position')}.` :
    `${before} The fault comes ${count === 0 ? 'at' : 'after'} (${mark.map(signed).join(', ')}), where the circle is.`;
  const told = `${front}${what}${isEdgeSeen(shape) ? ' The dashed line is the tile’s edge.' : ''}`;
  const canvas = element('canvas', { role: 'img', 'aria-label': told, width: SIDE * 2, height: SIDE * 2 });
  const draw = () => drawShape(canvas.getContext('2d'), shape);
  draw();
  onTurned(draw);
  return element('figure', { class: 'shape' }, [canvas, element('figcaption', { class: 'quiet' }, [told])]);
}

/** The square that shows all of a shape, and of one beyond the tile so much more that the tile’s edge is in it. */
export function boxOfShape({parts, mark, extent}) {
  const points = [...parts.flat(), ...(mark === null ? [] : [mark])];
  const [left, top, right, bottom] = boundsOf(points, extent, extent);
  const size = Math.max(right - left, bottom - top, extent / 512, 4) * 1.3;
  return { x: (left + right - size) / 2, y: (top + bottom - size) / 2, size };
}

/** The left, top, right and bottom of points, the first two at most this wide and high, the others at least 0. */
function boundsOf(points, width, height) {
  return points.reduce(
    ([l, t, r, b], [x, y]) => [Math.min(l, x), Math.min(t, y), Math.max(r, x), Math.max(b, y)], [width, height, 0, 0]);
}

/** Whether some of the tile’s edge lies in the square that is shown. */
function isEdgeSeen(shape) {
  const { x, y, size } = boxOfShape(shape);
  return Math.min(x, y) <= 0 || Math.max(x, y) + size >= shape.extent;
}

function drawShape(context, shape) {
  const { width } = context.canvas;
  const { ink, edge, paper, layers } = paletteNow();
  const box = boxOfShape(shape);
  const at = ([x, y]) => [((x - box.x) / box.size) * width, ((y - box.y) / box.size) * width];
  context.fillStyle = paper;
  context.fillRect(0, 0, width, width);
  const [left, top] = at([0, 0]);
  const [right, bottom] = at([shape.extent, shape.extent]);
  context.setLineDash([8, 6]);
  context.strokeStyle = edge;
  context.strokeRect(left, top, right - left, bottom - top);
  context.setLineDash([]);
  if (shape.kind === 3)
    fillPolygons(context, polygonsOf(shape.parts).map((rings) => rings.map((ring) => ring.map(at))), layers[0]);
  for (const part of shape.parts) drawPart(context, part.map(at), shape, layers[0]);
  if (shape.mark !== null) drawMark(context, at(shape.mark), ink === '#000000' ? FAULT.light : FAULT.dark);
}

/**
 * Polygons as MapLibre and Mapbox GL see them: a ring of the direction that the first one with area has begins one, and any
 * other is cut out of the polygon before it.
 */
export function polygonsOf(rings) {
  const polygons = [];
  let first = 0;
  for (const ring of rings) {
    const sign = Math.sign(areaOf(ring));
    first ||= sign;
    if (sign === first && sign !== 0) polygons.push([ring]);
    else if (sign !== 0) polygons.at(-1).push(ring);
  }
  return polygons;
}

/** Twice the area of a ring, with a sign, counted from its first point. */
function areaOf(ring) {
  const [[left, top]] = ring;
  return ring.reduce((sum, [x, y], index) => {
    const [u, v] = ring[(index + 1) % ring.length];
    return sum + (x - left) * (v - top) - (u - left) * (y - top);
  }, 0);
}

function fillPolygons(context, polygons, colour) {
  const sheet = new OffscreenCanvas(context.canvas.width, context.canvas.height).getContext('2d');
  context.globalAlpha = FILLED;
  context.fillStyle = colour;
  sheet.fillStyle = colour;
  for (const rings of polygons) {
    if (rings.length === 1) fillRing(context, rings[0]);
    else fillWithHoles(context, sheet, rings);
  }
  context.globalAlpha = 1;
}

function traceRing(context, ring) {
  context.beginPath();
  ring.forEach(([x, y], index) => (index === 0 ? context.moveTo(x, y) : context.lineTo(x, y)));
}

function fillRing(context, ring) {
  traceRing(context, ring);
  context.fill('evenodd');
}

/** Fills a polygon without its holes, which are cut out on a sheet; only its box is touched there. */
function fillWithHoles(context, sheet, [outer, ...holes]) {
  const { width, height } = sheet.canvas;
  const sides = boundsOf(outer, width, height);
  const [left, top] = sides.slice(0, 2).map((side) => Math.max(0, Math.floor(side) - 1));
  const box =
    [left, top, Math.min(width, Math.ceil(sides[2]) + 1) - left, Math.min(height, Math.ceil(sides[3]) + 1) - top];
  if (box[2] <= 0 || box[3] <= 0) return;
  sheet.clearRect(...box);
  sheet.globalCompositeOperation = 'source-over';
  fillRing(sheet, outer);
  sheet.globalCompositeOperation = 'destination-out';
  for (const hole of holes) fillRing(sheet, hole);
  context.drawImage(sheet.canvas, ...box, ...box);
}

function drawPart(context, points, { kind, count }, colour) {
  context.fillStyle = colour;
  context.strokeStyle = colour;
  context.lineWidth = count > 500 ? 1 : 4;
  if (kind === 1) context.beginPath();
  else traceRing(context, points);
  context.stroke();
  const dot = count > 500 ? 1 : 5;
  for (const [x, y] of points) context.fillRect(x - dot, y - dot, 2 * dot, 2 * dot);
  if (kind !== 1 && count <= ARROWS) points.slice(1).forEach((to, index) => drawArrow(context, points[index], to));
}

/** An arrow in the middle of a step. */
function drawArrow(context, [ax, ay], [bx, by]) {
  const length = Math.hypot(bx - ax, by - ay);
  if (length < 40) return;
  context.save();
  context.translate((ax + bx) / 2, (ay + by) / 2);
  context.rotate(Math.atan2(by - ay, bx - ax));
  context.beginPath();
  context.moveTo(14, 0);
  context.lineTo(-8, -11);
  context.lineTo(-8, 11);
  context.fill();
  context.restore();
}

function drawMark(context, [x, y], colour) {
  context.strokeStyle = colour;
  context.lineWidth = 6;
  context.beginPath();
  context.arc(x, y, 20, 0, 2 * Math.PI);
  context.stroke();
}
