// Makes the frames of a tile's picture: in pieces, so that a newer frame, or a question, needn't wait for the last.
import {drawFeatures, drawing} from './draw.js';

/** So often, in milliseconds, a frame that isn't done yet is shown. */
const SHOWN_EVERY = 250;

/** Lets waiting messages in. */
function tick() {
  return new Promise((resolve) => {
    const { port1, port2 } = new MessageChannel();
    port2.onmessage = () => (port2.close(), resolve());
    port1.postMessage(null);
  });
}

export class Painter {
  #rows;
  #turn = 0;

  constructor(rows) {
    this.#rows = rows;
  }

  /** Ends the frame that is being drawn. */
  stop() {
    this.#turn += 1;
  }

  /**
   * Draws a frame; `told` gets those that aren't done, `{frame, behind}`. Answers the last, `{frame, behind, isDone}`; of one
   * that a newer frame has overtaken there is none.
   */
  async draw(plan, told) {
    this.#turn += 1;
    const turn = this.#turn;
    const { canvas, context } = paperOf(plan);
    let shown = performance.now();
    let behind = 0;
    for (behind of drawing(context, this.#rows, plan)) {
      if (performance.now() - shown > SHOWN_EVERY) {
        told({ frame: await createImageBitmap(canvas), behind });
        shown = performance.now();
      }
      await tick();
      if (turn !== this.#turn) return { frame: canvas.transferToImageBitmap(), behind, isDone: false };
    }
    return {
      frame: edged(canvas, context, plan).transferToImageBitmap(),
      behind: this.#rows.featureCount,
      isDone: true
    };
  }

  /** A frame with some features alone, in the colour of ink with an edge of paper. */
  mark(plan, places) {
    const { canvas, context } = paperOf(plan);
    drawFeatures(context, this.#rows, {...plan, colour: plan.paper, scale: 4 * plan.scale }, places);
    drawFeatures(context, this.#rows, {...plan, colour: plan.ink, scale: 2 * plan.scale }, places);
    return { frame: canvas.transferToImageBitmap() };
  }
}

/** A canvas of which what lies beyond the tile is cut off, where that is wanted. */
function paperOf({ view, width, isCut }) {
  const canvas = new OffscreenCanvas(width, width);
  const context = canvas.getContext('2d');
  if (isCut) {
    const side = width / view.size;
    context.beginPath();
    context.rect(-view.x * side, -view.y * side, side, side);
    context.clip();
  }
  return { canvas, context };
}

/** The tile's edge, where what lies beyond it is shown. */
function edged(canvas, context, { view, width, scale, isCut, edge }) {
  if (isCut) return canvas;
  const side = width / view.size;
  context.setLineDash([6 * scale, 4 * scale]);
  context.lineWidth = scale;
  context.strokeStyle = edge;
  context.strokeRect(-view.x * side, -view.y * side, side, side);
  return canvas;
}
