// How questions and answers are spelled (tools/mvt_tools/page/calls.py and frames.py): numbers are little-endian.
import {ROW_SIZES, STATUS} from './layout.js';
import {text} from './text.js';

export const {REFUSED} = STATUS;

const COUNTS_AT = 8;
const HEAD = 8;
const FAULT_HEAD = 40;
const PLACE_HEAD = 40;

const dataOf = (bytes) => new DataView(bytes.buffer, bytes.byteOffset, bytes.length);

/**
 * An answer, `{status, bytes, fault, looks}`. The bytes aren't copied. `looks` is what refused bytes look like, `{kind, sentence}`,
 * or null.
 */
export function answerOf(block) {
  const status = dataOf(block).getUint32(0, true);
  if (status !== REFUSED) return { status, bytes: block.subarray(HEAD) };
  return { status, fault: faultOf(block), looks: looksOf(block) };
}

function faultOf(block) {
  const view = dataOf(block);
  const index = (at) => {
    const value = Number(view.getBigInt64(at, true));
    return value < 0 ? null : value;
  };
  const name = block.subarray(FAULT_HEAD, nameEnd(block));
  return {
    layer: index(8),
    feature: index(16),
    at: Number(view.getBigUint64(24, true)),
    cause: view.getUint32(32, true),
    name: text(name)
  };
}

const nameEnd = (block) => FAULT_HEAD + dataOf(block).getUint32(36, true);

/** Where the sentence of what the bytes look like begins and ends; both behind the name where there is none. */
function sentenceOf(block) {
  const view = dataOf(block);
  const end = nameEnd(block);
  return view.getUint32(4, true) === 0 ? [end, end] : [end + 4, end + 4 + view.getUint32(end, true)];
}

function looksOf(block) {
  const kind = dataOf(block).getUint32(4, true);
  return kind === 0 ? null : { kind, sentence: text(block.subarray(...sentenceOf(block))) };
}

/**
 * The answer to `explain`: where it is refused also the `place` of the fault, `{start, end, layerName, featureId, sentence}`:
 * the bytes that it is about, the name and the id where there are such, and the rule in plain words.
 */
export function explainedOf(block) {
  const answer = answerOf(block);
  return answer.fault === undefined ? answer : {...answer, place: locatedOf(block) };
}

function locatedOf(block) {
  const rest = block.subarray(sentenceOf(block)[1]);
  const view = dataOf(rest);
  const [hasName, hasId, nameLength, length] = [0, 4, 32, 36].map((at) => view.getUint32(at, true));
  const [id, start, end] = [8, 16, 24].map((at) => view.getBigUint64(at, true));
  const told = rest.subarray(PLACE_HEAD + nameLength);
  return {
    start: Number(start),
    end: Number(end),
    layerName: hasName === 1 ? text(rest.subarray(PLACE_HEAD, PLACE_HEAD + nameLength)) : null,
    featureId: hasId === 1 ? id.toString() : null,
    sentence: text(told.subarray(0, length)),
  };
}

/** Where the lists of rows lie in the bytes of an answer: `{at, count}` by name, in the `memory` that is theirs. */
export function rowsOf(bytes) {
  const view = new DataView(bytes.buffer);
  let at = bytes.byteOffset + 8 * Object.keys(ROW_SIZES).length;
  const lists = Object.entries(ROW_SIZES).map(([name, size], index) => {
    const count = Number(view.getBigUint64(COUNTS_AT + 8 * index, true));
    const list = [name, { at, count }];
    at += Math.ceil((size * count) / 8) * 8;
    return list;
  });
  return {...Object.fromEntries(lists), memory: () => view };
}

/** Several parts as one body. */
export function framesOf(parts) {
  const start = 4 + 4 * parts.length;
  const body = new Uint8Array(parts.reduce((sum, part) => sum + part.length, start));
  const view = dataOf(body);
  view.setUint32(0, parts.length, true);
  let at = start;
  for (const [index, part] of parts.entries()) {
    view.setUint32(4 + 4 * index, part.length, true);
    body.set(part, at);
    at += part.length;
  }
  return body;
}

/** The parts of a body, which aren't copied. */
export function partsOf(body) {
  const view = dataOf(body);
  const count = view.getUint32(0, true);
  let at = 4 + 4 * count;
  return Array.from({ length: count }, (_, index) => {
    const start = at;
    at += view.getUint32(4 + 4 * index, true);
    return body.subarray(start, at);
  });
}
