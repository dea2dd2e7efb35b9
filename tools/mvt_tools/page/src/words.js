// Faults in few words, and their places. The causes and their numbers are those of docs/FORMAT.md; the sentences come from
// the library.
import {foreign} from './foreign.js';
import {counted, grouped, offsetText, signed} from './text.js';

/** Each cause in a few words, for lists. */
export const BRIEF = {
  1: 'the bytes end too early',
  2: 'a number has more than 64 bits',
  3: 'a field’s number is 0 or far too large',
  4: 'a wire type that isn’t allowed',
  5: 'a field has the wrong wire type',
  6: 'a number doesn’t fit into 32 bits',
  7: 'a text isn’t UTF-8',
  8: 'a layer has no version',
  10: 'a layer has no name',
  11: 'a value has none or several kinds',
  12: 'a geometry type above 3',
  13: 'an odd number of tags',
  14: 'a tag of a key that isn’t there',
  15: 'a tag of a value that isn’t there',
  16: 'a feature has a key twice',
  17: 'a command that isn’t due',
  18: 'a command’s count isn’t allowed',
  19: 'a command wants more integers than there are',
  20: 'a line’s step goes nowhere',
  21: 'a position is out of range',
  22: 'a first ring goes the wrong way round',
  23: 'a geometry ends too early',
  24: 'two layers have one name',
  25: 'longer than 64 MiB',
  26: 'a parameter is out of range',
};

/** The line that `mvt check` prints. */
export function faultLine(fault) {
  return `layer ${fault.layer ?? '-'} feature ${fault.feature ?? '-'} at ${fault.at}: ${fault.cause} ${fault.name}`;
}

/** What is marked, in words: which bytes, and which integer and its value. */
export function sayPlace({start, end, integers}) {
  const range = end - start > 1 ? `Marked: bytes ${offsetText(start)} to ${offsetText(end - 1)}` :
    end > start ? `Marked: byte ${offsetText(start)}` :
                  `The place is before byte ${offsetText(start)}`;
  if (integers === null) return `${range}.`;
  const { list, index, count, value } = integers;
  const noun = list === 'tags' ? 'tag' : 'integer';
  if (value === null) return `${range}. In all: ${counted(count, noun)}.`;
  return `${range}: the ${noun} of index ${grouped(index)} in the ${list}, counted from 0, which is ${grouped(value)}.`;
}

/** What an integer means: of tags whose index it is, of a geometry what it draws; nothing behind the fault. */
export function sayMeaning({index, value, step}, {list, keys}) {
  if (list === 'geometry') return step === null ? '' : sayStep(value, step);
  if (index % 2 === 1) return 'index of a value';
  return value < keys ? 'index of a key:' : `index of a key; there are ${keys}`;
}

function sayStep(value, { command, axis, move, to }) {
  if (command === null) return `no command: the id is ${value % 8}`;
  if (axis === null) return `${command}, count ${grouped(Math.floor(value / 8))}`;
  return `d${axis.toUpperCase()} ${move < 0 ? '' : '+'}${signed(move)} of ${command}, to ${axis} = ${signed(to)}`;
}

/** The layer and the feature of a fault, by name and id where they have such; nothing where it is in no layer. */
export function sayHolders({layer, feature}, {layerName, featureId}) {
  if (layer === null) return [];
  const name = layerName === null ? [] : [' “', foreign(layerName, 60), '”'];
  const id = featureId === null ? '' : `, id ${featureId}`;
  return [`In layer ${layer}`, ...name, feature === null ? '' : `, feature ${feature}${id}`];
}

/** Where a tile differs from its canonical form, and what differs. */
export function sayDifference({at, trail, said}) {
  const where = trail.map(sayTrail).join(' › ');
  return `${grouped(at)}${where === '' ? '' : ` (${where})`}: ${said}`;
}

/** A step of the trail: `layer 0`, `geometry`. */
function sayTrail({ name, number, index }) {
  if (name === null) return `field ${number}`;
  return ['layer', 'feature', 'key', 'value'].includes(name) ? `${name} ${index}` : name;
}
