// What is shown of a tile that is refused: the fault in words, its place, and the bytes there.
import {element} from './dom.js';
import {foreign} from './foreign.js';
import {HexView} from './hex.js';
import {shapeOf} from './shape.js';
import {grouped} from './text.js';
import {faultLine, sayHolders, sayMeaning, sayPlace} from './words.js';

/** The parts of the page about a fault. */
export function showFault(bytes, {fault, other}, {place, shape}, rules) {
  const rule = rules[fault.cause];
  const holders = sayHolders(fault, place);
  return [
    element(
      'section', { class: 'fault', 'aria-label': 'The fault' },
      [
        other?.sentence.startsWith(place.sentence) ?
          '' :
          element('p', { class: 'sentence' }, [other ? 'The library says: ' : '', place.sentence]),
        holders.length === 0 ? '' : element('p', { class: 'trail' }, holders),
        element('p', {}, [sayPlace(place)]),
        element(
          'div', { class: 'about-fault' },
          [
            place.integers === null ? '' : showIntegers(place.integers),
            shape === null ? '' : shapeOf(shape),
          ]),
        element(
          'p', { class: 'quiet' },
          [
            `Rule ${fault.cause}, ${fault.name}. It is broken where ${rule.rule}. Its place is: ${
              rule.place}. The command mvt says: `,
            element('code', {}, [faultLine(fault)]),
          ]),
      ]),
    element('h3', {}, ['Bytes']),
    new HexView(bytes, place).root,
  ];
}

function showIntegers(integers) {
  const { list, rows } = integers;
  if (rows.length === 0) return '';
  const entries = rows.map((row) => {
    const isFault = row.index === integers.index;
    return element('tr', isFault ? { class: 'fault', 'aria-current': 'true' } : {}, [
      element('th', { scope: 'row' }, [grouped(row.index)]),
      element('td', {}, [isFault ? element('mark', {}, [grouped(row.value)]) : grouped(row.value)]),
      element('td', {}, [sayMeaning(row, integers), ...(row.key === null ? [] : [' “', foreign(row.key, 60), '”'])]),
    ]);
  });
  const heads =
    ['index', list === 'tags' ? 'tag' : 'integer', 'meaning'].map((head) => element('th', { scope: 'col' }, [head]));
  return element('table', { class: 'integers' }, [
    element('caption', {}, [`The ${list} round the fault`]),
    element('thead', {}, [element('tr', {}, heads)]),
    element('tbody', {}, entries),
  ]);
}
