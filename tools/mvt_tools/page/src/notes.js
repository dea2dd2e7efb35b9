// The notes of the report, and the findings, by kind; each leads to its feature.
import {element, folded} from './dom.js';
import {counted, grouped} from './text.js';
import {VirtualRows} from './virtual.js';

/** So many kinds' lines are open at first, where there are few. */
const FEW = 6;

/** `kinds` are `{kind, count}`, `meanings` what they mean; `jump(layer, feature)` shows a feature. */
export function showNotes(client, kinds, meanings, jump) {
  const words = (count) => `${counted(count, 'note')} on what the standard allows and is worth a remark:`;
  return remarksOf({ client, call: 'notes', label: 'Notes', one: 'note', words, meanings, jump }, kinds);
}

/** The same of findings: what viewers stumble over in a tile that keeps every rule. */
export function showFindings(client, kinds, meanings, jump) {
  const words = (count) => `The tile keeps every rule. ${counted(count, 'finding')} on what viewers stumble over:`;
  return remarksOf({ client, call: 'findings', label: 'Findings', one: 'finding', words, meanings, jump }, kinds);
}

function remarksOf(list, kinds) {
  const count = kinds.reduce((sum, each) => sum + each.count, 0);
  const { label, meanings, words } = list;
  const groups = kinds.map(
    (each) => folded(
      element(
        'span', {},
        [
          `${grouped(each.count)} × `, element('b', {}, [each.kind]),
          each.kind in meanings ? `: ${meanings[each.kind]}` : ''
        ]),
      () => remarkTable(list, each), count <= FEW));
  return element('section', { class: 'report', 'aria-label': label }, [element('p', {}, [words(count)]), ...groups]);
}

function remarkTable({ client, call, label, one, jump }, { kind, count }) {
  const table = new VirtualRows({
    label: `${label} ${kind}`, heads: [element('th', { scope: 'col' }, [one])], widths: [null], height: 6,
    rowsOf: (from, end) => client.ask(call, { kind, from, end }),
    cellsOf: ({ line, layer, feature }) => [element('td', {}, [
      feature === null ? element('code', {}, [line])
        : element('button', { type: 'button', class: 'link', onclick: () => jump(layer, feature) }, [element('code', {}, [line])]),
    ])],
  });
  table.resize(count);
  return table.root;
}
