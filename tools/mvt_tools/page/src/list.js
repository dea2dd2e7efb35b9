// The list of several tiles: how many of which cause, and a row for each, which can be sorted and filtered.
import {csvOf} from './csv.js';
import {element, save} from './dom.js';
import {foreignLine, plain} from './foreign.js';
import {eachInSteps, sortedInSteps, withOthers} from './steps.js';
import {counted, grouped, size} from './text.js';
import {groupOf, lineOf, sayGroup} from './verdict.js';
import {SIZES, VirtualRows} from './virtual.js';

const SAID_EVERY = 300;
/** So many lines are saved as one piece. */
const PIECE = 1000;

export class TileList {
  #inputs;
  #rows = [];
  #shown = [];
  #fresh = [];
  #arranged = 0;
  #isArranging = false;
  #groups = new Map();
  #filter = { text: '', group: null };
  #order = { by: 'index', isDown: false };
  #said = 0;
  #pending = null;
  #current = null;

  /** `inputs` are the tiles; `open(index)` opens one of them; `turned()` is told when others are shown, or in another order. */
  constructor(inputs, { open, turned }) {
    this.#inputs = inputs;
    this.open = open;
    this.turned = turned;
    this.title = element('h2', { tabindex: '-1' });
    this.chips = element('div', { class: 'chips', role: 'group', 'aria-label': 'Show only those of one kind' });
    const filter =
      element('input', { type: 'search', 'aria-label': 'Filter by text', placeholder: 'filter by name or verdict' });
    filter.addEventListener('input', () => this.#filterBy({ text: filter.value.toLowerCase() }));
    this.told = element('span', { class: 'quiet', role: 'status' });
    const saving = element('button', { type: 'button', onclick: () => this.#save() }, ['Save as CSV']);
    this.table = new VirtualRows({
      label: 'Tiles',
      heads: this.#heads(),
      widths: ['38%', SIZES, null],
      classOf: (row) => `${row.verdict.kind}${row.index === this.#current ? ' current' : ''}`,
      rowsOf: (from, end) => this.#shown.slice(from, end).map((index) => this.#rows[index]),
      cellsOf: (row) => this.#cells(row),
      height: 13,
    });
    this.root = element('div', { class: 'list' }, [
      this.title,
      this.chips,
      element('div', { class: 'buttons' }, [filter, saving, this.told]),
      this.table.root,
    ]);
  }

  get count() {
    return this.#rows.length;
  }

  /** Adds rows, `{index, size, note, verdict}`, in order. */
  add(rows) {
    for (const row of rows) {
      row.name = this.#inputs[row.index].name;
      row.line = lineOf(row.verdict);
      row.group = groupOf(row.verdict);
      row.sought = `${row.name}\n${row.line}`.toLowerCase();
      this.#rows[row.index] = row;
      this.#groups.set(row.group, (this.#groups.get(row.group) ?? 0) + 1);
      if (this.#isShown(row)) this.#fresh.push(row.index);
    }
    this.#pending ??= setTimeout(() => this.#say(), this.#said === 0 ? 0 : SAID_EVERY);
  }

  /** Says that no more rows come; `isWhole` is false where it was stopped. */
  end(isWhole) {
    this.#say();
    const behind = isWhole ? '' : ` Stopped after ${grouped(this.count)} of ${grouped(this.#inputs.length)}.`;
    this.title.textContent = `${this.#counts()}${behind}`;
  }

  #counts() {
    const kinds = { accepted: 0, refused: 0, other: 0, unjudged: 0 };
    for (const [group, count] of this.#groups) kinds[sayGroup(group).kind] += count;
    const parts = [`${grouped(kinds.accepted)} accepted`, `${grouped(kinds.refused)} refused`];
    if (kinds.other > 0) parts.push(`${grouped(kinds.other)} no tile`);
    if (kinds.unjudged > 0) parts.push(`${grouped(kinds.unjudged)} not judged`);
    return `${counted(this.count, 'file')}: ${parts.join(', ')}`;
  }

  #say() {
    clearTimeout(this.#pending);
    this.#pending = null;
    this.#said = performance.now();
    const part = this.count < this.#inputs.length ? `${grouped(this.count)} of ` : '';
    this.title.textContent = `${part}${counted(this.#inputs.length, 'file')} … ${this.#counts().replace(/^.*: /, '')}`;
    this.#sayGroups();
    this.#takeFresh();
    this.#saySome();
  }

  #sayGroups() {
    const groups = [...this.#groups]
                     .map(([group, count]) => ({ group, count, ...sayGroup(group) }))
                     .sort((a, b) => a.rank - b.rank || b.count - a.count);
    const held = this.chips.contains(document.activeElement) ? document.activeElement.dataset.group : null;
    this.chips.replaceChildren(...groups.map(({ group, count, kind, words }) => {
      const isOn = this.#filter.group === group;
      const chip = {
        type: 'button',
        class: `chip ${kind}`,
        'data-group': group,
        'aria-pressed': String(isOn),
        onclick: () => this.#filterBy({ group: isOn ? null : group })
      };
      return element('button', chip, [element('b', {}, [grouped(count)]), ` ${words}`]);
    }));
    if (held !== null) [...this.chips.children].find((chip) => chip.dataset.group === held)?.focus();
  }

  #saySome() {
    const isAll = this.#shown.length + this.#fresh.length === this.count;
    this.told.textContent = isAll ? '' : `${grouped(this.#shown.length)} shown`;
    this.table.resize(this.#shown.length);
    this.turned();
  }

  #isShown({ sought, group }) {
    const { text, group: wanted } = this.#filter;
    return (wanted === null || group === wanted) && (text === '' || sought.includes(text));
  }

  #filterBy(change) {
    Object.assign(this.#filter, change);
    this.#sayGroups();
    this.#arrange(true);
  }

  // ---- sorting

  #heads() {
    return [['name', 'Tile'], ['size', 'Size'], ['line', 'Verdict']].map(
      ([by, title]) => element('th', { scope: 'col', class: by === 'size' && 'size', 'data-by': by }, [
        element('button', { type: 'button', class: 'link sort', onclick: () => this.#sortBy(by) }, [title]),
      ]));
  }

  #sortBy(by) {
    const { by: last, isDown } = this.#order;
    this.#order = by !== last ? { by, isDown: false } : isDown ? { by: 'index', isDown: false } : { by, isDown: true };
    for (const head of this.table.table.tHead.rows[0].cells) {
      if (head.dataset.by === this.#order.by)
        head.setAttribute('aria-sort', this.#order.isDown ? 'descending' : 'ascending');
      else head.removeAttribute('aria-sort');
    }
    this.#arrange(false);
  }

  /** Shows the rows that the filter lets through, in order. What is shown stays until they are; those that come meanwhile are
   * taken in then. */
  async #arrange(isFromTop) {
    this.#arranged += 1;
    const turn = this.#arranged;
    const isNow = () => turn === this.#arranged;
    this.#isArranging = true;
    this.#fresh = [];
    const wanted = [];
    for (const row of this.#rows)
      if (this.#isShown(row)) wanted.push(row.index);
    const shown = this.#order.by === 'index' ? wanted : await sortedInSteps(wanted, this.#comparison(), isNow);
    if (!isNow()) return;
    this.#shown = shown;
    this.#isArranging = false;
    this.#takeFresh();
    if (isFromTop) this.table.root.scrollTop = 0;
    this.#saySome();
  }

  /** Takes in the rows that came since. */
  #takeFresh() {
    if (this.#isArranging) return;
    if (this.#order.by === 'index')
      for (const index of this.#fresh) this.#shown.push(index);
    else if (this.#fresh.length > 0) this.#shown = withOthers(this.#shown, this.#fresh, this.#comparison());
    this.#fresh = [];
  }

  #comparison() {
    const { by, isDown } = this.#order;
    const rows = this.#rows;
    const compare = by === 'name' ? byName(rows) :
                                    (a, b) =>
                                      (rows[a][by] < rows[b][by]   ? -1 :
                                         rows[a][by] > rows[b][by] ? 1 :
                                                                     a - b);
    return isDown ? (a, b) => compare(b, a) : compare;
  }

  // ---- rows

  #cells({ index, name, size: bytes, line, note }) {
    const open = element(
      'button', {
        type: 'button',
        class: 'link',
        title: plain(name, 500),
        'aria-current': index === this.#current && 'true',
        onclick: () => this.open(index)
      },
      [foreignLine(name, 200)]);
    return [
      element('th', { scope: 'row' }, [open]),
      element('td', { class: 'size' }, [size(bytes)]),
      element('td', { title: note ? `${line}. ${note}` : line }, [line]),
    ];
  }

  /** Tells which tile is open below. */
  choose(index) {
    this.#current = index;
    this.table.refresh();
  }

  /** Brings a tile's row into view, and the focus to it. */
  reveal(index) {
    this.table.reveal(Math.max(0, this.#shown.indexOf(index)), true);
  }

  /**
   * The tile before or behind another one, as the list is sorted and filtered now; null where there is none. From a tile
   * that isn't shown it goes on from where that would stand.
   */
  beside(index, step) {
    const place = this.#shown.indexOf(index);
    if (place !== -1) return this.#shown[place + step] ?? null;
    const compare = this.#comparison();
    const isOnTheWay = (other) => compare(other, index) * step > 0;
    return (step > 0 ? this.#shown.find(isOnTheWay) : this.#shown.findLast(isOnTheWay)) ?? null;
  }

  async #save() {
    const heads = ['file', 'bytes', 'verdict', 'layer', 'feature', 'at', 'cause', 'name', 'notes', 'words'];
    const shown = this.#shown;
    const pieces = [csvOf([heads])];
    await eachInSteps(Math.ceil(shown.length / PIECE), (piece) => {
      pieces.push(csvOf(shown.slice(PIECE * piece, PIECE * (piece + 1)).map((index) => cellsOf(this.#rows[index]))));
    }, 1);
    save('tiles.csv', 'text/csv', pieces);
  }
}

/** What a row's line of CSV has. */
function cellsOf({ name, size: bytes, verdict, line }) {
  const { layer, feature, at, cause, name: causeName } = verdict.fault ?? {};
  const notes = verdict.notes.map((note) => `${note.kind} ${note.count}`).join('; ');
  return [name, bytes, verdict.kind, layer, feature, at, cause, causeName, notes, line];
}

/** By name, numbers in it as numbers. */
function byName(rows) {
  const { compare } = new Intl.Collator('en', { numeric: true });
  return (a, b) => compare(rows[a].name, rows[b].name) || a - b;
}
