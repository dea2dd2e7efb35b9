// Verdicts in words: for a list, for a heading, and to be spoken.
import {counted, grouped} from './text.js';
import {BRIEF, faultLine} from './words.js';

/** What a verdict is counted under. */
export function groupOf({kind, fault, other, notes}) {
  if (kind === 'refused') return `refused ${fault.cause}`;
  if (kind === 'other') return `other ${other.name}`;
  if (kind === 'accepted' && notes.length > 0) return 'accepted noted';
  return kind;
}

const GROUPS = {
  accepted: { kind: 'accepted', words: 'accepted', rank: 4 },
  'accepted noted': { kind: 'accepted', words: 'accepted, with notes', rank: 3 },
  partly: { kind: 'accepted', words: 'accepted, with layers that weren’t looked into', rank: 2 },
  unjudged: { kind: 'unjudged', words: 'not judged', rank: 0 },
  unread: { kind: 'unjudged', words: 'can’t be read', rank: 0 },
};

/** A group in plain words, with what it is counted as, and where it stands among others. */
export function sayGroup(group) {
  const [kind, ...rest] = group.split(' ');
  if (kind === 'refused') return { kind, words: BRIEF[rest[0]] ?? `rule ${rest[0]}`, rank: 1 };
  if (kind === 'other') return { kind, words: `no tile: ${rest.join(' ')}`, rank: 1 };
  return GROUPS[group];
}

/** One line about a verdict, for a list. */
export function lineOf(verdict) {
  const { kind, fault, other, foreign, notes } = verdict;
  if (kind === 'refused') return `${BRIEF[fault.cause]}: ${faultLine(fault)}`;
  if (kind === 'other') return `no tile: ${other.name}`;
  if (kind === 'unjudged') return `not judged: ${verdict.why}`;
  if (kind === 'unread') return `can’t be read: ${verdict.why}`;
  if (kind === 'partly') return `accepted, but ${counted(foreign, 'layer')} not looked into`;
  const count = notes.reduce((sum, note) => sum + note.count, 0);
  return count === 0 ? 'accepted' : `accepted, ${counted(count, 'note')}: ${notes.map((note) => note.kind).join(', ')}`;
}

/** The heading of a tile's verdict. `layers` is how many it has. */
export function titleOf({kind, other, foreign, why}, layers) {
  switch (kind) {
    case 'accepted':
      return 'Accepted: it keeps every rule';
    case 'partly':
      return layers === foreign && foreign === 1 ?
        'Accepted, but its layer wasn’t looked into: its version isn’t 2' :
        `Accepted, but ${grouped(foreign)} of ${counted(layers, 'layer')} weren’t looked into: their version isn’t 2`;
    case 'refused':
      return 'Refused: it breaks a rule';
    case 'other':
      return other.sentence;
    case 'unread':
      return `It can’t be read: ${why}`;
    default:
      return `Not judged: ${why}`;
  }
}
