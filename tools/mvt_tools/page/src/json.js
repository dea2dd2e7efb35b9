// JSON laid out over lines, each token as it stands, so that no number loses digits; and in colours.
import {element} from './dom.js';
import {foreign} from './foreign.js';

const TOKENS = /"(?:[^"\\]|\\.)*"|[{}[\],:]|[^\s{}[\],:"]+/g;
const WIDTH = 96;

/** The text with line ends: what fits into a line stays in one. */
export function laidOut(json) {
  const tokens = json.match(TOKENS) ?? [];
  return print(parse({ tokens, next: 0 }), '');
}

/** A value as its text, or as `{open, items, close}`; an item is `{key, value}`. */
function parse(reader) {
  const token = reader.tokens[reader.next++];
  if (token !== '{' && token !== '[') return token;
  const close = token === '{' ? '}' : ']';
  const items = [];
  while (reader.tokens[reader.next] !== close) {
    if (reader.tokens[reader.next] === ',') reader.next += 1;
    const key = token === '{' ? `${reader.tokens[reader.next++]}${reader.tokens[reader.next++]} ` : '';
    items.push({ key, value: parse(reader) });
  }
  reader.next += 1;
  const flat = `${token}${items.map((item) => item.key + flatOf(item.value)).join(', ')}${close}`;
  return { open: token, items, close, flat: flat.length <= WIDTH ? flat : null };
}

// What doesn't fit by itself doesn't fit into what holds it: so much is enough to say so.
function flatOf(value) {
  return typeof value === 'string' ? value : (value.flat ?? ' '.repeat(WIDTH + 1));
}

function print(value, indent) {
  if (typeof value === 'string') return value;
  if (value.flat !== null && indent.length + value.flat.length <= WIDTH) return value.flat;
  const inner = `${indent}  `;
  const lines = value.items.map((item) => `${inner}${item.key}${print(item.value, inner)}`);
  return `${value.open}\n${lines.join(',\n')}\n${indent}${value.close}`;
}

const COLOURED = /("(?:[^"\\]|\\.)*")(:?)|(-?\d+)|(true|false|null)/g;

/** A laid out text as elements: keys, strings, numbers and words in their colours, and strings apart from the rest. */
export function coloured(laid) {
  const parts = [];
  let from = 0;
  for (const found of laid.matchAll(COLOURED)) {
    const [whole, string, colon, number] = found;
    const kind = string === undefined ? (number === undefined ? 'word' : 'number') : colon === ':' ? 'key' : 'string';
    parts.push(laid.slice(from, found.index));
    parts.push(
      element('span', { class: `json-${kind}` }, [string === undefined ? whole : foreign(string, 2000)]), colon ?? '');
    from = found.index + whole.length;
  }
  parts.push(laid.slice(from));
  return parts;
}
