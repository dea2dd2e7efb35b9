// The tiles of a store: what is said of one, and which lie beside it.

/** What the server says of a tile of a store, as a verdict of the page. */
export function verdictOfRow({verdict, cause, cause_name: name, layer, feature, place, notes, noted}) {
  if (verdict === 'refused')
    return { kind: 'refused', fault: { layer, feature, at: place, cause, name }, notes: [], foreign: 0 };
  if (verdict === 'not unpacked')
    return { kind: 'other', fault: null, other: { name: `it can’t be unpacked (${notes})` }, notes: [], foreign: 0 };
  if (verdict === 'unread') return { kind: 'unread', fault: null, why: notes, notes: [], foreign: 0 };
  const foreign = noted.find(({ kind }) => kind === 'Foreign')?.count ?? 0;
  return { kind: foreign > 0 ? 'partly' : 'accepted', fault: null, notes: noted, foreign };
}

/** `{z, x, y}` of `5/17/11`, perhaps beyond the world, where some stores have tiles too; null where it is no place. */
export function placeOf(told) {
  const [, z, x, y] = /^\s*(\d{1,2})\/(\d{1,10})\/(\d{1,10})\s*$/.exec(told)?.map(Number) ?? [];
  return z <= 30 ? { z, x, y } : null;
}

export function spelledPlace({z, x, y}) {
  return `${z}/${x}/${y}`;
}

/** What is told of a place that its zoom doesn't have; null of others, and of none. */
export function beyondOf(place) {
  const isIn = place === null || [place.x, place.y].every((each) => each >= 0 && each < 2 ** place.z);
  return isIn ? null : `zoom ${place.z} has no such place`;
}

/** The ways from a tile to those beside, above and below it: their names, and the keys that go there. */
export const WAYS = [
  {name: 'West', sign: '←', key: 'Shift+ArrowLeft', to: ({z, x, y}) => ({z, x: (x + 2 ** z - 1) % 2 ** z, y})},
  {name: 'North', sign: '↑', key: 'Shift+ArrowUp', to: ({z, x, y}) => ({z, x, y: y - 1})},
  {name: 'South', sign: '↓', key: 'Shift+ArrowDown', to: ({z, x, y}) => ({z, x, y: y + 1})},
  {name: 'East', sign: '→', key: 'Shift+ArrowRight', to: ({z, x, y}) => ({z, x: (x + 1) % 2 ** z, y})},
  {name: 'Parent', sign: 'Parent', key: '0', to: ({z, x, y}) => ({z: z - 1, x: x >> 1, y: y >> 1})},
  {name: 'Northwest child', sign: 'NW', key: '1', to: childAt(0, 0)},
  {name: 'Northeast child', sign: 'NE', key: '2', to: childAt(1, 0)},
  {name: 'Southwest child', sign: 'SW', key: '3', to: childAt(0, 1)},
  {name: 'Southeast child', sign: 'SE', key: '4', to: childAt(1, 1)},
];

function childAt(right, down) {
  return ({ z, x, y }) => ({ z: z + 1, x: 2 * x + right, y: 2 * y + down });
}

/** Where a way leads from a tile; null where no tile can be. */
export function wayFrom(place, way) {
  const { z, x, y } = way.to(place);
  return z >= 0 && z <= 30 && y >= 0 && y < 2 ** z ? { z, x, y } : null;
}

/** The way of a key that was pressed, by its name as in `WAYS`; undefined where it is none. */
export function wayOfKey({key, shiftKey, ctrlKey, altKey, metaKey}) {
  if (ctrlKey || altKey || metaKey) return undefined;
  const pressed = `${shiftKey ? 'Shift+' : ''}${key}`;
  return WAYS.find((way) => way.key === pressed);
}
