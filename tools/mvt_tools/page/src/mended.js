// What a tile is when it is mended: what was changed, and features before and after.
import {CAUSE, STATUS} from './layout.js';
import {element, folded, save} from './dom.js';
import {shapeOf} from './shape.js';
import {counted, grouped} from './text.js';

const CURABLE = [CAUSE.ZeroSegment, CAUSE.FirstRing];
const UNMENDED = {
  [STATUS.REFUSED]: 'It can’t be mended: it breaks another rule too, or its rings cross.',
  [STATUS.TOO_LARGE]: 'It can’t be mended: it would be more than 64 MiB.',
};
const CHANGED = {
  TurnedRing: 'a ring is told in the other direction',
  RepeatedPoint: 'points that equal the one before them are left out',
  PartLeftOut: 'a line or ring with too few points is left out',
  FeatureLeftOut: 'a feature with nothing left is left out',
  MovedRing: 'a ring stands behind the exterior ring that holds it',
};

/** Whether a tile may be mended that has this fault. */
export function isCurable({cause}) {
  return CURABLE.includes(cause);
}

/**
 * A button that mends, and the place below it: `mend()` gives `{status, told, bytes}`, and `view(bytes)` the mended tile’s view.
 * Where it is asked at once, what mending does is said before.
 */
export function mendingOf(stem, mend, view, isAsked) {
  const said = element('span', { class: 'quiet', role: 'status' });
  const place = element('div');
  const button = element('button', { type: 'button' }, ['Mend']);
  let asked = isAsked ? mend() : null;
  asked?.then(
    ({ status }) => {
      if (button.disabled) return;
      if (status === STATUS.OK) said.replaceChildren(element('code', {}, ['mvt mend']), ' mends this.');
      else said.textContent = whyNot(status);
      button.disabled = status === STATUS.REFUSED;
    },
    () => {
      asked = null;
    });
  button.onclick = async () => {
    button.disabled = true;
    said.textContent = 'Mending …';
    try {
      asked ??= mend();
      const { status, told, bytes } = await asked;
      if (status === STATUS.OK) {
        const mended = await view(bytes);
        said.textContent = '';
        place.replaceChildren(
          showMended(told, () => save(`${stem}.mended.mvt`, 'application/vnd.mapbox-vector-tile', bytes)), mended.root);
        await mended.fill();
        return;
      }
      asked = null;
      said.textContent = whyNot(status);
    } catch (error) {
      asked = null;
      said.textContent = `It can’t be mended: ${error.message}`;
    }
    button.disabled = false;
  };
  return element(
    'section', { class: 'mending', 'aria-label': 'Mended' },
    [element('div', { class: 'buttons' }, [button, said]), place]);
}

function whyNot(status) {
  return UNMENDED[status] ?? 'There is no memory for it.';
}

function showMended({ kinds, lines, features }, saved) {
  const count = kinds.reduce((sum, each) => sum + each.count, 0);
  const rest = count > lines.length ? [`… and ${grouped(count - lines.length)} more`] : [];
  return element('div', {}, [
    element('h3', {}, [`Mended: ${counted(count, 'change')}`]),
    element(
      'ul', {},
      kinds.map(
        (each) =>
          element('li', {}, [`${grouped(each.count)} × `, element('b', {}, [each.kind]), `: ${CHANGED[each.kind]}`]))),
    folded('Changes', () => element('pre', {}, [[...lines, ...rest].join('\n')])),
    features.length === 0 ?
      '' :
      element(
        'p', { class: 'quiet' }, ['Polygons are filled as MapLibre fills them: by the directions of their rings.']),
    ...features.map(showFeature),
    element(
      'div', { class: 'buttons' }, [element('button', { type: 'button', onclick: saved }, ['Save the mended tile'])]),
  ]);
}

function showFeature({ layer, feature, before, after }) {
  return element('div', { class: 'about-fault', role: 'group', 'aria-label': `Layer ${layer}, feature ${feature}` }, [
    before === null ? '' : shapeOf(before, `Before: layer ${layer}, feature ${feature}. `),
    after === null ? element('p', { class: 'quiet' }, ['After: it is left out.']) : shapeOf(after, 'After. '),
  ]);
}
