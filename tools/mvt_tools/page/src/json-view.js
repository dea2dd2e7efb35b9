// The JSON of a tile: layers and features that unfold.
import {element, folded} from './dom.js';
import {foreignLine} from './foreign.js';
import {coloured, laidOut} from './json.js';
import {counted, grouped, size} from './text.js';

const AT_ONCE = 50;
const LINE = 110;

/** The JSON as the worker has it: it tells how much there is, and the parts when they are wanted. */
export function jsonView(client) {
  const box = element('div', { class: 'json' }, ['Making it …']);
  const load = async () => {
    const { layers, length } = await client.ask('json');
    const told =
      element('p', { class: 'quiet' }, [`${size(length)}, with ${counted(layers, 'layer')}. “Save JSON” saves all.`]);
    box.replaceChildren(told, inPieces(layers, 'layers', async (from, end) => {
                          const some = await client.ask('jsonLayers', { from, end });
                          return some.map((layer, index) => layerOf(client, layer, from + index));
                        }));
  };
  load().catch((error) => box.replaceChildren(`It can’t be made: ${error.message}`));
  return box;
}

function layerOf(client, { json, features }, index) {
  const title = element('span', {}, [`layer ${grouped(index)}: `, foreignLine(json, LINE)]);
  return folded(
    title, () => element('div', { class: 'inside' }, [
             shown(json, true),
             features === 0 ?
               '' :
               inPieces(
                 features, 'features',
                 async (from, end) => {
                   const some = await client.ask('jsonFeatures', { layer: index, from, end });
                   return some.map(
                     (feature, place) => folded(
                       element('span', {}, [`feature ${grouped(from + place)}: `, foreignLine(feature.json, LINE)]),
                       () => shown(feature.json, feature.isWhole)));
                 }),
           ]));
}

function shown(json, isWhole) {
  const cut = isWhole ?
    '' :
    element('p', { class: 'quiet' }, [`Its first ${counted(json.length, 'letter')}. “Save JSON” saves all.`]);
  return element(
    'div', {},
    [cut, element('pre', { tabindex: '0' }, isWhole ? coloured(laidOut(json)) : [foreignLine(json, json.length)])]);
}

/** A list that grows by some at a time; `load(from, end)` promises its elements. */
function inPieces(count, noun, load) {
  const list = element('div');
  const more = element('button', { type: 'button', onclick: () => fill() }, [`More ${noun}`]);
  const fill = async () => {
    const from = list.children.length;
    list.append(...(await load(from, Math.min(count, from + AT_ONCE))));
    more.hidden = list.children.length >= count;
  };
  more.hidden = true;
  fill();
  return element('div', {}, [list, more]);
}
