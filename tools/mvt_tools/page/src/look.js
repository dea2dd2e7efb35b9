// The picture with all that stands beside it: layers, what is at a place, a feature's attributes, and the tables.
import {element} from './dom.js';
import {FeatureView} from './features-view.js';
import {foreign} from './foreign.js';
import {LayerList} from './layers.js';
import {Picture, tipOf} from './picture.js';
import {counted, grouped} from './text.js';

/** So many features of a place are listed. */
const LISTED = 20;
/** So many attributes are shown at once. */
const ATTRIBUTES = 200;

export class Look {
  #client;
  #view = null;

  constructor(client, facts, saveShown) {
    this.#client = client;
    this.picture = new Picture(client, facts, (found) => this.#here(found));
    this.layers = new LayerList(client, facts, this.picture, (layer) => this.openTable(layer));
    this.here = element('div', { class: 'here' });
    this.told = element('div', { class: 'feature', 'aria-live': 'polite' }, [
      element(
        'p', { class: 'quiet' },
        ['Choose a place in the picture, or a row of a layer’s table, to see a feature’s attributes.']),
    ]);
    this.tables = element('div');
    this.layers.root.querySelector('.buttons').append(saveShown(this.picture));
    this.root = element('div', {}, [
      element(
        'div', { class: 'picture' },
        [this.picture.root, element('div', { class: 'beside' }, [this.layers.root, this.here, this.told])]),
      this.tables,
    ]);
  }

  /** Lists what is at a place, and chooses the first. */
  #here({ count, features }) {
    const items = features.slice(0, LISTED).map((feature) => element('li', {}, [
                                                  element(
                                                    'button', {
                                                      type: 'button',
                                                      class: 'link',
                                                      'data-place': feature.place,
                                                      onclick: () => this.choose(feature.place, false)
                                                    },
                                                    tipOf(feature)),
                                                ]));
    const title = count === 0 ? 'Nothing is here.' :
                                `Here ${count === 1 ? 'is' : 'are'} ${counted(count, 'feature')}${
                                  count > LISTED ? `, of which ${LISTED} are listed` : ''}:`;
    this.here.replaceChildren(element('p', { class: 'quiet' }, [title]), element('ol', {}, items));
    if (count > 0) this.choose(features[0].place, false);
  }

  /** Chooses a feature: marks it, and tells what it is. */
  async choose(place, isShown = true) {
    const feature = await this.#client.ask('feature', { place });
    this.picture.mark([place]);
    if (isShown) this.picture.goTo(feature.box);
    for (const button of this.here.querySelectorAll('button')) {
      if (Number(button.dataset.place) === place) button.setAttribute('aria-current', 'true');
      else button.removeAttribute('aria-current');
    }
    this.#view?.mark(place);
    this.told.replaceChildren(
      ...sayFeature(feature), element('div', { class: 'buttons' }, [
        element('button', { type: 'button', onclick: () => this.picture.goTo(feature.box) }, ['Zoom to it']),
        element('button', { type: 'button', onclick: () => this.#toTable(feature) }, ['Show in the table']),
      ]));
    return feature;
  }

  /** Shows a feature that is named by its layer and its index there. */
  async chooseIn(layer, feature) {
    const place = await this.#client.ask('placeOf', { layer, feature });
    await this.choose(place);
    this.picture.root.scrollIntoView({ block: 'nearest' });
  }

  /** Opens the table of a layer's features. */
  async openTable(layer, isFocused = true) {
    const choose = async (place) => {
      await this.choose(place);
      this.picture.root.scrollIntoView({ block: 'nearest' });
    };
    this.#view = new FeatureView(this.#client, layer, choose);
    this.#view.layer = layer.index;
    this.tables.replaceChildren(this.#view.root);
    await this.#view.filter('');
    if (isFocused) this.#view.title.focus();
  }

  async #toTable({ layer, place }) {
    if (this.#view?.layer !== layer) {
      const [opened] = await this.#client.ask('layers', { from: layer, end: layer + 1 });
      await this.openTable(opened, false);
    }
    this.#view.mark(place);
    await this.#view.show(place);
  }
}

function sayFeature({ layerName, index, id, shape, parts, points, integers, attributes }) {
  const name = layerName === '' ? '(no name)' : layerName;
  const form = shape === 'unknown' ?
    `unknown geometry of ${counted(integers, 'integer')}` :
    `${shape}, ${counted(parts, shape === 'polygons' ? 'ring' : 'part')}, ${counted(points, 'position')}`;
  return [
    element('h4', {}, [foreign(name), `, feature ${grouped(index)}`]),
    element('p', { class: 'quiet' }, [`${id === null ? 'no id' : `id ${id}`}; ${form}`]),
    attributes.length === 0 ? element('p', {}, ['It has no attributes.']) : tableOf(attributes),
  ];
}

/** The attributes of a feature, the first of them at once. */
function tableOf(attributes) {
  const body = element('tbody');
  const more = element('button', { type: 'button', onclick: () => add() }, ['More attributes']);
  const add = () => {
    const from = body.children.length;
    body.append(...attributes.slice(from, from + ATTRIBUTES).map(rowOf));
    more.hidden = body.children.length === attributes.length;
  };
  add();
  return element(
    'div', {},
    [element('table', { class: 'attributes' }, [element('caption', { class: 'spoken' }, ['Attributes']), body]), more]);
}

function rowOf({ key, kind, text, bits }) {
  return element('tr', {}, [
    element('th', { scope: 'row' }, [foreign(key)]),
    element('td', {}, [foreign(text, 300), bits === undefined ? '' : element('small', {}, [bits])]),
    element('td', { class: 'quiet' }, [kind]),
  ]);
}
