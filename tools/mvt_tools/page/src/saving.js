// Saves what the library makes of a tile, and tells where that can't be.
import {NO_LAYER, OK, TOO_LARGE} from './codec.js';
import {element, save} from './dom.js';
import {stemOf} from './names.js';
import {LIGHT} from './palette.js';

const WHY = {
  [TOO_LARGE]: 'It would be more than 64 MiB.',
  [NO_LAYER]: 'No layer is shown, so there is nothing to save.',
};
const TILE_TYPE = 'application/vnd.mapbox-vector-tile';

export class Saving {
  #client;
  #stem;
  #place;

  /** `place` is the tile's, `{z, x, y}`, or null. */
  constructor(client, name, place) {
    this.#client = client;
    this.#stem = stemOf(name);
    this.#place = place;
    this.told = element('span', { class: 'quiet', role: 'status' });
  }

  get canonical() {
    return this.#button('Save canonical bytes', '.canonical.mvt', TILE_TYPE, () => ({ what: 'rewrite' }));
  }

  get json() {
    return this.#button('Save JSON', '.json', 'application/json', () => ({ what: 'json' }));
  }

  /** In degrees where the place is known, and else in units of the tile. */
  get geojson() {
    const title = this.#place === null ? 'Save GeoJSON in units of the tile' : 'Save GeoJSON';
    return this.#button(title, '.geojson', 'application/geo+json', () => ({ what: 'geojson', place: this.#place }));
  }

  /** A button that saves a picture of the layers that are shown, in their colours. */
  picture(shown) {
    return this.#button('Save picture', '.svg', 'image/svg+xml', () => {
      const { hidden, chosenColours } = shown() ?? { hidden: null, chosenColours: {} };
      return { what: 'svg', hidden, chosen: chosenColours, colours: LIGHT.layers };
    });
  }

  /** A button that saves a tile of the layers that are shown. */
  layers(picture) {
    return this.#button(
      'Save the layers shown', '.layers.mvt', TILE_TYPE, () => ({ what: 'extract', hidden: picture.hidden }));
  }

  #button(title, ending, type, asked) {
    return element('button', { type: 'button', onclick: () => this.#save(ending, type, asked()) }, [title]);
  }

  async #save(ending, type, asked) {
    this.told.textContent = 'Making it …';
    try {
      const { status, bytes } = await this.#client.ask('made', asked);
      if (status === OK) save(`${this.#stem}${ending}`, type, bytes);
      this.told.textContent = status === OK ? '' : (WHY[status] ?? 'There is no memory for it.');
    } catch (error) {
      this.told.textContent = `It can’t be made: ${error.message}`;
    }
  }
}
