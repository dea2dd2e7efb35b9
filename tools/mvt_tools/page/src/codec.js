// The proved library, asked of the server that served the page. Its calls are those of library/c/mvt.h; how they are spelled
// is told in tools/mvt_tools/page/calls.py.
import {STATUS} from './layout.js';
import {answerOf, explainedOf, framesOf, partsOf, rowsOf} from './spelling.js';

export const {OK, NO_MEMORY, TOO_LARGE, NO_LAYER} = STATUS;

/** What is thrown once the server has ended. */
export class Gone extends Error {
  name = 'Gone';

  constructor() {
    super('the command mvt-page has ended');
  }
}

export class Codec {
  #address;

  /** `address` is that of the page, and ends with a slash. */
  constructor(address) {
    this.#address = address;
  }

  open(bytes) {
    return new OpenTile(this, bytes);
  }

  /** What `mvt check` says of several tiles: an answer for each. */
  async surveys(tiles) {
    const answer = await this.call('surveys', framesOf(tiles));
    return answer === null ? tiles.map(() => ({ status: NO_MEMORY })) : partsOf(answer).map(answerOf);
  }

  /** The answer to a call, in one block; null where the server has no memory for it. */
  call(name, body) {
    return this.#patiently(async () => {
      const response = await this.#once(name, { method: 'POST', body });
      return response.status === 503 ? null : blockOf(await good(response));
    });
  }

  /** What stands at a path: bytes. */
  bytes(path) {
    return this.#patiently(async () => blockOf(await good(await this.#once(path))));
  }

  /** What stands at a path: JSON. It is given up where the signal says so. */
  told(path, signal = null) {
    return this.#patiently(async () => (await good(await this.#once(path, { signal }))).json());
  }

  /** Whether the server is there. */
  isThere() {
    return this.#once('given').then(() => true, () => false);
  }

  /** Asks, and once more where no answer comes, or not all of it. Throws Gone where nobody is there then. */
  async #patiently(ask) {
    try {
      return await ask();
    } catch (error) {
      if (!(error instanceof TypeError)) throw error;
    }
    try {
      return await ask();
    } catch (error) {
      throw error instanceof TypeError && !(await this.isThere()) ? new Gone() : error;
    }
  }

  #once(path, how = {}) {
    return fetch(`${this.#address}${path}`, { credentials: 'omit', cache: 'no-store', redirect: 'error', ...how });
  }
}

/** A response that is no fault of the protocol; else its words are thrown. */
async function good(response) {
  if (response.ok) return response;
  throw Object.assign(new Error((await response.text()).trim()), { status: response.status });
}

/** The whole body, which is read into one block. */
async function blockOf(response) {
  const reader = response.body.getReader();
  try {
    const block = new Uint8Array(Number(response.headers.get('Content-Length')));
    for (let at = 0;;) {
      const { done, value } = await reader.read();
      if (done && at < block.length) throw new TypeError('the answer ended early');
      if (done) return block;
      block.set(value, at);
      at += value.length;
    }
  } catch (error) {
    reader.cancel().catch(() => {});
    throw error;
  }
}

/** The calls of one tile: each answers `{status}`, with `bytes` or `rows` where it is OK and `fault` where it is refused. */
class OpenTile {
  #codec;
  #bytes;

  constructor(codec, bytes) {
    this.#codec = codec;
    this.#bytes = bytes;
  }

  judge() {
    return this.#call('judge');
  }

  /** Where and why the tile is refused: `place` beside the fault. */
  async explain() {
    const answer = await this.#codec.call('explain', this.#bytes);
    return answer === null ? { status: NO_MEMORY } : explainedOf(answer);
  }

  /** What there is round the fault of a refused tile, as JSON: around.py says what. */
  around() {
    return this.#call('around');
  }

  /** How long the canonical bytes are, and where the tile first differs from them, as JSON: differ.py says what. */
  canonical() {
    return this.#call('canonical');
  }

  /** The canonical bytes. */
  rewrite() {
    return this.#call('rewrite');
  }

  /** The tile mended, `mended`, and `told` of it, which mending.py says. */
  async mend() {
    const answer = await this.#call('mend');
    if (answer.status !== OK) return answer;
    const [told, mended] = partsOf(answer.bytes);
    return { status: OK, told: JSON.parse(new TextDecoder().decode(told)), mended };
  }

  /** The canonical bytes of the named layers. */
  extract(names) {
    const texts = names.map((name) => new TextEncoder().encode(name));
    return this.#call('extract', framesOf([...texts, this.#bytes]));
  }

  /** GeoJSON: in degrees where the tile's place is told, `{z, x, y}`, else in units of the tile. */
  geojson(place) {
    const spelled = place === null ? '' : `${place.z}/${place.x}/${place.y}`;
    return this.#call('geojson', framesOf([new TextEncoder().encode(spelled), this.#bytes]));
  }

  /** Of each layer the bytes and those of its geometries, as JSON. */
  sizes() {
    return this.#call('sizes');
  }

  /** The tile as JSON. */
  json() {
    return this.#call('json');
  }

  /** The picture. */
  svg() {
    return this.#call('svg');
  }

  /** What `mvt check` says, which `Survey` reads. */
  survey() {
    return this.#call('survey');
  }

  /** What `mvt lint` says, which `Findings` reads. */
  findings() {
    return this.#call('findings');
  }

  /** The lists of rows by name, each with its place in the memory and its count; and the memory. */
  async read() {
    const answer = await this.#call('read');
    return answer.status === OK ? { status: OK, rows: rowsOf(answer.bytes) } : answer;
  }

  async #call(name, body = this.#bytes) {
    const answer = await this.#codec.call(name, body);
    return answer === null ? { status: NO_MEMORY } : answerOf(answer);
  }
}
