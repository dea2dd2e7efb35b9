// What `mvt check` notes of a tile and what `mvt lint` finds, by kind: the library's rows, read where they lie.
import {FINDING, FINDING_ROW, NOTE, NOTE_ROW} from './layout.js';

/** What each kind speaks of, in the order of the program's lines. */
const OF_FEATURE = ['layer', 'feature'];
const OF_NOTES = {
  word: 'note',
  numbers: NOTE,
  row: NOTE_ROW,
  of: {
    NoLayers: [],
    Foreign: ['layer', 'version'],
    NoFeatures: ['layer'],
    RepeatedId: [...OF_FEATURE, 'earlier'],
    FlatRing: [...OF_FEATURE, 'ring'],
    ClosedTwice: [...OF_FEATURE, 'ring'],
  },
};
const OF_FINDINGS = {
  word: 'lint',
  numbers: FINDING,
  row: FINDING_ROW,
  of: {
    ZeroExtent: ['layer'],
    NoGeometry: OF_FEATURE,
    UnknownGeometry: OF_FEATURE,
    FarPoint: [...OF_FEATURE, 'x', 'y'],
    LargeId: OF_FEATURE,
    LargeNumber: [...OF_FEATURE, 'attribute'],
  },
};
/** How the program's lines name what stands in a row by another name. */
const SPELLED = {
  x: 'position ',
  y: ''
};

/** Where the counts of a survey lie, which have 64 bits each, and where its notes begin. */
const FEATURES_AT = 8;
const CANONICAL_AT = 16;
const NOTES_AT = 24;

class Remarks {
  #form;
  #words;
  #places = new Map();

  /** `bytes` are rows as `form` has them. Numbers of 64 bits are read by their lower half, as those of a tile are. */
  constructor(form, bytes) {
    this.#form = form;
    this.#words = new Int32Array(bytes.slice().buffer);
    const names = new Map(Object.entries(form.numbers).map(([name, number]) => [number, name]));
    for (let at = 0; at < this.#words.length; at += form.row.words) {
      const kind = names.get(this.#words[at + form.row.kind]);
      if (!this.#places.has(kind)) this.#places.set(kind, []);
      this.#places.get(kind).push(at);
    }
  }

  /** How many there are of each kind, `{kind, count}`. */
  kinds() {
    return [...this.#places].map(([kind, places]) => ({ kind, count: places.length }));
  }

  /** Some of a kind, `{line, layer, feature}`; what a kind doesn't speak of is null. */
  some(kind, from, end) {
    return (this.#places.get(kind) ?? []).slice(from, end).map((at) => this.#told(kind, at));
  }

  #told(kind, at) {
    const { word, row, of } = this.#form;
    const value = (name) => (name in SPELLED ? this.#words[at + row[name]] : this.#words[at + row[name]] >>> 0);
    const said = of[kind].map((name) => `${SPELLED[name] ?? `${name} `}${value(name)}`);
    const [layer, feature] = OF_FEATURE.map((name) => (of[kind].includes(name) ? value(name) : null));
    return { line: [word, kind, ...said].join(' '), layer, feature };
  }
}

/** What the library says of a tile that is accepted. */
export class Survey extends Remarks {
  /** `bytes` are the counts, and the rows of the notes. */
  constructor(bytes) {
    super(OF_NOTES, bytes.subarray(NOTES_AT));
    const view = new DataView(bytes.buffer, bytes.byteOffset, NOTES_AT);
    this.counts = {
      layers: Number(view.getBigUint64(0, true)),
      features: Number(view.getBigUint64(FEATURES_AT, true))
    };
    this.isCanonical = view.getBigUint64(CANONICAL_AT, true) === 1n;
  }

  /** How many layers are of another version, and weren't looked into. */
  get foreign() {
    return this.kinds().find(({ kind }) => kind === 'Foreign')?.count ?? 0;
  }
}

/** What viewers stumble over. */
export class Findings extends Remarks {
  constructor(bytes) {
    super(OF_FINDINGS, bytes);
  }
}
