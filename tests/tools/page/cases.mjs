// What the program `mvt` says of tiles, from the files of cases that fixtures/tiles/cases.py makes and explains.
import {readFileSync} from 'node:fs';

const EXAMPLES = new URL('../../../fixtures/tiles/cases.txt', import.meta.url).pathname;

class Case {
  /** `lines` are a key and a text each. */
  constructor(lines) {
    this.said = {};
    for (const line of lines) {
      const [, key, text] = /^(\S+) (.*)$/s.exec(line);
      this.said[key] = `${this.said[key] ?? ''}${text}\n`;
    }
    this.name = this.said.case.trimEnd();
    this.zeros = Number(this.said.zeros ?? 0);
    this.tile = Buffer.concat([this.bytes('tile'), Buffer.alloc(this.zeros)]);
  }

  bytes(key) {
    return Buffer.from(this.said[key].trimEnd(), 'hex');
  }

  /** The names of layers, each with what is extracted, in hexadecimal digits. */
  get layers() {
    return (this.said.extract ?? '').split('\n').filter((line) => line !== '').map((line) => line.split(' '));
  }
}

/** The cases of the files that the environment names, by the name of the file. */
export function casesByFile() {
  const paths = (process.env.MVT_CASES ?? EXAMPLES).split(':');
  const blocks = (path) => readFileSync(path, 'utf8').trimEnd().split('\n\n');
  return paths.map((path) => [path.split('/').at(-1), blocks(path).map((block) => new Case(block.split('\n')))]);
}
