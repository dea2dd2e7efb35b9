// The page's calls through the server answer what the program says of each case, in node and in Chromium.
import {Codec} from '../../../tools/mvt_tools/page/src/codec.js';
import {answersOf, wrongOf} from './answers.mjs';
import {casesByFile} from './cases.mjs';
import {check, chromium} from './checks.mjs';
import {OnPage} from './onpage.mjs';
import {Serving} from './serving.mjs';

const AT_ONCE = 100;
const serving = await Serving.start();
const on = new OnPage(serving.address);

async function inNode(cases) {
  const codec = new Codec(serving.address);
  const told = [];
  for (const one of cases) told.push(await answersOf(codec, one.tile, one.layers.map(([name]) => name)));
  return told;
}

/** In the browser: the answers over tiles, in base64 and so many zeros, each with the names of layers. */
async function answersIn64(given) {
  const told = [];
  for (const [front, zeros, layers] of given) {
    const tile = new Uint8Array(atob(front).length + zeros);
    tile.set(Uint8Array.from(atob(front), (letter) => letter.charCodeAt(0)));
    told.push(await answersOf(mvt.codec, tile, layers));
  }
  return told;
}

let page = null;

async function inChromium(cases) {
  if (page === null) {
    page = await on.browser.page(serving.address);
    await page.value(`globalThis.answersOf = ${answersOf}; globalThis.answersIn64 = ${answersIn64}; 0`);
  }
  const given = cases.map((one) => [one.bytes('tile').toString('base64'), one.zeros, one.layers.map(([name]) => name)]);
  return page.value(`answersIn64(${JSON.stringify(given)})`);
}

async function wrongs(cases, answers) {
  const wrong = [];
  for (let from = 0; from < cases.length; from += AT_ONCE) {
    const some = cases.slice(from, from + AT_ONCE);
    const told = await answers(some);
    wrong.push(...some.map((one, index) => wrongOf(one, told[index])).filter((text) => text !== ''));
  }
  return wrong.length === 0 || wrong.join('\n');
}

for (const [where, answers, wants] of [['node', inNode, {}], ['Chromium', inChromium, { chromium }]]) {
  for (const [file, cases] of casesByFile()) {
    const named = file === 'cases.txt' ? cases.map((one) => [one.name, [one]]) : [[file, cases]];
    for (const [name, some] of named) await check(`in ${where}: ${name}`, () => wrongs(some, answers), wants);
  }
}

await on.end();
await serving.end();
