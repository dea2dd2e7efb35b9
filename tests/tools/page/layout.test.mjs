// What the page says of rows (tools/mvt_tools/page/src/layout.js) is what a compiler makes of library/c/mvt.h: the
// environment may name the compiler (CC).
import {execFileSync} from 'node:child_process';
import {writeFileSync} from 'node:fs';
import {join} from 'node:path';
import * as layout from '../../../tools/mvt_tools/page/src/layout.js';
import {check, folder} from './checks.mjs';

const library = new URL('../../../library/c', import.meta.url).pathname;

/** Expressions of C, with what the page takes each for. */
const taken = new Map();
for (const numbers of [layout.STATUS, layout.KIND, layout.VALUE_KIND]) {
  for (const [name, number] of Object.entries(numbers)) taken.set(`MVT_${name}`, number);
}
for (const [kind, numbers] of Object.entries({ CAUSE: layout.CAUSE, NOTE: layout.NOTE, FINDING: layout.FINDING })) {
  for (const [name, number] of Object.entries(numbers))
    taken.set(`MVT_${kind}_${name.replace(/(?<=[a-z])(?=[A-Z])/g, '_').toUpperCase()}`, number);
}
taken.set('MVT_LIMIT', layout.LIMIT);
for (const [index, [list, size]] of Object.entries(layout.ROW_SIZES).entries()) {
  taken.set(`sizeof *((mvt_tile *)0)->${list}`, size);
  taken.set(`offsetof(mvt_tile, ${list})`, 16 * index);  // a pointer and a count for each before it
}
for (const [name, { words, ...places }] of Object.entries(layout).filter(([each]) => each.endsWith('_ROW'))) {
  const isOfList = !['NOTE_ROW', 'FINDING_ROW'].includes(name);
  const structure = `mvt_${(isOfList ? name.slice(0, -'_ROW'.length) : name).toLowerCase()}`;
  taken.set(`sizeof(${structure})`, 4 * words);
  for (const [field, word] of Object.entries(places)) taken.set(`offsetof(${structure}, ${field})`, 4 * word);
}

const lines = [...taken.keys()].map((expression) => `    printf("%zu\\n", (size_t)(${expression}));`);
const [source, program] = [join(folder, 'layout.c'), join(folder, 'layout')];
writeFileSync(
  source,
  ['#include <mvt.h>', '#include <stdio.h>', 'int main(void) {', ...lines, '    return 0;', '}', ''].join('\n'));
execFileSync(process.env.CC ?? 'cc', ['-std=c11', '-I', library, source, '-o', program]);
const told = execFileSync(program, { encoding: 'utf8' }).trim().split('\n').map(Number);
for (const [at, [expression, number]] of [...taken].entries())
  await check(expression, () => told[at] === number || `${told[at]}, and the page says ${number}`);
