// Tests of the page, by node:test: each says true, or what is wrong. The environment may name the installed command (MVT_PAGE),
// the folder of what make_stores.py made (MVT_STORES), and the files of cases (MVT_CASES).
import assert from 'node:assert/strict';
import {existsSync, mkdtempSync, rmSync} from 'node:fs';
import {tmpdir} from 'node:os';
import {delimiter, join} from 'node:path';
import test from 'node:test';

const found = (...names) =>
  names.flatMap((name) => process.env.PATH.split(delimiter).map((folder) => join(folder, name))).find(existsSync);
export const chromium = found('chromium');
export const firefox = found('firefox-esr', 'firefox');
export const stores = process.env.MVT_STORES;

/** A folder for what is made, which is gone in the end. */
export const folder = mkdtempSync(join(tmpdir(), 'page-'));
process.once('exit', () => rmSync(folder, { recursive: true, force: true }));

/** A test; it is skipped where something that it wants isn't there. */
export async function check(name, holds, wants = {}) {
  const missing = Object.keys(wants).find((each) => !wants[each]);
  await test(name, { skip: missing === undefined ? false : `${missing} isn’t there` }, async () => {
    const told = await holds();
    if (told !== true && told !== undefined) assert.fail(String(told));
  });
}

export const same = (got, wanted) =>
  JSON.stringify(got) === JSON.stringify(wanted) || `${JSON.stringify(got)}, wanted ${JSON.stringify(wanted)}`;

export const is = (name, got, wanted) => check(name, () => same(got, wanted));
