// How much the page does with large tiles and long lists before a person waits. It is told as counts: tasks that keep the page for more than 100 ms, elements, memory. Times are bounded too, and generously.
import {readFileSync, readdirSync, rmSync} from 'node:fs';
import {check, chromium, folder} from './checks.mjs';
import {OnPage, drawn, look, same, textOf, texts, tiles} from './onpage.mjs';
import {largeTile, layeredTile, pointTile} from './large.mjs';
import {Serving} from './serving.mjs';

const WIDE = {
  width: 1400,
  height: 900
};
const ELEMENTS = 1500;
/** Milliseconds of a processor. */
const LONGEST = 100;
/** MB of the server's memory. */
const SERVER = 500;
/** Machines that do other work are slower. */
const SLOWER = Number(process.env.SLOWER ?? 20);

/** The processes that show pages. */
async function processesOf(browser) {
  const { processInfo } = await browser.send('SystemInfo.getProcessInfo');
  return processInfo.filter(({ type }) => type === 'renderer').map(({ id }) => id);
}

/** The most memory that the page's process had, in MB. */
async function memoryOf(browser) {
  const most = (await processesOf(browser))
                 .map((id) => Number(/VmHWM:\s+(\d+)/.exec(readFileSync(`/proc/${id}/status`, 'utf8'))[1]) / 1000);
  return Math.round(Math.max(...most));
}

/** The seconds of a processor that the page's workers have used so far. */
async function workedOf(browser) {
  const threads =
    (await processesOf(browser))
      .flatMap((id) => readdirSync(`/proc/${id}/task`).map((thread) => `/proc/${id}/task/${thread}/stat`));
  const ticks =
    threads.map((path) => readFileSync(path, 'utf8'))
      .filter((stat) => stat.includes('(DedicatedWorker'))
      .map(
        (stat) =>
          stat.slice(stat.lastIndexOf(')') + 2).split(' ').slice(11, 13).reduce((sum, each) => sum + Number(each), 0));
  return ticks.reduce((sum, each) => sum + each, 0) / 100;
}

/** How often a check is made at most: see `budget`. */
const TRIES = 5;

/**
 * A check in a browser and with a server of its own, so that their memory can be told; the page's start is counted too. Where
 * a task was too long it is made again, up to five times: what the page does is as long each time, and what a busy machine
 * counts to a task now and then isn't.
 */
async function budget(name, holds) {
  await check(name, async () => {
    for (let tries = 1;; tries += 1) {
      const { told, long } = await measured(name, holds, tries === TRIES);
      if (tries === TRIES || long.length === 0) return told;
    }
  }, { chromium });
}

/** One try: what it tells, and its tasks that were too long, for which it fails where `isLast`. */
async function measured(name, holds, isLast) {
  const serving = await Serving.start();
  const on = new OnPage(serving.address);
  const recorded = await on.browser.record();
  let long = [];
  const told = await on.inPage(WIDE, async (page) => {
    const wrong = await holds(page, on);
    if (wrong !== true) return wrong;
    const elements = await page.value("document.querySelectorAll('*').length");
    const tasks = await recorded(page);
    long = tasks.filter((each) => each > LONGEST).map(Math.round);
    if (process.env.TELL)
      console.log(`${name}: the longest of ${tasks.length} tasks ${Math.round(Math.max(...tasks))} ms, ${
        elements} elements, ${await memoryOf(on.browser)} MB, the server ${serving.memory} MB`);
    return same(
      [
        tasks.length > 10, isLast ? long : [], elements < ELEMENTS || elements,
        serving.memory < SERVER || serving.memory
      ],
      [true, [], true, true]);
  });
  await on.end();
  await serving.end();
  return { told, long };
}

const since = (began) => (Date.now() - began) / 1000;
const within = (began, seconds) => since(began) < seconds * SLOWER || `it took ${Math.round(since(began))} s`;

/** Chooses a tile and waits until it is drawn, which comes before its canonical form is told; then until all is told. */
async function drawnFirst(page, on, path) {
  const began = Date.now();
  await page.choose([path]);
  await drawn(page, 300);
  const [told, worked, time] = [await page.value(textOf('.canonical')), await workedOf(on.browser), since(began)];
  await page.until("!document.body.classList.contains('busy')", 300);
  if (process.env.TELL)
    console.log(
      `drawn after ${time.toFixed(1)} s, and ${worked} s of a processor; all told after ${since(began).toFixed(1)} s`);
  return { told, worked, time };
}

await budget('20 MB of 1,000,000 points', async (page, on) => {
  const tile = pointTile(1_000_000);
  const { told, worked, time } = await drawnFirst(page, on, on.made('points.mvt', tile.bytes));
  const memory = await memoryOf(on.browser);
  const facts = await page.value(textOf('.facts'));
  return same(
    [facts, told, memory < 600 || memory, worked < 6 || worked, time < 3 * SLOWER || time],
    ['20 MB, 1 layer, 1,000,000 features, 1,000,000 positions.', '…', true, true, true]);
});

await budget('20 MB of 4,499 layers', async (page, on) => {
  const path = on.made('layers.mvt', layeredTile(4499, 20_000_000).bytes);
  const began = Date.now();
  await look(page, [path], 300);
  await drawn(page, 300);
  await page.value("document.querySelector('.layers .rows').scrollTop = 1e9");
  await page.until(`${texts('.layers tbody bdi')}.includes('layer 4498')`);
  return same(within(began, 10), true);
});

await budget('60 MB judged and drawn', async (page, on) => {
  const tile = largeTile(60_000_000);
  const { told } = await drawnFirst(page, on, on.made('sixty.mvt', tile.bytes));
  const memory = await memoryOf(on.browser);
  const facts = await page.value(textOf('.facts'));
  return same(
    [
      facts.startsWith(`60 MB, 1 layer, ${tile.features.toLocaleString('en')} features`) || facts, told,
      memory < 1000 || memory
    ],
    [true, '…', true]);
});

await budget('10,000 tiles of 1 kB', async (page, on) => {
  const good = Buffer.concat(
    [readFileSync(`${tiles}/gdal.mvt`), Buffer.from([0x2a, 0xf0, 3]), Buffer.alloc(496)]);  // and an unknown field
  const broken = readFileSync(`${tiles}/broken/22-FirstRing.mvt`);
  const paths = Array.from(
    { length: 10_000 },
    (_, index) => on.made(`tile-${(index * 7919) % 10_000}.mvt`, index % 100 === 7 ? broken : good));
  const began = Date.now();
  await page.choose(paths);
  await page.until(
    "document.querySelector('#list h2')?.textContent.startsWith('10,000 files:') && !document.body.classList.contains('busy')",
    600);
  const time = within(began, 20);
  const title = await page.value(textOf('#list h2'));
  const first = async (click, name) => {
    await page.value(click);
    await page.until(`${texts('#list tbody .link')}[0] === '${name}'`);
  };
  const sort = "document.querySelector('#list [data-by=name] button').click()";
  const filter = (text) => `(() => { const input = document.querySelector('#list input[type=search]'); input.value = '${
    text}'; input.dispatchEvent(new Event('input')); })()`;
  await first(sort, 'tile-0.mvt');
  await first(sort, 'tile-9999.mvt');
  await first(filter('tile-77'), 'tile-7799.mvt');
  await first(filter(''), 'tile-9999.mvt');
  rmSync(`${folder}/tiles.csv`, { force: true });
  const lines = String(await on.saved(page, 'Save as CSV', 'tiles.csv')).split('\r\n').length;
  return same([title, time, lines], ['10,000 files: 9,900 accepted, 100 refused', true, 10_002]);
});
