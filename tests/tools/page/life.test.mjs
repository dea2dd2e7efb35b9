// A server that ends while the page is open, calls that are given up, many tabs, and tiles that are too dear, with a server for
// each test.
import {pointTile, varint} from './large.mjs';
import {clickNamed, drawn, look, painted, same, textOf, tiles, withServer} from './onpage.mjs';

const gdal = `${tiles}/gdal.mvt`;
const busy = "document.body.classList.contains('busy')";
const gone = textOf('#gone');

const served = (name, holds, before = []) => withServer(name, [], {}, holds, before);

await served('the server ends: it is told, and what is drawn stays', async (page, serving) => {
  await look(page, [gdal]);
  await drawn(page);
  const before = [await page.value(gone), await page.value(painted())];
  const status = await serving.end();
  await page.choose([`${tiles}/broken/22-FirstRing.mvt`]);
  await page.until(`${gone} !== '' && !${busy}`);
  const stays = [await page.value(textOf('#tile h2')), await page.value(painted()) === before[1]];
  await page.value("document.querySelector('.paper').focus()");
  await page.press('+');
  await page.until(
    `document.querySelector('.paper.moved')?.dataset.state === 'drawn' && ${painted()} !== ${before[1]}`);
  await page.value(clickNamed('Save JSON'));
  await page.until("document.body.innerText.includes('It can’t be made')");
  return same(
    [before[0], status, /mvt-page has ended.*What is shown stays/.test(await page.value(gone)), stays],
    ['', 0, true, ['gdal.mvt', true]]);
});

await served('the server ends while a list is judged: what is told stays', async (page, serving, on) => {
  const { bytes } = pointTile(20_000);
  await page.choose(Array.from({ length: 200 }, (_, index) => on.made(`list-${index}.mvt`, bytes)));
  await page.until("document.querySelectorAll('#list tbody tr:not(.gap)').length > 0");
  await serving.end();
  await page.until(`${gone} !== '' && !${busy}`);
  const title = await page.value(textOf('#list h2'));
  return /^\d+ files: \d+ accepted, 0 refused Stopped after \d+ of 200\.$/.test(title) || title;
});

await served('the server ends while a tile is read: that is told in its place', async (page, serving, on) => {
  await page.choose([on.made('points.mvt', pointTile(1_000_000).bytes)]);
  await page.until("document.querySelector('#working button')");
  await serving.end('SIGKILL');
  await page.until(`${gone} !== '' && !${busy}`);
  return true;
});

await served('a call that is given up: the page goes on, and so does the server', async (page, serving, on) => {
  const path = on.made('points.mvt', pointTile(1_000_000).bytes);
  for (let turn = 0; turn < 8; turn += 1) {
    await page.choose([path]);
    await page.until("document.querySelector('#working button')");
    await page.value("document.querySelector('#working button').click()");
  }
  await page.until("document.querySelector('#tile .verdict')?.textContent.startsWith('Stopped')");
  await look(page, [gdal], 60);
  return same([await page.value(textOf('#tile h2')), await page.value(gone)], ['gdal.mvt', '']);
});

await served('eight tabs with long calls: each gets its answer', async (page, serving, on) => {
  const path = on.made('points.mvt', pointTile(1_000_000).bytes);
  const tabs = [];
  for (let tab = 0; tab < 8; tab += 1) tabs.push(await on.browser.page(serving.address));
  for (const tab of tabs) await tab.choose([path]);
  const got = [];
  for (const tab of tabs) {
    await tab.send('Page.bringToFront');
    await tab.until(`document.querySelector('.facts') && !${busy}`, 300);
    got.push(await tab.value(textOf('.facts')), await tab.value(gone));
    await tab.close();
  }
  return same([...new Set(got)], ['20 MB, 1 layer, 1,000,000 features, 1,000,000 positions.', '']);
});

/** A tile of 64 MiB, or some bytes less, of one layer with as many features of these bytes as it has room for. */
function fullTile(featureOf) {
  const count = Math.floor(((1 << 26) - 10) / featureOf(0).length);
  const tile = Buffer.alloc(10 + count * featureOf(0).length);
  tile.set([0x1a, ...varint(tile.length - 5), 0x78, 2, 0x0a, 1, 0x61]);
  for (let index = 0; index < count; index += 1) tile.set(featureOf(index), 10 + index * featureOf(0).length);
  return tile;
}

// Half of 4 GiB, as on a machine that has so much.
const small = ['bash', '-c', 'ulimit -d 2097152 && exec "$@"', '-'];
await served(
  '64 MiB of the dearest kind under 4 GiB: that there is no memory is told, beside the counts',
  async (page, serving, on) => {
    await page.choose([on.made('empty.mvt', fullTile(() => [0x12, 0]))]);  // of which the rows have 2 GB
    await page.until(`document.querySelector('.facts') && !${busy}`, 300);
    const shown = await page.value("document.querySelector('#tile').innerText");
    await page.value(clickNamed('Save JSON'));
    await page.until("document.body.innerText.includes('There is no memory for it')", 120);
    await look(page, [gdal]);
    return same(
      [
        shown.includes('67 MB, 1 layer, 33,554,427 features.') || shown.slice(0, 400),
        shown.includes('There is no picture: there is no memory for it.'), await page.value(textOf('.facts'))
      ],
      [true, true, '499 bytes, 3 layers, 7 features, 30 positions.']);
  },
  small);

await served('64 MiB of points under 4 GiB: all is told', async (page, serving, on) => {
  const path =
    on.made('most.mvt', fullTile((index) => [0x12, 7, 0x18, 1, 0x22, 3, 9, index % 128, (index >> 7) % 128]));
  const began = Date.now();
  await page.choose([path]);
  await page.until(`document.querySelector('.facts') && !${busy}`, 300);
  if (process.env.TELL)
    console.log(`64 MiB of points: all told after ${(Date.now() - began) / 1000} s, the server ${serving.memory} MB`);
  return same(
    [await page.value(textOf('.facts')), (await page.value(textOf('.canonical'))).slice(0, 2)],
    ['67 MB, 1 layer, 7,456,539 features, 7,456,539 positions.', 'No']);
}, small);
