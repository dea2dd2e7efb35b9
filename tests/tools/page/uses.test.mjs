// How a person uses the page in headless Chromium, by mouse, fingers and keys.
import {readFileSync} from 'node:fs';
import {brotliCompressSync, gzipSync} from 'node:zlib';
import {pointTile} from './large.mjs';
import {OnPage, click, clickNamed, colourAt, drawn, look, painted, same, spotOf, textOf, texts, tiles} from './onpage.mjs';

const on = new OnPage();
const made = on.made.bind(on);
const onPage = on.check.bind(on);
const WIDE = {
  width: 1400,
  height: 900
};
const PHONE = {
  width: 390,
  height: 844
};
const gdal = `${tiles}/gdal.mvt`;
const broken = (name) => `${tiles}/broken/${name}.mvt`;
const mouse = (page, type, spot, more = {}) =>
  page.send('Input.dispatchMouseEvent', { type, ...spot, button: 'left', clickCount: 1, ...more });

// ---- the picture

await onPage('the wheel zooms, and the whole tile comes back', WIDE, async (page) => {
  await look(page, [gdal]);
  await drawn(page);
  const before = await page.value(painted());
  const spot = await spotOf(page, 0.6, 0.3);
  await page.send('Input.dispatchMouseEvent', { type: 'mouseWheel', ...spot, deltaX: 0, deltaY: -500 });
  await page.until(`document.querySelector('.paper.moved')?.dataset.state === 'drawn' && ${painted()} > 2 * ${before}`);
  await page.value(clickNamed('Whole tile'));
  await page.until(`document.querySelector('.paper').dataset.state === 'drawn' && ${painted()} === ${before}`);
});

await onPage('the mouse moves the picture, and chooses nothing then', WIDE, async (page) => {
  await look(page, [gdal]);
  await drawn(page);
  const { x, y } = await spotOf(page, 0.5, 0.5);
  await mouse(page, 'mousePressed', { x, y });
  await mouse(page, 'mouseMoved', { x: x + 60, y: y + 30 });
  await mouse(page, 'mouseReleased', { x: x + 60, y: y + 30 });
  await page.until("document.querySelector('.paper.moved')?.dataset.state === 'drawn'");
  return same(await page.value("document.querySelector('.feature h4')"), null);
});

await onPage('keys move and zoom the picture', WIDE, async (page) => {
  await look(page, [gdal]);
  await drawn(page);
  const before = await page.value(painted());
  await page.value("document.querySelector('.paper').focus()");
  for (const key of ['+', 'ArrowRight', 'ArrowUp']) await page.press(key);
  await page.until(`document.querySelector('.paper.moved')?.dataset.state === 'drawn' && ${painted()} !== ${before}`);
  await page.press('0');
  await page.until(`document.querySelector('.paper').dataset.state === 'drawn' && ${painted()} === ${before}`);
});

await onPage('two fingers zoom', PHONE, async (page) => {
  await look(page, [gdal]);
  await drawn(page);
  const before = await page.value(painted());
  const { x, y } = await spotOf(page, 0.6, 0.3);
  const touch = (type, far) => page.send(
    'Input.dispatchTouchEvent',
    { type, touchPoints: type === 'touchEnd' ? [] : [{ x: x - far, y, id: 0 }, { x: x + far, y, id: 1 }] });
  await touch('touchStart', 20);
  for (const far of [30, 40, 50, 60]) await touch('touchMove', far);
  await touch('touchEnd', 60);
  await page.until(`document.querySelector('.paper.moved')?.dataset.state === 'drawn' && ${painted()} > 2 * ${before}`);
});

await onPage('what lies beyond the edge is shown when that is wanted', WIDE, async (page) => {
  const beyond = Buffer.from([
    0x1a, 0, 0x78, 2, 0x0a, 1, 0x61, 0x12, 0, 0x18, 2, 0x22, 0, 0x09, 0xbf, 0x07, 0x80, 0x20, 0x0a, 0x90, 3, 0
  ]);  // from (-480, 2048) by (200, 0)
  [beyond[1], beyond[8], beyond[12]] = [beyond.length - 2, beyond.length - 9, beyond.length - 13];
  await look(page, [made('beyond.mvt', beyond)]);
  await drawn(page);
  const before = await page.value(painted());
  await page.value(click('.tools input'));
  await page.until(`document.querySelector('.paper').dataset.state === 'drawn' && ${painted()} > 20`);
  return same([before], [0]);
});

await onPage('hovering tells what is near, a line before the area below it', WIDE, async (page) => {
  await look(page, [gdal]);
  await drawn(page);
  const spot = await spotOf(page, 2790 / 4096, 1800 / 4096);  // Ring Road over Mill Pond
  await mouse(page, 'mouseMoved', { x: spot.x + 4, y: spot.y }, { button: 'none' });
  await page.until("!document.querySelector('.tip').hidden");
  return same((await page.value(texts('.tip div'))).map((line) => line.split(' ')[0]), ['roads', 'water']);
});

await onPage('the colour of a layer is chosen', WIDE, async (page) => {
  await look(page, [gdal]);
  await drawn(page);
  const pond = colourAt(2400 / 4096, 1000 / 4096);
  const before = await page.value(pond);
  await page.value(`(() => {
    const input = document.querySelector('[aria-label="The colour of \u2068water\u2069"]');
    input.value = '#ff00ff';
    input.dispatchEvent(new Event('input'));
  })()`);
  await page.until(`document.querySelector('.paper').dataset.state === 'drawn' && ${pond}[1] < 10`);
  const [r, g, b] = await page.value(pond);
  return same([before[1] > 100, r > 245, g<10, b>245], [true, true, true, true]);
});

await onPage('drawing is stopped by its button', WIDE, async (page) => {
  await page.value(
    `new MutationObserver(() => [...document.querySelectorAll('.tools button:not([hidden])')].find((each) => each.textContent === 'Stop drawing')?.click())
    .observe(document.getElementById('tile'), { subtree: true, childList: true, attributes: true, attributeFilter: ['hidden'] })`);
  await look(page, [made('many.mvt', pointTile(1_000_000).bytes)]);
  await page.until("document.querySelector('.paper')?.dataset.state === 'stopped'");
  const told = await page.value(textOf('.state'));
  const some = await page.value(painted());
  return (/^Stopped after [\d,]+ of 1,000,000 features\.$/.test(told) && some > 0) || `${told} ${some}`;
});

await onPage('the faulty feature is drawn up to its fault', WIDE, async (page) => {
  await look(page, [broken('20-ZeroSegment')]);
  const told = await page.value("document.querySelector('.shape canvas').getAttribute('aria-label')");
  const red = await page.value(`(() => {
    const canvas = document.querySelector('.shape canvas');
    const { data } = canvas.getContext('2d').getImageData(0, 0, canvas.width, canvas.height);
    let count = 0;
    for (let at = 0; at < data.length; at += 4) count += data[at] > 150 && data[at + 1] < 60 && data[at + 2] < 60 ? 1 : 0;
    return count;
  })()`);
  return (/up to its fault: \d+ position.*fault comes after \(/.test(told) && red > 200) || `${told} ${red}`;
});

// ---- what foreign texts may do

const bytesOf = (text) => [...Buffer.from(text)];
function tileWith(name, key, value) {
  const field = (number, bytes) => [8 * number + 2, ...lengthOf(bytes), ...bytes];
  const lengthOf = ({ length }) => (length < 128 ? [length] : [(length % 128) + 128, Math.floor(length / 128)]);
  const layer = [
    0x78, 2, ...field(1, bytesOf(name)), ...field(3, bytesOf(key)), ...field(4, field(1, bytesOf(value))), 0x12, 11,
    0x12, 2, 0, 0, 0x18, 1, 0x22, 3, 9, 4, 4
  ];
  return Buffer.from(field(3, layer));
}

await onPage('names from files stand apart, with their controls shown, and long ones are cut', PHONE, async (page) => {
  await look(page, [made('foreign.mvt', tileWith('x'.repeat(3000), 'a\u202Eb', '\u2066line\n<b>'))]);
  await drawn(page);
  const { x, y } = await spotOf(page, 2 / 4096, 2 / 4096);
  for (const type of ['mousePressed', 'mouseReleased']) await mouse(page, type, { x: x + 2, y: y + 2 });
  await page.until("document.querySelector('.attributes')");
  const cells = await page.value(texts('.attributes tr > :nth-child(-n+2)'));
  const isolated = await page.value(
    "[...document.querySelectorAll('.attributes th, .attributes td:nth-child(2)')].every((cell) => cell.querySelector('bdi'))");
  const height = await page.value("document.querySelector('.feature h4').getBoundingClientRect().height");
  await page.value("[...document.querySelectorAll('.feature h4 button')][0].click()");
  const whole = await page.value("document.querySelector('.feature h4 bdi').textContent.length");
  const width = await page.value('document.documentElement.scrollWidth');
  return same(
    [cells, isolated, height < 200, whole, width <= 390],
    [['aU+202Eb', 'U+2066lineU+000A<b>'], true, true, 3000, true]);
});

// ---- a list

const several = [gdal, broken('22-FirstRing'), broken('14-KeyIndex'), `${tiles}/postgis.mvt`, broken('20-ZeroSegment')];
const rowsOf = texts('#list tbody tr:not(.gap) th');

await onPage('a list counts causes in words, is filtered by them and by text, and sorted', WIDE, async (page) => {
  await look(page, [...several, broken('22-FirstRing')]);
  const chips = await page.value(texts('.chip'));
  await page.value(
    "[...document.querySelectorAll('.chip')].find((chip) => chip.textContent.includes('wrong way')).click()");
  const some = await page.value(rowsOf);
  await page.value(
    "[...document.querySelectorAll('.chip')].find((chip) => chip.textContent.includes('wrong way')).click()");
  await page.value(
    "(() => { const filter = document.querySelector('#list input'); filter.value = 'keyindex'; filter.dispatchEvent(new Event('input')); })()");
  const found = await page.value(rowsOf);
  await page.value(
    "(() => { const filter = document.querySelector('#list input'); filter.value = ''; filter.dispatchEvent(new Event('input')); })()");
  await page.value(clickNamed('Tile'));
  const sorted = await page.value(rowsOf);
  return same([chips.includes('2 a first ring goes the wrong way round'), chips.at(-1), some, found, sorted], [
    true, '2 accepted', ['22-FirstRing.mvt', '22-FirstRing.mvt'], ['14-KeyIndex.mvt'],
    ['14-KeyIndex.mvt', '20-ZeroSegment.mvt', '22-FirstRing.mvt', '22-FirstRing.mvt', 'gdal.mvt', 'postgis.mvt']
  ]);
});

await onPage('previous and next go through what the list shows', WIDE, async (page) => {
  await look(page, several);
  const filter = (text) => page.value(`(() => { const filter = document.querySelector('#list input'); filter.value = '${
    text}'; filter.dispatchEvent(new Event('input')); })()`);
  const ways = "[...document.querySelectorAll('.ways button')].map((way) => way.disabled)";
  const seen = [];
  const see = async () => {
    await page.until("document.querySelector('#tile .hex, #tile .paper') && !document.body.classList.contains('busy')");
    seen.push(`${await page.value(textOf('#tile h2'))} ${(await page.value(ways)).map(Number).join('')}`);
  };
  await page.value("document.querySelectorAll('#list tbody button')[1].click()");
  await see();
  await filter('key');
  await see();
  await page.value(clickNamed('Next'));
  await see();
  await filter('');
  await page.value(clickNamed('Next'));
  await see();
  await page.value(clickNamed('Tile'));
  await see();
  await page.value(clickNamed('Previous'));
  await see();
  return same(seen, [
    '22-FirstRing.mvt 000', '22-FirstRing.mvt 010', '14-KeyIndex.mvt 011', 'postgis.mvt 000', 'postgis.mvt 001',
    'gdal.mvt 000'
  ]);
});

await onPage('a list tells of a tile of version 1 that it was not looked into', WIDE, async (page) => {
  await look(page, [gdal, made('first.mvt', Buffer.of(0x1a, 5, 0x78, 1, 0x0a, 1, 0x61))]);
  const rows = await page.value(texts('#list tbody td:last-child'));
  const [good, old] = await page.value(
    "[...document.querySelectorAll('#list tbody td:last-child')].filter((cell) => cell.textContent).map((cell) => getComputedStyle(cell).color)");
  return same([rows.filter(Boolean), good === old], [['accepted', 'accepted, but 1 layer not looked into'], false]);
});

await onPage('a list is saved as CSV, in which no name is a formula', WIDE, async (page) => {
  await look(page, [made('=1+1.mvt', readFileSync(gdal)), broken('22-FirstRing')]);
  const lines = String(await on.saved(page, 'Save as CSV', 'tiles.csv')).split('\r\n');
  return same(
    [
      lines[0].split(',')[0], lines[1].startsWith("'=1+1.mvt,499,accepted,"),
      lines[2].startsWith('22-FirstRing.mvt,22,refused,0,0,8,22,FirstRing,'), lines.length
    ],
    ['file', true, true, 4]);
});

await onPage('an older list is stopped, and never shows itself', WIDE, async (page) => {
  await page.choose(Array.from({ length: 300 }, (_, index) => made(`old-${index}.mvt`, readFileSync(gdal))));
  await look(page, [gdal]);
  await drawn(page);
  await new Promise((resolve) => setTimeout(resolve, 1000));
  return same(
    [
      await page.value("document.querySelector('#list').textContent"),
      (await page.value(textOf('#told'))).includes('gdal.mvt'), await page.value(textOf('#tile h2'))
    ],
    ['', true, 'gdal.mvt']);
});

await onPage('a list that runs is stopped by its button', WIDE, async (page) => {
  await page.choose(Array.from({ length: 2000 }, (_, index) => made(`run-${index}.mvt`, readFileSync(gdal))));
  await page.until("document.querySelector('#working button')");
  await page.value(click('#working button'));
  await page.until("!document.body.classList.contains('busy')");
  return /Stopped after [\d,]+ of 2,000/.test(await page.value(textOf('#list h2'))) || page.value(textOf('#list h2'));
});

await onPage('the fault of a tile of a list stands in view, on a phone too', PHONE, async (page) => {
  await look(page, several);
  await page.value("document.querySelectorAll('#list tbody button')[1].click()");
  await page.until("document.querySelector('.shape') && !document.body.classList.contains('busy')");
  const box = await page.value(
    "(({ top, bottom }) => ({ top, bottom }))(document.querySelector('.sentence').getBoundingClientRect())");
  return (box.top > 0 && box.bottom < 844) || JSON.stringify(box);
});

for (const [name, how] of [['a phone', PHONE], ['a screen', WIDE]]) {
  for (const [kind, file] of [['refused', broken('22-FirstRing')], ['accepted', gdal]]) {
    await onPage(`nothing is hidden on ${name}, ${kind}`, how, async (page) => {
      await look(page, [file]);
      if (kind === 'accepted') await drawn(page);
      const seen = await page.value(`(() => {
        const inView = (selector) => document.querySelector(selector).getBoundingClientRect().bottom <= innerHeight;
        const last = document.querySelector('article').getBoundingClientRect().bottom + scrollY;
        return { verdict: inView('#tile .verdict'), what: inView('${
        kind === 'refused' ? '.sentence' : '.canonical'}'), below: document.documentElement.scrollHeight - last,
          wide: document.documentElement.scrollWidth };
      })()`);
      return same(
        [seen.verdict, seen.what, seen.below < 60 || seen.below, seen.wide <= how.width], [true, true, true, true]);
    });
  }
}

// ---- what a file is

const KINDS = {
  'a picture': ['a.png', Buffer.from('\x89PNG\r\n\x1a\n', 'latin1'), 'a PNG picture'],
  'an MBTiles store':
    ['a.mbtiles', Buffer.from(`SQLite format 3\0${' '.repeat(200)}tile_column`, 'latin1'), 'mvt-audit'],
  'a damaged gzip': ['a.mvt', gzipSync(readFileSync(gdal)).subarray(0, 200), 'damaged'],
  'brotli': ['b.mvt', brotliCompressSync(readFileSync(gdal)), 'brotli'],
};
for (const [name, [file, bytes, words]] of Object.entries(KINDS)) {
  await onPage(`${name} is called what it is`, {}, async (page) => {
    await look(page, [made(file, bytes)]);
    const title = await page.value(textOf('#tile .verdict'));
    return title.includes(words) || title;
  });
}

await onPage('gzip of two members, and zeros behind it', {}, async (page) => {
  const bytes = readFileSync(gdal);
  await look(
    page, [made(
            'two.mvt.gz',
            Buffer.concat([gzipSync(bytes.subarray(0, 100)), gzipSync(bytes.subarray(100)), Buffer.alloc(512)]))]);
  return same(
    [
      (await page.value(textOf('#tile .verdict'))).startsWith('Accepted'),
      (await page.value(textOf('.note'))).includes('2 members')
    ],
    [true, true]);
});

// ---- keyboard, screen readers, colours

await onPage('the verdict is spoken in words', {}, async (page) => {
  await look(page, [broken('22-FirstRing')]);
  return /Refused.*a first ring goes the wrong way round/.test(await page.value(textOf('#told'))) ||
    page.value(textOf('#told'));
});

await onPage('keys go through a list', WIDE, async (page) => {
  await look(page, several);
  await page.value("document.querySelector('#list .rows').focus()");
  const seen = [];
  for (const [key, name] of [
         ['ArrowDown', 'gdal.mvt'], ['ArrowDown', '22-FirstRing.mvt'], ['End', '20-ZeroSegment.mvt']]) {
    await page.press(key);
    await page.until(`document.activeElement.textContent === '${name}'`);
    seen.push(name);
  }
  return seen.length === 3;
});

await onPage('targets have 24 pixels', PHONE, async (page) => {
  await look(page, several);
  await page.value("document.querySelectorAll('#list tbody button')[0].click()");
  await drawn(page);
  const small = await page.value(
    `[...document.querySelectorAll('button, summary, label.button, input:not([type=file])')].filter((each) => each.getClientRects().length > 0)
    .filter((each) => Math.min(each.getBoundingClientRect().height, each.getBoundingClientRect().width) < 23.5).map((each) => each.outerHTML.slice(0, 80))`);
  return same(small, []);
});

await onPage('the picture is one image with a text', {}, async (page) => {
  await look(page, [gdal]);
  await drawn(page);
  const { nodes } = await page.send('Accessibility.getFullAXTree');
  const images =
    nodes.filter((node) => ['img', 'image'].includes(node.role?.value) && !node.ignored).map((node) => node.name.value);
  return same(images, ['The tile’s picture: 3 layers, 7 features, 30 positions.']);
});

await onPage('what is chosen can be read in forced colours', {...WIDE, forced: true }, async (page) => {
  await look(page, several);
  await page.value("document.querySelectorAll('#list tbody button')[1].click()");
  await page.until("document.querySelector('.shape') && !document.body.classList.contains('busy')");
  await page.value(click('.chip'));
  const colours = await page.value(
    `['.chip[aria-pressed=true]', '#list .current'].map((chosen) => [...document.querySelectorAll(chosen + ', ' + chosen + ' *')]
    .map((each) => getComputedStyle(each).color)).map((all) => new Set(all).size)`);
  return same(colours, [1, 1]);
});

// ---- the bytes

await onPage('go to byte takes hexadecimal as it is shown', {}, async (page) => {
  await look(page, [broken('22-FirstRing')]);
  const said = [];
  for (const byte of ['10', '0x10', '16,000']) {
    await page.value(`document.querySelector('form input').value = '${byte}'`);
    await page.value("[...document.querySelectorAll('button')].find((each) => each.textContent === 'Go').click()");
    said.push(await page.value("document.querySelector('.hex').parentNode.querySelector('[role=status]').textContent"));
  }
  return same([said[0], said[1], said[2].startsWith('No such byte')], ['Byte 16 (0x10).', 'Byte 16 (0x10).', true]);
});

await onPage('the policy leaves no other base and no form', {}, async (page) => {
  const policy = await page.value("document.querySelector('meta[http-equiv]').content");
  return same(['base-uri', 'form-action'].every((word) => policy.includes(`${word} 'none'`)), true);
});

await on.end();
