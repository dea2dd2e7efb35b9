// The page in headless Chromium.
import {existsSync, readFileSync} from 'node:fs';
import {join} from 'node:path';
import {deflateSync, gzipSync} from 'node:zlib';
import {Codec} from '../../../tools/mvt_tools/page/src/codec.js';
import {largeTile} from './large.mjs';
import {OnPage, click, clickLabelled, clickNamed, colourAt, drawn, look, painted, same, spotOf, textOf, texts, tiles} from './onpage.mjs';

const on = new OnPage();
const { folder } = on;
const made = on.made.bind(on);
const onPage = on.check.bind(on);
const saved = on.saved.bind(on);

// ---- a good tile

await onPage('a good tile is accepted', {}, async (page) => {
  await look(page, [`${tiles}/gdal.mvt`]);
  const facts = await page.value(textOf('.facts'));
  const verdict = await page.value(textOf('.verdict.accepted'));
  return verdict.startsWith('Accepted') && same(facts, '499 bytes, 3 layers, 7 features, 30 positions.');
});

await onPage('canonical bytes are told as such', {}, async (page) => {
  await look(page, [`${tiles}/gdal.canonical.mvt`]);
  return same(await page.value(textOf('.canonical')), 'In canonical form.');
});

await onPage('what differs from the canonical form is told', {}, async (page) => {
  const order = [0x0a, 1, 0x61, 0x78, 2];
  const told = [];
  for (const [name, layer] of [['order.mvt', [...order, 0x28, 0x80, 0x20]], ['extent.mvt', order]]) {
    await look(page, [made(name, Buffer.of(0x1a, layer.length, ...layer))]);
    told.push(await page.value(textOf('.canonical')));
  }
  const first =
    'First difference, at byte 2 (layer 0 › name): Here stands the field name (1), and in the canonical form the field version (15).';
  // An extent is always written there.
  return same(told, ['is as long', 'has 10 bytes'].map((long) => `Not in canonical form, which ${long}. ${first}`));
});

await onPage('the picture shows areas, lines and points, and its layers can be switched off', {}, async (page) => {
  await look(page, [`${tiles}/gdal.mvt`]);
  await drawn(page);
  // Mill Pond, its hole, High Street and the point Huranvi, in parts of 4,096.
  const [pond, hole, road, place] =
    [[2400, 1000], [2700, 1300], [1491, 1990], [1957, 2008]].map(([x, y]) => colourAt(x / 4096, y / 4096));
  const before = await Promise.all([pond, hole, road, place].map((each) => page.value(each)));
  await page.value(clickLabelled('Show \u2068water\u2069'));
  await page.until(`${pond}[3] === 0 && document.querySelector('.paper').dataset.state === 'drawn'`);
  const after = await page.value(road);
  const [r, g, b] = before[0];
  return same(
    [g > r && g > b, before[1][3], before[2][0] > 150, before[3][3], after[3] > 0], [true, 0, true, 255, true]);
});

await onPage('one layer alone', {}, async (page) => {
  await look(page, [`${tiles}/gdal.mvt`]);
  await drawn(page);
  const all = await page.value(painted());
  await page.value(clickLabelled('Show only \u2068roads\u2069'));
  await page.until(`document.querySelector('.paper').dataset.state === 'drawn' && ${painted()} < ${all}`);
  const isOn =
    await page.value("[...document.querySelectorAll('.layers input[type=checkbox]')].map((each) => each.checked)");
  await page.value(clickLabelled('Show only \u2068roads\u2069'));
  await page.until(`document.querySelector('.paper').dataset.state === 'drawn' && ${painted()} === ${all}`);
  return same(isOn, [false, true, false]);
});

await onPage('the table of a layer leads to a feature, and back', {}, async (page) => {
  await look(page, [`${tiles}/gdal.mvt`]);
  await page.until("document.querySelectorAll('.layers .acts').length === 3");
  await page.value(clickLabelled('The features of \u2068roads\u2069'));
  await page.until("document.querySelectorAll('.features tbody tr:not(.gap)').length === 2");
  const names = await page.value(
    "[...document.querySelectorAll('.features tbody button')].map((each) => each.getAttribute('aria-label'))");
  await page.value("document.querySelectorAll('.features tbody button')[0].click()");
  await page.until("document.querySelector('.attributes')");
  const values = await page.value(texts('.attributes td:nth-child(2)'));
  await page.value("document.querySelector('.features input').value = 'x'");
  await page.value(clickNamed('Show in the table'));
  await page.until("document.activeElement.closest('.features tbody')");
  const chosen = await page.value("document.activeElement.getAttribute('aria-current')");
  return same([names[0], values, chosen, await page.value(textOf('.feature h4'))], [
    'Show feature 0, \u2068name\u2069 \u2068High Street\u2069 in the picture', ['High Street', '2', 'false'], 'true',
    'roads, feature 0'
  ]);
});

await onPage(
  'a feature that is chosen in the picture shows its attributes, and what else is there', {}, async (page) => {
    await look(page, [`${tiles}/gdal.mvt`]);
    await drawn(page);
    const { x, y } =
      await spotOf(page, 2796 / 4096, 1400 / 4096);  // Ring Road over Mill Pond's hole, near nothing else
    for (const type of ['mousePressed', 'mouseReleased'])
      await page.send('Input.dispatchMouseEvent', { type, x, y, button: 'left', clickCount: 1 });
    await page.until("document.querySelector('.feature h4')");
    const road = await page.value(textOf('.feature h4'));
    const pond = await spotOf(page, 2300 / 4096, 1800 / 4096);
    for (const type of ['mousePressed', 'mouseReleased'])
      await page.send('Input.dispatchMouseEvent', { type, ...pond, button: 'left', clickCount: 1 });
    await page.until("document.querySelector('.feature h4').textContent.startsWith('water')");
    return same(
      [road, await page.value(textOf('.feature h4')), await page.value(`${painted('marks')} > 0`)],
      ['roads, feature 1', 'water, feature 0', true]);
  });

await onPage('the JSON unfolds, and is that of the library', {}, async (page) => {
  await look(page, [`${tiles}/postgis.mvt`]);
  await page.value(clickNamed('JSON'));
  await page.until("document.querySelectorAll('.json details').length === 3");
  await page.value("document.querySelectorAll('.json details')[1].open = true");
  await page.until("document.querySelectorAll('.json details details').length === 2");
  await page.value("document.querySelector('.json details details').open = true");
  await page.until("document.querySelector('.json details details pre')");
  const shown = JSON.parse(await page.value(textOf('.json details details pre')));
  return same(shown, JSON.parse(readFileSync(`${tiles}/postgis.json`, 'utf8')).layers[1].features[0]);
});

await onPage('a tile is mended, shown before and after, and saved', {}, async (page) => {
  await look(page, [`${tiles}/broken/22-FirstRing.mvt`]);
  await page.value(clickNamed('Mend'));
  await page.until("document.querySelector('.mending .canonical')?.textContent.startsWith('In canonical form')");
  const told = [
    await page.value(textOf('.mending h3')), (await page.value(texts('.mending .shape'))).length,
    (await page.value(textOf('.mending .verdict.accepted'))).slice(0, 8)
  ];
  const bytes = await saved(page, 'Save the mended tile', '22-FirstRing.mended.mvt');
  // The ring (20, 34), (3, 6), (8, 12).
  return same(
    [...told, bytes.toString('hex')],
    ['Mended: 1 change', 2, 'Accepted', '1a1778020a0161120d180322090928441221370a0c0f288020']);
});

// A land, a lake in it and an island in that, all of negative area: viewers fill the lake as if it were a land.
const atoll = Buffer.from(
  '1a3378020a01611229180322250900001a00c801c8010000c7010f099f01281a0078780000770f094f281a0028280000270f288020', 'hex');
/** Whether the lake, and the island in it, look like the paper round the land, in the picture before and in that after. */
const LIKE_PAPER = `[...document.querySelectorAll('.mending .shape canvas')].map((canvas) => {
  const colour = (at) => canvas.getContext('2d').getImageData(...at.map((side) => Math.round((side + 15) * canvas.width / 130)), 1, 1).data.join();
  return [[30, 50], [50, 50]].map((at) => colour(at) === colour([-12, -12]));
})`;

await onPage(
  'what mends is said at once, and polygons are filled by the directions of their rings', {}, async (page) => {
    await look(page, [made('atoll.mvt', atoll)]);
    await page.until("document.querySelector('.mending [role=status]').textContent !== ''");
    const said = await page.value(textOf('.mending [role=status]'));
    await page.value(clickNamed('Mend'));
    await page.until("document.querySelectorAll('.mending .shape canvas').length === 2");
    return same([said, await page.value(LIKE_PAPER)], ['mvt mend mends this.', [[false, false], [true, false]]]);
  });

await onPage(
  'a tile that breaks another rule too is not mended, and others have no button for it', {}, async (page) => {
    const zero = readFileSync(`${tiles}/broken/20-ZeroSegment.mvt`);
    await look(page, [made('two-faults.mvt', Buffer.concat([zero, Buffer.of(0x1a, 2, 0x78, 2)]))]);
    await page.until("document.querySelector('.mending [role=status]').textContent.startsWith('It can')");
    const why = await page.value(textOf('.mending [role=status]'));
    await look(page, [`${tiles}/broken/10-NoName.mvt`]);
    return same(
      [why, await page.value(textOf('.mending'))],
      ['It can’t be mended: it breaks another rule too, or its rings cross.', '']);
  });

await onPage('buttons save the canonical bytes and the JSON', {}, async (page) => {
  await look(page, [`${tiles}/gdal.mvt`]);
  await page.until("document.querySelector('.paper')");
  const bytes = await saved(page, 'Save canonical bytes', 'gdal.canonical.mvt');
  const json = await saved(page, 'Save JSON', 'gdal.json');
  return bytes.equals(readFileSync(`${tiles}/gdal.canonical.mvt`)) &&
    same(`${json}\n`, readFileSync(`${tiles}/gdal.json`, 'utf8'));
});

await onPage('a button saves GeoJSON, in degrees where the name says the place', {}, async (page) => {
  await look(page, [`${tiles}/gdal.mvt`]);
  await page.until("document.querySelector('.paper')");
  const units = JSON.parse(await saved(page, 'Save GeoJSON in units of the tile', 'gdal.geojson'));
  await look(page, [made('14-8192-8191.mvt', readFileSync(`${tiles}/gdal.mvt`))]);
  await page.until(
    "document.querySelector('.paper') && document.querySelector('#tile h2').textContent.startsWith('14')");
  const degrees = JSON.parse(await saved(page, 'Save GeoJSON', '14-8192-8191.geojson'));
  const [[x, y], [longitude, latitude]] = [units, degrees].map(({ features }) => features[0].geometry.coordinates);
  const near = (one, other) => Math.abs(one - other) < 1e-6;
  // At the equator a tile of zoom 14 is as high as it is wide.
  return same(
    [
      units.features.length, degrees.features.length, near(longitude, x / 4096 * 360 / 16384),
      near(latitude, (4096 - y) / 4096 * 360 / 16384)
    ],
    [7, 7, true, true]);
});

await onPage('each layer has its size, and what is canonical is told', {}, async (page) => {
  await look(page, [`${tiles}/gdal.canonical.mvt`]);
  const size = '.layers tbody td:nth-child(3)';
  await page.until(`document.querySelectorAll(${JSON.stringify(size)}).length === 3 && ${textOf(size)} !== ''`);
  const sizes = (await page.value(texts(size))).map((told) => Number(/^(\d+) B$/.exec(told)[1]));
  await page.value(clickNamed('What is canonical?'));
  await page.until("document.querySelector('#tile details p')?.textContent.includes('the same for equal tiles')");
  return same(sizes.reduce((sum, each) => sum + each, 0), readFileSync(`${tiles}/gdal.canonical.mvt`).length);
});

await onPage('the picture that is saved holds the library’s, and is seen as on the page', {}, async (page) => {
  await look(page, [`${tiles}/gdal.mvt`]);
  await page.until("document.querySelectorAll('.layers .acts').length === 3");
  await page.value(clickLabelled('Show \u2068places\u2069'));
  const svg = await saved(page, 'Save picture', 'gdal.svg');
  const { bytes } = await new Codec(on.url).open(readFileSync(`${tiles}/gdal.mvt`)).svg();
  await page.send('Page.navigate', { url: `file://${join(folder, 'gdal.svg')}` });
  await page.until("document.documentElement.tagName === 'svg' && document.readyState === 'complete'");
  const layers =
    await page.value(`[...document.querySelectorAll('svg > svg > svg')].map((layer) => getComputedStyle(layer))
    .map(({ display, color }) => (display === 'none' ? null : color))`);
  const rules =
    await page.value("[...document.querySelectorAll('.polygons')].map((path) => getComputedStyle(path).fillRule)");
  // Places are off; roads and water have the second and the third of the page's colours.
  return same(
    [svg.includes(bytes), layers, [...new Set(rules)]],
    [true, [null, 'rgb(245, 28, 53)', 'rgb(4, 163, 34)'], ['nonzero']]);
});

await onPage('what the report says is told once', {}, async (page) => {
  await look(page, [`${tiles}/gdal.mvt`]);
  const [, layers, features] = /layers (\d+) features (\d+)/.exec(readFileSync(`${tiles}/gdal.check`, 'utf8'));
  const shown = await page.value('document.body.innerText');
  return shown.includes(`${layers} layers, ${features} features`) && !shown.includes('ok layers');
});

await onPage('notes are told in words', {}, async (page) => {
  await look(page, [made('bare.mvt', Buffer.of(0x1a, 5, 0x78, 2, 0x0a, 1, 0x61))]);
  await page.until("document.querySelector('.report tbody code')");
  return same(
    [await page.value(texts('.report summary')), await page.value(texts('.report tbody code'))],
    [['1 × NoFeatures: A layer has no feature.'], ['note NoFeatures layer 0']]);
});

await onPage('what viewers stumble over is told beside the notes, and leads to its feature', {}, async (page) => {
  await look(page, [made('bare-feature.mvt', Buffer.of(0x1a, 7, 0x78, 2, 0x0a, 1, 0x61, 0x12, 0))]);
  await page.until("document.querySelector('[aria-label=Findings] tbody button')");
  const told = [
    await page.value(texts('.report summary')), await page.value(texts('.report tbody code')),
    (await page.value(textOf('#tile .verdict'))).startsWith('Accepted')
  ];
  await page.value("document.querySelector('[aria-label=Findings] tbody button').click()");
  await page.until("document.querySelector('.feature h4')");
  return same([told, await page.value(textOf('.feature h4'))], [
    [
      ['1 × NoGeometry: A feature of unknown type has no integers. A line layer of Mapbox GL ends the whole viewer.'],
      ['lint NoGeometry layer 0 feature 0'], true
    ],
    'a, feature 0'
  ]);
});

await onPage('300 notes are grouped, all can be had, and each leads to its feature', {}, async (page) => {
  const point = [0x12, 9, 0x08, 1, 0x18, 1, 0x22, 3, 0x09, 4, 4];
  const payload = [0x78, 2, 0x0a, 1, 0x61, ...Array(301).fill(point).flat()];
  const length = [(payload.length % 128) + 128, Math.floor(payload.length / 128)];
  await look(page, [made('notes.mvt', Buffer.from([0x1a, ...length, ...payload]))]);
  await page.until("document.querySelector('.paper')");
  const groups = await page.value(texts('.report summary'));
  await page.value("document.querySelector('.report details').open = true");
  await page.until("document.querySelector('.report tbody button')");
  await page.value("document.querySelector('.report .rows').scrollTop = 1e6");
  await page.until(
    "[...document.querySelectorAll('.report tbody button')].some((each) => each.textContent === 'note RepeatedId layer 0 feature 300 earlier 0')");
  const there = await page.value("document.querySelectorAll('.report tbody tr').length");
  await page.value("[...document.querySelectorAll('.report tbody button')].at(-1).click()");
  await page.until("document.querySelector('.feature h4')");
  return same(
    [groups.length, groups[0].startsWith('300 × RepeatedId'), there < 40, await page.value(textOf('.feature h4'))],
    [1, true, true, 'a, feature 300']);
});

await onPage('the layers that are shown are saved, and no layer is refused', {}, async (page) => {
  await look(page, [`${tiles}/gdal.mvt`]);
  await page.until("document.querySelectorAll('.layers .acts').length === 3");
  await page.value(clickLabelled('Show \u2068places\u2069'));
  await saved(page, 'Save the layers shown', 'gdal.layers.mvt');
  await page.value(clickNamed('No layer'));
  await page.value(clickNamed('Save the layers shown'));
  await page.until("document.querySelector('#tile').innerText.includes('nothing to save')");
  await look(page, [join(folder, 'gdal.layers.mvt')]);
  await page.until("document.querySelectorAll('.layers .acts').length === 2");
  return same(await page.value(texts('.layers tbody bdi')), ['roads', 'water']);
});

await onPage('a tile of version 1 is not green: its layer was not looked into', {}, async (page) => {
  await look(page, [made('old.mvt', Buffer.of(0x1a, 5, 0x78, 1, 0x0a, 1, 0x61))]);
  const shown =
    await page.value(`({ title: ${textOf('#tile .verdict')}, kind: document.querySelector('#tile .verdict').className,
    green: getComputedStyle(document.querySelector('#tile .verdict')).backgroundColor })`);
  await look(page, [`${tiles}/gdal.mvt`]);
  const green = await page.value("getComputedStyle(document.querySelector('#tile .verdict')).backgroundColor");
  return same(
    [shown.kind, shown.title.includes('wasn’t looked into'), shown.green === green], ['verdict partly', true, false]);
});

// ---- broken tiles

for (const row of readFileSync(`${tiles}/broken/tiles.tsv`, 'utf8').trim().split('\n')) {
  const [name, , line] = row.split('\t');
  const path = `${tiles}/broken/${name}.mvt`;
  await onPage(name, {}, async (page) => {
    await look(page, [existsSync(path) ? path : `${path}.gz`]);
    const isSeen = await page.value(`(() => {
      const frame = document.querySelector('.hex').getBoundingClientRect();
      const mark = document.querySelector('.hex mark')?.getBoundingClientRect();
      return mark !== undefined && mark.top >= frame.top && mark.bottom <= frame.bottom;
    })()`);
    const cause = line.split(' ').at(-1);
    const rule = await page.value(textOf('.fault > .quiet'));
    return same([await page.value(textOf('.fault code')), rule.includes(`, ${cause}.`), isSeen], [line, true, true]);
  });
}

await onPage('the page says which integer it is, and its value', {}, async (page) => {
  await look(page, [`${tiles}/broken/26-ParameterRange.mvt`]);
  const told = await page.value(textOf('.fault'));
  const marked = await page.value(texts('.hex td:nth-child(2) mark'));
  return same([/index 1 in the geometry.*4,294,967,295/.test(told), marked.join(' ')], [true, 'FF FF FF FF 0F']);
});

// ---- what comes in other forms

for (const [name, pack] of [['gzip', gzipSync], ['zlib', deflateSync]]) {
  await onPage(`a tile in ${name}`, {}, async (page) => {
    await look(page, [made(`gdal.${name}.mvt`, pack(readFileSync(`${tiles}/gdal.mvt`)))]);
    const note = await page.value(textOf('.note'));
    const verdict = await page.value(textOf('.verdict.accepted'));
    return verdict !== '' && note.includes(`compressed (${name})`) || `${verdict} ${note}`;
  });
}

await onPage('gzip of too many members', {}, async (page) => {
  const members = (count) => Buffer.concat(Array(count).fill(gzipSync(Buffer.alloc(0))));
  await page.drop([made('many.mvt.gz', members(4096)), made('more.mvt.gz', members(4097))]);
  await page.until(
    "document.querySelector('#list h2')?.textContent.startsWith('2 files:') && !document.body.classList.contains('busy')",
    120);
  return same(
    [await page.value(textOf('#list h2')), await page.value(texts('#list tbody td:last-child'))],
    ['2 files: 1 accepted, 0 refused, 1 no tile', ['accepted, 1 note: NoLayers', 'no tile: damaged gzip']]);
});

for (const form of ['hex', 'base64']) {
  await onPage(`a tile pasted in ${form}`, {}, async (page) => {
    await page.value(`document.getElementById('pasted').value = '${readFileSync(`${tiles}/gdal.mvt`).toString(form)}'`);
    await page.value(click('#paste button'));
    await page.until("document.querySelector('.verdict.accepted')");
    return (await page.value(textOf('.facts'))).startsWith('499 bytes') &&
      (await page.value(textOf('.note'))).includes(form === 'hex' ? 'hexadecimal' : 'base64');
  });
}

await onPage('what spells no bytes is told', {}, async (page) => {
  await page.value("document.getElementById('pasted').value = 'a tile!'");
  await page.value(click('#paste button'));
  return (await page.value(textOf('#unread'))).startsWith('This is neither');
});

await onPage('fifty tiles at once', {}, async (page) => {
  const good = readFileSync(`${tiles}/gdal.mvt`);
  const broken = readFileSync(`${tiles}/broken/22-FirstRing.mvt`);
  const files = Array.from({ length: 50 }, (_, index) => made(`tile-${index}.mvt`, index % 10 === 3 ? broken : good));
  await page.drop(files);
  await page.until(
    "document.querySelector('#list h2')?.textContent.startsWith('50 files:') && !document.body.classList.contains('busy')");
  await page.value("document.querySelectorAll('#list tbody .link')[13].click()");
  await page.until("document.querySelector('#tile .fault')");
  const rows = await page.value("document.querySelector('#list table').getAttribute('aria-rowcount')");
  return same(
    [rows, await page.value(textOf('#list h2')), await page.value(textOf('.fault code'))],
    ['51', '50 files: 45 accepted, 5 refused', 'layer 0 feature 0 at 8: 22 FirstRing']);
});

await onPage('a list has room for the sizes', {}, async (page) => {
  const cell = "document.querySelectorAll('#list tbody td.size')";
  await look(page, [
    made('wide.mvt', Buffer.alloc(8888)), made('wider.mvt', Buffer.alloc(9_888_888)),
    made('widest.mvt', Buffer.alloc(66_000_000))
  ]);
  await page.until(`${cell}.length === 3`);
  const told = await page.value(`[...${cell}].map((each) => [each.textContent, each.scrollWidth <= each.clientWidth])`);
  return same(told, [['8,888 bytes', true], ['9,889 kB', true], ['66 MB', true]]);
});

await onPage('a database among tiles says what it is, and the tiles are judged', {}, async (page) => {
  const store = made('world.mbtiles', Buffer.concat([
    Buffer.from('SQLite format 3\0'), Buffer.alloc(900), Buffer.from('tile_column integer'), Buffer.alloc(1 << 20)
  ]));
  await page.drop([
    `${tiles}/gdal.mvt`, store, `${tiles}/broken/22-FirstRing.mvt`,
    made('map.gpkg', Buffer.concat([Buffer.from('SQLite format 3\0'), Buffer.alloc(1 << 20)]))
  ]);
  await page.until(
    "document.querySelector('#list h2')?.textContent.startsWith('4 files:') && !document.body.classList.contains('busy')");
  const heading = await page.value(textOf('#list h2'));
  await page.value("document.querySelectorAll('#list tbody .link')[1].click()");
  await page.until("document.querySelector('#tile .verdict.other')");
  const told = await page.value(textOf('#tile .verdict.other'));
  return same(
    [heading, told.includes('`mvt-page` with the file’s name opens it here')],
    ['4 files: 1 accepted, 1 refused, 2 no tile', true]);
});

await onPage('a picture that is no tile: the library says so, once', {}, async (page) => {
  await look(page, [made('photo.jpg', Buffer.from([0xff, 0xd8, 0xff, 0xe0, 0, 16]))]);
  await page.until("document.querySelector('#tile .verdict.other')");
  const told = await page.value(textOf('#tile'));
  return same([...told.matchAll(/looks like a JPEG picture/g)].length, 1);
});

await onPage('a folder', {}, async (page) => {
  await page.choose([`${tiles}/broken`], '#folder');
  await page.until(
    "document.querySelector('#list h2')?.textContent.includes(' files:') && !document.body.classList.contains('busy')");
  await page.value(
    "(() => { const filter = document.querySelector('#list input'); filter.value = 'firstring'; filter.dispatchEvent(new Event('input')); })()");
  const names = await page.value(texts('#list tbody .link'));
  return names.includes('broken/22-FirstRing.mvt') || names.join(' ');
});

await onPage('a folder that is dropped', {}, async (page) => {
  await page.drop([`${tiles}/broken`]);
  await page.until("document.getElementById('undropped').textContent.startsWith('A folder')");
});

await onPage('no bytes at all', {}, async (page) => {
  await look(page, [made('empty.mvt', Buffer.alloc(0))]);
  await page.value(clickNamed('Bytes'));
  return same(await page.value(textOf('.facts')), '0 bytes, 0 layers, 0 features, 0 positions.');
});

await onPage('20 MB with a fault near the end', {}, async (page) => {
  const large = largeTile(20_000_000, true);
  await look(page, [made('large.mvt', large.bytes)], 120);
  const isMarked = await page.value("document.querySelector('.hex mark').textContent");
  return same(
    [await page.value(textOf('.fault code')), isMarked],
    [`layer 0 feature ${large.features - 1} at 0: 17 Command`, '0A']);
});

// ---- how it is used

await onPage('by keyboard: an example is opened, and its heading has the focus', {}, async (page) => {
  for (let step = 0; step < 20; step += 1) {
    await page.press('Tab');
    if ((await page.value('document.activeElement.id')) === 'broken.mvt') break;
  }
  await page.press('Enter');
  await page.until("document.querySelector('.hex') && document.activeElement.tagName === 'H2'");
  const seen = [];
  for (let step = 0; step < 3; step += 1) {
    await page.press('Tab');
    seen.push(await page.value('document.activeElement.className || document.activeElement.tagName'));
  }
  return same(seen, ['BUTTON', 'hex', 'INPUT']);
});

for (const [name, files] of [
       ['a good tile', ['gdal.mvt']], ['a broken tile', ['broken/20-ZeroSegment.mvt']],
       ['several', ['gdal.mvt', 'broken/14-KeyIndex.mvt']]]) {
  await onPage(`a phone's width, ${name}`, { width: 360, height: 740 }, async (page) => {
    await look(page, files.map((each) => `${tiles}/${each}`));
    const width = await page.value('document.documentElement.scrollWidth');
    return width <= 360 || `${width} wide`;
  });
  await onPage(`each control has a name, ${name}`, {}, async (page) => {
    await look(page, files.map((each) => `${tiles}/${each}`));
    const { nodes } = await page.send('Accessibility.getFullAXTree');
    const controls = nodes.filter(
      (node) => ['button', 'checkbox', 'textbox', 'region', 'img', 'heading'].includes(node.role?.value) &&
        !node.ignored);
    const nameless = controls.filter((node) => !node.name?.value).map((node) => node.role.value);
    return controls.length > 4 && same(nameless, []);
  });
}

await onPage(
  'the command that opens a store stands in one line on a phone', { width: 390, height: 844 }, async (page) => {
    const lines = await page.value("document.querySelector('.trial code').getClientRects().length");
    return same([lines, await page.value('document.documentElement.scrollWidth')], [1, 390]);
  });

await onPage('dark where the person has it so', { dark: true }, async (page) => {
  const colour = await page.value('getComputedStyle(document.body).backgroundColor');
  return same(colour, 'rgb(23, 25, 27)');
});

await onPage('nothing is asked but of its own server', {}, async (page) => {
  const asked = [];
  on.browser.listen(({ method, params }) => method === 'Network.requestWillBeSent' && asked.push(params.request.url));
  await page.send('Network.enable');
  await page.send('Page.reload');
  await page.until("document.body?.dataset.ready === 'yes'");
  await look(page, [`${tiles}/gdal.mvt`]);
  return same(asked.filter((each) => !/^(data|blob):/.test(each) && !each.startsWith(on.url)), []);
});

await on.end();
