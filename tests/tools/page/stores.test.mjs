// Stores in the page, of what make_stores.py made.
import {existsSync, readFileSync} from 'node:fs';
import {createServer} from 'node:http';
import {stores as folder} from './checks.mjs';
import {clickNamed, drawn, same, textOf, texts, tiles, withServer} from './onpage.mjs';

const WIDE = {
  width: 1400,
  height: 900
};
const busy = "document.body.classList.contains('busy')";
const rows = texts('#list tbody th .link');
const tile = textOf('#tile h2');
const told = textOf('#list [role=status]');

const given = (words, name, holds, how = WIDE) => withServer(name, words, how, holds, [], { MVT_STORES: folder });

const listed = (page) => page.until(`document.querySelectorAll('#list tbody .link').length > 0 && !${busy}`);
const shown = (page, name) =>
  page.until(`${tile} === '${name}' && document.querySelector('#tile .paper, #tile .hex') && !${busy}`);
const only = (page, value) =>
  page.value(`(() => { const select = document.querySelector('#list select'); select.value = '${
    value}'; select.dispatchEvent(new Event('change')); })()`);
const go = (page, place) => page.value(`(() => { document.querySelector('#list form input').value = '${
  place}'; document.querySelector('#list form button').click(); })()`);
const isolated = (name) => `\u2068${name}\u2069`;
const lacks = (name) => `The store has no tile ${isolated(name)}.`;
const press = async (page, key, modifiers = 0) => {
  await page.send('Input.dispatchKeyEvent', { type: 'keyDown', key, modifiers });
  await page.send('Input.dispatchKeyEvent', { type: 'keyUp', key, modifiers });
};
const town = `${folder}/town.mbtiles`;

/** A server of the town's tiles, of which it answers some otherwise; and how often each was asked for. */
async function tileServer(otherwise = {}) {
  const asked = {};
  const server = createServer((request, response) => {
    const place = request.url.slice(1);
    asked[place] = (asked[place] ?? 0) + 1;
    const path = `${folder}/town/${place}.mvt`;
    if (otherwise[place]) otherwise[place](response);
    else if (existsSync(path)) response.end(readFileSync(path));
    else response.writeHead(404).end();
  });
  await new Promise((resolve) => server.listen(0, '127.0.0.1', resolve));
  const words = [`http://127.0.0.1:${server.address().port}/{z}/{x}/{y}`, '--zooms', '0-5', '--timeout', '15'];
  return { words, asked, end: () => (server.closeAllConnections(), server.close()) };
}

await given([town], 'a store is listed by place, and more comes as it is scrolled', async (page) => {
  await listed(page);
  const first = (await page.value(rows)).slice(0, 5);
  const before = await page.value(told);
  for (let step = 0; step < 400 && !(await page.value(told)).includes('which are all'); step += 1) {
    await page.value("document.querySelector('#list .rows').scrollTop = 1e9");
    await new Promise((resolve) => setTimeout(resolve, 150));
  }
  await page.value("document.querySelector('#list .rows').scrollTop = 1e9");
  await page.until(`${rows}.includes('5/31/0')`);
  const title = await page.value(textOf('#list h2'));
  return same([title, first, before, await page.value(told)], [
    'town.mbtiles (MBTiles)', ['0/0/0', '1/0/1', '1/0/0', '1/1/1', '1/1/0'], '200 tiles so far; scroll on for more.',
    '1,364 tiles, which are all.'
  ]);
});

await given([town], 'a map of a zoom has its tiles, and a click opens a broken one', async (page) => {
  await listed(page);
  await page.value(clickNamed('Map of a zoom'));
  const words = textOf('.map [role=status]');
  await page.until(`${words} === 'Zoom 0: 1 tile, 0 broken.'`);
  await page.value(
    "(() => { document.querySelector('.map input').value = '5'; document.querySelector('.map form button').click(); })()");
  await page.until(`${words} === 'Zoom 5: 1,023 tiles, 2 broken. A click opens a broken one.'`);
  const colours = await page.value(`(() => {
    const context = document.querySelector('.map canvas').getContext('2d');
    const at = (x, y) => [...context.getImageData((x + 0.4) * 16, (y + 0.4) * 16, 1, 1).data].join();
    return [at(0, 0), at(17, 11), at(30, 30), at(16, 11)];
  })()`);
  await page.value(`(() => {
    const canvas = document.querySelector('.map canvas');
    const { left, top } = canvas.getBoundingClientRect();
    const cell = canvas.clientWidth / 32;
    canvas.dispatchEvent(new MouseEvent('click', { clientX: left + canvas.clientLeft + 17.5 * cell, clientY: top + canvas.clientTop + 11.5 * cell, bubbles: true }));
  })()`);
  await shown(page, '5/17/11');
  const [good, broken, other, none] = colours;
  return same([broken === other, new Set([good, broken, none]).size], [true, 3]);
});

await given([town], 'a store that is dropped opens where the command was started with it', async (page) => {
  await listed(page);
  await page.value("document.querySelector('#list h2').dataset.old = 'yes'");
  await page.drop([town]);
  await page.until(
    "document.querySelector('#list h2') && document.querySelector('#list h2').dataset.old === undefined");
  await listed(page);
  return same([await page.value(textOf('#list h2')), (await page.value(rows))[0]], ['town.mbtiles (MBTiles)', '0/0/0']);
});

await given(
  [`${folder}/beyond.mbtiles`], 'a tile beyond the world opens by its place, and is told to be there', async (page) => {
    await listed(page);
    await go(page, '0/1/0');
    await shown(page, '0/1/0');
    const lines = await page.value(texts('#list tbody td:last-child'));
    return same(
      [lines, await page.value(textOf('#tile .note'))],
      [['accepted', 'accepted; zoom 0 has no such place'], 'The store has it, but zoom 0 has no such place.']);
  });

const good = await tileServer();
for (const [kind, words, five] of [
       ['an MBTiles file', [town], ['0/0/0', '1/0/1', '1/0/0', '1/1/1', '1/1/0']],
       ['a PMTiles archive', [`${folder}/town.pmtiles`], ['0/0/0', '1/0/0', '1/0/1', '1/1/1', '1/1/0']],
       ['a server', good.words, ['0/0/0', '1/0/0', '1/0/1', '1/1/0', '1/1/1']],
]) {
  await given(words, `a tile of ${kind} opens, unpacked, and keys lead to those round it`, async (page) => {
    await listed(page);
    const first = (await page.value(rows)).slice(0, 5);
    await page.value("document.querySelectorAll('#list tbody .link')[0].click()");
    await shown(page, '0/0/0');
    await drawn(page);
    const facts = await page.value(textOf('.facts'));
    const seen = [];
    for (const [key, name, shift] of [
           ['4', '1/1/1'], ['1', '2/2/2'], ['ArrowRight', '2/3/2', true], ['ArrowRight', '2/0/2', true],
           ['ArrowUp', '2/0/1', true], ['0', '1/0/0'], ['2', '2/1/0']]) {
      await press(page, key, shift ? 8 : 0);
      await page.until(`${tile} === '${name}' && !${busy}`, 20).catch(() => {});
      seen.push(await page.value(tile));
    }
    const saved = await page.value(
      `[...document.querySelectorAll('#tile button')].filter((each) => each.textContent.startsWith('Save')).length > 2`);
    return same(
      [first, facts.includes('499 bytes') || facts, seen, saved],
      [five, true, ['1/1/1', '2/2/2', '2/3/2', '2/0/2', '2/0/1', '1/0/0', '2/1/0'], true]);
  });
}

for (const [kind, words, names] of [
       ['a PMTiles archive', [`${folder}/town.pmtiles`], ['4/9/6', '5/30/30', '5/17/11']],
       ['a server', good.words, ['4/9/6', '5/17/11', '5/30/30']]]) {
  await given(
    [words[0], '5/17/11', ...words.slice(1)], `the broken tiles of ${kind}, those of a cause, and one that it lacks`,
    async (page) => {
      await shown(page, '5/17/11');
      await listed(page);
      const opened = await page.value(rows);
      await press(page, 'ArrowLeft', 8);
      await page.until(`${textOf('#list .problem')} !== ''`);
      const lacking = await page.value(textOf('#list .problem'));
      const seen = [];
      await page.value(clickNamed('First broken'));
      await shown(page, '3/4/2');
      for (const name of names) {
        await page.value(clickNamed('Next broken'));
        await shown(page, name);
        seen.push(await page.value(tile));
      }
      await only(page, '14');
      await page.until(`${told} === '1 broken tile, which are all.'`);
      return same([opened[0], lacking, seen, await page.value(rows)], ['5/17/11', lacks('5/16/11'), names, ['4/9/6']]);
    });
}
good.end();

{
  const held = [];
  const odd = await tileServer({
    '1/0/1': (response) => response.writeHead(503).end(),
    '1/1/0': (response) => held.push(response),
    '2/0/0': (response) =>
      (response.writeHead(200, { 'Content-Length': 99 }), response.write('x', () => response.destroy()))
  });
  await given(odd.words, 'tiles that a server doesn’t hand out are told at their place, and lead on', async (page) => {
    await listed(page);
    const seen = [];
    await page.value(clickNamed('First broken'));
    for (const name of ['1/0/1', '1/1/0', '2/0/0', '3/4/2']) {
      await page.until(`${tile} === '${name}' && document.querySelector('#tile .verdict') && !${busy}`, 60);
      seen.push([name, await page.value(textOf('#tile .verdict'))]);
      if (name !== '3/4/2') await press(page, 'n');
    }
    await press(page, '0');
    await shown(page, '2/2/1');
    return same([seen, await page.value(tile)], [
      [
        ['1/0/1', 'It can’t be read: 503 Service Unavailable'],
        ['1/1/0', 'It can’t be read: no whole answer within 15 seconds'],
        ['2/0/0', 'It can’t be read: the body ends early: 1 of 99 bytes came'], ['3/4/2', 'Refused: it breaks a rule']
      ],
      '2/2/1'
    ]);
  });
  await given(
    [...odd.words.slice(0, 3), '--timeout', '60'], 'a server that doesn’t answer keeps the page from nothing',
    async (page) => {
      await page.until("document.querySelector('#working button')");
      await page.value("document.querySelector('#working button').click()");
      await page.until(`!${busy} && ${told}.startsWith('Stopped.')`);
      const stopped = [];
      for (let turn = 0; turn < 8; turn += 1) {
        await go(page, '1/1/0');
        await page.until(
          `[...document.querySelectorAll('#working p')].some((each) => each.textContent.startsWith('Reading ${
            isolated('1/1/0')}'))`);
        await page.value("document.querySelector('#working button').click()");
        await page.until(`!${busy}`);
        stopped.push(await page.value(tile));
      }
      const before = odd.asked['3/4/2'];
      await go(page, '3/4/2');
      await shown(page, '3/4/2');
      const asked = odd.asked['3/4/2'] - before;
      await go(page, '1/1/0');
      await page.until(`document.body.classList.contains('busy')`);
      await page.choose([`${tiles}/gdal.mvt`]);
      await shown(page, 'gdal.mvt');
      return same(
        [stopped.every((name) => name === ''), await page.value(textOf('#tile .verdict')), asked],
        [true, 'Accepted: it keeps every rule', 1]);
    });
  held.forEach((response) => response.destroy());
  odd.end();
}

await given([town], 'buttons lead round a tile, and none where no tile can be', async (page) => {
  await listed(page);
  await page.value("document.querySelectorAll('#list tbody .link')[0].click()");
  await shown(page, '0/0/0');
  const group = "document.querySelectorAll('[aria-label=\"Tiles round it\"] button')";
  const names = await page.value(`[...${group}].map((each) => each.textContent + (each.disabled ? ' no' : ''))`);
  await page.value(`${group}[6].click()`);
  await shown(page, '1/1/0');
  const label = await page.value(`${group}[0].getAttribute('aria-label')`);
  return same(
    [names, label], [['←', '↑ no', '↓ no', '→', 'Parent no', 'NW', 'NE', 'SW', 'SE'], 'West, 1/0/0 (Shift+ArrowLeft)']);
});

await given([town], 'a tile that the store has not is said to be so, and what is shown stays', async (page) => {
  await listed(page);
  await go(page, '5/17/11');
  await shown(page, '5/17/11');
  await press(page, 'ArrowLeft', 8);
  await page.until(`${textOf('#list .problem')} !== ''`);
  const said =
    [await page.value(textOf('#list .problem')), await page.value(tile), await page.value(textOf('.fault code'))];
  await go(page, '5/17');
  return same(
    [said, await page.value(textOf('#list .problem'))],
    [[lacks('5/16/11'), '5/17/11', 'layer 0 feature 0 at 8: 22 FirstRing'], 'A tile is named z/x/y, as 5/17/11.']);
});

await given([town], 'the first broken tile, the next ones, and those of a cause', async (page) => {
  await listed(page);
  const seen = [];
  await page.value(clickNamed('First broken'));
  await shown(page, '3/4/2');
  for (const name of ['4/9/6', '5/17/11', '5/30/30']) {
    await page.value(clickNamed('Next broken'));
    await shown(page, name);
    seen.push(await page.value(tile));
  }
  const damaged = await page.value(textOf('#tile .verdict'));
  await press(page, 'n');
  await page.until(`${told}.startsWith('Behind')`);
  const none = await page.value(told);
  await only(page, '22');
  await page.until(`${told}.includes('which are all')`);
  const some = await page.value(texts('#list tbody tr:not(.gap) :is(th, td:last-child)'));
  await page.value(clickNamed('First broken'));
  await shown(page, '3/4/2');
  await page.value(clickNamed('Next broken'));
  await shown(page, '5/17/11');
  return same(
    [
      seen.length, damaged.startsWith('This is a damaged file'),
      /^Behind the open tile none of \d+ tiles is broken\.$/.test(none), some
    ],
    [
      3, true, true,
      [
        '3/4/2', 'a first ring goes the wrong way round: layer 0 feature 0 at 8: 22 FirstRing', '5/17/11',
        'a first ring goes the wrong way round: layer 0 feature 0 at 8: 22 FirstRing'
      ]
    ]);
});

await given([town, '5/17/11'], 'the command opens a tile of a store', async (page) => {
  await shown(page, '5/17/11');
  await listed(page);
  const current = await page.value(textOf('#list .current .link'));
  await page.value(clickNamed('Back to the list'));
  await page.until("document.activeElement.closest('#list')");
  const first = (await page.value(rows))[0];
  await page.value(clickNamed('From the start'));
  await page.until(`${rows}[0] === '0/0/0'`);
  return same(
    [current, first, await page.value("document.activeElement.textContent")].slice(0, 2), ['5/17/11', '5/17/11']);
});

await given(
  [`${folder}/tree`, `${folder}/list.txt`, `${tiles}/gdal.mvt`, `${tiles}/postgis.mvt`],
  'a folder, a list and files, each by its button', async (page) => {
    await listed(page);
    const seen = [await page.value(textOf('#list h2'))];
    await page.value(clickNamed('list.txt'));
    await page.until(`${textOf('#list h2')}.startsWith('list.txt')`);
    await listed(page);
    seen.push(await page.value(texts('#list tbody tr:not(.gap) :is(th, td:last-child)')));
    await page.value("document.querySelectorAll('#list tbody .link')[2].click()");
    await page.until(`${textOf('#list .problem')} !== ''`);
    seen.push(await page.value(textOf('#list .problem')));
    await page.value("document.querySelectorAll('#list tbody .link')[0].click()");
    await shown(page, 'tree/3/4/2.mvt');
    seen.push(await page.value(textOf('.fault code')));
    await page.value(clickNamed('2 files'));
    await page.until(`${textOf('#list h2')}.startsWith('2 files:') && !${busy}`);
    seen.push(await page.value(textOf('#list h2')));
    return same(seen, [
      'tree (folder)',
      [
        'tree/3/4/2.mvt', 'a first ring goes the wrong way round: layer 0 feature 0 at 8: 22 FirstRing',
        'tree/0/0/0.mvt', 'accepted', 'gone.mvt', 'can’t be read: No such file or directory'
      ],
      lacks('gone.mvt'), 'layer 0 feature 0 at 8: 22 FirstRing', '2 files: 2 accepted, 0 refused'
    ]);
  });

await given([`${tiles}/gdal.mvt`], 'a file is opened at once', async (page) => {
  await shown(page, 'gdal.mvt');
  return same(await page.value(textOf('#given')), '');
});

await given(
  [`${folder}/many.mbtiles`], '150,000 tiles are looked through, and that is stopped by its button', async (page) => {
    await listed(page);
    const began = Date.now();
    await page.value(clickNamed('First broken'));
    await shown(page, '12/0/0');
    const spent = (Date.now() - began) / 1000;
    if (process.env.TELL) console.log(`the first broken tile behind 150,000, in the page: ${spent.toFixed(1)} s`);
    await page.value(clickNamed('First broken'));
    await page.until("document.querySelector('#working button')");
    await page.value("document.querySelector('#working button').click()");
    await page.until(`!${busy} && ${told}.startsWith('Stopped.')`);
    await new Promise((resolve) => setTimeout(resolve, 1500));
    const stays = await page.value(told);
    await only(page, '14');
    await page.until("document.querySelector('#working button')");
    await page.value("document.querySelector('#working button').click()");
    await page.until(`${told}.startsWith('Stopped.')`);
    await page.value(clickNamed('Go on'));
    await page.until(`${told} === '0 broken tiles, which are all.'`);
    const elements = await page.value("document.querySelectorAll('*').length");
    return same([stays.startsWith('Stopped.'), elements < 1500], [true, true]);
  });

for (const [name, how] of [['a phone', { width: 390, height: 844 }], ['a screen', WIDE]]) {
  await given([town, '5/17/11'], `nothing of a store is hidden on ${name}, and each control has a name`, async (page) => {
    await shown(page, '5/17/11');
    await listed(page);
    const { nodes } = await page.send('Accessibility.getFullAXTree');
    const nameless = nodes
                       .filter(
                         (node) => ['button', 'combobox', 'textbox', 'region', 'heading'].includes(node.role?.value) &&
                           !node.ignored && !node.name?.value)
                       .map((node) => node.role.value);
    const small = await page.value(
      `[...document.querySelectorAll('button, select, input:not([type=file])')].filter((each) => each.getClientRects().length > 0)
      .filter((each) => Math.min(each.getBoundingClientRect().height, each.getBoundingClientRect().width) < 23.5).map((each) => each.outerHTML.slice(0, 80))`);
    const width = await page.value('document.documentElement.scrollWidth');
    return same([nameless, small, width <= how.width || width], [[], [], true]);
  }, how);
}
