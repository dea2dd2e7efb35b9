// Other sites get nothing of the page, and the page asks nothing of them. Another server of this machine, also
// under names that lead here, has pages that know the address and try what they can.
import {createServer} from 'node:http';
import {readFileSync} from 'node:fs';
import {Browser} from './browser.mjs';
import {check, chromium} from './checks.mjs';
import {look, same, textOf, tiles} from './onpage.mjs';
import {Serving} from './serving.mjs';

const serving = await Serving.start([`${tiles}/gdal.mvt`]);
const { address } = serving;
const { port, pathname } = new URL(address);
const tile = readFileSync(`${tiles}/gdal.mvt`).toString('base64');

// The other site. Whatever is asked of it is noted.
const asked = [];
const others = createServer((request, response) => {
  asked.push(request.url);
  response.setHeader('Access-Control-Allow-Origin', '*');
  response.setHeader('Content-Type', 'text/html');
  response.end(`<!doctype html><body data-ready="yes"><a id="link" href="${address}">the page</a>`);
});
await new Promise((resolve) => others.listen(0, '127.0.0.1', resolve));
const other = `http://127.0.0.1:${others.address().port}/`;
const evil = `http://evil.test:${others.address().port}/`;

const browser =
  chromium && new Browser(chromium, ['--host-resolver-rules=MAP *.test 127.0.0.1', '--disable-popup-blocking']);
const here = (name, holds) => check(name, holds, { chromium });

/** The statuses, by path, of what a page asks of the server while it does something; `failed` is what got none. */
async function statusesOf(page, does, least = 1) {
  const requests = new Map();
  const told = {};
  browser.listen(({ method, params, sessionId }) => {
    if (sessionId !== page.sessionId) return;
    if (method === 'Network.requestWillBeSent' && params.request.url.startsWith(`http://127.0.0.1:${port}/`))
      requests.set(params.requestId, params.request.url.slice(address.length) || 'page');
    if (method === 'Network.responseReceived' && requests.has(params.requestId))
      told[requests.get(params.requestId)] = params.response.status;
    if (method === 'Network.loadingFailed' && requests.has(params.requestId))
      told[requests.get(params.requestId)] ??= params.blockedReason ?? params.errorText;
  });
  await page.send('Network.enable');
  await does();
  for (const end = Date.now() + 60_000; requests.size < least && Date.now() < end;)
    await new Promise((resolve) => setTimeout(resolve, 50));
  await new Promise((resolve) => setTimeout(resolve, 1500));
  return { asked: requests.size, told };
}

/** What was answered by another status than those of what is denied, and of a question whether one may ask. */
const refused = (told) =>
  Object.entries(told).filter(([, status]) => typeof status === 'number' && status !== 403 && status !== 405);

for (const [name, site] of [['another port', other], ['another name', evil]]) {
  await here(`a page of ${name} reads nothing`, async () => {
    const page = await browser.page(site);
    const tries = `Promise.all([
      fetch('${address}'), fetch('${address}given'), fetch('${address}files/0'), fetch('${
      address}judge', { method: 'POST', body: 'a' }),
      fetch('${address}json', { method: 'POST', body: 'a', headers: { 'Content-Type': 'application/json' } }), fetch('${
      address}given', { credentials: 'include' }),
    ].map((each) => each.then((answer) => answer.text(), () => 'nothing')))`;
    const { asked: count, told } = await statusesOf(page, async () => {
      page.got = await page.value(tries);
    }, 6);
    await page.close();
    return same([[...new Set(page.got)], refused(told), count >= 6], [['nothing'], [], true]);
  });

  await here(`what a page of ${name} asks without looking is refused`, async () => {
    const page = await browser.page(site);
    const { asked: count, told } = await statusesOf(
      page,
      () => page.value(`(async () => {
      for (const path of ['', 'given', 'files/0']) await fetch('${
        address}' + path, { mode: 'no-cors' }).catch(() => {});
      for (const path of ['judge', 'survey']) await fetch('${
        address}' + path, { mode: 'no-cors', method: 'POST', body: 'a' }).catch(() => {});
      for (const [tag, path] of [['script', 'given?1'], ['img', 'files/0?2'], ['link', 'given?3'], ['video', 'files/0?4']]) {
        const made = document.createElement(tag);
        if (tag === 'link') made.rel = 'stylesheet';
        made[tag === 'link' ? 'href' : 'src'] = '${address}' + path;
        document.body.append(made);
      }
      navigator.sendBeacon('${address}rewrite', 'a');
    })()`),
      9);
    await page.close();
    return same([refused(told), count >= 9 || count], [[], true]);
  });

  await here(`a page of ${name} has no frame of it`, async () => {
    const page = await browser.page(site);
    const { told } = await statusesOf(page, () => page.value(`(() => {
      for (const tag of ['iframe', 'embed', 'object']) {
        const made = document.createElement(tag);
        made[tag === 'object' ? 'data' : 'src'] = '${address}';
        document.body.append(made);
      }
      const form = document.createElement('form');
      const frame = document.createElement('iframe');
      frame.name = 'posted';
      document.body.append(frame, form);
      Object.assign(form, { method: 'post', action: '${address}judge', target: 'posted', enctype: 'text/plain' });
      form.submit();
    })()`));
    const shown = await page.value(
      "[...document.querySelectorAll('iframe')].map((each) => { try { return each.contentDocument?.title ?? 'closed'; } catch { return 'closed'; } })");
    await page.close();
    return same([refused(told), shown.every((each) => each === 'closed' || each === '')], [[], true]);
  });
}

await here('a name that leads here shows nothing', async () => {
  const page = await browser.page(evil);
  const got = [];
  for (const name of ['evil.test', 'localhost.test', '127.0.0.1.test']) {
    await page.send('Page.navigate', { url: `http://${name}:${port}${pathname}` });
    await page.until(`location.hostname === '${name}' && document.readyState === 'complete'`);
    got.push(
      await page.value('document.body.innerText.trim()'),
      await page.value("fetch('given').then((answer) => answer.status, () => 'nothing')"));
  }
  await page.close();
  return same([...new Set(got)], ['This server is asked by its own name alone.', 'nothing']);
});

await here('a link elsewhere leads to the page, which then is by itself', async () => {
  const page = await browser.page(evil);
  await page.value("document.getElementById('link').click()");
  await page.until(
    "location.port === '" + port +
    "' && document.body?.dataset.ready === 'yes' && document.querySelector('#tile article')");
  const alone = await page.value('window.opener === null && parent === window');
  await page.close();
  return alone;
});

await here('a page that opens it in a window holds nothing of it', async () => {
  const page = await browser.page(evil);
  const held = await page.value(`(async () => {
    const opened = window.open('${address}');
    for (let tries = 0; tries < 600; tries += 1) {
      await new Promise((resolve) => setTimeout(resolve, 100));
      try { if (opened.closed || opened.document.title !== '') return opened.closed ? 'cut off' : opened.document.title; } catch (error) { return error.name; }
    }
    return 'nothing came';
  })()`);
  const { targetInfos } = await browser.send('Target.getTargets');
  const [target] = targetInfos.filter(({ url }) => url === address);
  const { sessionId } = await browser.send('Target.attachToTarget', { targetId: target.targetId, flatten: true });
  const { result } =
    await browser.send('Runtime.evaluate', { expression: 'window.opener === null', returnByValue: true }, sessionId);
  await browser.send('Target.closeTarget', { targetId: target.targetId });
  await page.close();
  return same([held === 'cut off' || held === 'SecurityError' || held, result.value], [true, true]);
});

// ---- what the page itself may do

const reaches = (url) => `fetch('${url}', { mode: 'no-cors' }).then(() => 'reached', () => 'nothing')`;
const inWorker = (script) => `new Promise((resolve) => {
  const worker = new Worker(URL.createObjectURL(new Blob([\`\${${
  JSON.stringify(script)}}.then((told) => postMessage(told))\`])));
  worker.onmessage = ({ data }) => resolve(data);
  worker.onerror = () => resolve('failed');
})`;

await here('the page and its workers reach its own server alone', async () => {
  const page = await browser.page(address);
  asked.length = 0;
  const got = [];
  for (const url of [other, evil, `http://localhost:${others.address().port}/`])
    got.push(await page.value(reaches(url)), await page.value(inWorker(reaches(url))));
  const own = [await page.value(reaches(`${address}given`)), await page.value(inWorker(reaches(`${address}given`)))];
  await page.close();
  return same([[...new Set(got)], own, asked], [['nothing'], ['reached', 'reached'], []]);
});

await here('the page takes no script, picture, frame, form or base from elsewhere', async () => {
  const page = await browser.page(address);
  asked.length = 0;
  const taken = await page.value(`(async () => {
    const put = (tag, more) => document.body.append(Object.assign(document.createElement(tag), more));
    put('script', { textContent: 'globalThis.taken = true' });
    put('script', { src: '${other}a.js' });
    put('img', { src: '${other}a.png' });
    put('iframe', { src: '${other}' });
    put('base', { href: '${other}' });
    put('link', { rel: 'stylesheet', href: '${other}a.css' });
    const form = Object.assign(document.createElement('form'), { action: '${other}form', method: 'post' });
    document.body.append(form);
    form.submit();
    const evaluated = (() => { try { return new Function('return true')(); } catch { return false; } })();
    await new Promise((resolve) => setTimeout(resolve, 1000));
    return [globalThis.taken ?? false, document.baseURI.startsWith('${address}'), location.href === '${
    address}', evaluated];
  })()`);
  await page.close();
  return same([taken.slice(0, 3), asked], [[false, true, true], []]);
});

await here('after all that the page is served', async () => {
  const page = await browser.page(address);
  await look(page, [`${tiles}/gdal.mvt`]);
  const facts = await page.value(textOf('.facts'));
  await page.close();
  return same(
    [
      facts,
      (await (await fetch(`${address}judge`, { method: 'POST', body: Buffer.from(tile, 'base64') })).arrayBuffer())
        .byteLength
    ],
    ['499 bytes, 3 layers, 7 features, 30 positions.', 8]);
});

await browser?.close();
await serving.end();
others.close();
