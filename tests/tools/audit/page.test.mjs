// The page of an audit in headless Chromium, which test_page.py makes. The environment names it (AUDIT_REPORT).
import {pathToFileURL} from 'node:url';
import {Browser} from '../page/browser.mjs';
import {check, chromium, same} from '../page/checks.mjs';

const report = process.env.AUDIT_REPORT;
const browser = new Browser(chromium);
const is = (what, isSo) => check(what, () => isSo === true || JSON.stringify(isSo));

/** The page, open in a window. */
async function open(look) {
  const before = "addEventListener('load', () => { document.body.dataset.ready = 'yes'; })";
  return browser.page(pathToFileURL(report).href, {...look, before });
}

for (const [name, look] of [
       ['wide', { width: 1400, height: 900 }], ['phone', { width: 390, height: 844 }],
       ['wide-dark', { width: 1400, height: 900, dark: true }],
       ['phone-dark', { width: 390, height: 844, dark: true }]]) {
  const page = await open(look);
  const width = await page.value('document.documentElement.scrollWidth');
  await is(`${name}: it fits the window`, width <= look.width || width);
  const pictures = await page.value("[...document.images].map((image) => image.complete && image.naturalWidth > 0)");
  await is(`${name}: pictures are shown`, (pictures.length > 20 && pictures.every(Boolean)) || pictures);
  const colour = await page.value('getComputedStyle(document.body).backgroundColor');
  await is(
    `${name}: light or dark as the person has it`, same(colour, look.dark ? 'rgb(23, 25, 27)' : 'rgb(251, 251, 249)'));
  await is(`${name}: nothing is thrown`, same(page.errors, []));
}

const page = await open({ width: 1400, height: 900 });
const asked = [];
browser.listen(({ method, params }) => method === 'Network.requestWillBeSent' && asked.push(params.request.url));
await page.send('Network.enable');
await page.send('Page.reload');
await page.until("document.body?.dataset.ready === 'yes'");
await is(
  'nothing is asked of a network',
  same(asked.filter((url) => !url.startsWith('file:') && !url.startsWith('data:')), []));
await is('texts of tiles stay texts', same(await page.value('document.title'), 'Audit of town & <b>country.mbtiles'));
await is('no script', same(await page.value('document.scripts.length'), 0));
const kinds = await page.value("[...document.querySelectorAll('h3')].map((each) => each.id)");
const causes = kinds.filter((id) => id.startsWith('cause-'));
await is('each kind of broken tile', causes.length === 26 || causes);
const findings = kinds.filter((id) => id.startsWith('finding-')).map((id) => id.slice(8)).sort();
await is(
  'each kind of finding',
  same(findings, ['FarPoint', 'LargeId', 'LargeNumber', 'NoGeometry', 'UnknownGeometry', 'ZeroExtent']));
const commands = await page.value(
  "[...document.querySelectorAll('article code')].map((code) => code.textContent).filter((told) => told.startsWith('mvt-page '))");
const isCommand = (told) => /^mvt-page '\/.*\/town & <b>country\.mbtiles' \d+\/\d+\/\d+$/.test(told);
await is(
  'each tile has the command that opens it',
  (commands.length === (await page.value("document.querySelectorAll('article').length")) &&
   commands.every(isCommand)) ||
    commands);
const dangling = await page.value(
  "[...document.querySelectorAll('a')].filter((a) => !document.querySelector(a.getAttribute('href'))).length");
await is('each link leads somewhere', same(dangling, 0));
await is('bytes are marked', (await page.value("document.querySelectorAll('mark').length")) > 20);
const { nodes } = await page.send('Accessibility.getFullAXTree');
const nameless = nodes.filter(
  (node) => ['img', 'link', 'heading', 'table'].includes(node.role?.value) && !node.ignored && !node.name?.value);
await is(
  'each picture and heading has a name',
  same(nameless.filter((node) => node.role.value !== 'table').map((node) => node.role.value), []));

await browser.close();
