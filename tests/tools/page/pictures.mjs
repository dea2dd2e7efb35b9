// The pictures of the page for the documents: pictures.mjs FOLDER STORES. The last has what make_stores.py made.
import {writeFileSync} from 'node:fs';
import {join} from 'node:path';
import {OnPage, click, clickLabelled, drawn, look, tiles} from './onpage.mjs';
import {Serving} from './serving.mjs';

const [folder, stores] = process.argv.slice(2);
const serving = await Serving.start();
const on = new OnPage(serving.address);
const WIDE = {
  width: 1400,
  height: 900
};
const PHONE = {
  width: 390,
  height: 844,
  dark: true
};

/** The picture of a page in which a person has done something. */
async function picture(name, how, does, url = on.url) {
  const page = await on.browser.page(url, how);
  await does(page);
  await new Promise((resolve) => setTimeout(resolve, 500));
  writeFileSync(join(folder, `${name}.png`), await page.screenshot());
  await page.close();
}

await picture('page-accepted', WIDE, async (page) => {
  await look(page, [`${tiles}/gdal.mvt`]);
  await drawn(page);
  await page.value(clickLabelled('The features of \u2068roads\u2069'));
  await page.until("document.querySelectorAll('.features tbody button').length === 2");
  await page.value(click('.features tbody button'));
  await page.until("document.querySelector('.attributes')");
  await page.value(click('[aria-label="Show the whole tile"]'));
  await drawn(page);
});

await picture('page-refused', WIDE, async (page) => {
  await page.value("document.getElementById('broken.mvt').click()");
  await page.until("document.querySelector('.shape')");
});

await picture('page-several', PHONE, async (page) => {
  const some = [
    'gdal.mvt', 'postgis.mvt', 'point.mvt', 'broken/07-NotUtf8.mvt', 'broken/22-FirstRing.mvt',
    'broken/25-TooLarge.mvt.gz'
  ];
  await look(page, some.map((each) => `${tiles}/${each}`));
  await page.value("document.querySelectorAll('#list tbody .link')[4].click()");
  await page.until("document.querySelector('.shape')");
});

const given = await Serving.start([`${stores}/town.mbtiles`, '5/17/11']);
await picture('page-store', WIDE, async (page) => {
  await page.until("document.querySelector('.shape') && document.querySelectorAll('#list tbody .link').length > 10");
  await page.value("document.querySelector('#list select').value = 'broken'");
  await page.value("document.querySelector('#list select').dispatchEvent(new Event('change'))");
  await page.until("document.querySelector('#list [role=status]').textContent.includes('which are all')");
}, given.address);

await on.end();
await given.end();
await serving.end();
