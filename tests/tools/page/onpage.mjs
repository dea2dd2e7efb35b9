// What the tests of the page in headless Chromium have in common.
import {existsSync, readFileSync, writeFileSync} from 'node:fs';
import {join} from 'node:path';
import {Browser} from './browser.mjs';
import {check, chromium, folder} from './checks.mjs';
import {Serving} from './serving.mjs';

export const tiles = new URL('../../../fixtures/tiles', import.meta.url).pathname;

export class OnPage {
  folder = folder;
  #browser = null;
  #serving = null;

  /** `url` is where the page is served; without it a server is begun. */
  constructor(url = null) {
    this.url = url;
  }

  get browser() {
    this.#browser ??= new Browser(chromium);
    return this.#browser;
  }

  /** Writes a file, and answers its path. */
  made(name, bytes) {
    writeFileSync(join(folder, name), bytes);
    return join(folder, name);
  }

  /** What holds in a page of its own, in which nothing may be thrown. */
  async inPage(how, holds) {
    if (this.url === null) {
      this.#serving = await Serving.start();
      this.url = this.#serving.address;
    }
    const page = await this.browser.page(this.url, how);
    try {
      const told = await holds(page);
      return page.errors.length > 0 ? page.errors.join('; ') : told;
    } finally {
      await page.close();
    }
  }

  /** A test in a page of its own. */
  check(name, how, holds) {
    return check(name, () => this.inPage(how, holds), { chromium });
  }

  /** What a page saves when a button is clicked, once it is there. */
  async saved(page, button, name) {
    const path = join(folder, name);
    await this.browser.send('Browser.setDownloadBehavior', { behavior: 'allow', downloadPath: folder });
    await page.value(clickNamed(button));
    for (const end = Date.now() + 60_000; !existsSync(path) || existsSync(`${path}.crdownload`);) {
      if (Date.now() > end) throw new Error(`not saved after 60 seconds: ${name}`);
      await new Promise((resolve) => setTimeout(resolve, 50));
    }
    return readFileSync(path);
  }

  async end() {
    await this.#browser?.close();
    await this.#serving?.end();
  }
}

/** A test with a server of its own, which is given some words, and may end; `before` are words that start it. */
export async function withServer(name, words, how, holds, before = [], wants = {}) {
  await check(name, async () => {
    const serving = await Serving.start(words, before);
    const on = new OnPage(serving.address);
    try {
      return await on.inPage(how, (page) => holds(page, serving, on));
    } finally {
      await on.end();
      await serving.end();
    }
  }, { chromium, ...wants });
}

export const texts = (selector) =>
  `[...document.querySelectorAll(${JSON.stringify(selector)})].map((each) => each.textContent)`;
export const textOf = (selector) => `(document.querySelector(${JSON.stringify(selector)})?.textContent ?? '')`;
export const click = (selector) => `document.querySelector(${JSON.stringify(selector)}).click()`;
export const clickNamed = (name) =>
  `[...document.querySelectorAll('button, summary')].find((each) => each.textContent === ${
    JSON.stringify(name)}).click()`;
export const clickLabelled = (name) =>
  `document.querySelector(${JSON.stringify(`[aria-label=${JSON.stringify(name)}]`)}).click()`;

/** Chooses files and waits until the page has said of them what it says. */
export async function look(page, files, seconds = 120) {
  await page.choose(files);
  await page.until(
    "document.querySelector('#tile article, #list tbody tr') && !document.body.classList.contains('busy')", seconds);
}

/** Waits until the picture is drawn. */
export async function drawn(page, seconds = 120) {
  await page.until("document.querySelector('.paper')?.dataset.state === 'drawn'", seconds);
}

/** The colour, `[r, g, b, a]`, of the picture at a place in parts of its side. */
export const colourAt = (x, y, layer = 'base') => `(() => {
  const canvas = document.querySelector('.paper .${layer}');
  const context = new OffscreenCanvas(canvas.width, canvas.height).getContext('2d');
  context.drawImage(canvas, 0, 0);
  return [...context.getImageData(Math.floor(${x} * canvas.width), Math.floor(${y} * canvas.height), 1, 1).data];
})()`;

/** How many points of the picture have a colour. */
export const painted = (layer = 'base') => `(() => {
  const canvas = document.querySelector('.paper .${layer}');
  const context = new OffscreenCanvas(canvas.width, canvas.height).getContext('2d');
  context.drawImage(canvas, 0, 0);
  return context.getImageData(0, 0, canvas.width, canvas.height).data.reduce((sum, each, at) => sum + (at % 4 === 3 && each > 0 ? 1 : 0), 0);
})()`;

/** The place of the window that is a place of the picture. */
export async function spotOf(page, x, y) {
  return page.value(`(() => {
    document.querySelector('.paper').scrollIntoView({ block: 'center' });
    const box = document.querySelector('.paper').getBoundingClientRect();
    return { x: box.x + ${x} * box.width, y: box.y + ${y} * box.height };
  })()`);
}

export {same} from './checks.mjs';
