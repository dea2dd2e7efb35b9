// The page in headless Firefox. What it shows of tiles is compared in Chromium; here it is seen to work in a second browser.
import {spawn} from 'node:child_process';
import {existsSync, mkdtempSync, readFileSync, rmSync, writeFileSync} from 'node:fs';
import {connect} from 'node:net';
import {tmpdir} from 'node:os';
import {join} from 'node:path';
import {check, firefox as program, stores} from './checks.mjs';
import {colourAt, same, textOf, texts, tiles} from './onpage.mjs';
import {Serving} from './serving.mjs';

const DEADLINE = 120_000;
const pause = (milliseconds) => new Promise((resolve) => setTimeout(resolve, milliseconds));

/** A headless Firefox, driven by its own protocol, Marionette. */
class Firefox {
  #process;
  #folder = mkdtempSync(join(tmpdir(), 'firefox-'));
  #socket;
  #held = Buffer.alloc(0);
  #waiting = new Map();
  #last = 0;

  async start(program, { width, height }) {
    writeFileSync(join(this.#folder, 'user.js'), 'user_pref("marionette.port", 0);\n');
    const words = [
      '--headless', '--marionette', '--no-remote', '--profile', this.#folder, `--width=${width}`, `--height=${height}`
    ];
    this.#process = spawn(program, words, { stdio: 'ignore' });
    const port = join(this.#folder, 'MarionetteActivePort');
    for (const end = Date.now() + DEADLINE; !existsSync(port) || readFileSync(port, 'utf8') === '';) {
      if (Date.now() > end) throw new Error('Firefox doesn’t begin');
      await pause(50);
    }
    this.#socket = connect(Number(readFileSync(port, 'utf8')), '127.0.0.1').on('data', (bytes) => this.#read(bytes));
    await this.send('WebDriver:NewSession', {});
    await this.send('WebDriver:SetTimeouts', { script: DEADLINE });
  }

  /** A message is its length, a colon, and JSON: `[1, id, error, result]`. */
  #read(bytes) {
    this.#held = Buffer.concat([this.#held, bytes]);
    for (;;) {
      const colon = this.#held.indexOf(':');
      const end = colon + 1 + Number(this.#held.subarray(0, Math.max(colon, 0)));
      if (colon === -1 || this.#held.length < end) return;
      const message = JSON.parse(this.#held.subarray(colon + 1, end));
      this.#held = this.#held.subarray(end);
      if (!Array.isArray(message)) continue;  // it says first who it is
      const [, id, error, result] = message;
      const { resolve, reject } = this.#waiting.get(id);
      if (error) reject(new Error(`${error.error}: ${error.message}`));
      else resolve(result);
    }
  }

  send(command, words) {
    this.#last += 1;
    const text = JSON.stringify([0, this.#last, command, words]);
    this.#socket.write(`${Buffer.byteLength(text)}:${text}`);
    return new Promise((resolve, reject) => this.#waiting.set(this.#last, { resolve, reject }));
  }

  /** The value of an expression in the page. */
  async value(expression) {
    return (await this.send('WebDriver:ExecuteScript', { script: `return ${expression}`, args: [] })).value;
  }

  async until(expression, seconds = 60) {
    for (const end = Date.now() + 1000 * seconds; Date.now() < end; await pause(20)) {
      if (await this.value(`Boolean(${expression})`)) return;
    }
    throw new Error(`not so after ${seconds} seconds: ${expression}`);
  }

  async open(url) {
    await this.send('WebDriver:Navigate', { url });
    await this.until("document.body?.dataset.ready === 'yes'");
  }

  /** Chooses files as a person does. */
  async choose(paths) {
    const { value } = await this.send('WebDriver:FindElement', { using: 'css selector', value: '#files' });
    await this.send('WebDriver:ElementSendKeys', { id: Object.values(value)[0], text: paths.join('\n') });
  }

  /** Presses a key, perhaps with Shift. */
  async press(key, isShifted = false) {
    const keys = isShifted ? ['\uE008', key] : [key];
    const actions = [
      ...keys.map((value) => ({ type: 'keyDown', value })),
      ...[...keys].reverse().map((value) => ({ type: 'keyUp', value }))
    ];
    await this.send('WebDriver:PerformActions', { actions: [{ type: 'key', id: 'keys', actions }] });
  }

  async close() {
    const closed = new Promise((resolve) => this.#process.once('exit', resolve));
    await this.send('Marionette:Quit', { flags: ['eForceQuit'] }).catch(() => this.#process.kill());
    await closed;
    this.#socket.destroy();
    rmSync(this.#folder, { recursive: true, force: true, maxRetries: 5 });
  }
}

const wants = {
  firefox: program,
  MVT_STORES: stores
};
const firefox = new Firefox();
const serving = await Serving.start();
const { address } = serving;
if (program !== undefined) await firefox.start(program, { width: 1400, height: 900 });

/** A test in a page that was opened anew and was given files. */
async function opened(name, files, holds) {
  await check(name, async () => {
    await firefox.open(address);
    await firefox.choose(files);
    await firefox.until(
      "document.querySelector('#tile article, #list tbody tr') && !document.body.classList.contains('busy')");
    return holds();
  }, wants);
}

await opened('a good tile', [`${tiles}/gdal.mvt`], async () => {
  await firefox.until("document.querySelector('.paper')?.dataset.state === 'drawn'");
  const facts = await firefox.value(textOf('.facts'));
  const [[r, g, b], hole] =
    await Promise.all([[2400, 1000], [2700, 1300]].map(([x, y]) => firefox.value(colourAt(x / 4096, y / 4096))));
  return same([facts, g > r && g > b, hole[3]], ['499 bytes, 3 layers, 7 features, 30 positions.', true, 0]);
});

await opened('a broken tile', [`${tiles}/broken/22-FirstRing.mvt`], async () => {
  const line = await firefox.value(textOf('.fault code'));
  const marked = (await firefox.value(texts('.hex td:nth-child(2) mark'))).join(' ');
  return same([line, marked], ['layer 0 feature 0 at 8: 22 FirstRing', '0F']);
});

await opened('a compressed tile', [`${tiles}/broken/25-TooLarge.mvt.gz`], async () => {
  return (await firefox.value(textOf('.fault code'))).endsWith('25 TooLarge');
});

await opened(
  'several tiles', [`${tiles}/gdal.mvt`, `${tiles}/broken/22-FirstRing.mvt`, `${tiles}/postgis.mvt`], async () => {
    const title = await firefox.value(textOf('#list h2'));
    await firefox.value("document.querySelectorAll('#list tbody button')[2].click()");
    await firefox.until(
      "document.querySelector('.paper')?.dataset.state === 'drawn' && !document.body.classList.contains('busy')");
    return same([title, await firefox.value(textOf('#tile h2'))], ['3 files: 2 accepted, 1 refused', 'postgis.mvt']);
  });

/** A test with a server of its own, which is ended afterwards. */
async function served(name, words, holds) {
  await check(name, async () => {
    const given = await Serving.start(words);
    try {
      return await holds(given);
    } finally {
      await given.end();
    }
  }, wants);
}

await served('a store', [`${stores}/town.mbtiles`, '5/17/11'], async (given) => {
  await firefox.open(given.address);
  const shown = (name) => firefox.until(`${textOf('#tile h2')} === '${
    name}' && document.querySelector('#tile .paper, #tile .hex') && !document.body.classList.contains('busy')`);
  await shown('5/17/11');
  const seen = [await firefox.value(textOf('.fault code'))];
  for (const [key, isShifted, name] of [
         ['\uE014', true, '5/18/11'], ['0', false, '4/9/5'],
         ['n', false, '5/17/11']]) {  // columns of MBTiles go from south to north
    await firefox.press(key, isShifted);
    await shown(name);
    seen.push(name);
  }
  return same(seen, ['layer 0 feature 0 at 8: 22 FirstRing', '5/18/11', '4/9/5', '5/17/11']);
});

await served('the page and its workers reach its own server alone', [], async (other) => {
  await firefox.open(address);
  const reaches = (url) => `fetch('${url}given', { mode: 'no-cors' }).then(() => 'reached', () => 'nothing')`;
  const told = async (expression) =>
    (await firefox.send('WebDriver:ExecuteAsyncScript', { script: `(${expression}).then(arguments[0])`, args: [] }))
      .value;
  const inWorker = (script) => `new Promise((resolve) => {
    const worker = new Worker(URL.createObjectURL(new Blob([\`\${${
    JSON.stringify(script)}}.then((told) => postMessage(told))\`])));
    worker.onmessage = ({ data }) => resolve(data);
    worker.onerror = () => resolve('failed');
  })`;
  const got = [];
  for (const url of [address, other.address]) got.push(await told(inWorker(reaches(url))));
  return same(got, ['reached', 'nothing']);
});

if (program !== undefined) await firefox.close();
await serving.end();
