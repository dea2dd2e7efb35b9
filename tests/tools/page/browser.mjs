// A headless Chromium, driven through a pipe by its DevTools protocol.
import {spawn} from 'node:child_process';
import {mkdtempSync, rmSync} from 'node:fs';
import {tmpdir} from 'node:os';
import {join} from 'node:path';

const DEADLINE = 120_000;

export class Browser {
  #process;
  #folder;
  #waiting = new Map();
  #listeners = [];
  #last = 0;
  #text = '';

  constructor(program, words = []) {
    this.#folder = mkdtempSync(join(tmpdir(), 'page-'));
    const all = [
      '--headless', '--no-sandbox', '--disable-gpu', '--disable-dev-shm-usage', '--no-first-run', '--hide-scrollbars',
      '--remote-debugging-pipe', `--user-data-dir=${this.#folder}`, ...words
    ];
    this.#process = spawn(program, all, { stdio: ['ignore', 'ignore', 'ignore', 'pipe', 'pipe'] });
    this.#process.stdio[4].setEncoding('utf8').on('data', (text) => this.#read(text));
  }

  #read(text) {
    const messages = (this.#text + text).split('\0');
    this.#text = messages.pop();
    for (const each of messages) {
      const message = JSON.parse(each);
      const waiting = this.#waiting.get(message.id);
      this.#waiting.delete(message.id);
      if (message.method) this.#listeners.forEach((listener) => listener(message));
      else if (message.error) waiting?.reject(new Error(message.error.message));
      else waiting?.resolve(message.result);
    }
  }

  send(method, params = {}, sessionId = undefined) {
    this.#last += 1;
    const id = this.#last;
    this.#process.stdio[3].write(`${JSON.stringify({ id, method, params, sessionId })}\0`);
    return new Promise((resolve, reject) => {
      const timer = setTimeout(() => reject(new Error(`no answer: ${method}`)), DEADLINE);
      const ended = (then) => (value) => (clearTimeout(timer), then(value));
      this.#waiting.set(id, { resolve: ended(resolve), reject: ended(reject) });
    });
  }

  listen(listener) {
    this.#listeners.push(listener);
  }

  /** Opens a page; `before` is a script that runs in it first. */
  async page(url, { width = 1100, height = 900, dark = false, forced = false, before = null } = {}) {
    const { targetId } = await this.send('Target.createTarget', { url: 'about:blank' });
    const { sessionId } = await this.send('Target.attachToTarget', { targetId, flatten: true });
    const page = new Tab(this, targetId, sessionId);
    await page.send('Page.enable');
    await page.send('Runtime.enable');
    await page.send('Emulation.setDeviceMetricsOverride', { width, height, deviceScaleFactor: 1, mobile: width < 600 });
    const features = [
      { name: 'prefers-color-scheme', value: dark ? 'dark' : 'light' },
      { name: 'forced-colors', value: forced ? 'active' : 'none' }
    ];
    await page.send('Emulation.setEmulatedMedia', { features });
    if (before) await page.send('Page.addScriptToEvaluateOnNewDocument', { source: before });
    await page.send('Page.navigate', { url });
    await page.until("document.body?.dataset.ready === 'yes'");
    return page;
  }

  /**
   * Records the tasks of all threads, until what it answers is called with a page. That gives how long each task of the
   * page's main thread kept a processor, in milliseconds: what else the machine does isn't counted. Of a task in which
   * DevTools puts files into an input, what the page does then is counted. A busy machine sometimes tells more processor
   * time than passed by the clock, which no task can have taken: then the clock's time counts.
   */
  async record() {
    const events = [];
    this.listen(({ method, params }) => method === 'Tracing.dataCollected' && events.push(...params.value));
    const ended =
      new Promise((resolve) => this.listen(({ method }) => method === 'Tracing.tracingComplete' && resolve()));
    const includedCategories =
      ['disabled-by-default-devtools.timeline', 'devtools.timeline', 'blink.user_timing', '__metadata'];
    await this.send(
      'Tracing.start',
      { transferMode: 'ReportEvents', traceConfig: { includedCategories, excludedCategories: ['*'] } });
    return async (page) => {
      await page.value("performance.mark('the page')");
      await this.send('Tracing.end');
      await ended;
      const main = events.find(({ name }) => name === 'the page');
      const here = events.filter(({ ph, pid, tid }) => ph === 'X' && pid === main.pid && tid === main.tid);
      const changes = here.filter(({ name, args }) => name === 'EventDispatch' && args.data.type === 'change');
      const counted = (task) => changes.find(({ ts }) => ts >= task.ts && ts <= task.ts + task.dur) ?? task;
      return here.filter(({ name }) => name === 'RunTask').map(counted).map(({ tdur,
                                                                               dur }) => Math.min(tdur, dur) / 1000);
    };
  }

  async close() {
    const closed = new Promise((resolve) => this.#process.once('exit', resolve));
    await this.send('Browser.close').catch(() => this.#process.kill());
    await closed;
    rmSync(this.#folder, { recursive: true, force: true, maxRetries: 5 });
  }
}

class Tab {
  /** What the page threw or logged as an error. */
  errors = [];

  constructor(browser, targetId, sessionId) {
    this.browser = browser;
    this.targetId = targetId;
    this.sessionId = sessionId;
    browser.listen(({ method, params, sessionId: from }) => {
      if (from !== sessionId) return;
      if (method === 'Runtime.exceptionThrown')
        this.errors.push(params.exceptionDetails.exception?.description ?? params.exceptionDetails.text);
      if (method === 'Runtime.consoleAPICalled' && params.type === 'error')
        this.errors.push(JSON.stringify(params.args));
    });
  }

  send(method, params) {
    return this.browser.send(method, params, this.sessionId);
  }

  /** The value of an expression in the page; a promise is waited for. */
  async value(expression) {
    const { result, exceptionDetails } =
      await this.send('Runtime.evaluate', { expression, awaitPromise: true, returnByValue: true });
    if (exceptionDetails) throw new Error(exceptionDetails.exception?.description ?? exceptionDetails.text);
    return result.value;
  }

  /** Waits until an expression is true. */
  async until(expression, seconds = 60) {
    for (const end = Date.now() + 1000 * seconds; Date.now() < end;) {
      if (await this.value(`Boolean(${expression})`).catch(() => false)) return;
      await new Promise((resolve) => setTimeout(resolve, 20));
    }
    throw new Error(`not so after ${seconds} seconds: ${expression}`);
  }

  /** Chooses files as a person does. */
  async choose(paths, input = '#files') {
    const { root } = await this.send('DOM.getDocument');
    const { nodeId } = await this.send('DOM.querySelector', { nodeId: root.nodeId, selector: input });
    await this.send('DOM.setFileInputFiles', { nodeId, files: paths });
  }

  /** Drops files on the page. */
  async drop(paths) {
    const data = { items: [], files: paths, dragOperationsMask: 1 };
    for (const type of ['dragEnter', 'dragOver', 'drop'])
      await this.send('Input.dispatchDragEvent', { type, x: 200, y: 200, data });
  }

  async press(key) {
    const codes = {
      Tab: 9,
      Enter: 13,
      ' ': 32,
      End: 35,
      Home: 36,
      ArrowLeft: 37,
      ArrowUp: 38,
      ArrowRight: 39,
      ArrowDown: 40
    };
    const event = {
      key,
      code: key === ' ' ? 'Space' : key,
      windowsVirtualKeyCode: codes[key],
      text: key === 'Enter' ? '\r' :
        key.length === 1    ? key :
                              undefined
    };
    await this.send('Input.dispatchKeyEvent', { type: 'keyDown', ...event });
    await this.send('Input.dispatchKeyEvent', { type: 'keyUp', ...event, text: undefined });
  }

  /** The picture of the whole page, in a window as high as the page. */
  async screenshot() {
    const { cssContentSize: { width, height } } = await this.send('Page.getLayoutMetrics');
    await this.send('Emulation.setDeviceMetricsOverride', { width, height, deviceScaleFactor: 1, mobile: width < 600 });
    const { data } = await this.send('Page.captureScreenshot', { format: 'png' });
    return Buffer.from(data, 'base64');
  }

  async close() {
    await this.browser.send('Target.closeTarget', { targetId: this.targetId });
  }
}
