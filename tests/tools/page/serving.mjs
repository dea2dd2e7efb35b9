// The command as the tests start it: $MVT_PAGE where that names an installed one.
import {spawn} from 'node:child_process';
import {readFileSync} from 'node:fs';

const COMMAND =
  process.env.MVT_PAGE ? [process.env.MVT_PAGE] : [process.env.PYTHON ?? 'python3', '-m', 'mvt_tools.page'];
const DEADLINE = 60_000;

export class Serving {
  #process;
  #ended;

  /** Starts the command with words; `before` are words of a program that starts it. */
  static async start(words = [], before = []) {
    const serving = new Serving();
    await serving.#start([...before, ...COMMAND, '--no-browser', ...words]);
    return serving;
  }

  #start([program, ...words]) {
    this.#process = spawn(program, words, { stdio: ['ignore', 'pipe', 'inherit'] });
    this.#ended = new Promise((resolve) => this.#process.once('exit', resolve));
    let said = '';
    return new Promise((resolve, reject) => {
      const timer = setTimeout(() => reject(new Error(`mvt-page doesn't begin: ${said}`)), DEADLINE);
      this.#process.stdout.setEncoding('utf8').on('data', (text) => {
        said += text;
        this.address = /http:\/\/127\.0\.0\.1:\d+\/\S+\/(?=\n)/.exec(said)?.[0];
        if (this.address !== undefined) resolve(clearTimeout(timer));
      });
    });
  }

  /** The most memory that it had, in MB. */
  get memory() {
    return Math.round(
      Number(/VmHWM:\s+(\d+)/.exec(readFileSync(`/proc/${this.#process.pid}/status`, 'utf8'))[1]) / 1000);
  }

  /** Ends it, and answers its status. */
  end(signal = 'SIGTERM') {
    this.#process.kill(signal);
    return this.#ended;
  }
}
