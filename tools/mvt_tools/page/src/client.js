// The page's side of a worker: asks, and waits for what it answers. Once stopped, nothing that was asked is ever answered,
// so nothing old can show itself.

export class Client {
  #make;
  #address;
  #worker = null;
  #waiting = new Map();
  #last = 0;
  #isStopped = false;
  #gone;

  /** `make` makes a worker; `address` is the server's; `gone` is told when that has ended. */
  constructor(make, address, gone) {
    this.#make = make;
    this.#address = address;
    this.#gone = gone;
  }

  /** Asks the worker to do something; `told` gets what it says before it is done. */
  ask(call, words = {}, told = () => {}) {
    if (this.#isStopped) return new Promise(() => {});
    this.#worker ??= this.#begin();
    this.#last += 1;
    const id = this.#last;
    this.#worker.postMessage({ id, call, words });
    return new Promise((resolve, reject) => this.#waiting.set(id, { resolve, reject, told }));
  }

  /** Ends whatever the worker does, which gives up what it asks of the server, and gives back its memory. */
  stop() {
    this.#worker?.terminate();
    this.#waiting.clear();
    this.#isStopped = true;
  }

  #begin() {
    const worker = this.#make();
    worker.addEventListener('message', ({ data }) => this.#hear(data));
    worker.addEventListener('error', ({ message }) => this.#fail(new Error(`the worker failed: ${message}`)));
    worker.postMessage({ call: 'begin', words: { address: this.#address } });
    return worker;
  }

  #hear({ id, part, value, error }) {
    const waiting = this.#waiting.get(id);
    if (part !== undefined) {
      waiting?.told(part);
      return;
    }
    this.#waiting.delete(id);
    if (error?.name === 'Gone') this.#gone();
    if (error === undefined) waiting?.resolve(value);
    else waiting?.reject(Object.assign(new Error(error.message), { name: error.name }));
  }

  #fail(error) {
    const waiting = [...this.#waiting.values()];
    this.#waiting.clear();
    waiting.forEach(({ reject }) => reject(error));
  }
}
