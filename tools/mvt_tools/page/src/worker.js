// The worker: answers what the page asks, one message for each question, and perhaps others before it.
import {Codec} from './codec.js';
import {Desk} from './desk.js';

let desk = null;

/** What of an answer is handed over and not copied. */
function handedOver(value) {
  const parts = [value, value?.frame, value?.bytes].filter(Boolean);
  const buffers = parts.filter((part) => part instanceof Uint8Array).map((part) => part.buffer);
  return [...buffers, ...parts.filter((part) => part instanceof ImageBitmap)];
}

self.addEventListener('message', async ({ data: { id, call, words } }) => {
  if (call === 'begin') {
    desk = new Desk(new Codec(words.address));
    return;
  }
  const told = (part) => self.postMessage({ id, part }, handedOver(part));
  try {
    const value = await desk[call](words, told);
    self.postMessage({ id, value }, handedOver(value));
  } catch (error) {
    self.postMessage({ id, error: { name: error.name, message: error.message } });
  }
});
