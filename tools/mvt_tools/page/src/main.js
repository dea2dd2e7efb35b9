// The page: takes tiles in, has the worker judge them, and shows what it says.
import {Codec} from './codec.js';
import {Page} from './page.js';
import {spelledBytes} from './spelled.js';
import {eachInSteps} from './steps.js';

const data = JSON.parse(document.getElementById('data').textContent);
const at = (id) => document.getElementById(id);

const fileInput = (file) => ({ name: file.webkitRelativePath || file.name, source: file });

/** The inputs of files, of which there may be very many. */
async function inputsOf(files) {
  const inputs = [];
  await eachInSteps(files.length, (index) => void inputs.push(fileInput(files[index])));
  return inputs;
}
const bytesInput = (name, source, note = null) => ({ name, source, note });

function bytesOf(base64) {
  return Uint8Array.from(atob(base64), (letter) => letter.charCodeAt(0));
}

/** Makes workers, from the script that the page carries. */
function workerMaker(script) {
  const url = URL.createObjectURL(new Blob([script], { type: 'text/javascript' }));
  return () => new Worker(url);
}

/** Whether a drop has a folder. */
function hasFolder(transfer) {
  return [...transfer.items].some((item) => item.webkitGetAsEntry?.()?.isDirectory);
}

/** Binds what a person does to the page. */
function listen(page) {
  for (const id of ['files', 'folder']) {
    at(id).addEventListener('change', async ({ target }) => {
      const inputs = await inputsOf(target.files);
      target.value = '';  // so that the same file can be chosen again
      page.open(inputs);
    });
  }
  document.addEventListener('dragover', (event) => {
    event.preventDefault();
    document.body.classList.add('over');
  });
  document.addEventListener('dragleave', (event) => event.relatedTarget ?? document.body.classList.remove('over'));
  document.addEventListener('drop', async (event) => {
    event.preventDefault();
    document.body.classList.remove('over');
    at('undropped').textContent =
      hasFolder(event.dataTransfer) ? 'A folder can’t be dropped. “Choose a folder” reads all its files.' : '';
    if (at('undropped').textContent === '') page.open(await inputsOf(event.dataTransfer.files));
  });
  document.addEventListener('keydown', (event) => page.press(event));
  at('paste').addEventListener('submit', (event) => {
    event.preventDefault();
    const spelled = spelledBytes(at('pasted').value);
    at('unread').textContent =
      spelled ? '' : 'This is neither hexadecimal (pairs of digits), nor base64, nor numbers up to 255.';
    if (spelled) page.open([bytesInput('pasted bytes', spelled.bytes, `The text was read as ${spelled.as}.`)]);
  });
  for (const [name, tile] of Object.entries(data.examples)) {
    at(name).addEventListener('click', () => page.open([bytesInput(name, bytesOf(tile))]));
  }
}

async function start() {
  const address = new URL('.', location.href).href;
  const codec = new Codec(address);
  const page = new Page(workerMaker(data.worker), codec, address, data);
  globalThis.mvt = { codec };  // for the console, and for tests
  listen(page);
  at('start').hidden = false;
  try {
    page.take(await codec.told('given'));
  } catch {
    page.sayGone();
  }
  document.body.dataset.ready = 'yes';
}

start();
