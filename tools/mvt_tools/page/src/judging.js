// What the library says of bytes, in the form in which the worker hands it to the page.
import {Gone, NO_MEMORY, OK} from './codec.js';
import {sayLookalike} from './lookalikes.js';
import {Survey} from './remarks.js';
import {Rows} from './rows.js';
import {REFUSED} from './spelling.js';

/**
 * Judges what was read, `{bytes, damaged}`: `{verdict, survey}`. The verdict's kind is
 * - accepted; or partly, where a layer wasn't looked into since its version isn't 2;
 * - refused, with the fault; or other, where the bytes are no tile but what `other` says;
 * - unjudged, with the reason.
 */
export function judged(codec, read, name) {
  return asked(() => codec.open(read.bytes).survey(), (answer) => surveyed(answer, read, name));
}

/**
 * Judges what was read of several files, `{read, name}`: by one question, but each by itself where there is no memory for all
 * of them. What fails in one file is told of that one alone.
 */
export function allJudged(codec, files) {
  const answers = codec.surveys(files.map(({ read }) => read.bytes));
  return Promise.all(files.map(async ({ read, name }, index) => {
    const ask = async () => {
      const answer = (await answers)[index];
      return answer.status === NO_MEMORY ? codec.open(read.bytes).survey() : answer;
    };
    return (await asked(ask, (answer) => surveyed(answer, read, name))).verdict;
  }));
}

/** Reads the rows of what is to be shown, which judges it too: `{verdict, rows}`. The notes are left to the survey. */
export function readRows(codec, read, name) {
  const accept = (answer) => {
    const rows = new Rows(answer.rows);
    return { verdict: acceptance(rows.foreignCount, []), rows };
  };
  return asked(() => codec.open(read.bytes).read(), (answer) => told(answer, read, name, accept));
}

/** What is made of an answer; of an error too, unless it is that nobody answers any more. */
async function asked(ask, tell) {
  try {
    return tell(await ask());
  } catch (error) {
    if (error instanceof Gone) throw error;
    return { verdict: unjudged(reasonOf(error)) };
  }
}

function surveyed(answer, read, name) {
  return told(answer, read, name, ({ bytes }) => {
    const survey = new Survey(bytes);
    return { verdict: acceptance(survey.foreign, survey.kinds()), survey };
  });
}

function told(answer, { damaged }, name, accept) {
  if (answer.status === OK) return accept(answer);
  if (answer.status === REFUSED) return { verdict: refusal(answer, damaged, name) };
  return {
    verdict:
      unjudged(answer.status === NO_MEMORY ? 'there is no memory for it' : `the library answers ${answer.status}`)
  };
}

function acceptance(foreign, notes) {
  return { kind: foreign > 0 ? 'partly' : 'accepted', fault: null, foreign, notes };
}

function refusal({ fault, looks }, damaged, name) {
  const other = damaged ? sayDamaged(damaged) : sayLookalike(looks, name);
  return { kind: other ? 'other' : 'refused', fault, other, notes: [], foreign: 0 };
}

function sayDamaged(packing) {
  return {
    name: `damaged ${packing}`,
    sentence: `This is a damaged file: it begins as ${packing} does, but it can’t be unpacked to its end.`
  };
}

function unjudged(why) {
  return { kind: 'unjudged', fault: null, why, notes: [], foreign: 0 };
}

/** Why a call ended by an error: want of memory, the server's own words, or a defect, which nobody should take for one. */
function reasonOf(error) {
  const isStack = /call stack/i.test(error.message);
  if (error instanceof RangeError && !isStack) return 'the browser gave no memory for it';
  if (error.status !== undefined) return `mvt-page says: ${error.message}`;
  return `the page failed (${error.name}: ${error.message}), which is a defect of the page and not of the tile`;
}
