// Work on many things at once, in steps that are short enough for the page to do something else in between.

/** Milliseconds of a step. */
const STEP = 20;
/** So many things are done before the clock is looked at. */
const LOOKED = 500;
/** So many are sorted at once. */
const RUN = 2000;

/** Lets the page do what waits. */
const pause = () => new Promise((resolve) => setTimeout(resolve));

/**
 * Does something for each index up to a count, `act(index)`, in steps. It ends early where that answers false. The clock is
 * looked at behind so many.
 */
export async function eachInSteps(count, act, looked = LOOKED) {
  let ends = performance.now() + STEP;
  for (let index = 0; index < count; index += 1) {
    if (act(index) === false) return;
    if (index % looked !== looked - 1 || performance.now() < ends) continue;
    await pause();
    ends = performance.now() + STEP;
  }
}

/** Items in order, sorted in steps; null as soon as `isWanted()` is false between two of them. */
export async function sortedInSteps(items, compare, isWanted = () => true) {
  let runs = [];
  const times = Math.ceil(items.length / RUN);
  for (let at = 0; at < times; at += 1) {
    runs.push(items.slice(RUN * at, RUN * (at + 1)).sort(compare));
    if (times > 1) await pause();
    if (!isWanted()) return null;
  }
  while (runs.length > 1) {
    const longer = [];
    for (let at = 0; at < runs.length; at += 2) {
      longer.push(at + 1 < runs.length ? await mergedInSteps(runs[at], runs[at + 1], compare, isWanted) : runs[at]);
      if (!isWanted()) return null;
    }
    runs = longer;
  }
  return runs[0] ?? [];
}

async function mergedInSteps(left, right, compare, isWanted) {
  const made = [];
  let [at, beside] = [0, 0];
  await eachInSteps(left.length + right.length, () => {
    const isLeft = beside === right.length || (at < left.length && compare(left[at], right[beside]) <= 0);
    made.push(isLeft ? left[at] : right[beside]);
    isLeft ? at += 1 : beside += 1;
    return isWanted();
  });
  return made;
}

/** Sorted items, with few others among them where they belong. */
export function withOthers(sorted, others, compare) {
  const made = [];
  let from = 0;
  for (const other of [...others].sort(compare)) {
    const at = placeOfOther(sorted, other, from, compare);
    for (; from < at; from += 1) made.push(sorted[from]);
    made.push(other);
  }
  for (; from < sorted.length; from += 1) made.push(sorted[from]);
  return made;
}

/** Where an item belongs among sorted ones, from a place on. */
function placeOfOther(sorted, other, from, compare) {
  let [low, high] = [from, sorted.length];
  while (low < high) {
    const middle = (low + high) >> 1;
    if (compare(sorted[middle], other) <= 0) low = middle + 1;
    else high = middle;
  }
  return low;
}
