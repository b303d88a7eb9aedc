// The history of a puzzle as the browser keeps it: each step is kept as what it has other than the step that is nearer to now.

/** @typedef {import('../model/state.js').Step} Step */
// The steps before now and those after it, the nearest at the end of each.
/** @typedef {Readonly<{ past: readonly Step[], now: Step, future: readonly Step[] }>} History */
// How a text becomes another one: so many characters stay, so many go, and a text comes in their place; null if it stays.
/** @typedef {[number, number, string] | null} Difference */
/** @typedef {{ puzzle: string, form: number, now: string[], past: Difference[][], future: Difference[][] }} KeptHistory */

// what is kept in this form
const FORM = 1;
// the most steps that are kept on each side, and the most characters that they have
const MOST_STEPS = 300;
const MOST_CHARACTERS = 300000;

// How often something is so, from the beginning on.
/**
 * @param {number} most
 * @param {(count: number) => boolean} isSo
 */
function countWhile(most, isSo) {
  let count = 0;
  while (count < most && isSo(count)) count++;
  return count;
}

/**
 * @param {string} text
 * @param {string} other
 * @returns {Difference}
 */
export function differenceOf(text, other) {
  if (text === other) return null;
  const shorter = Math.min(text.length, other.length);
  const begin = countWhile(shorter, (at) => text[at] === other[at]);
  const end = countWhile(shorter - begin, (at) => text[text.length - 1 - at] === other[other.length - 1 - at]);
  return [begin, text.length - begin - end, other.slice(begin, other.length - end)];
}

/**
 * @param {string} text
 * @param {Difference} difference
 */
export const changedBy = (text, difference) => (difference ? text.slice(0, difference[0]) + difference[2] + text.slice(difference[0] + difference[1]) : text);

// The parts of a step as texts.
/** @param {Step} step */
const spelled = ({ record, pencil, originals, written, cursor, direction, from }) => [record, ...[pencil, originals, written, { cursor, direction, from }].map((part) => JSON.stringify(part))];

/**
 * @param {string[]} parts
 * @param {string} puzzle
 * @returns {Step}
 */
function stepOf(parts, puzzle) {
  const record = parts[0];
  const [pencil, originals, written, place] = parts.slice(1).map((part) => JSON.parse(part));
  return { puzzle, record, pencil, originals, written, ...place };
}

// what steps have other than those beside them, since that is looked for at each step
/** @type {WeakMap<Step, { nearer: Step, differences: Difference[] }>} */
const known = new WeakMap();

// What a step has other than the one that is nearer to now.
/**
 * @param {Step} nearer
 * @param {Step} step
 */
function differencesOf(nearer, step) {
  const told = known.get(step);
  if (told?.nearer === nearer) return told.differences;
  const [parts, others] = [spelled(nearer), spelled(step)];
  const differences = parts.map((part, at) => differenceOf(part, others[at]));
  known.set(step, { nearer, differences });
  return differences;
}

// Steps on one side of now, the nearest first: so many as there is room for.
/**
 * @param {Step} now
 * @param {readonly Step[]} steps
 */
function packed(now, steps) {
  const nearest = [now, ...[...steps].reverse().slice(0, MOST_STEPS)];
  const all = nearest.slice(1).map((step, at) => differencesOf(nearest[at], step));
  const sizes = all.map((differences) => differences.reduce((sum, difference) => sum + (difference?.[2].length ?? 0), 0));
  let room = MOST_CHARACTERS;
  return all.slice(0, countWhile(all.length, (at) => (room -= sizes[at]) >= 0));
}

// The steps that differences make, the nearest to now last.
/**
 * @param {string[]} now
 * @param {Difference[][]} all
 * @param {string} puzzle
 */
function unpacked(now, all, puzzle) {
  let parts = now;
  const steps = all.map((differences) => {
    parts = parts.map((part, at) => changedBy(part, differences[at]));
    return stepOf(parts, puzzle);
  });
  return steps.reverse();
}

// A history as it is kept.
/**
 * @param {History} history
 * @returns {KeptHistory}
 */
export const packedHistory = ({ past, now, future }) => ({ puzzle: now.puzzle, form: FORM, now: spelled(now), past: packed(now, past), future: packed(now, future) });

// The history that was kept; null if there is none, or one of another form.
/**
 * @param {KeptHistory | undefined} kept
 * @returns {History | null}
 */
export function keptSteps(kept) {
  if (kept?.form !== FORM) return null;
  const { puzzle, now, past, future } = kept;
  return { past: unpacked(now, past, puzzle), now: stepOf(now, puzzle), future: unpacked(now, future, puzzle) };
}
