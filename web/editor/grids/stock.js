// The stock of patterns to start from: a hundred of each form, as web/make-stock.mjs made them, and those of them in which theme entries have a place.
import { stretches } from './bits.js';
import { lengthOf, unpack } from './compact.js';
import { PACKED } from './stock-packed.js';

/** @typedef {import('./frame.js').Run} Run */
/** @typedef {keyof typeof PACKED} FormName */
// In a form for themes two entries of one length are images of each other, and one without a partner is its own image.
/** @typedef {{ name: FormName, text: string, size: number, isThemed: boolean }} Form */
/** @typedef {{ size: number, blocks: Set<number>, lights: Run[] }} Pattern all are their half turn */
/** @typedef {{ lengths: number[], isThemed: boolean, words: number, threes: number }} Sought lengths of entries, the most words, and the most words of three letters */

/** @type {Form[]} */
export const FORMS = [
  { name: 'daily', text: 'American 15 × 15, for a theme', size: 15, isThemed: true },
  { name: 'themeless', text: 'American 15 × 15, themeless', size: 15, isThemed: false },
  { name: 'sunday', text: 'American 21 × 21, for a theme', size: 21, isThemed: true },
  { name: 'british15', text: 'British 15 × 15', size: 15, isThemed: false },
  { name: 'british13', text: 'British 13 × 13', size: 13, isThemed: false },
];

// The patterns of a form.
/**
 * @param {Form} form
 * @returns {Pattern[]}
 */
export function patternsOf({ name, size }) {
  const [each, text] = [lengthOf(size ** 2), PACKED[name]];
  return Array.from({ length: text.length / each }, (_, at) => {
    const blocks = unpack(text.slice(each * at, each * (at + 1)), size ** 2);
    return { size, blocks, lights: [false, true].flatMap((isDown) => lightsAlong(blocks, size, isDown)) };
  });
}

// The lights across or down. One cell alone is none.
/**
 * @param {Set<number>} blocks
 * @param {number} size
 * @param {boolean} isDown
 * @returns {Run[]}
 */
function lightsAlong(blocks, size, isDown) {
  return Array.from({ length: size }, (_, line) => {
    /** @param {number} at */
    const isShut = (at) => at < 0 || at === size || blocks.has(isDown ? at * size + line : line * size + at);
    const bits = Array.from({ length: size + 2 }, (_, at) => (isShut(at - 1) ? 1 << at : 0)).reduce((all, bit) => all | bit, 0);
    return stretches(bits, size).filter(({ length }) => length > 1).map(({ first, length }) => ({ isDown, line, from: first, length }));
  }).flat();
}

/** @param {Pattern} pattern */
export const threesIn = ({ lights }) => lights.filter(({ length }) => length === 3).length;

// The patterns that have no more than is sought, each with the lights in which the entries stand.
/**
 * @param {Pattern[]} patterns
 * @param {Sought} sought
 * @returns {{ pattern: Pattern, places: Run[] }[]}
 */
export function sift(patterns, { lengths, isThemed, words, threes }) {
  return patterns.flatMap((pattern) => {
    const places = pattern.lights.length <= words && threesIn(pattern) <= threes ? placesFor(pattern, lengths, isThemed) : null;
    return places ? [{ pattern, places }] : [];
  });
}

// Lights of these lengths, all across or all down, with a line between two that have neighbours in both, and if possible none at the border; or null.
/**
 * @param {Pattern} pattern
 * @param {number[]} lengths
 * @param {boolean} isThemed
 * @returns {Run[] | null}
 */
export function placesFor({ size, lights }, lengths, isThemed) {
  const order = [...lengths].sort((a, b) => b - a);
  /** @param {Run} light */
  const isInner = ({ line }) => line > 1 && line < size - 2;
  const all = [...lights.filter(isInner), ...lights.filter((light) => !isInner(light))];
  /** @param {Run} light */
  const imageOf = ({ isDown, line, from, length }) => all.find((other) => other.isDown === isDown && other.line === size - 1 - line && other.from === size - from - length);
  const sets = all.map((light) => (isThemed ? [...new Set([light, imageOf(light) ?? light])] : [light]));
  return [false, true].map((isDown) => placesAmong(sets.filter(([light]) => light.isDown === isDown), order, [])).find((places) => places !== null) ?? null;
}

// More places for the lengths that are left, the longest first, which have the fewest. Lights of a set are taken together.
/**
 * @param {Run[][]} sets
 * @param {number[]} left
 * @param {Run[]} places
 * @returns {Run[] | null}
 */
function placesAmong(sets, left, places) {
  if (!left.length) return places;
  for (const lights of sets) {
    const isRoom = lights.every(({ length }, at) => length === left[at]) && lights.every((light, at) => ![...places, ...lights.slice(0, at)].some((other) => isBeside(light, other)));
    const all = isRoom ? placesAmong(sets, left.slice(lights.length), [...places, ...lights]) : null;
    if (all) return all;
  }
  return null;
}

// Whether two lights of one direction are the same, or side by side.
/**
 * @param {Run} one
 * @param {Run} other
 */
function isBeside(one, other) {
  const shared = Math.min(one.from + one.length, other.from + other.length) - Math.max(one.from, other.from);
  return Math.abs(one.line - other.line) <= 1 && shared > 0;
}

// The cells of lights, as numbers in reading order.
/**
 * @param {Run[]} lights
 * @param {number} size
 */
export const cellsOf = (lights, size) => new Set(lights.flatMap(({ isDown, line, from, length }) => Array.from({ length }, (_, at) => (isDown ? (from + at) * size + line : line * size + from + at))));

// The rows of a pattern, as recordOf takes them.
/** @param {Pattern} pattern */
export const rowsOf = ({ size, blocks }) => Array.from({ length: size }, (_, row) => Array.from({ length: size }, (_, column) => (blocks.has(row * size + column) ? '#' : '.')).join(''));
