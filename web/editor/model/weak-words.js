// Which words of the grid are the weakest, and what is said of them.
import { namesText } from '../formats/dropped.js';
import { titleOf } from '../views/words.js';
import { figuresText } from './grades.js';

/** @typedef {import('./board.js').Board} Board */
/** @typedef {import('./board.js').Light} Light */

// how many words are listed
const MOST_LISTED = 12;
// how many words that hold another one are named
const MOST_NAMED = 2;

// The lights with the worst scores, the worst first; of one score in the order of the grid.
/**
 * @param {Board} board
 * @param {ReadonlyMap<string, number>} scores
 * @returns {{ light: Light, score: number }[]}
 */
export function weakestOf(board, scores, most = MOST_LISTED) {
  const scored = board.lights.map((light) => ({ light, score: scores.get(light.name) ?? NaN })).filter(({ light }) => scores.has(light.name));
  return scored.sort((a, b) => a.score - b.score).slice(0, most);
}

// What holds the word of a light: that it is locked, the lights that are proved to allow no more, or what is locked of it; or ''. `forced` tells those lights.
/**
 * @param {Board} board
 * @param {ReadonlySet<string>} pencil
 * @param {Light} light
 * @param {Light[]} forced
 */
export function holderText(board, pencil, light, forced) {
  const isInk = (/** @type {number} */ index) => !pencil.has(board.cells[index].coordinates);
  const ink = light.cells.filter(isInk);
  if (ink.length === light.cells.length) return 'locked';
  if (forced.length) return `proved: ${namesText(forced.map(titleOf), MOST_NAMED)} ${forced.length === 1 ? 'allows' : 'allow'} no more`;
  const words = ink.flatMap((index) => board.through(index)).filter((other) => other !== light && other.cells.every(isInk)).map((other) => board.spell(other));
  if (words.length) return `crosses ${namesText(words, MOST_NAMED)}, locked`;
  return ink.length ? `${ink.length} locked ${ink.length === 1 ? 'letter' : 'letters'}` : '';
}

// What is said of a light whose word was to be mended, and for which nothing better was found.
/** @param {{ isProved: boolean }} told */
export const unmendedText = ({ isProved }) => (isProved ? 'nothing better is around it: proved' : 'nothing better was found around it');

// What is said of an offer, as in “around 14 Down: worst 40, mean 61 now; worst 62, mean 70 with 9 other words”.
/** @param {import('../engine/mending.js').Offer} offer */
export const offerText = ({ light, before, after, changed }) =>
  `around ${titleOf(light)}: ${figuresText(before)} now; ${figuresText(after)} with ${changed} other ${changed === 1 ? 'word' : 'words'}`;
