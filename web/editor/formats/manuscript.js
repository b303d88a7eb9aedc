// The manuscript of a puzzle, as outlets ask for it: what stands at the head of each page, and the clues with their answers.
import { withEnumeration } from '../model/enumeration.js';

/** @typedef {Pick<import('../model/editor.js').Editor, 'board' | 'textOf' | 'answerOf' | 'cluedBy' | 'links' | 'commentsOn'>} Told what tells of the puzzle */
// A heading, a clue with its number and its answer, or the comments on the clue before it.
/** @typedef {{ heading: string } | { number: string, clue: string, answer: string } | { comments: string }} Row */

// The lines at the head of each page: who sends it, and what of the puzzle an outlet looks at first.
/**
 * @param {string} address
 * @param {Told} told
 */
export function headLines(told, address) {
  const { board } = told;
  const author = told.textOf('author');
  // an address mostly begins with the name
  const sender = address.split('\n')[0].trim() === author ? [address] : [author, address];
  return [...sender, `${board.width} × ${board.height}, ${board.lights.length} words`].filter(Boolean);
}

// The clue of a light. One that has no length gets that of its answer if it is to have one, but not if its light goes on from another one.
/**
 * @param {import('../model/board.js').Light} light
 * @param {boolean} hasLengths
 * @param {Pick<Told, 'textOf' | 'cluedBy' | 'links'>} told
 */
export function clueText(told, light, hasLengths) {
  const text = told.textOf(`clue ${light.name}`);
  return hasLengths && !told.links.headOf.has(light) ? withEnumeration(text, told.cluedBy(light).answer.length) : text;
}

// The clues across and then down. With comments, those on a clue come behind it.
/**
 * @param {Told} told
 * @param {boolean} hasLengths
 * @returns {Row[]}
 */
export function manuscriptRows(told, hasLengths, hasComments = false) {
  const rowsOf = (/** @type {import('../model/board.js').Light} */ light, /** @type {string} */ sign) => {
    const comments = hasComments ? told.commentsOn(light).join('\n') : '';
    const row = { number: `${told.cluedBy(light).numbers}${sign}`, clue: clueText(told, light, hasLengths), answer: told.answerOf(light).replaceAll('.', '_') };
    return [row, ...(comments ? [{ comments }] : [])];
  };
  const inDirection = (/** @type {string} */ direction, /** @type {string} */ heading, /** @type {string} */ sign) => [{ heading }, ...told.board.lights.filter((light) => light.direction === direction).flatMap((light) => rowsOf(light, sign))];
  return [...inDirection('across', 'Across', 'A'), ...inDirection('down', 'Down', 'D')];
}
