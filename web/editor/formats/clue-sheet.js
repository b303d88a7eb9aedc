// Clues as a sheet in HTML, with the answers and the lengths of their words.
import { markedUp } from '../model/marks.js';

/** @typedef {import('../model/board.js').Board} Board */
/** @typedef {import('../model/board.js').Light} Light */
/** @typedef {(clue: string, length: number) => { text: string, enumeration: string }} EnumerationOf */
/**
 * @typedef {{ answerOf: (light: Light) => string, cluedBy: (light: Light) => { numbers: string, answer: string }, isLinked: (light: Light) => boolean }} Told
 */

// The rows of the sheet: number, direction, clue, enumeration, answer. `cluedBy` tells what a clue is for, and `isLinked` whether it leads to another one.
/**
 * @param {Board} board
 * @param {(field: string) => string} textOf
 * @param {EnumerationOf} enumerationOf
 * @param {Told} told
 */
function sheetRows(board, textOf, enumerationOf, { answerOf, cluedBy, isLinked }) {
  const order = ['across', 'down'].flatMap((direction) => board.lights.filter((light) => light.direction === direction));
  return order.map((light) => {
    const clue = textOf(`clue ${light.name}`);
    const { numbers, answer } = cluedBy(light);
    const { text, enumeration } = isLinked(light) ? { text: clue, enumeration: '' } : enumerationOf(clue, answer.length);
    return [numbers, light.direction === 'across' ? 'Across' : 'Down', text, enumeration, answerOf(light).replaceAll('.', '?')];
  });
}

const HEADS = ['Number', 'Direction', 'Clue', 'Length', 'Answer'];

/**
 * @param {Board} board
 * @param {(field: string) => string} textOf
 * @param {EnumerationOf} enumerationOf
 * @param {Told & { language: string }} told
 */
export function htmlOf(board, textOf, enumerationOf, told) {
  const safe = (/** @type {string} */ text) => String(text).replaceAll('&', '&amp;').replaceAll('<', '&lt;').replaceAll('>', '&gt;').replaceAll('"', '&quot;');
  const row = (/** @type {string[]} */ cells, /** @type {string} */ name) => `<tr>${cells.map((cell) => `<${name}>${markedUp(cell, safe)}</${name}>`).join('')}</tr>`;
  const title = safe(textOf('title') || 'Crossword');
  const cell = 'td,th{padding:4px 12px;border-bottom:1px solid #999;text-align:left;vertical-align:top}';
  const style = `body{font:16px Georgia,serif;margin:2em}table{border-collapse:collapse}${cell}`;
  const rows = sheetRows(board, textOf, enumerationOf, told).map((cells) => row(cells, 'td'));
  const author = textOf('author') ? `<p>${safe(textOf('author'))}</p>\n` : '';
  const head = `<!doctype html>\n<html lang="${safe(told.language || 'en')}">\n<meta charset="utf-8">\n<title>${title}</title>\n<style>${style}</style>\n<h1>${title}</h1>\n`;
  return `${head}${author}<table>\n${row(HEADS, 'th')}\n${rows.join('\n')}\n</table>\n`;
}
