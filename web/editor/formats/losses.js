// What of a puzzle the format of a file cannot keep, each in a few words. It is said on each saving.
import { isColourField } from '../model/colours.js';
import { LANGUAGE } from '../model/language.js';
import { isAdded } from '../model/links.js';
import { hasItalics } from '../model/marks.js';
import { isCellField, isRebus } from '../model/rebus.js';
import { strangeCharacters } from '../model/record.js';
import { countText } from './dropped.js';

// What the formats keep of what not all of them do.
/** @type {Record<string, string[]>} */
const KEPT = {
  puz: ['rebus'], text: [], ipuz: ['rebus', 'italics', 'colours', 'links', 'characters'], jpz: ['rebus', 'italics', 'colours', 'characters'],
  exolve: ['rebus', 'italics', 'links', 'characters', 'language'], csv: ['rebus', 'italics', 'links', 'notes', 'characters', 'colours', 'language'],
  html: ['rebus', 'italics', 'links', 'characters', 'colours', 'language'], page: ['rebus', 'italics', 'links', 'characters', 'colours', 'language'],
};

// What a puzzle has of it.
/** @param {import('../model/editor.js').Editor} editor */
function hadBy(editor) {
  const { board, links } = editor;
  const clues = board.lights.filter((light) => hasItalics(editor.textOf(`clue ${light.name}`))).length;
  const cells = (/** @type {(cell: import('../model/board.js').Cell) => unknown} */ has) => board.cells.filter(has).length;
  return {
    rebus: countText(cells((cell) => isRebus(editor.entryOf(cell))), 'all letters but the first of a rebus', 'rebus cells but for their first letters'),
    italics: countText(clues, 'the italics of a clue', 'clues’ italics'),
    colours: countText(cells((cell) => editor.colourOf(cell)), 'the colour of a cell', 'colours of cells'),
    links: countText(links.heads.size, 'the link of a clue', 'links of clues'),
    notes: countText(board.lights.filter((light) => editor.noteOf(light)).length, 'a private note', 'private notes'),
    comments: countText(board.lights.filter((light) => editor.commentsOn(light).length).length, 'the comments on a clue', 'clues’ comments'),
    language: editor.language ? ['the language'] : [],
  };
}

// What a format does not keep, and the characters that it has near ones for.
/**
 * @param {string} form
 * @param {import('../model/editor.js').Editor} editor
 */
export function lossesOf(editor, form) {
  const isLost = (/** @type {string} */ name) => !KEPT[form].includes(name);
  const isText = (/** @type {string} */ field) => field !== LANGUAGE && !isCellField(field) && !isColourField(field) && !isAdded(field);
  const strange = [...editor.originals].filter(([field]) => isText(field)).flatMap(([, text]) => strangeCharacters(text));
  return {
    lost: Object.entries(hadBy(editor)).filter(([name]) => isLost(name)).flatMap(([, told]) => told),
    strange: isLost('characters') ? [...new Set(strange)] : [],
  };
}
