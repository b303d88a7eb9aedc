// Colours of cells, as six hexadecimal digits. They are kept with the originals, under a name of the cell.

const FIELD = 'colour ';

/** @param {string} coordinates */
export const colourField = (coordinates) => `${FIELD}${coordinates}`;
/** @param {string} field */
export const isColourField = (field) => field.startsWith(FIELD);

// The colours that the page offers; those of files can be others.
/** @type {Record<string, string>} */
export const PALETTE = { yellow: 'ffe680', grey: 'd3d6da', red: 'ffc4be', green: 'bde5c1', blue: 'b9d8ff', violet: 'e2ccff' };

// A colour that a file spells, as with a number sign or with three digits; '' if it is none that is known.
/** @param {unknown} spelled */
export function colourIn(spelled) {
  const [, digits] = /^#?([0-9a-f]{3}|[0-9a-f]{6})$/i.exec(String(spelled ?? '').trim()) ?? [];
  if (!digits) return PALETTE[String(spelled).toLowerCase()] ?? '';
  return (digits.length === 3 ? digits.replace(/./g, '$&$&') : digits).toLowerCase();
}

// What a colour is called.
/** @param {string} colour */
export const nameOfColour = (colour) => Object.keys(PALETTE).find((name) => PALETTE[name] === colour) ?? `colour ${colour}`;

/** @param {string} colour */
const partsOf = (colour) => [0, 2, 4].map((at) => parseInt(colour.slice(at, at + 2), 16));
// the least brightness of a cell, of 255, on which its letter can be read
const LEAST_BRIGHT = 190;

// A colour on which black letters can be read: a dark one is mixed with white.
/** @param {string} colour */
export function brightened(colour) {
  const parts = partsOf(colour);
  const bright = (0.299 * parts[0] + 0.587 * parts[1] + 0.114 * parts[2]);
  const white = bright < LEAST_BRIGHT ? (LEAST_BRIGHT - bright) / (255 - bright) : 0;
  return parts.map((part) => Math.round(part + white * (255 - part)).toString(16).padStart(2, '0')).join('');
}

// The letters of the cells of each colour, in reading order, by colour.
/** @param {import('./editor.js').Editor} editor */
export function lettersByColour(editor) {
  /** @type {Map<string, string>} */
  const letters = new Map();
  for (const cell of editor.board.cells) {
    const colour = editor.colourOf(cell);
    if (colour) letters.set(colour, `${letters.get(colour) ?? ''}${editor.entryOf(cell) || '·'}`);
  }
  return letters;
}
