// Blocks of a grid that is its half turn, as a few characters: six cells each, for the first half of the cells and the middle one.

const SIGNS = 'ABCDEFGHIJKLMNOPQRSTUVWXYZabcdefghijklmnopqrstuvwxyz0123456789-_';
const BITS = 6;

/** @param {number} cells */
const halfOf = (cells) => Math.ceil(cells / 2);

// How many characters a grid of so many cells has.
/** @param {number} cells */
export const lengthOf = (cells) => Math.ceil(halfOf(cells) / BITS);

// Cells are numbers in reading order.
/**
 * @param {Set<number>} blocks
 * @param {number} cells
 */
export function pack(blocks, cells) {
  const signs = Array.from({ length: lengthOf(cells) }, (_, at) => {
    const bits = Array.from({ length: BITS }, (_, bit) => BITS * at + bit).reduce((sum, cell) => 2 * sum + (cell < halfOf(cells) && blocks.has(cell) ? 1 : 0), 0);
    return SIGNS[bits];
  });
  return signs.join('');
}

/**
 * @param {string} text
 * @param {number} cells
 * @returns {Set<number>}
 */
export function unpack(text, cells) {
  /** @param {number} cell */
  const isBlock = (cell) => (SIGNS.indexOf(text[Math.floor(cell / BITS)]) >> (BITS - 1 - (cell % BITS))) & 1;
  const half = Array.from({ length: halfOf(cells) }, (_, cell) => cell).filter(isBlock);
  return new Set(half.flatMap((cell) => [cell, cells - 1 - cell]));
}
