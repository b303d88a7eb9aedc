// The narrowest passage of a grid: the fewest open cells that would have to be blocks for a wall from border to border which parts a region of some size
// from the rest. Blocks that touch at corners make a wall.

// how far from a corner a wall between two sides that meet there begins and ends
const CORNER = 5;
const FAR = 1000;

/** @param {{ width: number, height: number, blocks: Set<number> }} grid */
export function narrowest({ width, height, blocks }) {
  const corner = Math.min(CORNER, Math.floor(Math.min(width, height) / 3));
  const cells = Array.from({ length: width * height }, (_, cell) => ({ cell, row: Math.floor(cell / width), column: cell % width }));
  /** @typedef {typeof cells[number]} Cell */
  const chosen = (/** @type {(cell: Cell) => boolean} */ isIn) => new Set(cells.filter(isIn).map(({ cell }) => cell));
  const isTop = (/** @type {Cell} */ { row }) => row === 0;
  const isBottom = (/** @type {Cell} */ { row }) => row === height - 1;
  const isLeft = (/** @type {Cell} */ { column }) => column === 0;
  const isRight = (/** @type {Cell} */ { column }) => column === width - 1;
  // the sides, and of two that meet the cells far from their corner
  const pairs = [[chosen(isTop), chosen(isBottom)], [chosen(isLeft), chosen(isRight)]];
  for (const isAcross of [isTop, isBottom]) {
    for (const isUp of [isLeft, isRight]) {
      const isFarAlong = (/** @type {Cell} */ { column }) => (isUp === isLeft ? column >= corner : column < width - corner);
      const isFarUp = (/** @type {Cell} */ { row }) => (isAcross === isTop ? row >= corner : row < height - corner);
      pairs.push([chosen((one) => isAcross(one) && isFarAlong(one)), chosen((one) => isUp(one) && isFarUp(one))]);
    }
  }
  return Math.min(...pairs.map(([from, to]) => fewestBetween({ width, height, blocks }, from, to)));
}

// The fewest open cells of a wall that leads from some cells to others.
/**
 * @param {{ width: number, height: number, blocks: Set<number> }} grid
 * @param {Set<number>} from
 * @param {Set<number>} to
 */
function fewestBetween({ width, height, blocks }, from, to) {
  const cost = new Int32Array(width * height).fill(FAR);
  // the cells that are reached, by their cost
  /** @type {number[][]} */
  const reached = [[], []];
  const reach = (/** @type {number} */ cell, /** @type {number} */ before) => {
    const now = before + (blocks.has(cell) ? 0 : 1);
    if (now >= cost[cell]) return;
    cost[cell] = now;
    (reached[now] ??= []).push(cell);
  };
  for (const cell of from) reach(cell, 0);
  for (let least = 0; least < reached.length; least++) {
    for (const cell of reached[least] ?? []) {
      if (cost[cell] !== least) continue;
      if (to.has(cell)) return least;
      for (const next of around(cell, width, height)) reach(next, least);
    }
  }
  return FAR;
}

// The cells around one, and itself.
/**
 * @param {number} cell
 * @param {number} width
 * @param {number} height
 */
function around(cell, width, height) {
  const [row, column] = [Math.floor(cell / width), cell % width];
  const cells = [];
  for (let r = Math.max(0, row - 1); r <= Math.min(height - 1, row + 1); r++) {
    for (let c = Math.max(0, column - 1); c <= Math.min(width - 1, column + 1); c++) cells.push(r * width + c);
  }
  return cells;
}
