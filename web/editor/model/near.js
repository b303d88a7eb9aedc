// Where a dead end lies: the cells near its reason are red, and the others without a letter, which it drags along, are grey.

/** @typedef {import('./board.js').Light} Light */

// The cells of the lights near a dead end, by index: the light that the reason leaves no word, with those that have a letter of the reason; or before the
// reason is known, the lights without a word at the last entry. Null if there is no dead end, or if no cell there is without a letter.
/**
 * @param {import('./state.js').EditorState} editor
 * @returns {ReadonlySet<number> | null}
 */
export function nearDeadEnd({ board, reason, edited }) {
  const isDead = (/** @type {Light} */ light) => board.countOf(light) === 0 && !board.isEntered(light);
  if (!board.lights.some(isDead)) return null;
  const last = edited ? board.cells[edited.cell]?.[edited.direction] : null;
  const asked = board.byName.get(reason.light) ?? last;
  const cells = board.byName.has(reason.light) ? [...reason.cells] : last?.cells ?? [];
  const lights = [...(asked ? [asked] : []), ...cells.flatMap((cell) => board.through(cell))];
  const near = new Set(lights.filter(isDead).flatMap(({ cells }) => cells));
  const isLost = (/** @type {number} */ index) => !board.cells[index].letter && !board.cells[index].left;
  return [...near].some(isLost) ? near : null;
}
