// The cells of the lights that have one of some cells, of those that have one of these, and so on so many times. A light is a list of its cells, which may be
// named in any way.
/**
 * @template Cell
 * @param {readonly (readonly Cell[])[]} lights
 * @param {Iterable<Cell>} cells
 * @param {number} rings
 * @returns {Set<Cell>}
 */
export function reachOf(lights, cells, rings) {
  let found = new Set(cells);
  for (let ring = 0; ring < rings; ring++) found = new Set(lights.filter((own) => own.some((cell) => found.has(cell))).flat());
  return found;
}
