// Numbers and orders that a seed gives.

// Numbers from 0 to 1 that a seed gives.
/**
 * @param {number} seed
 * @returns {() => number}
 */
export function randoms(seed) {
  let state = (seed * 2654435761) >>> 0;
  return () => {
    state = (Math.imul(state, 1664525) + 1013904223) >>> 0;
    return state / 2 ** 32;
  };
}

// The same things in another order.
/**
 * @template T
 * @param {T[]} things
 * @param {() => number} random
 * @returns {T[]}
 */
export function shuffled(things, random) {
  const order = [...things];
  for (let at = order.length - 1; at > 0; at--) {
    const other = Math.floor(random() * (at + 1));
    [order[at], order[other]] = [order[other], order[at]];
  }
  return order;
}
