// Rows and columns of a grid as sets of bits: a bit that is set is a block. Bit 0 and the one after the last cell are the border.

// How many bits are set.
/** @param {number} bits */
export function ones(bits) {
  let n = bits - ((bits >>> 1) & 0x55555555);
  n = (n & 0x33333333) + ((n >>> 2) & 0x33333333);
  return Math.imul((n + (n >>> 4)) & 0x0f0f0f0f, 0x01010101) >>> 24;
}

// One bit for each by which stretches of set bits are longer than `most`.
/**
 * @param {number} bits
 * @param {number} most
 */
export function stretched(bits, most) {
  let [y, length] = [bits, 1];
  for (; 2 * length <= most + 1; length *= 2) y &= y >> length;
  return y & (y >> (most + 1 - length));
}

// The first run of one or two open cells of a line, as its first cell and its length; null if there is none. `inner` has the bits of the cells.
/**
 * @param {number} bits
 * @param {number} inner
 */
export function shortIn(bits, inner) {
  const starts = bits & ~(bits >> 1) & (inner >> 1);
  const short = starts & ((bits >> 2) | (bits >> 3));
  if (!short) return null;
  const low = short & -short;
  return { first: 31 - Math.clz32(low), length: low & (bits >> 2) ? 1 : 2 };
}

// The stretches of open cells of a line of so many, each as its first cell and its length.
/**
 * @param {number} bits
 * @param {number} count
 * @returns {{ first: number, length: number }[]}
 */
export function stretches(bits, count) {
  const found = [];
  for (let at = 0, length = 0; at <= count; at++) {
    if (!((bits >> (at + 1)) & 1)) length++;
    else {
      if (length) found.push({ first: at - length, length });
      length = 0;
    }
  }
  return found;
}
