// The limits of new grids, and what outlets take. `published` has what an outlet says to those who send it puzzles: all else is what its grids keep as a
// rule, as far as one sees from them, and is called usual.

/** @typedef {{ words: number, blocks: number, threes: number, longest: number, cheaters: number, lumps: number, gap: number }} Limits */
/** @typedef {keyof Limits} Limit */
/**
 * @typedef {object} Outlet
 * @property {string} name
 * @property {import('./grid.js').Style} style
 * @property {number} width
 * @property {number} height
 * @property {import('./symmetry.js').Symmetry} sym
 * @property {Partial<Limits>} limits none of those that are left out
 * @property {(Limit | 'size')[]} published
 */

// Each limit with what it is called. `gap` is the least, the others are the most.
/** @type {Record<Limit, string>} */
export const LIMITS = {
  words: 'Words at most',
  blocks: 'Blocks at most',
  threes: 'Words of 3 letters at most',
  longest: 'Letters of other words than the theme at most',
  cheaters: 'Cheaters (blocks that part no words) at most',
  lumps: 'Lumps of blocks (2 × 2, or four in line) at most',
  gap: 'Rows between theme entries at least',
};

const DAILY = { words: 78, blocks: 38, threes: 20, longest: 10, cheaters: 4, lumps: 0, gap: 1 };
const THEMELESS = { ...DAILY, words: 72, blocks: 36, threes: 14, longest: 15 };
const SUNDAY = { words: 140, blocks: 76, threes: 32, longest: 11, cheaters: 6, lumps: 0, gap: 1 };
const LATTICE = { words: 36, threes: 6 };

/**
 * @param {string} name
 * @param {number} size
 * @param {Partial<Limits>} limits
 * @param {Outlet['published']} published
 * @returns {Outlet}
 */
const american = (name, size, limits, published = []) => ({ name, style: 'american', width: size, height: size, sym: 'half', limits, published });
/**
 * @param {string} name
 * @returns {Outlet}
 */
const lattice = (name) => ({ name, style: 'british', width: 15, height: 15, sym: 'half', limits: LATTICE, published: [] });

/** @type {Outlet[]} */
export const OUTLETS = [
  american('New York Times, daily', 15, DAILY, ['size', 'words']),
  american('New York Times, themeless', 15, THEMELESS, ['size', 'words']),
  american('New York Times, Sunday', 21, SUNDAY, ['size', 'words']),
  american('Los Angeles Times, daily', 15, DAILY),
  american('Los Angeles Times, themeless', 15, THEMELESS),
  american('Los Angeles Times, Sunday', 21, SUNDAY),
  american('Wall Street Journal, daily', 15, DAILY),
  american('Wall Street Journal, Saturday', 21, SUNDAY),
  lattice('Guardian'),
  lattice('Times'),
  lattice('Independent'),
  { ...lattice('Barred'), style: 'barred', width: 12, height: 12, limits: {} },
];

// the limits that grow with the grid, and what a small grid has more of some, since more of its words are at the border
const GROWING = /** @type {const} */ (['words', 'blocks', 'threes', 'cheaters']);
const MORE = { words: 2, blocks: 0, threes: 2, cheaters: 0 };

// The limits of an outlet in a grid of another size: in proportion to the cells if it is smaller or a lattice, and else as many more as lead from a daily to a
// Sunday.
/**
 * @param {Outlet} outlet
 * @param {number} newWidth
 * @param {number} newHeight
 * @returns {Partial<Limits>}
 */
export function limitsAt({ style, limits, width, height }, newWidth, newHeight) {
  if (width === newWidth && height === newHeight) return limits;
  const [cells, more] = [width * height, newWidth * newHeight - width * height];
  const growth = more / (21 ** 2 - 15 ** 2);
  const isInProportion = more < 0 || style !== 'american';
  const at = (/** @type {typeof GROWING[number]} */ name, /** @type {number} */ limit) => (isInProportion ? Math.ceil((limit * (cells + more)) / cells) + MORE[name] : Math.round(limit + growth * (SUNDAY[name] - DAILY[name])));
  const grown = GROWING.flatMap((name) => (limits[name] === undefined ? [] : [[name, at(name, limits[name] ?? 0)]]));
  // a limit that is all of a line stays so
  return { ...limits, ...Object.fromEntries(grown), ...(limits.longest === width && { longest: Math.max(newWidth, newHeight) }) };
}

// What a setter changed of limits, by the outlet and the size; null is no limit.
/** @typedef {Record<string, Partial<Record<Limit, number | null>>>} Changed */

// The name that changes of an outlet at a size are kept by.
export const changedName = (/** @type {Outlet} */ { name }, /** @type {number} */ width, /** @type {number} */ height) => `${name} ${width} ${height}`;

// Each limit of an outlet at a size, with those that a setter changed, and where it comes from; null is no limit.
/**
 * @param {Outlet} outlet
 * @param {number} width
 * @param {number} height
 * @param {Changed} changed
 * @returns {Record<Limit, { limit: number | null, source: string }>}
 */
export function limitsFor(outlet, width, height, changed) {
  const [listed, own] = [limitsAt(outlet, width, height), changed[changedName(outlet, width, height)] ?? {}];
  const isAtSize = width === outlet.width && height === outlet.height;
  const sourceOf = (/** @type {Limit} */ name) => (!isAtSize ? 'by the size' : outlet.published.includes(name) ? 'published' : 'usual');
  const limitOf = (/** @type {Limit} */ name) => (name in own ? { limit: own[name], source: 'yours' } : name in listed ? { limit: listed[name], source: sourceOf(name) } : { limit: null, source: '' });
  return /** @type {any} */ (Object.fromEntries(/** @type {Limit[]} */ (Object.keys(LIMITS)).map((name) => [name, limitOf(name)])));
}

// Limits for a search: where there is none, all that the grid has.
/**
 * @param {Partial<Limits>} limits
 * @param {number} width
 * @param {number} height
 * @returns {Limits}
 */
export function wholeLimits(limits, width, height) {
  const all = width * height;
  return { words: all, blocks: all, threes: all, longest: Math.max(width, height), cheaters: all, lumps: all, gap: 1, ...limits };
}
