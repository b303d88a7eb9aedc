// What is added to clues, beside the texts that the engine has: links of lights that have one clue, as in 1/17, private notes, and comments of an editor or a
// tester, one a line. All are kept with the originals, under the names that records have for the clue.

/** @typedef {import('./board.js').Board} Board */
/** @typedef {import('./board.js').Light} Light */
/** @typedef {ReadonlyMap<string, string>} Originals */

const [LINK, NOTE, COMMENT] = ['link ', 'note ', 'comment '];

/**
 * @param {string} kind
 * @param {Board} board
 * @param {Light} light
 */
const fieldOf = (kind, board, light) => board.clueField(light).replace(/^clue /, kind);
/**
 * @param {Board} board
 * @param {Light} light
 */
export const linkField = (board, light) => fieldOf(LINK, board, light);
/**
 * @param {Board} board
 * @param {Light} light
 */
export const noteField = (board, light) => fieldOf(NOTE, board, light);
/**
 * @param {Board} board
 * @param {Light} light
 */
export const commentField = (board, light) => fieldOf(COMMENT, board, light);
/** @param {string} field */
export const isComment = (field) => field.startsWith(COMMENT);
/** @param {string} field */
export const isAdded = (field) => [LINK, NOTE, COMMENT].some((kind) => field.startsWith(kind));

// A clue that leads to another one, as that of a linked light does. It belongs to no word.
/** @param {string} clue */
export const isReference = (clue) => /^See \d+( (Across|Down))?$/i.test(clue);

// The lights that a light goes on in, in their order. Those that are gone are left out.
/**
 * @param {Board} board
 * @param {Originals} originals
 * @param {Light} light
 * @returns {Light[]}
 */
export function linkedTo(board, light, originals) {
  const spelled = originals.get(linkField(board, light));
  if (!spelled) return [];
  const lights = spelled.split(', ').map((place) => {
    const [row, column, direction] = place.split(' ');
    return board.at(`${row} ${column}`)?.[/** @type {'across' | 'down'} */ (direction)] ?? null;
  });
  return lights.flatMap((one) => (one && one !== light && board.cells[one.cells[0]] ? [one] : []));
}

// All links: the lights that go on in others, each with these, and for each of the others its head.
/**
 * @param {Board} board
 * @param {Originals} originals
 */
export function linksOf(board, originals) {
  /** @type {Map<Light, Light[]>} */
  const heads = new Map();
  /** @type {Map<Light, Light>} */
  const headOf = new Map();
  if (![...originals.keys()].some((field) => field.startsWith(LINK))) return { heads, headOf };
  for (const light of board.lights) {
    const others = linkedTo(board, light, originals).filter((other) => !headOf.has(other));
    if (others.length && !headOf.has(light)) heads.set(light, others);
    if (heads.has(light)) for (const other of others) headOf.set(other, light);
  }
  return { heads, headOf };
}

const SHORT = { across: 'ac', down: 'dn' };

// The numbers of a head and of the lights that it goes on in, as in 1/17, or 1/4dn for one in the other direction.
/**
 * @param {Light} light
 * @param {readonly Light[]} others
 */
export function numbersOf(light, others) {
  const short = (/** @type {Light} */ one) => (one.direction === light.direction ? '' : SHORT[one.direction]);
  return [light.number, ...others.map((one) => `${one.number}${short(one)}`)].join('/');
}

// The clue of a light that is linked to a head.
/**
 * @param {Light} light
 * @param {Light} head
 */
export function referenceTo(light, head) {
  const direction = head.direction === 'across' ? ' Across' : ' Down';
  return `See ${head.number}${head.direction === light.direction ? '' : direction}`;
}

// The lights that a text names for a light to go on in, such as “17, 4 down”; or what of it names none. A number alone is in the direction of the light, if
// there is one.
/**
 * @param {Light} light
 * @param {string} text
 * @param {Board} board
 * @returns {{ lights: Light[], fault: string | null }}
 */
export function namedLights(board, light, text) {
  const names = text.split(/[,;/&]|\band\b/).map((name) => name.trim()).filter(Boolean);
  const lights = names.map((name) => {
    const [, number, direction] = /^(\d+)\s*(a|ac|across|d|dn|down)?\.?$/i.exec(name) ?? [];
    const other = light.direction === 'across' ? 'down' : 'across';
    const wanted = direction ? [/^a/i.test(direction) ? 'across' : 'down'] : [light.direction, other];
    return wanted.map((one) => board.byName.get(`${number} ${one}`)).find((one) => one && one !== light) ?? null;
  });
  const at = lights.findIndex((one, index) => !one || lights.indexOf(one) < index);
  return at < 0 ? { lights: lights.flatMap((one) => one ?? []), fault: null } : { lights: [], fault: names[at] };
}

// How a link names its lights, as namedLights reads them.
/**
 * @param {Light} light
 * @param {readonly Light[]} others
 */
export const spelledLights = (light, others) => others.map((one) => (one.direction === light.direction ? one.number : `${one.number} ${one.direction}`)).join(', ');

// How originals spell a link.
/**
 * @param {Board} board
 * @param {readonly Light[]} others
 */
export const spelledLink = (board, others) => others.map((one) => board.clueField(one).replace(/^clue /, '')).join(', ');

// What a board has without links, colours and a language.
/** @type {{ colourOf: (cell: import('./board.js').Cell) => string, links: { heads: Map<Light, Light[]>, headOf: Map<Light, Light> }, language: string }} */
export const PLAIN = { colourOf: () => '', links: { heads: new Map(), headOf: new Map() }, language: '' };
