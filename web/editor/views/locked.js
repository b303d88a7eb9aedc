// What is asked of someone who opens a .puz with a scrambled solution: its key, a search of all keys, or a grid without its letters.
import { KEY_COUNT, keysOf, solutionBy, withoutLetters, wordsIn } from '../formats/unscramble.js';

const WIDTH = 0x2c;
const turn = () => /** @type {Promise<void>} */ (new Promise((resolve) => setTimeout(resolve)));

// Promises the solution of a scrambled file, and how it was found, or '' where it has no letters; null if it is not to be opened. `ask` shows a text and
// promises the answer, with the key if it is `open`. `searching` says that keys are tried, and `words` promises the words of the lists.
/**
 * @param {string} name
 * @param {Uint8Array} bytes
 * @param {{ ask: (told: string, maySearch: boolean) => Promise<{ answer: string, key: string }>, searching: () => void, words: () => Promise<string[]> }} actions
 */
export async function solutionOf(name, bytes, { ask, searching, words }) {
  /** @type {string} */
  let told = `The solution of ${name} is scrambled. Its key has four digits.`;
  let maySearch = true;
  for (;;) {
    /** @type {{ answer: string, key: string }} */
    const given = await ask(told, maySearch);
    const { answer, key } = given;
    if (answer === 'empty') return { solution: withoutLetters(bytes), found: '' };
    if (answer !== 'open' && answer !== 'search') return null;
    if (answer === 'search') searching();
    const keys = answer === 'open' ? [key] : await keysOf(bytes, turn);
    const best = await likeliest(bytes, keys, words);
    const solution = solutionBy(bytes, best);
    if (solution) return { solution, found: `, unscrambled by the key ${best}${keys.length > 1 ? `, the likeliest of ${keys.length} that fit` : ''}` };
    maySearch = maySearch && answer === 'open';
    told = answer === 'open' ? wrongKey(name, key) : `None of the ${KEY_COUNT.toLocaleString('en')} keys fits ${name}: its solution, or the checksum of it, is damaged.`;
  }
}

/**
 * @param {string} name
 * @param {string} key
 */
const wrongKey = (name, key) => (/^\d{4}$/.test(key) ? `${key} is not the key of ${name}.` : `The key of ${name} has four digits.`);

// The key whose solution has the most words of the lists; '' of none.
/**
 * @param {Uint8Array} bytes
 * @param {string[]} keys
 * @param {() => Promise<string[]>} words
 */
async function likeliest(bytes, keys, words) {
  if (keys.length < 2) return keys[0] ?? '';
  const known = new Set(await words());
  const counts = keys.map((key) => wordsIn(solutionBy(bytes, key), bytes[WIDTH]).filter((word) => known.has(word)).length);
  return keys[counts.indexOf(Math.max(...counts))];
}
