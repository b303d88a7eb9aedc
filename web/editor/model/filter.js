// Filters of words. A plain text finds the words that begin with it, and then those that have it elsewhere. The others match whole words: `?` or
// `.` is one letter, `*` any number, `[AEIOU]` one of these; `/…/` is a regular expression; `@LISTEN` has all these letters, in any order.

/** @param {string} letters */
const anyOrder = (letters) => {
  const wanted = [...letters];
  return (/** @type {string} */ word) => {
    const left = [...word];
    return wanted.every((letter) => {
      const at = letter === '?' ? 0 : left.indexOf(letter);
      return at >= 0 && left.splice(at, 1).length === 1;
    });
  };
};

// The test of a filter, or null for a plain text. A pattern that is not whole yet, as `[AE`, passes nothing.
/**
 * @param {string} typed
 * @returns {((word: string) => boolean) | null}
 */
function testOf(typed) {
  try {
    if (typed.startsWith('/')) {
      const body = typed.slice(1).replace(/\/$/, '');
      const pattern = new RegExp(`^(?:${body})$`, 'i');
      return (/** @type {string} */ word) => pattern.test(word);
    }
    if (typed.startsWith('@')) return anyOrder(typed.slice(1).replace(/[^A-Z?]/g, '').replace(/^(\?*)(.*)$/, '$2$1'));
    if (!/[?.*[]/.test(typed)) return null;
    const pattern = new RegExp(`^${typed.replace(/[^A-Z?.*[\]^-]/g, '').replace(/[?.]/g, '[A-Z]').replace(/\*/g, '[A-Z]*')}$`);
    return (/** @type {string} */ word) => pattern.test(word);
  } catch {
    return () => false;
  }
}

// The words that pass a filter, in order.
/**
 * @param {string[]} words
 * @param {string} text
 */
export function filtered(words, text) {
  const typed = text.trim().toUpperCase();
  if (!typed || typed === '/' || typed === '@') return words;
  const test = typed.startsWith('/') ? testOf(text.trim()) : testOf(typed);
  if (test) return words.filter(test);
  const plain = typed.replace(/[^A-Z]/g, '');
  const starts = words.filter((word) => word.startsWith(plain));
  return [...starts, ...words.filter((word) => !word.startsWith(plain) && word.includes(plain))];
}
