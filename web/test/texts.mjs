// Texts for tests that a reader of markup could take for something else, at random but the same in each run.

// What belongs to markup, to formats of puzzles or to a character set of its own.
const PARTS = [
  '<', '>', '&', '"', "'", '`', '\\', '/', ';', '#', '$', '{', '}', '~', '~{', '}~', '[', ']', '(', ')', '*', '|', '%', '=', ',', '.', ':', ' ', '  ', '1', '12', 'a', 'd', 'If x<y then?',
  '<b>bold</b> claim', '<br>', '</text>', '</p>', '<script>', '<img src=x onerror=go()>', '"><b', ']]>', '<!--', '-->', '<?xml?>', '<![CDATA[', '&amp;', '&lt;b&gt;', '&#60;', '&eacute;',
  '&copy', 'AT&T', 'a & b', '(3)', '(4,5)', '(1945)', ', 2', '/ 4', '& 3', 'exolve-down:', 'exolve-end', '\u2028', '\u00a0', '\u00e9', '\u201c', '\u2192', '\u0141\u00f3d\u017a', '\u65e5\u672c', '\u{1d11e}',
];
const LINES = ['\n', '\n\n', '\n\n\n', '\r\n', '\n#', '\n exolve-down:', '\nexolve-end', '\n ', ' \n'];

// A maker of texts from a seed: lines of text, clues with italics, and notes of several lines. None begins or ends with a space.
export function textsFrom(seed) {
  let state = seed;
  const below = (count) => {
    state = (Math.imul(state, 1103515245) + 12345) & 0x7fffffff;
    return (state >>> 8) % count;
  };
  const some = (parts) => Array.from({ length: 1 + below(7) }, () => parts[below(parts.length)]).join('');
  const made = (parts) => some(parts).trim() || 'x';
  const italics = () => `<i>${made(PARTS)}</i>`;
  return {
    line: () => made(PARTS),
    clue: () => (below(3) ? made(PARTS) : `${made(PARTS)} ${italics()} ${made(PARTS)}`),
    notes: () => made([...PARTS, ...LINES]),
  };
}
