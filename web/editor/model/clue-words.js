// Words of answers in clues. They tell a solver too much, so a clue that has a word of its own answer, or of another one in the grid, is warned of.
import { unaccented } from '../formats/word-list.js';
import { enumerated, partedBy } from './enumeration.js';
import { isReference } from './links.js';
import { withoutItalics } from './marks.js';

/** @typedef {import('./editor.js').Editor} Editor */
/** @typedef {import('./board.js').Light} Light */

// The letters that such a word has at least: shorter ones, as THE, are in many clues.
const LEAST = 4;
// What leads to another light has no words, as “17 Down”.
const PLACE = /\d+[\s-]*(across|down|ac|dn)\b/gi;

// The words of a text, in capitals and without accents. Other signs part them, so “mother's” has MOTHER.
/** @param {string} text */
const wordsIn = (text) => unaccented(text).toUpperCase().split(/[^A-Z]+/).filter(Boolean);

// The words of a clue.
/** @param {string} clue */
function wordsOfClue(clue) {
  return isReference(clue) ? [] : wordsIn(enumerated(withoutItalics(clue), 0).text.replace(PLACE, ' '));
}

// The answer of a clue, and its words: those that the enumeration parts it into, and those in single lights.
/**
 * @param {Light} light
 * @param {Pick<Editor, 'textOf' | 'answerOf' | 'cluedWith'>} editor
 */
function answerWords(editor, light) {
  const parts = editor.cluedWith(light).map((one) => editor.answerOf(one));
  const answer = parts.join('');
  const words = [answer, ...parts, ...partedBy(editor.textOf(`clue ${light.name}`), answer)];
  return { answer, words: new Set(words.filter((word) => word.length >= LEAST && !word.includes('.'))) };
}

// The words from one on that have so many letters together.
/**
 * @param {string[]} words
 * @param {number} from
 * @param {number} length
 */
function runFrom(words, from, length) {
  let [to, letters] = [from, 0];
  while (to < words.length && letters < length) letters += words[to++].length;
  return words.slice(from, to);
}

// What of its own answer a clue has: words side by side that spell all of it, or else single ones.
/**
 * @param {string[]} words
 * @param {{ answer: string, words: Set<string> }} answer
 */
function ownWords(words, { answer, words: own }) {
  if (!own.has(answer)) return words.filter((word) => own.has(word));
  const whole = words.map((_, from) => runFrom(words, from, answer.length)).find((run) => run.join('') === answer);
  return whole ? [whole.join(' ')] : words.filter((word) => own.has(word));
}

// The words of answers that clues have: { light, word, in: the light whose answer has it }, where that is the light of the clue if its own answer does.
/**
 * @param {Pick<Editor, 'board' | 'textOf' | 'answerOf' | 'cluedWith'>} editor
 * @returns {{ light: Light, word: string, in: Light }[]}
 */
export function clueWords(editor) {
  const answers = new Map(editor.board.lights.map((light) => [light, answerWords(editor, light)]));
  const owners = new Map([...answers].reverse().flatMap(([light, { words }]) => [...words].map((word) => /** @type {[string, Light]} */ ([word, light]))));
  return [...answers].flatMap(([light, answer]) => {
    const words = wordsOfClue(editor.textOf(`clue ${light.name}`));
    const others = [...new Set(words)].flatMap((word) => {
      const owner = answer.words.has(word) ? undefined : owners.get(word);
      return owner ? [{ light, word, in: owner }] : [];
    });
    return [...[...new Set(ownWords(words, answer))].map((word) => ({ light, word, in: light })), ...others];
  });
}
