// Tests that the editor's commands from one record to another lead there: pairs of random sessions, of one size and of two.
//
//   node web/test/record.mjs [ROUNDS]
import { readFileSync } from 'node:fs';
import { Xw, load, toBytes, toText } from '../dist/xw.js';
import { pageModules } from './page-modules.mjs';

const { bodyOf, escapeText, parseRecord, textLines, transition, unescapeText } = await pageModules('model/record');

const LIST = 'cat\ncot\ncut\near\noar\ntea\ntoe\nare\ntar\nate\ntone\nrote\n';
const LIST_WORDS = LIST.trim().split('\n');
// the grade of a word of the list, which has no scores
const GRADE = 50;
const module = await load(readFileSync(new URL('../dist/xw.wasm', import.meta.url)));

let seed = 20240601;
function below(most) {
  seed = (Math.imul(seed, 1103515245) + 12345) >>> 0;
  return Math.floor((seed / 2 ** 32) * most);
}
const one = (things) => things[below(things.length)];

const send = (xw, line) => xw.answer(toBytes(line));
const recordOf = (xw) => toText(xw.record());

const TEXTS = ['', 'plain', ' edges ', '\\ and \\n', 'two\nlines', 'tab\there', 'caf\u00e9 \u2019', `${'long \\ '.repeat(700)} `, '\\'.repeat(4001), ' '.repeat(2500)];

// A session of random edits.
function someSession(width, height) {
  const xw = Xw.open(module, { list: LIST });
  send(xw, `size ${width} ${height}`);
  for (let edits = below(60); edits > 0; edits--) for (const line of someEdit(width, height)) send(xw, line);
  return recordOf(xw);
}

function someEdit(width, height) {
  const coordinates = `${1 + below(height)} ${1 + below(width)}`;
  const texts = () => textLines(one(['title', 'author', 'copyright', 'notes', `clue ${coordinates} across`, `clue ${coordinates} down`]), escapeText(one(TEXTS)));
  return one([
    () => [`set ${coordinates} ${one([...'ABCDE'])}`], () => [`set ${coordinates} ${one([...'ABCDE'])}`], () => [`clear ${coordinates}`], () => [`block ${coordinates}`],
    () => [`bar ${coordinates} ${one(['right', 'below'])}`], () => [`circle ${coordinates}`], () => [`sym ${one(['none', 'half', 'quarter', 'leftright', 'updown'])}`],
    () => [`strike ${one(LIST_WORDS)}`], () => [`add ${one(['new', 'newer', 'cat', 'zzz'])}`], () => [`strike ${one(['new', 'zzz'])}`], texts,
    // a word of another grade, and one that a least grade left out
    () => [`strike ${one(LIST_WORDS)}`, `add ${one([...LIST_WORDS, 'new'])} ${below(101)}`], () => ['least 70', `add ${one(LIST_WORDS)}`, 'least 0'],
  ])();
}

// The active words at several least grades, so that their grades count too.
function activeWords(xw) {
  const at = (grade) => {
    send(xw, `least ${grade}`);
    return [2, 3, 4, 5].map((length) => toText(send(xw, `match ${'.'.repeat(length)}`).answer).split('\n').sort().join(' '));
  };
  return [0, 20, 40, 50, 51, 70, 71, 100].map(at).join('; ');
}

function check(isSo, what) {
  if (isSo) return;
  console.log(`FAIL ${what}`);
  console.log('0 passed, 1 failed');
  process.exit(1);
}

for (const text of TEXTS) check(unescapeText(escapeText(text)) === text, `a text is not spelled as itself: ${text.slice(0, 40)}`);

const rounds = Number(process.argv[2] ?? 60);
let whole = 0;
for (let round = 0; round < rounds; round++) {
  const size = [1 + below(6), 1 + below(6)];
  const [before, after] = [someSession(...size), someSession(...(below(3) ? size : [1 + below(6), 1 + below(6)]))];
  const xw = Xw.open(module, { list: LIST, record: before });
  const { words, rest } = transition(before, after, () => GRADE);
  // while a least grade leaves words out, those that come back would get it
  const lines = ['least 60', 'least 0', ...words, 'least 60', ...rest];
  if (lines.some((line) => line.startsWith('size'))) whole++;
  for (const line of lines) check(line.length <= 4096, 'a line is too long');
  for (const line of lines) send(xw, line);
  check(bodyOf(recordOf(xw)).join('\n') === bodyOf(after).join('\n'), `round ${round} leads elsewhere:\n${lines.join('\n')}`);
  const there = Xw.open(module, { list: LIST, record: after });
  check(activeWords(xw) === activeWords(there), `round ${round} has other words:\n${words.join('\n')}\n${activeWords(xw)}\n${activeWords(there)}`);
  check(parseRecord(recordOf(xw)).letters.size === parseRecord(after).letters.size, `round ${round} has other letters`);
}
console.log(`ok   ${rounds} pairs of sessions, ${whole} by the whole record`);
console.log('1 passed, 0 failed');
