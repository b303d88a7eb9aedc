// Tests word lists without a browser: how their lines are read, what several say of a word, and other scores for words. The expected values are worked out by hand.
//
//   node web/test/lists.mjs
//
// The last line is 'N passed, M failed'.
import { deepStrictEqual as same } from 'node:assert/strict';
import { Count } from './count.mjs';
import { pageModules } from './page-modules.mjs';

const {
  Lists, OWN, faultOf, fieldsOf, formOf, joinLists, linesOf, linesOfList, lookAt, previewText, readList, readOwn, readSource, rescore, rescoredText, withColumn,
} = await pageModules('formats/joined-lists', 'formats/list-form', 'formats/list-preview', 'store/lists', 'formats/rescoring', 'formats/word-list');

const bytes = (text) => new Uint8Array(Buffer.from(text));
const form = (separator, word, score, scale = 100) => ({ separator, word, score, scale });
const PLAIN = form('', 0, null);
// the words of a list with their scores, in order of the alphabet
const read = (text, one = null) => Object.fromEntries([...readList(bytes(text), one).scores].sort());

const CASES = {
  'the form that the lines of a list tell'() {
    const told = (...lines) => formOf(lines);
    same(told('cat', 'dog', 'ice cream'), PLAIN);
    same(told('CAT;80', 'DOG;70'), form(';', 0, 1));
    same(told('cat,80', 'dog,70'), form(',', 0, 1));
    same(told('cat\t80', 'dog\t70'), form('\t', 0, 1));
    same(told('cat 80', 'ice cream 70'), form(' ', 0, 1));
    same(told('80;cat', '70;dog'), form(';', 1, 0));
    same(told('80\tcat', '70\tdog'), form('\t', 1, 0));
    // the score behind the word is taken before one that stands before it; a date is none, and a note is none of the score
    same(told('1;cat;80', '2;dog;70'), form(';', 1, 2));
    same(told('cat;2020-01-01;80', 'dog;2021-01-01;70'), form(';', 0, 2));
    same(told('cat;80 # mine', 'dog;70 # mine'), form(';', 0, 1));
    // a word with a comma, and a number that belongs to a word
    same(told('well, well;80', 'cat;70'), form(';', 0, 1));
    same(told('catch 22', 'cat', 'dog'), PLAIN);
    same(told('12 monkeys', 'catch 22'), PLAIN);
    // a line that names the columns is one line of many
    same(told('word;score', 'cat;80', 'dog;70'), form(';', 0, 1));
    same(told(), PLAIN);
  },

  'the scale that scores tell'() {
    const scale = (...scores) => formOf(scores.map((score) => `cat;${score}`)).scale;
    same([scale(0.5, 1), scale(0, 1), scale(0, 3, 5), scale(2.5), scale(80, 5), scale(0.5, 30), scale(-1, 0.5), scale(1000)], [1, 100, 5, 5, 100, 100, 100, 100]);
    // one score among thousands tells that they are no shares
    same(formOf(Array.from({ length: 5000 }, (_, at) => `cat;${at === 4567 ? 70 : 0.5}`)).scale, 100);
  },

  'fields of a line'() {
    same(fieldsOf('"well, well",80', form(',', 0, 1)), ['well, well', '80']);
    same(fieldsOf('"say ""cat""",80', form(',', 0, 1)), ['say "cat"', '80']);
    same(fieldsOf('5" disk;80', form(';', 0, 1)), ['5" disk', '80']);
    same([fieldsOf('80 catch 22', form(' ', 0, 1)), fieldsOf('80 catch 22', form(' ', 1, 0)), fieldsOf('cat', form(' ', 0, 1))], [['80 catch', '22'], ['80', 'catch 22'], ['cat']]);
    same([fieldsOf('a;b', PLAIN), fieldsOf('', form(';', 0, 1)), fieldsOf(';;', form(';', 0, 1))], [['a;b'], [''], ['', '', '']]);
  },

  'lists in a form that is chosen'() {
    same(read('cat;80\nice cream;70'), { CAT: 80, ICECREAM: 70 });
    same(read('"well, well",80\ncat,70', form(',', 0, 1)), { CAT: 70, WELLWELL: 80 });
    same(read('1;cat;80\n2;dog;70', form(';', 1, 0)), { CAT: 1, DOG: 2 });
    same(read('80 catch 22\n70 cat', form(' ', 1, 0)), { CAT: 70, CATCH: 80 });
    same(read('cat;1\ndog;4.5\ncow;0', form(';', 0, 1, 5)), { CAT: 20, DOG: 90, COW: 0 });
    same(read('cat;0.125\ndog;1', form(';', 0, 1, 1)), { CAT: 12.5, DOG: 100 });
    // a column of a table of words, whatever else it has
    same([...readList(bytes('cat,noun\nran,verb'), form(',', 0, null)).words].sort(), ['CAT', 'RAN']);
    // a list that was kept without a form has its scores from 0 to 5 as they are
    same(read('cat;1\ndog;5'), { CAT: 1, DOG: 5 });
    same(readList(bytes('cat;1\ndog;5'), form(';', 0, 1, 5)).asRead, ['scores from 0 to 5 are read as 0 to 100']);
    // a column that no line has
    same(readList(bytes('cat;80\ndog;70'), form(';', 0, 7)).leftOut, { unscored: 2 });
    same(readList(bytes('cat;80\ndog;70'), form(';', 5, 1)).leftOut, { short: 2 });
  },

  'another column'() {
    const usual = form(';', 0, 1);
    same(withColumn(usual, 'word', 2), { separator: ';', word: 2, score: 1 });
    same([withColumn(usual, 'word', 1), withColumn(usual, 'score', 0)], [{ separator: ';', word: 1, score: 0 }, { separator: ';', word: 1, score: 0 }]);
    same(withColumn(usual, 'score', null), { separator: ';', word: 0, score: null });
    same([withColumn(form(';', 0, null), 'score', 0), withColumn(form(';', 1, null), 'score', 1)], [{ separator: ';', word: 1, score: 0 }, { separator: ';', word: 0, score: 1 }]);
  },

  'what is shown of a list before it is taken over'() {
    const list = bytes('\ufeffword;score\r\ncat;80\r\n\r\ncafé;5\nCat;70\nx;3\nγη;50\ncow;-2\noar;7\ntea;6\n');
    const shown = lookAt(list);
    same(shown.form, form(';', 0, 1));
    same(shown.rows, [['word', 'score'], ['cat', '80'], ['café', '5'], ['Cat', '70'], ['x', '3'], ['γη', '50'], ['cow', '-2'], ['oar', '7']]);
    same([shown.words, shown.range, shown.folded, shown.leftOut], [4, [5, 80], 1, { unscored: 1, repeated: 1, short: 1, letters: 1, low: 1 }]);
    // in the order of the file
    same(shown.dropped.map(({ text, why }) => `${text}: ${why}`), [
      'word;score: without a score', 'Cat;70: that repeats a word', 'x;3: with fewer than 2 letters', 'γη;50: with letters other than A to Z', 'cow;-2: with a score below 0',
    ]);
    same(previewText('a.txt', shown), 'a.txt: 4 words; scores from 5 to 80; 1 without its accent; 5 lines left out: 1 with letters other than A to Z, 1 without a score, 1 with a score below 0, 1 with fewer than 2 letters, 1 that repeats a word.');
    // what is chosen stays, and its lines tell the rest
    same(lookAt(list, { separator: ',' }).form, form(',', 0, null));
    same(lookAt(bytes('1;cat;0.5\n3;dog;0.7'), { separator: ';', word: 1, score: 0 }).form, form(';', 1, 0, 5));
    same(lookAt(bytes('cat;0.5\ndog;0.7'), form(';', 0, 1, 100)).range, [0.5, 0.7]);
    // five lines are named, and no more than a part of a long one
    const long = lookAt(bytes(Array(9).fill(`9${'-'.repeat(200)}`).join('\n')));
    same([long.words, long.dropped.length, long.dropped[0].text.length, long.range], [0, 5, 60, null]);
    same(lookAt(new Uint8Array()).rows, []);
  },

  'the first list that gives a word a score decides'() {
    const source = (text, more = {}) => ({ bytes: bytes(text), ...more });
    // each word with its score, and the place of its list
    const joined = (sources, personal = '') => {
      const { words, scores, placeOf } = joinLists(sources, personal);
      return Object.fromEntries(words.map((word) => [word, [scores.get(word) ?? null, placeOf?.(word) ?? null]]));
    };
    const [one, two] = [source('cat;10\ncow;80'), source('cat;90\ndog;70')];
    same(joined([one, two]), { COW: [80, 1], DOG: [70, 2], CAT: [10, 1] });
    same(joined([two, one]), { CAT: [90, 1], COW: [80, 2], DOG: [70, 1] });
    // a list without scores gives none, wherever it stands; a word that no list scores has none
    same(joined([source('cat\nemu'), one]), { COW: [80, 2], CAT: [10, 2], EMU: [null, 1] });
    same(joined([one, source('cat\nemu')]), { COW: [80, 1], EMU: [null, 2], CAT: [10, 1] });
    same(joined([source('cat\nemu'), source('emu\nfox')]), { CAT: [null, 1], EMU: [null, 1], FOX: [null, 2] });
    // the personal list decides over all, and one list alone has no places
    same(joined([one, two], 'cat;55\n-dog\nfox'), { COW: [80, 1], FOX: [90, OWN], CAT: [55, OWN] });
    same([joinLists([one], '').placeOf, ...['COW', 'FOX', 'EMU'].map(joinLists([one], 'fox').placeOf)], [null, null, OWN, null]);
    // a word that no list has, as one of the puzzle alone
    same([joinLists([one, two], '').placeOf('EMU'), joinLists([one, two], '').scores.get('EMU'), joinLists([one, two], '-cow').scores.get('COW')], [null, null, null]);
  },

  'offsets of lists'() {
    const scores = (text, offset, one = null) => Object.fromEntries([...readSource({ bytes: bytes(text), form: one, offset }).scores].sort());
    same(scores('cat;50\ncow;5\nfox;95', -10), { CAT: 40, COW: 0, FOX: 85 });
    same(scores('cat;50\ncow;5\nfox;95', 10), { CAT: 60, COW: 15, FOX: 100 });
    // behind the scale; a fraction stays what it is
    same(scores('cat;3\ncow;0', -10, form(';', 0, 1, 5)), { CAT: 50, COW: 0 });
    same(scores('cat;12.3', -10), { CAT: 2.3 });
    // a list that goes over 100 stays within its best score
    same(scores('cat;900\ncow;1000', 50), { CAT: 950, COW: 1000 });
    same([readSource({ bytes: bytes('cat;50'), offset: -10 }).best, readSource({ bytes: bytes('cat\ncow'), offset: 10 }).scored], [40, false]);
    // what a list says is weighed with its offset, and not what another one says
    const { words, scores: joined } = joinLists([{ bytes: bytes('cat;50'), offset: -20 }, { bytes: bytes('cat;90\ncow;40'), offset: 5 }], '');
    same(words.map((word) => [word, joined.get(word)]), [['COW', 45], ['CAT', 30]]);
  },

  'the order of lists'() {
    const names = (lists) => lists.parts.map(({ name }) => name).join(' ');
    const none = { name: '', bytes: new Uint8Array() };
    const lists = Lists.builtIn({ name: 'built-in', bytes: bytes('cat') }).adding('one', bytes('cow')).adding('two', bytes('dog'));
    // the one that was opened last is used alone, and stands first
    same([names(lists), lists.chosen.sources.map(({ name }) => name)], ['two one built-in', ['two']]);
    same([names(lists.raising('one')), names(lists.raising('built-in')), names(lists.raising('two')), names(lists.raising('no such'))], ['one two built-in', 'two built-in one', 'two one built-in', 'two one built-in']);
    same(lists.raising('two') === lists, true);
    same(names(new Lists({ parts: [...lists.parts.slice(0, 1), { ...none, isOn: true }, ...lists.parts.slice(1)] }).raising('one')), 'one two built-in ');
    const both = lists.switching('one', true).shifting('one', -10);
    same(both.chosen.sources.map(({ name, offset }) => [name, offset]), [['two', 0], ['one', -10]]);
    // a list that is opened again keeps what was made of it; another one of its name has a name of its own
    const again = both.rescoring('one', 'COW;7\n').adding('one', bytes('cow'), form(';', 0, 1));
    same([names(again), again.chosen.sources.map(({ bytes: _, ...told }) => told)], ['one two built-in', [{ name: 'one', form: form(';', 0, 1), rescored: 'COW;7\n', offset: -10 }]]);
    same(names(both.adding('one', bytes('cat'))), 'one (2) two one built-in');
    same([lists.chosen.sources[0].offset, both.switching('one', false).switching('one', true).chosen.sources[1].offset], [0, -10]);
  },

  'words that a rule finds, and their scores'() {
    const list = { bytes: bytes('cat;80\ncats;70\nbat;60\ntab;5\nice cream;50') };
    const changes = (rule, source = list) => rescore(readOwn(source), source.rescored ?? '', rule).first.map(({ word, from, to }) => `${word} ${from} ${to}`).sort();
    const rule = (kind, text, how, value) => ({ kind, text, how, value });
    // a pattern is for whole words; small letters are the same
    same(changes(rule('pattern', '?AT', 'to', 10)), ['BAT 60 10', 'CAT 80 10']);
    same(changes(rule('pattern', '?at*', 'to', 10)), ['BAT 60 10', 'CAT 80 10', 'CATS 70 10']);
    same(changes(rule('pattern', 'CAT', 'by', -100)), ['CAT 80 0']);
    same(changes(rule('pattern', '*', 'by', 40)), ['BAT 60 100', 'CAT 80 100', 'CATS 70 100', 'ICECREAM 50 90', 'TAB 5 45']);
    // a regular expression is looked for anywhere, in the letters alone
    same(changes(rule('regular', 'at', 'to', 10)), ['BAT 60 10', 'CAT 80 10', 'CATS 70 10']);
    same(changes(rule('regular', '^.at$|ecr', 'by', 0.5)), ['BAT 60 60.5', 'CAT 80 80.5', 'ICECREAM 50 50.5']);
    // a word that has the score already does not change
    same(rescore(readOwn(list), '', rule('pattern', '?AT', 'to', 80)), { found: 2, changed: 1, first: [{ word: 'BAT', from: 60, to: 80 }], rescored: 'BAT;80\n' });
    // a word without a score only gets one that is given; a list that goes over 100 stays within its best score
    const plain = { bytes: bytes('cat\ndog') };
    same([changes(rule('pattern', 'CAT', 'by', 5), plain), changes(rule('pattern', 'CAT', 'to', 5), plain)], [[], ['CAT null 5']]);
    same(changes(rule('pattern', '*', 'to', 5000), { bytes: bytes('cat;900\ndog;1000') }), ['CAT 900 1000']);
  },

  'a hundred changes are shown, and all are made'() {
    const letters = 'ABCDEFGHIJKLMNOPQRSTUVWXYZ';
    const lines = [...letters].flatMap((one) => [...letters].map((other) => `${one}${other}A;50`));
    const source = { bytes: bytes(lines.join('\n')) };
    const { found, changed, first, rescored } = rescore(readOwn(source), '', { kind: 'pattern', text: '??A', how: 'to', value: 20 });
    same([found, changed, first.length, rescored.split('\n').filter(Boolean).length], [676, 676, 100, 676]);
    same(rescoredText({ found, changed }), '676 words found; all change; the first 100 are here.');
    same([{ found: 0, changed: 0 }, { found: 1, changed: 1 }, { found: 3, changed: 0 }, { found: 1200, changed: 2 }].map(rescoredText), [
      'No word of the list is found.', '1 word found; all changes.', '3 words found; none changes.', '1,200 words found; 2 words change.',
    ]);
  },

  'rules that find nothing'() {
    const fault = (kind, text, how = 'to', value = 50) => faultOf({ kind, text, how, value });
    same([fault('pattern', '?at*'), fault('regular', '^.at$'), fault('pattern', 'cat', 'by', -10)], ['', '', '']);
    same([fault('pattern', ' '), fault('regular', '')], ['type a pattern, such as ?AT or *ING', 'type a regular expression, such as ING$']);
    same(['c.t', 'c[au]t', 'ice cream'].map((text) => fault('pattern', text)), Array(3).fill('a pattern has the letters A to Z, ? and * alone'));
    same(['(', '[', '*'].map((text) => fault('regular', text).startsWith('that is no regular expression: ')), [true, true, true]);
    same([fault('pattern', 'cat', 'to', NaN), fault('pattern', 'cat', 'to', -1), fault('pattern', 'cat', 'by', Infinity)], ['a score is a number from 0 on', 'a score is a number from 0 on', 'type a number']);
  },

  'scores that differ from the file'() {
    const source = { bytes: bytes('cat;80\nice cream;70\nbat;60\ncow;-1'), rescored: 'BAT;90\nCAT;12.5\nEMU;70\n' };
    // a word that the list does not have is none of it
    same([...readOwn(source).scores].sort(), [['BAT', 90], ['CAT', 12.5], ['ICECREAM', 70]]);
    same([readOwn(source).words, readOwn(source).best], [['BAT', 'ICECREAM', 'CAT'], 90]);
    // the next rule goes on from there, and the offset comes behind it
    same(rescore(readOwn(source), source.rescored, { kind: 'pattern', text: '?AT', how: 'by', value: -2.5 }).rescored, 'BAT;87.5\nCAT;10\nEMU;70\n');
    same([...readSource({ ...source, offset: -20 }).scores].sort(), [['BAT', 70], ['CAT', 0], ['ICECREAM', 50]]);
    // a file of it has neither the offset nor what is left out
    same(linesOfList({ ...source, offset: -20 }), 'BAT;90\nCAT;12.5\nICECREAM;70\n');
    same([linesOfList({ bytes: bytes('cow\ncat') }), linesOfList({ bytes: bytes('cow\ncat'), rescored: 'COW;5\n' })], ['CAT\nCOW\n', 'CAT\nCOW;5\n']);
    same(linesOfList({ bytes: bytes(linesOfList(source)) }), linesOfList(source));
    // the list stays one that can be used with others
    const { words, scores, placeOf } = joinLists([source, { bytes: bytes('cat;99\nfox;20') }], '');
    same(words.map((word) => [word, scores.get(word), placeOf(word)]), [['BAT', 90, 1], ['ICECREAM', 70, 1], ['FOX', 20, 2], ['CAT', 12.5, 1]]);
    const lists = new Lists({ parts: [{ name: 'a', bytes: bytes('cat;1'), isOn: true }] }).rescoring('a', 'CAT;7\n');
    same([lists.chosen.sources[0].rescored, lists.rescoring('a', null).chosen.sources[0].rescored], ['CAT;7\n', null]);
  },

  'the lines of any file are read'() {
    // each byte, and lines of separators and quotes alone
    const all = Uint8Array.from({ length: 2048 }, (_, at) => (at * 7) % 256);
    same(Object.values(readList(all).leftOut).reduce((sum, count) => sum + count, 0) + readList(all).words.length, linesOf(Buffer.from(all).toString('latin1')).length);
    for (const sign of [';', ',', '\t', ' ', '"', ';"', '""']) same(lookAt(bytes(`${sign.repeat(50000)}\n`.repeat(2)), { separator: ';' }).words, 0);
  },
};

const count = new Count();
await count.runAll(CASES);
count.end();
