// Tests the tables of the page: CSV, the clues of a puzzle as a table, and the bank of old clues.
//
//   node web/test/tables.mjs
//
// The last line is 'N passed, M failed'.
import { deepStrictEqual as same, throws } from 'node:assert/strict';
import { Count } from './count.mjs';
import { pageModules } from './page-modules.mjs';
import { textsFrom } from './texts.mjs';

const { bankTable, clueChanges, clueTable, cluesIn, countOf, csvOf, foundText, historyOf, kindOf, oldest, readBankTable, readClueTable, rowsOf, usesText } = await pageModules(
  'formats/bank-table', 'store/clue-bank', 'views/clue-preview', 'formats/clue-table', 'formats/csv', 'store/keep', 'formats/kinds', 'views/old-clues',
);

const MARK = '\ufeff';
const fieldsOf = (text) => rowsOf(text).map(({ fields }) => fields);
const kindOfText = (text) => kindOf('clues.csv', new Uint8Array(Buffer.from(text)));

// A puzzle as the editor tells it: lights, each with its answer, clue and note, of which some go on from others.
function puzzleOf(texts, heads = {}) {
  const lights = Object.keys(texts).map((name) => ({ name, number: name.split(' ')[0], direction: name.split(' ')[1], cells: [] }));
  const byName = new Map(lights.map((light) => [light.name, light]));
  const answerOf = ({ name }) => texts[name][0];
  const others = (light) => Object.entries(heads).filter(([, head]) => head === light.name).map(([name]) => byName.get(name));
  return {
    board: { lights, byName }, answerOf, textOf: (field) => texts[field.replace('clue ', '')][1], noteOf: ({ name }) => texts[name][2] ?? '',
    cluedBy: (light) => ({ answer: [light, ...others(light)].map(answerOf).join('') }),
    links: { headOf: new Map(Object.entries(heads).map(([name, head]) => [byName.get(name), byName.get(head)])) },
  };
}

// What a table changes, with the names of lights, and the lines that are left out.
function changesOf(editor, text) {
  const { changes, others, ...counts } = clueChanges(editor, readClueTable(text));
  return { changes: changes.map(({ light, clue, note }) => [light.name, clue, note]), others: others.map(({ line, why }) => `${line}: ${why}`), ...counts };
}

const NOTHING = { changes: [], others: [], there: 0, empty: 0 };
const PUZZLE = puzzleOf({
  '1 across': ['STONE', 'Rock'], '5 across': ['BAAS', ''], '6 across': ['TEN', 'X'], '1 down': ['S.T', ''], '2 down': ['TEN', ''], '3 down': ['OATS', 'See 1 Across', 'mine'],
}, { '3 down': '1 across' });
const isChanged = (text, wanted) => same(changesOf(PUZZLE, text), { ...NOTHING, ...wanted });

const CASES = {
  // section 2 of RFC 4180
  'quotes, commas and line breaks in fields'() {
    const lines = [['aaa', 'bbb', 'ccc'], ['zzz', 'yyy', 'xxx']];
    same(fieldsOf('aaa,bbb,ccc\r\nzzz,yyy,xxx\r\n'), lines);
    same(fieldsOf('aaa,bbb,ccc\r\nzzz,yyy,xxx'), lines);
    same(fieldsOf('"aaa","bbb","ccc"\nzzz,yyy,xxx\r'), lines);
    same(fieldsOf('"aaa","b\r\nbb","ccc"\r\nzzz,yyy,xxx'), [['aaa', 'b\r\nbb', 'ccc'], lines[1]]);
    same(fieldsOf('"aaa","b""bb","c,c",""'), [['aaa', 'b"bb', 'c,c', '']]);
    same(fieldsOf('a,\n,b\n,,\n\nc, d '), [['a', ''], ['', 'b'], ['c', ' d ']]);
    same(fieldsOf(''), []);
    same(rowsOf('a\r\n"b\r\nb\nb"\rc').map(({ line }) => line), [1, 2, 5]);
    same(csvOf([['a', 'b "c", d\ne'], ['', 'é']]), `${MARK}"a","b ""c"", d\ne"\r\n"","é"\r\n`);
  },

  'quotes that open or close no field'() {
    for (const [text, line] of [['a,"b', 1], ['a\n"b"c', 2], ['a\n\n5" disc', 3], ['"a"b"', 1], ['"', 1]]) {
      throws(() => rowsOf(text), { status: 'File', message: `line ${line} has a quote that opens or closes no field` });
    }
  },

  'texts that a spreadsheet would run'() {
    const texts = ['=1+1', '+1', '-1', '@SUM(A1)', "'=1", "''-x", "'tis", "'", '=', '\t=1', 'a=1', '5-2'];
    same(csvOf([texts]), `${MARK}"'=1+1","'+1","'-1","'@SUM(A1)","''=1","'''-x","'tis","'","'=","'\t=1","a=1","5-2"\r\n`);
    same(fieldsOf(csvOf([texts]).slice(1)), [texts]);
  },

  'every text comes back'() {
    for (let seed = 1; seed <= 300; seed++) {
      const of = textsFrom(seed);
      const row = [of.line(), of.clue(), of.notes()];
      same(fieldsOf(csvOf([row]).slice(1)), [row]);
    }
  },

  'the clues of a puzzle as a table'() {
    const editor = puzzleOf({ '1 across': ['CAT', 'Mouser (3)'], '2 down': ['A.E', '=A <i>beer</i>, "cold"', 'not yet'], '3 across': ['TOE', ''] });
    const lines = ['"Number","Direction","Answer","Clue","Note"', '"1","Across","CAT","Mouser (3)",""', '"3","Across","TOE","",""', '"2","Down","A?E","\'=A <i>beer</i>, ""cold""","not yet"', ''];
    same(clueTable(editor), `${MARK}${lines.join('\r\n')}`);
    // it changes nothing where it came from
    same(changesOf(editor, clueTable(editor).slice(1)), { ...NOTHING, there: 2, empty: 1 });
    // and all in the same puzzle without clues
    const bare = puzzleOf({ '1 across': ['CAT', ''], '2 down': ['A.E', ''], '3 across': ['TOE', ''] });
    same(changesOf(bare, clueTable(editor).slice(1)), { ...NOTHING, changes: [['1 across', 'Mouser (3)', null], ['2 down', '=A <i>beer</i>, "cold"', 'not yet']], empty: 1 });
    // without notes there is no column for them
    same(clueTable(puzzleOf({ '1 across': ['CAT', 'Mouser'] })), `${MARK}"Number","Direction","Answer","Clue"\r\n"1","Across","CAT","Mouser"\r\n`);
  },

  'a table of clues is known by its first line'() {
    same(['Number,Direction,Answer,Clue\n', `${MARK}"No.";"Dir";"Clue"\n`, 'clue\tnumber\n1\t2\n'].map(kindOfText), ['clues', 'clues', 'clues']);
    same(['answer,clue\ncat,mouser\ndog,barker\n', 'cat;1\ndog;2\n'].map(kindOfText), ['other', 'list']);
    for (const [text, message] of [
      ['1,Across,Pebble', 'its first line names no columns Number (or Answer) and Clue'], ['', 'its first line names no columns Number (or Answer) and Clue'],
      ['Number,Clue\n1,a\0', 'it has a NUL, which no text has'], ['Number,Clue\n1,"a', 'line 2 has a quote that opens or closes no field'],
    ]) throws(() => readClueTable(text), { status: 'File', message });
  },

  'rows by number and direction'() {
    isChanged('Number,Direction,Clue\n1,Across, Pebble \n5,a,"Sheep\r\n sounds"\n1,DN,Set\n', { changes: [['1 across', 'Pebble', null], ['5 across', 'Sheep sounds', null], ['1 down', 'Set', null]] });
    isChanged('Clue,No.\nPebble,1A\nSounds,5 across\nSet,1-Down', { changes: [['1 across', 'Pebble', null], ['5 across', 'Sounds', null], ['1 down', 'Set', null]] });
    isChanged('Number;Direction;Clue\n1;Across;Pebble, or two', { changes: [['1 across', 'Pebble, or two', null]] });
    isChanged('Number,Direction,Clue\n8,Down,Lost\n1,Sideways,Lost\n,Across,Lost', { others: ['2: there is no 8 Down', ...[3, 4].map((line) => `${line}: it has no number with a direction, and no answer`)] });
  },

  'rows whose answer is another one'() {
    // that of a light which is not filled may have any letters in its empty cells
    isChanged('Number,Direction,Answer,Clue\n1,Down,set,Put\n', { changes: [['1 down', 'Put', null]] });
    isChanged('Number,Direction,Answer,Clue\n1,Down,S?T,Put\n', { changes: [['1 down', 'Put', null]] });
    isChanged('Number,Direction,Answer,Clue\n1,Down,SIX,VI\n1,Down,SEAT,Chair', { others: ['2: 1 Down is S?T here, and not SIX', '3: 1 Down is S?T here, and not SEAT'] });
    // the answer of a clue that goes on is that of all its lights, or of the first one
    isChanged('Number,Direction,Answer,Clue\n1/3dn,Across,stone oats,Pebbles\n', { changes: [['1 across', 'Pebbles', null]] });
  },

  'rows by answer'() {
    isChanged('Number,Direction,Answer,Clue\n9,Across,stóne,Pebble\n5,Across,o-ats,Feed\n', { changes: [['1 across', 'Pebble', null]], others: ['3: 3 Down goes on from 1 Across, so its clue stays'] });
    isChanged('Answer,Clue\nBAAS,Sounds\nTEN,Number\nTWO,Number\n,Number\nS?T,Put', {
      changes: [['5 across', 'Sounds', null]],
      others: ['3: TEN stands twice', '4: no light has TWO', '5: it has no number with a direction, and no answer', '6: no light has S?T'],
    });
  },

  'several rows for a light'() {
    // the first one with its number counts, and not one before it that has its answer alone
    isChanged('Number,Direction,Answer,Clue\n7,Across,STONE,Later\n1,Across,STONE,Pebble\n1,Across,STONE,Gem\n9,Down,PI,Lost\n', {
      changes: [['1 across', 'Pebble', null]], others: ['2: 1 Across is in line 3', '4: 1 Across is in line 3', '5: there is no 9 Down, and no light has PI'],
    });
  },

  'rows that change nothing, or a note alone'() {
    isChanged('Number,Direction,Clue,Note\n1,Across,Rock,\n6,Across,,\n3,Down,See 1 Across,yours\n6,Across,X,a ten\n', { changes: [['6 across', null, 'a ten'], ['3 down', null, 'yours']], there: 1, empty: 1 });
    // what is told before anything changes
    const told = (text) => foundText('clues.csv', clueChanges(PUZZLE, readClueTable(text)));
    same(told('Number,Direction,Clue,Note\n1,Across,Rock,\n5,Across,Sounds,hidden\n6,Across,,\n8,Down,Lost,\n'), 'clues.csv: 1 clue and 1 note will change; 1 row says what is there already; 1 row has no clue; 1 row is left out.');
    same(told('Number,Clue\n'), 'clues.csv: no clue will change.');
  },

  'how a word was clued'() {
    const entry = (clue, puzzle, at, title = '') => ({ word: 'ODDS', clue, puzzle, title, at });
    const [may, june, july] = [5, 6, 7].map((month) => new Date(2026, month - 1, 2, 12).getTime());
    const entries = [entry('Chances', 'a', may, 'Farm'), entry('Ends partner', 'b', june), entry('Chances', 'c', july, 'Races'), entry('Ratio', 'a', 0, 'Farm')];
    // the latest first, each clue once
    same(historyOf(entries).map(({ clue, uses }) => [clue, uses.map(({ puzzle }) => puzzle)]), [['Chances', ['c', 'a']], ['Ends partner', ['b']], ['Ratio', ['a']]]);
    same([countOf(entries), countOf(entries.slice(1, 2))], ['4, in 3 puzzles', '1, in 1 puzzle']);
    const date = (at) => new Date(at).toLocaleDateString(undefined, { day: 'numeric', month: 'short', year: 'numeric' });
    const [chances, ends, ratio] = historyOf(entries).map(({ uses }) => usesText(uses, 'b'));
    same([chances, ends, ratio], [`2 times: Races, ${date(july)}; Farm, ${date(may)}`, `this puzzle, ${date(june)}`, 'Farm, no date']);
    same(usesText([1, 2, 3, 4].map((at) => entry('Chances', String(at), 0, `P${at}`)), ''), '4 times: P1, no date; P2, no date; P3, no date; …');
  },

  'the clues of a session for the bank'() {
    const record = 'size 4 3\ntext title Farm ->\nblock 2 1\nset 1 1 O\nset 1 2 D\nset 1 3 D\nset 1 4 S\nset 3 1 A\ntext clue 1 1 across Chances\ntext clue 3 1 across Half done\ntext clue 1 2 down See 1\n';
    const session = { puzzle: 'p', record, at: 9, written: [['clue 1 2 down', 'DAD']], originals: [['title', 'Farm \u2192'], ['clue 1 1 across', '<i>Chances</i>']] };
    // one for a word that is not whole yet is none, nor is one that leads to another
    same(cluesIn(session), [{ word: 'ODDS', clue: '<i>Chances</i>', puzzle: 'p', at: 9, title: 'Farm \u2192' }]);
    same(cluesIn(session, 'clue 1 1 across'), []);
    same(cluesIn({ ...session, at: 1e300 })[0].at, 0);
    same(cluesIn({ ...session, originals: [], record: record.replace('Chances', 'x'.repeat(1001)) }), []);
  },

  'the bank as a table'() {
    const at = Date.UTC(2026, 4, 2, 8, 30, 15, 123);
    const entries = [
      { word: 'ODDS', clue: '=Chances, "even"', puzzle: 'p-1', title: '-Farm', at }, { word: 'BAAS', clue: 'Sounds', puzzle: 'p-1', title: '-Farm', at: 0 },
      { word: 'ODDS', clue: 'Ratio', puzzle: 'p-2', title: '', at: at - 1 },
    ];
    const table = bankTable(entries);
    same(table, [
      `${MARK}"Answer","Clue","Title","Date","Puzzle"`, '"BAAS","Sounds","\'-Farm","","p-1"', '"ODDS","Ratio","","2026-05-02T08:30:15.122Z","p-2"',
      '"ODDS","\'=Chances, ""even""","\'-Farm","2026-05-02T08:30:15.123Z","p-1"', '',
    ].join('\r\n'));
    same(readBankTable(table.slice(1)), { entries: [entries[1], entries[2], entries[0]], dropped: [] });
    // a table of another program, with what is none for the bank
    const other = ['word,clue,date', 'Ice cream,Cone filler,2026-05-02', 'Oats, Feed ,2 May', ',Lost,', 'CAT,,', 'C?T,Mouser,', 'DOG,See 1 Across,', 'A,Article,', `COW,${'x'.repeat(1001)},`, 'HEN,Layer,'].join('\n');
    same(readBankTable(other), {
      entries: [
        { word: 'ICECREAM', clue: 'Cone filler', title: '', at: Date.UTC(2026, 4, 2), puzzle: 'table ' }, { word: 'OATS', clue: 'Feed', title: '', at: 0, puzzle: 'table ' },
        { word: 'HEN', clue: 'Layer', title: '', at: 0, puzzle: 'table ' },
      ],
      dropped: ['a date that is not as 2026-11-30', '3 rows without an answer or a clue', '2 rows that are no clues of words', 'a row that is too long'],
    });
    throws(() => readBankTable('cat;60'), { status: 'File', message: 'its first line names no columns Answer and Clue' });
  },

  'clues that go when there are too many'() {
    const entries = Array.from({ length: 21 }, (_, at) => ({ word: 'ODDS', clue: String(at), puzzle: 'p', title: '', at: (at * 8) % 21 }));
    // of 21 where 20 may be, 19 stay: 0 and 1 are the oldest, as 8 * 8 = 64 = 3 * 21 + 1
    same(oldest(entries, 20).map(({ clue }) => clue), ['8', '0']);
  },
};

const count = new Count();
await count.runAll(CASES);
count.end();
