// Tests what the page makes of files with faults: what it says of each, that what it opens is lawful, and that it loses nothing in silence. The files are
// spelled from the descriptions of the formats, and damaged here.
//
//   node web/test/repairs.mjs
import { Count } from './count.mjs';
import { pageModules } from './page-modules.mjs';
import { lockedPuzOf, puzOf } from './puz.mjs';
import { expect, openedOf, refused, same } from './reading.mjs';

const { closedJson, closedXml, readExolve, readIpuz, readPuz, readQxw, readText, readText2, solutionBy, withoutLetters } = await pageModules(
  'formats/cut', 'formats/exolve', 'formats/ipuz', 'formats/puz', 'formats/qxw', 'formats/text-grids', 'formats/unscramble',
);

const bytesOf = (...texts) => texts.map((text) => Buffer.from(text, 'latin1'));
// the lights are 1 across, 1 down, 2 down and 3 across, in this order
const CLUES = ['Firm', 'Also', 'Two', 'Ends'];
const SOUND = { version: '1.3\0', width: 3, height: 3, solution: 'COTA.OTIE' };
const puzWith = ({ clues = CLUES, ...more } = {}) => puzOf({ ...SOUND, texts: bytesOf('Title', '', '', ...clues, 'A note'), ...more });
const CLUED = { '1 across': 'Firm', '1 down': 'Also', '2 down': 'Two', '3 across': 'Ends' };

// What is opened of a puzzle with faults, and what is said of them.
function repaired(given) {
  const { rows, clues, texts, circles, lost, dropped } = openedOf(given);
  return { rows, clues, texts, circles, lost, dropped, repairs: given.repairs.lines };
}
const puzRepaired = (bytes) => repaired(readPuz(bytes));
const WHOLE = { rows: 'COT,A#O,TIE', clues: CLUED, texts: ['Title', '', '', 'A note'], circles: '', lost: 0, dropped: [] };
const changed = (bytes, ...changes) => {
  const made = Uint8Array.from(bytes);
  for (const [at, value] of changes) made[at] = value;
  return made;
};
const turned = (bytes, at) => changed(bytes, [at, bytes[at] ^ 1]);
// where the header has the version, the number of clues and the tag of a solution, and how long it is
const [VERSION, COUNT, TAG, HEADER] = [0x18, 0x2e, 0x32, 0x34];

const CASES = {
  '.puz: a sound file has no repairs'() {
    for (const version of ['1.2\0', '1.3\0', '1.4\0', '2.0\0']) same(puzRepaired(puzWith({ version })), { ...WHOLE, repairs: [] });
  },

  '.puz: each checksum by name'() {
    const parts = { 0: 'whole file', 0x0e: 'header', 0x10: 'header', 0x11: 'grid', 0x12: 'letters of a solver', 0x13: 'texts', 0x14: 'header', 0x15: 'grid', 0x16: 'letters of a solver', 0x17: 'texts' };
    for (const [at, part] of Object.entries(parts)) same(puzRepaired(turned(puzWith(), Number(at))), { ...WHOLE, repairs: [`the checksum of the ${part} is wrong`] });
    // a letter that was changed later
    const letter = puzRepaired(changed(puzWith(), [HEADER, 'D'.charCodeAt(0)]));
    same(letter, { ...WHOLE, rows: 'DOT,A#O,TIE', repairs: ['the checksum of the grid is wrong', 'the checksum of the whole file is wrong'] });
  },

  '.puz: digits, symbols, accents and hidden blocks in the grid'() {
    same(puzRepaired(puzWith({ solution: 'C7TA.\u00c9T\0E' })), {
      ...WHOLE, rows: 'C.T,A#E,T.E',
      repairs: ['row 1, column 2 has “7” for a letter: left empty', 'row 2, column 3 has “É” for a letter: read as E', 'row 3, column 2 has “\\x00” for a letter: left empty'],
    });
    same(puzRepaired(puzWith({ solution: 'COTA:OTIE' })), { ...WHOLE, repairs: ['1 block of a puzzle without a diagram (“:”): shown as blocks'], dropped: [] });
    const sections = [['GRBS', Buffer.from([0, 1, 0, 0, 0, 0, 0, 0, 0])], ['RTBL', Buffer.from(' 0:HEART;')]];
    same(puzRepaired(puzWith({ solution: 'C1TA.OTIE', sections })), { ...WHOLE, rows: 'C[HEART]T,A#O,TIE', repairs: ['row 1, column 2 has “1” for a letter: its letters HEART are taken'] });
  },

  '.puz: too few clues, too many, and another number in the header'() {
    same(puzRepaired(puzWith({ clues: CLUES.slice(0, 3) })), { ...WHOLE, clues: { '1 across': 'Firm', '1 down': 'Also', '2 down': 'Two' }, repairs: ['1 clue too few: the last word has none'] });
    same(puzRepaired(puzWith({ clues: ['Firm'] })), { ...WHOLE, clues: { '1 across': 'Firm' }, repairs: ['3 clues too few: the last words have none'] });
    same(puzRepaired(puzWith({ clues: [...CLUES, 'More', 'Most'] })), { ...WHOLE, repairs: ['a clue too many: “More” is left out', 'a clue too many: “Most” is left out'] });
    for (const [count, told] of [[2, '2 clues'], [9, '9 clues']]) {
      const repairs = ['the checksum of the header is wrong', 'the checksum of the whole file is wrong', `the header tells of ${told}: the file has 4`];
      same(puzRepaired(changed(puzWith(), [COUNT, count])), { ...WHOLE, repairs });
    }
  },

  '.puz: a file that is cut'() {
    const bytes = puzWith();
    const [few, ends] = ['1 clue too few: the last word has none', bytes.indexOf('Two')];
    const clues = { '1 across': 'Firm', '1 down': 'Also' };
    const texts = ['Title', '', '', ''];
    same(puzRepaired(bytes.subarray(0, ends + 2)), { ...WHOLE, texts, clues: { ...clues, '2 down': 'Tw' }, repairs: ['the file ends within a text: “Tw” is kept as far as it goes', few] });
    same(puzRepaired(bytes.subarray(0, ends + 4)), { ...WHOLE, texts, clues: { ...clues, '2 down': 'Two' }, repairs: ['the file ends before its last texts', few] });
    const none = '4 clues too few: the last words have none';
    same(puzRepaired(bytes.subarray(0, HEADER + 18)), { ...WHOLE, texts: ['', '', '', ''], clues: {}, repairs: ['the file ends before its texts', none] });
    const repairs = ['the file ends within its grid: what is missing is left empty', 'the file ends before its texts', none];
    same(puzRepaired(bytes.subarray(0, HEADER + 5)), { ...WHOLE, rows: 'COT,A#.,...', texts: ['', '', '', ''], clues: {}, repairs });
    for (const length of [0, 20, HEADER - 1]) expect(/ends too early/.test(refused(() => readPuz(bytes.subarray(0, length)))), 'half a header');
    expect(/size from 1/.test(refused(() => readPuz(changed(bytes, [0x2c, 0])))), 'no grid');
  },

  '.puz: sections, versions and tags'() {
    const circles = (...marks) => puzWith({ sections: [['GEXT', Buffer.from(marks)], ['LTIM', Buffer.from('1,1')]] });
    same(puzRepaired(circles(0x80, 0)), { ...WHOLE, dropped: ['the timer'], repairs: ['the circles are for another size of grid: they are left out'] });
    const whole = circles(0x80, 0, 0, 0, 0, 0, 0, 0, 0);
    same(puzRepaired(changed(whole, [whole.indexOf('GEXT') + 8 + 5, 0x80])), { ...WHOLE, circles: '1 1,2 3', dropped: ['the timer'], repairs: ['the checksum of the section GEXT is wrong'] });
    for (const [version, as] of [['9.9\0', '2.0'], ['1.7\0', '1.3']]) same(puzRepaired(puzWith({ version })).repairs, [`the version “${version.slice(0, 3)}” is not known: it is read as ${as}`]);
    const late = puzOf({ ...SOUND, version: '2.1\0', texts: ['\u2192', '', '', ...CLUES, ''].map((text) => Buffer.from(text)) });
    same(puzRepaired(late).texts, ['\u2192', '', '', '']);
    same(puzRepaired(changed(puzWith(), [TAG, 2])).repairs, ['the solution is called incomplete (tag 2): it is taken as it is', 'the checksum of the header is wrong', 'the checksum of the whole file is wrong']);
    // the last byte of the version says nothing
    same(puzRepaired(changed(puzWith(), [VERSION + 3, 'c'.charCodeAt(0)])).repairs, []);
  },

  '.puz: a scrambled solution, by its key and without letters'() {
    const sections = [['GRBS', Buffer.from([0, 1, 2, 0, 0, 0, 0, 0, 0])], ['RTBL', Buffer.from(' 0:OR; 1:1/2;')]];
    const bytes = lockedPuzOf({ ...SOUND, texts: bytesOf('Title', '', '', ...CLUES, 'A note'), sections, key: '2718' });
    const of = (file, solution) => repaired(readPuz(file, solution));
    same(of(bytes, solutionBy(bytes, '2718')), { ...WHOLE, rows: 'C[OR]T,A#O,TIE', dropped: ['the rebus in row 1, column 3 (1/2 is T now)'], repairs: [] });
    const empty = { ...WHOLE, rows: '...,.#.,...', dropped: ['the rebus in row 1, column 3 (1/2 is empty now)'] };
    same(of(bytes, withoutLetters(bytes)), { ...empty, repairs: [] });
    same(of(turned(bytes, 0), withoutLetters(bytes)), { ...empty, repairs: ['the checksum of the whole file is wrong'] });
  },

  '.puz: whatever the bytes are, what is opened is lawful'() {
    const sections = [['GRBS', Buffer.from([0, 1, 0, 2, 0, 0, 0, 0, 0])], ['RTBL', Buffer.from(' 0:HEART; 1:1/2;')], ['GEXT', Buffer.from([0x80, 0, 0, 0, 0, 0x80, 0, 0, 0])]];
    const sound = puzWith({ sections });
    let state = 7;
    const below = (count) => {
      state = (Math.imul(state, 1103515245) + 12345) & 0x7fffffff;
      return (state >>> 8) % count;
    };
    let opened = 0;
    for (let time = 0; time < 400; time++) {
      const bytes = changed(sound, ...Array.from({ length: 1 + below(4) }, () => /** @type {const} */ ([below(3) ? HEADER + below(sound.length - HEADER) : COUNT - 2 + below(6), below(256)])));
      // with a width or a height of at most 9, so that it takes no time
      for (const side of [0x2c, 0x2d]) bytes[side] %= 10;
      try {
        // the engine takes the record without a report, or this throws
        openedOf(readPuz(below(3) ? bytes : bytes.subarray(0, below(bytes.length))));
        opened++;
      } catch (fault) {
        expect(fault.status === 'File', `${time}: ${fault.message}`);
      }
    }
    expect(opened > 200, `${opened} are opened`);
  },

  'text of Across Lite: symbols, rows of another length, and clues too few or too many'() {
    const text = ({ size = ['3x3'], grid = ['COT', 'A.O', 'TIE'], across = ['Firm', 'Ends'], down = ['Also', 'Two'] } = {}) => [
      '<ACROSS PUZZLE>', '<TITLE>', 'Title', '<AUTHOR>', '<COPYRIGHT>', '<SIZE>', ...size, '<GRID>', ...grid, '<ACROSS>', ...across, '<DOWN>', ...down, '<NOTEPAD>', 'A note', '',
    ].join('\r\n');
    const of = (wrong) => repaired(readText(text(wrong)));
    same(of(), { ...WHOLE, repairs: [] });
    same(of({ grid: ['C7T', 'A.O-', 'TI'] }), { ...WHOLE, rows: 'C.T,A#O,TI.', repairs: [
      'row 2 has 1 cell too many: the last are left out', 'row 3 has 1 cell too few: they are left empty', 'row 1, column 2 has “7” for a letter: left empty',
    ] });
    same(of({ across: ['Firm'], down: ['Also', 'Two', 'More'] }), {
      ...WHOLE, clues: { '1 across': 'Firm', '1 down': 'Also', '2 down': 'Two' }, repairs: ['1 clue across too few: the last word has none', 'a clue down too many: “More” is left out'],
    });
    same(of({ across: [] }).repairs, ['2 clues across too few: the last words have none']);
    for (const size of [[], ['3 by 3']]) same(of({ size }), { ...WHOLE, repairs: ['the file gives no size: that of its rows is taken'] });
    same(repaired(readText(text().replace('Firm', 'Fi\0rm'))), { ...WHOLE, repairs: ['NULs are left out of its texts'] });
    // in version 2, with a cell of several letters and a circle
    const later = repaired(readText2(text({ size: ['3x3', '<REBUS>', 'MARK;', '1:HEART:H'], grid: ['C1T', 'a.7', 'TIE'] }).replace('PUZZLE>', 'PUZZLE V2>')));
    same(later, { ...WHOLE, rows: 'C[HEART]T,A#.,TIE', circles: '2 1', repairs: ['row 2, column 3 has “7” for a letter: left empty'] });
    const wide = repaired(readText2(text({ size: ['3x3', '<REBUS>', 'MARK;', '1:HEART:H'], grid: ['COT1', 'A.Oa', 'TIE'] }).replace('PUZZLE>', 'PUZZLE V2>')));
    same(wide, { ...WHOLE, repairs: [1, 2].map((row) => `row ${row} has 1 cell too many: the last are left out`) });
    expect(/size from 1/.test(refused(() => readText(text({ size: [], grid: [] })))) && /size from 1/.test(refused(() => readText(text({ size: ['0x3'] })))), 'no grid');
  },

  '.ipuz: symbols, rows of another length, and two clues for one place'() {
    const file = {
      version: 'http://ipuz.org/v2', kind: ['http://ipuz.org/crossword#1'], dimensions: { width: 3, height: 3 }, puzzle: [[1, 0, 2], [0, '#', 0, 0], [3, 0]],
      solution: [['C', '\u2665', 'T'], ['A', '#', '7', 'X'], ['\u0152', 'I', 'E']], clues: { Across: [[1, 'Firm'], [3, 'Ends'], [1, 'Firmer'], [8, 'Nowhere']], Down: [[1, 'Also']] },
    };
    const { rows, clues, lost, repairs } = repaired(readIpuz(JSON.stringify(file)));
    same({ rows, clues, lost }, { rows: 'C.T,A#.,[OE]IE', clues: { '1 across': 'Firmer', '3 across': 'Ends', '1 down': 'Also' }, lost: 1 });
    same(repairs, [
      'row 2 has 1 cell too many: the last are left out', 'row 3 has 1 cell too few: they are left empty', 'row 1, column 2 has “♥” for a letter: left empty',
      'row 2, column 3 has “7” for a letter: left empty', 'row 3, column 1 has “Œ” for a letter: read as OE', 'the solution is larger than the grid: letters outside are left out',
      'a clue has the place of another one: “Firm” is left out',
    ]);
    const rowsOf = (puzzle) => repaired(readIpuz(JSON.stringify({ ...file, puzzle, solution: undefined, clues: {} })));
    same([rowsOf([[1, 0, 2]]), rowsOf([[1, 0, 2], [0, 0, 0], [0, 0, 0], [0, 0, 0]])].map(({ rows: told, repairs: said }) => [told, said]), [
      ['...,...,...', ['the grid has 2 rows too few: they are left empty']], ['...,...,...', ['the grid has 1 row too many: the last are left out']],
    ]);
    expect(/rows/.test(refused(() => rowsOf('none'))) && /rows/.test(refused(() => rowsOf(['none', 'none', 'none']))), 'rows that are none');
  },

  '.ipuz: a file that is cut, or gives no size'() {
    const file = {
      version: 'http://ipuz.org/v2', kind: ['http://ipuz.org/crossword#1'], title: 'A "b" [c', dimensions: { width: 3, height: 3 }, puzzle: [[1, 0, 2], [0, '#', 0], [3, 0, 0]],
      solution: [['C', 'O', 'T'], ['A', '#', 'O'], ['T', 'I', 'E']], clues: { Across: [[1, 'Firm'], [3, 'Ends']], Down: [[1, 'Also'], [2, 'Two']] },
    };
    const text = JSON.stringify(file);
    const cutAt = (part) => repaired(readIpuz(text.slice(0, text.indexOf(part))));
    const cut = 'the file ends too early: what is there is taken';
    const [{ rows, clues, texts, repairs }, half, early] = [cutAt('wo"]'), cutAt('"I"'), cutAt(',0],[3,0,0]')];
    same([rows, clues, texts[0], repairs], ['COT,A#O,TIE', { '1 across': 'Firm', '3 across': 'Ends', '1 down': 'Also' }, 'A "b" [c', [cut]]);
    same([half.rows, half.clues, half.repairs], ['COT,A#O,T..', {}, [cut]]);
    same([early.rows, early.repairs], ['...,...,...', [cut, 'the grid has 1 row too few: they are left empty', 'row 2 has 2 cells too few: they are left empty']]);
    same(repaired(readIpuz(`ipuz(${text.slice(0, -1)}`)).repairs, [cut]);
    expect(/no crossword/.test(refused(() => cutAt('"kind"'))) && /size/.test(refused(() => cutAt('"dimensions"'))), 'what is there is no grid');
    const bare = repaired(readIpuz(JSON.stringify({ ...file, dimensions: undefined })));
    same([bare.rows, bare.repairs], ['COT,A#O,TIE', ['the file gives no size: that of its rows is taken']]);
  },

  'the begin of what is cut'() {
    const cut = { '{"a":[1,2': '{"a":[1]}', '{"a":[1,{"b":2},3': '{"a":[1,{"b":2}]}', '{"a":"x,]","b': '{"a":"x,]"}', '{"a":"\\\\",1': '{"a":"\\\\"}', '[': '[]', '[1,"a\\"': '[1]' };
    for (const [text, whole] of Object.entries(cut)) same(closedJson(text), whole);
    for (const text of ['', '1', '[1]', '[1}', '{"a":1}', ']']) same(closedJson(text), null);
    const xml = { '<a><b c="1"/><d>e f': '<a><b c="1"/><d>e f</d></a>', '<a><b>1</b><c x="': '<a><b>1</b></a>', '<a>b &am': '<a>b </a>', '<a>b &amp; c</': '<a>b &amp; c</a>', '<?xml version="1.0"?><x:a>': '<?xml version="1.0"?><x:a></x:a>' };
    for (const [text, whole] of Object.entries(xml)) same(closedXml(text), whole);
    for (const text of ['', 'text', '<a/>', '<a><b></a>', '</a>']) same(closedXml(text), null);
  },

  'Exolve and Qxw: symbols, and cells outside the grid'() {
    const exolve = (...rows) => repaired(readExolve(['exolve-begin', 'exolve-width: 3', 'exolve-height: 2', 'exolve-grid:', ...rows, 'exolve-end'].join('\n')));
    same([exolve('A7C', 'DEF').rows, exolve('A7C', 'DEF').repairs], ['A.C,DEF', ['row 1, column 2 has “7” for a letter: left empty']]);
    same([exolve('AB', 'D.EF').rows, exolve('AB', 'D.EF').repairs], ['AB.,D#E', ['row 1 has 1 cell too few: they are left empty', 'row 2 has 1 cell too many: the last are left out']]);
    same(exolve('ABC').repairs, ['the grid has 1 row too few: they are left empty']);
    const cells = ['SQ 0 0 0 0 0 A', 'SQ 1 0 0 0 0 B', 'SQ 2 0 0 0 0 C', 'SQCT 5 0 0 "D"'];
    const { rows, repairs } = repaired(readQxw(['#QXW2v4 http://www.quinapalus.com', 'GP 0 2 1 2 0 0', ...cells].join('\n')));
    same([rows, repairs], ['AB', ['a cell lies outside the grid, in row 1, column 3: it is left out', 'a cell lies outside the grid, in row 1, column 6: it is left out']]);
  },
};

const count = new Count();
await count.runAll(CASES);
count.end();
