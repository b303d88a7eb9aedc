// Tests what the page knows of a setter's work beside the grid: italics, links of clues, colours, scores of one's own words, anagrams and hidden words.
//
//   node web/test/setting.mjs
//
// The last line is 'N passed, M failed'.
import { deepStrictEqual as same } from 'node:assert/strict';
import { Count } from './count.mjs';
import { pageModules } from './page-modules.mjs';

const {
  anagramsOf, brightened, PLAIN, changeBeside, closeWords, clueWords, colourIn, engineText, enumerationsOf, exolveOf, hasItalics, hiddenIn, isLanguage, isReference, joinPersonal, languagesFor, lengthsOfSpelling, linksOf,
  namedLights, nearDeadEnd,
  numbersOf, partedBy, partsOfText, readExolve, referenceTo, spelledLights, spelledLink, spokenOf, toggledItalics, withScores, withoutItalics,
} = await pageModules('model/changed', 'model/clue-words', 'model/colours', 'model/cryptic', 'model/enumeration', 'formats/exolve', 'model/kin', 'model/language', 'model/links', 'model/marks', 'model/near', 'model/record', 'views/spoken', 'formats/word-list');

const light = (number, direction, cells) => ({ name: `${number} ${direction}`, number: String(number), direction, cells });

// A board of so many lights, each in a row or a column of its own.
function boardOf(lights) {
  const at = (one) => `${lights.indexOf(one) + 1} 1`;
  return {
    lights, byName: new Map(lights.map((one) => [one.name, one])), cells: Array.from({ length: 100 }, () => ({})), clueField: (one) => `clue ${at(one)} ${one.direction}`,
    at: (coordinates) => Object.fromEntries(lights.filter((one) => at(one) === coordinates).map((one) => [one.direction, one])),
  };
}

const [one, two, four, down] = [light(1, 'across', [0]), light(2, 'across', [10]), light(4, 'across', [20]), light(4, 'down', [30])];

const CASES = {
  'italics of a text'() {
    const clue = 'Role in <i>Hamlet</i> or <i>Lear</i>?';
    same(partsOfText(clue), [
      { text: 'Role in ', isItalic: false }, { text: 'Hamlet', isItalic: true }, { text: ' or ', isItalic: false }, { text: 'Lear', isItalic: true }, { text: '?', isItalic: false },
    ]);
    same([hasItalics(clue), hasItalics('a < b'), withoutItalics(clue)], [true, false, 'Role in Hamlet or Lear?']);
    same(engineText('<i>Łódź</i> — 1'), { near: 'Lódz — 1', count: 2 });
    const put = toggledItalics('In Hamlet', 3, 9);
    same(put, { text: 'In <i>Hamlet</i>', start: 6, end: 12 });
    same(toggledItalics(put.text, put.start, put.end), { text: 'In Hamlet', start: 3, end: 9 });
    same(toggledItalics(put.text, 0, put.text.length), { text: 'In Hamlet', start: 0, end: 9 });
  },

  'links of lights'() {
    const board = boardOf([one, two, four, down]);
    same(namedLights(board, one, '2, 4 down'), { lights: [two, down], fault: null });
    same(namedLights(board, one, '4'), { lights: [four], fault: null });
    same(namedLights(board, down, '2/4a'), { lights: [two, four], fault: null });
    for (const [text, fault] of [['7', '7'], ['1', '1'], ['2, 2', '2'], ['2, x', 'x']]) same(namedLights(board, one, text), { lights: [], fault });
    const originals = new Map([['link 1 1 across', spelledLink(board, [two, down])]]);
    const { heads, headOf } = linksOf(board, originals);
    same([[...heads], [...headOf]], [[[one, [two, down]]], [[two, one], [down, one]]]);
    same([numbersOf(one, [two, down]), spelledLights(one, [two, down])], ['1/2/4dn', '2, 4 down']);
    same([referenceTo(two, one), referenceTo(down, one)], ['See 1', 'See 1 Across']);
    same(['See 1', 'See 12 Down', 'see 3 across', 'See 1 more', 'Seen'].map(isReference), [true, true, true, false, false]);
    // a light that is gone is in no link
    same([...linksOf(boardOf([one]), originals).heads], []);
  },

  'colours of cells'() {
    same(['#FFE680', 'ffe680', '#FE8', 'yellow', 'no colour', ''].map(colourIn), ['ffe680', 'ffe680', 'ffee88', 'ffe680', '', '']);
    // black letters can be read on each
    const bright = (colour) => [0, 2, 4].map((at) => parseInt(colour.slice(at, at + 2), 16)).reduce((sum, part, at) => sum + part * [0.299, 0.587, 0.114][at], 0);
    same(brightened('ffe680'), 'ffe680');
    for (const colour of ['000000', '000080', 'ff0000', '123456']) if (bright(brightened(colour)) < 189) throw new Error(`${colour} stays dark`);
  },

  'other scores in the personal list'() {
    same(withScores('', new Map([['CAT', 60]])), 'CAT;60');
    same(withScores('dot;95\ncat;10 # a note\n-ear', new Map([['CAT', 60], ['TOE', 0]])), 'dot;95\nCAT;60 # a note\n-ear\nTOE;0');
    same(withScores('cat;1\ncat;2', new Map([['CAT', 3]])), 'cat;1\nCAT;3');
    same(joinPersonal('CAT;60', withScores('CAT;60', new Map([['CAT', 60]]))).there, 1);
  },

  'words of one root'() {
    const areKin = (pair) => closeWords(pair.split(' ').map((word) => [word, word])).some(({ shared }) => !shared);
    for (const pair of ['ODDS ODD', 'WALKERS WALKING', 'STONE STONED', 'STALE STALES', 'STALER STALES', 'STALLED STALLS', 'HOPED HOPES', 'HOPPED HOPS', 'BOXES BOXER', 'PASSES PASS', 'FLY FLIES',
      'CARRIED CARRY', 'HAPPILY HAPPY', 'QUICKLY QUICK', 'RUNNER RUNS', 'BAKINGS BAKER']) same([pair, areKin(pair)], [pair, true]);
    for (const pair of ['STALES STALLS', 'STALLED STALER', 'HOPING HOPPING', 'HATS HATES', 'PLANED PLANNED', 'ERE ERR', 'SEED SEE', 'HISS HIS']) same([pair, areKin(pair)], [pair, false]);
  },

  'lengths of answers by the lists'() {
    same(["cross references", 're-sign', "o'clock", 'jack-in-the-box', 'Crème brûlée'.normalize('NFD').replace(/\p{M}/gu, '')].map(lengthsOfSpelling), ['5,10', '2-4', '6', '4-2-3-3', '5,6']);
    const bytes = (text) => new Uint8Array(Buffer.from(text));
    const lengths = (sources, { personal = '', plain = '' } = {}) =>
      Object.fromEntries(enumerationsOf(['CROSSREFERENCES', 'RESIGN', 'CREMEBRULEE', 'STONE'], { sources: sources.map((text) => ({ bytes: bytes(text) })), personal, plain: bytes(plain) }));
    // a list with phrases shows what is one word
    same(lengths(['cross references;50\nstone;40\ncrème brûlée;30']), { CROSSREFERENCES: '5,10', CREMEBRULEE: '5,6', STONE: '5' });
    // one that writes phrases in one word shows nothing, but the list of the page has single words
    same(lengths(['crossreferences;50\nstone;40\nresign;3']), {});
    same(lengths(['crossreferences;50\nstone;40\nresign;3'], { plain: 'stone' }), { STONE: '5' });
    // what is spelled in two ways is not sure
    same(lengths(['re-sign\nresign\nstone']), { STONE: '5' });
    same(lengths(['re-sign'], { plain: 'resign' }), {});
    same(lengths(['crossreferences;50'], { personal: 'cross references;70 # theme\nstone;5' }), { CROSSREFERENCES: '5,10' });
  },

  'parts of answers by the lengths of clues'() {
    const parts = (clue, answer) => partedBy(clue, answer).join(' ');
    same(['Dessert (3,5)', 'Dessert (3-5)', 'Dessert', 'Dessert (8)', 'Dessert (4,5)', 'Dessert (2 wds.)'].map((clue) => parts(clue, 'ICECREAM')), ['ICE CREAM', 'ICE CREAM', '', 'ICECREAM', '', '']);
    same(parts("Of the clock (1'5)", 'OCLOCK'), 'O CLOCK');
  },

  'words of answers in clues'() {
    // lights with answers and clues, of which the named ones go on in others
    const told = (answers, heads = {}) => {
      const lights = Object.keys(answers).map((name) => light(...name.split(' '), []));
      const named = (name) => lights.find((one) => one.name === name);
      const editor = {
        board: { lights }, textOf: (field) => answers[field.replace('clue ', '')][1] ?? '', answerOf: ({ name }) => answers[name][0],
        cluedWith: (one) => [one, ...(heads[one.name] ?? []).map(named)],
      };
      return clueWords(editor).map(({ light: { name }, word, in: other }) => `${name}: ${word} in ${other.name}`);
    };
    const alone = (answer, clue) => told({ '1 across': [answer, clue] });
    same(alone('STONE', 'A stone, or two STONES'), ['1 across: STONE in 1 across']);
    // whole words alone, with any signs around them, and none under four letters
    same(alone('STONE', 'Stones and headstones'), []);
    same(alone('STONE', "“Stone's” throw: STONE"), ['1 across: STONE in 1 across']);
    same(alone('THE', 'The article'), []);
    same(alone('ROLE', '<i>Rôle</i> of an actor'), ['1 across: ROLE in 1 across']);
    same(alone('OEUVRE', 'Painter’s œuvre'), ['1 across: OEUVRE in 1 across']);
    // a light that is not filled has no answer
    same(alone('ST.NE', 'Stone'), []);
    // words of an answer, by the lengths at the end of its clue; words side by side that spell it are told as one
    same(alone('ICECREAM', 'Frozen cream (3,5)'), ['1 across: CREAM in 1 across']);
    same(alone('ICECREAM', 'Frozen cream'), []);
    same(alone('ICECREAM', 'Ice-cream, or ice and cream (3,5)'), ['1 across: ICE CREAM in 1 across']);
    same(alone('ICECREAM', 'Ice, cream!'), ['1 across: ICE CREAM in 1 across']);
    // words of other answers, the first light of two that have one, and none that leads to a light
    same(told({ '1 across': ['STONE', 'Mine'], '1 down': ['MINE', 'Dig for a stone, with cream'], '2 down': ['ICECREAM', 'Cone filler (3,5)'], '3 down': ['CREAM', ''] }),
      ['1 across: MINE in 1 down', '1 down: STONE in 1 across', '1 down: CREAM in 2 down']);
    same(told({ '1 across': ['DOWN', 'See 2 Down'], '2 down': ['ACROSS', 'Opposite of 1-Across or 12 across'], '3 down': ['FEATHER', 'Bit of down'] }), ['3 down: DOWN in 1 across']);
    // a clue of several lights has the answer of all
    same(told({ '1 across': ['GREAT', 'Great barns'], '2 across': ['BARNS', 'See 1'] }, { '1 across': ['2 across'] }), ['1 across: GREAT BARNS in 1 across']);
    same(told({ '1 across': ['GREAT', 'Old barns'], '2 across': ['BARNS', 'See 1'] }, { '1 across': ['2 across'] }), ['1 across: BARNS in 1 across']);
  },

  'anagrams and hidden words'() {
    const words = ['NOTE', 'TONE', 'ETON', 'ON', 'TE', 'NO', 'ET', 'STONES', 'PLATE', 'NORTH', 'TEN', 'ORB', 'LISTEN', 'ORGAN'];
    same(anagramsOf('NOTE', words, 9), ['TONE', 'ETON', 'ON TE', 'ET ON', 'ET NO']);
    same(anagramsOf('NOTE', words, 2), ['TONE', 'ETON']);
    same(anagramsOf('TENOR', words, 9), []);
    same(hiddenIn('TONE', ['STONES', 'TONES', 'STONE', 'TONE'], 9), ['sTONEs']);
    same(hiddenIn('TENOR', words, 9).every((found) => found.replace(/[a-z ]/g, '') === 'TENOR'), true);
    same(hiddenIn('TENOR', words, 9).includes('lisTEN ORgan'), true);
    same(hiddenIn('TENOR', words, 9).includes('plaTE NORth'), true);
  },

  'the language of a puzzle'() {
    same(['en', 'en-GB', 'sr-Latn-RS', 'EN'].map(isLanguage), [true, true, true, true]);
    same(['', 'e', 'english', 'en_GB', 'en-', 'en GB', '"><b', 'en-GB\n'].map(isLanguage), Array(8).fill(false));
    const named = (language) => languagesFor(language).find(({ code }) => code === language)?.name;
    same([named('en-GB'), named('ca'), named('')], ['British English (en-GB)', 'Catalan (ca)', undefined]);
    same(languagesFor('ca').length, languagesFor('en-GB').length + 1);
    // Exolve has one with its script
    const text = (language) => `exolve-begin\n  exolve-language: ${language}\n  exolve-width: 2\n  exolve-height: 1\n  exolve-grid:\n    AB\nexolve-end\n`;
    const read = (language) => {
      const given = readExolve(text(language));
      return [given.recordWith([]).originals, given.dropped];
    };
    same([read('fr Latin'), read(''), read('<b> Latin')], [[[['language', 'fr']], []], [[], []], [[], ['the language']]]);
    const board = { width: 1, height: 1, cells: [{ letter: 'A', block: false }], lights: [] };
    const written = (language) => exolveOf(board, () => '', undefined, { ...PLAIN, language }).split('\n').filter((line) => line.includes('language'));
    same([written('fr'), written('')], [['  exolve-language: fr Latin'], []]);
  },

  'what is spoken of a light'() {
    same(spokenOf(light(1, 'down', [0, 1, 2, 3, 4, 5, 6]), ['T', 'O', 'N', '', '', '', '']), '1 Down, 7 letters, T O N blank blank blank blank');
    same(spokenOf(light(9, 'across', [0, 1]), ['', '']), '9 Across, 2 letters, all blank');
    same(spokenOf(light(9, 'across', [0, 1]), ['HEART', 'S']), '9 Across, 2 letters, H E A R T S');
  },

  'what is near a dead end'() {
    const cells = Array.from({ length: 9 }, () => ({ letter: '', left: '' }));
    const lights = [light(1, 'across', [0, 1, 2]), light(2, 'across', [3, 4, 5]), light(3, 'across', [6, 7, 8])];
    const board = { countOf: () => 0, cells, lights, byName: new Map(lights.map((one) => [one.name, one])), isEntered: ({ cells: own }) => own.every((cell) => cells[cell].letter), through: (cell) => [lights[Math.floor(cell / 3)]] };
    const none = { cells: new Set(), light: '' };
    cells.forEach((cell, at) => Object.assign(cell, { across: lights[Math.floor(at / 3)], down: null }));
    same(nearDeadEnd({ board, reason: none, edited: null }), null);
    same([...nearDeadEnd({ board, reason: none, edited: { cell: 4, direction: 'across' } })], [3, 4, 5]);
    same([...nearDeadEnd({ board, reason: { cells: new Set([8]), light: '1 across' }, edited: null })], [0, 1, 2, 6, 7, 8]);
    same(nearDeadEnd({ board: { ...board, lights: [] }, reason: none, edited: { cell: 4, direction: 'across' } }), null);
  },

  'what a step changes in notes, links and italics'() {
    const step = (originals) => ({ puzzle: 'p', record: 'size 2 2\n', written: [], originals });
    const changed = (originals) => changeBeside(step([]), step(originals), (place, direction) => `${place} ${direction}`);
    same(changed([['note 1 1 across', 'wordplay']]), { tab: 'clues', text: 'the note on 1 1 across' });
    same(changed([['link 1 1 across', '2 1 across']]), { tab: 'clues', text: 'the clue of 1 1 across' });
    same(changed([['clue 1 1 across', '<i>A</i>']]), { tab: 'clues', text: 'the clue of 1 1 across' });
    // it is in the grid
    same(changed([['colour 1 1', 'ffe680']]), null);
    same(changed([['language', 'en-GB']]), { tab: 'puzzle', text: 'the language' });
    same(changed([['note 1 1 across', 'wordplay'], ['clue 1 1 across', '<i>A</i>']]), { tab: 'clues', text: '1 1 across' });
    same(changed([['note 1 1 across', 'wordplay'], ['clue 2 1 across', '<i>A</i>']]), { tab: 'clues', text: '2 clues and notes' });
  },
};

const count = new Count();
await count.runAll(CASES);
count.end();
