// Tests how scrambled solutions of .puz files are opened: by a key, by the search of all keys, and without letters. The files are scrambled here by the
// description of the format.
//
//   node web/test/scrambled.mjs
import { deepStrictEqual as same } from 'node:assert/strict';
import { Count } from './count.mjs';
import { pageModules } from './page-modules.mjs';
import { lockedPuzOf, puzOf, scrambledBy } from './puz.mjs';

const { isScrambled, keysOf, solutionBy, solutionOf, withoutLetters, wordsIn } = await pageModules('views/locked', 'formats/unscramble');

const textsOf = (count) => Array.from({ length: count + 4 }, () => Buffer.from(''));
const spelled = (solution) => solution && Buffer.from(solution).toString('latin1');
const turn = async () => {};
// with 3 lights across and 5 down
const GRID = { version: '1.3\0', width: 5, height: 3, solution: 'HORSESTEERLANDS', texts: textsOf(8) };
const locked = (key, more = {}) => lockedPuzOf({ ...GRID, key, ...more });

// What is asked of someone with these answers in turn, and what comes of it.
async function answering(bytes, answers, words = []) {
  const asked = [];
  const ask = async (told, maySearch) => {
    asked.push([told, maySearch]);
    const [answer = '', key = ''] = answers.shift() ?? [];
    return { answer, key };
  };
  const told = await solutionOf('a.puz', bytes, { ask, searching: () => {}, words: async () => words });
  return { asked, solution: spelled(told?.solution), found: told?.found };
}

// a key of this grid beside which another one fits by chance, before it in order
const SEVERAL = '9993';

const FIRST = ['The solution of a.puz is scrambled. Its key has four digits.', true];

const CASES = {
  'the example of the description'() {
    // ABCD over EF.G has the letters AEBFCDG, and by the key 1234 these are MLOOPKJ
    same(scrambledBy('1234', 'AEBFCDG'), 'MLOOPKJ');
    const bytes = lockedPuzOf({ version: '1.3\0', width: 4, height: 2, solution: 'ABCDEF.G', texts: textsOf(4), key: '1234' });
    same(spelled(bytes.subarray(0x34, 0x3c)), 'MOPKLO.J');
    same([isScrambled(bytes), spelled(solutionBy(bytes, '1234')), spelled(withoutLetters(bytes))], [true, 'ABCDEF.G', '------.-']);
    for (const key of ['1235', '4321', '', '123', '12345', '12a4']) same(solutionBy(bytes, key), null);
  },

  'every key opens its file'() {
    for (let key = 1; key <= 9999; key += 7) {
      const digits = String(key).padStart(4, '0');
      same(spelled(solutionBy(locked(digits), digits)), GRID.solution);
    }
    // an odd number of letters, and fewer than a digit says
    same(spelled(solutionBy(locked('9876', { solution: 'HORSE.TEERLANDS' }), '9876')), 'HORSE.TEERLANDS');
    same(spelled(solutionBy(lockedPuzOf({ version: '1.3\0', width: 2, height: 1, solution: 'AB', texts: textsOf(1), key: '1111' }), '1111')), 'AB');
  },

  async 'the search finds a key, with or without zeros, and lets the page have its turns'() {
    let turns = 0;
    const found = async (bytes) => keysOf(bytes, async () => turns++);
    same((await found(locked('9999'))).includes('9999'), true);
    // 6,561 keys of four rounds over 15 letters, at most 100,000 letters in a slice
    same(turns >= (6561 * 4 * 15) / 100000, true);
    same((await keysOf(locked('1111'), turn)).includes('1111'), true);
    // no key without zeros fits this one
    same((await keysOf(locked('7050'), turn)).includes('7050'), true);
    // letters that no program scrambles, and a file that is cut within its grid
    same(await keysOf(puzOf({ ...GRID, tag: 4, solution: 'HORSE7TEERLANDS' }), turn), []);
    same(await keysOf(locked('1111').subarray(0, 0x34 + 7), turn), []);
  },

  async 'what is asked'() {
    const bytes = locked('2718');
    const solution = GRID.solution;
    same(await answering(bytes, [['open', '2718']]), { asked: [FIRST], solution, found: ', unscrambled by the key 2718' });
    same(await answering(bytes, [['open', '2719'], ['open', ''], ['open', '2718']]), {
      asked: [FIRST, ['2719 is not the key of a.puz.', true], ['The key of a.puz has four digits.', true]], solution, found: ', unscrambled by the key 2718',
    });
    same(await answering(bytes, [['empty']]), { asked: [FIRST], solution: '-'.repeat(15), found: '' });
    same(await answering(bytes, [['cancel']]), { asked: [FIRST], solution: undefined, found: undefined });
    same(await answering(bytes, [['']]), { asked: [FIRST], solution: undefined, found: undefined });
    const wrong = puzOf({ ...GRID, tag: 4, solution: 'HORSE7TEERLANDS' });
    same((await answering(wrong, [['search'], ['open', '1111'], ['cancel']])).asked, [
      FIRST, ['None of the 9,999 keys fits a.puz: its solution, or the checksum of it, is damaged.', false], ['1111 is not the key of a.puz.', false],
    ]);
  },

  async 'of several keys that fit the one with the most words is taken'() {
    same(wordsIn(Buffer.from('HO.SESTEERLANDS'), 5), ['HO', 'SE', 'STEER', 'LANDS', 'HSL', 'OTA', 'EN', 'SED', 'ERS']);
    const bytes = locked(SEVERAL);
    const keys = await keysOf(bytes, turn);
    same(keys.length > 1 && keys.includes(SEVERAL), true);
    const { solution, found } = await answering(bytes, [['search']], ['HORSE', 'STEER', 'LANDS']);
    same([solution, found], [GRID.solution, `, unscrambled by the key ${SEVERAL}, the likeliest of ${keys.length} that fit`]);
  },
};
const count = new Count();
await count.runAll(CASES);
count.end();
