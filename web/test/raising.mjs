// Tests how a fill is raised and its words are mended, with workers and a session that the cases answer for: what a worker is told, what its answer changes, when
// the search ends, and which cells are emptied around a light.
//
//   node web/test/raising.mjs
//
// The last line is 'N passed, M failed'.
import { deepStrictEqual as same } from 'node:assert/strict';
import { Count } from './count.mjs';
import { pageModules } from './page-modules.mjs';
import { boardsOf } from './rows.mjs';

// what messages need of a browser
Object.assign(globalThis, { navigator: globalThis.navigator ?? { platform: '' }, document: { createElement: () => element() } });

const {
  Board, Filler, Lists, MOST_IDLE, Mender, Race, Raiser, gradeFrom, holderText, offerText, partAround, partsAround, progressText, timeText, useMessages, weakestOf,
} = await pageModules('engine/race', 'engine/raising', 'views/improving', 'model/grades', 'store/lists', 'model/board', 'engine/mending', 'model/weak-words', 'engine/fill', 'views/messages');

// An element that takes what a message does to it.
function element() {
  return { dataset: {}, append() {}, prepend() {}, toggleAttribute() {}, classList: { toggle() {} }, firstElementChild: null, childElementCount: 0 };
}

// The messages, in order.
const said = [];
useMessages({ line: Object.defineProperty(element(), 'textContent', { set: (text) => said.push(text) }), toast: element(), history: element(), warnings: element() });

const SEEDS = 1000003;

// A race from a fill whose worst word has grade 40.
const raceOf = (given = {}) => new Race({ grade: 40, sum: 400, bound: 101, seed: 7, workers: 2, ...given });
const filled = (grade, sum, bound = 101) => ({ answer: 'filled', grade, sum, bound, letters: [] });
const limit = (bound = 101) => ({ answer: 'limit', bound });
const leastOf = (race, at) => race.next(at).least;
// Has a worker be answered for its next slice.
const answered = (race, at, told) => race.take(at, race.next(at), told);

const boardOf = boardsOf(Board);
const recordOf = (board, texts = []) => [`size ${board.width} ${board.height}`, ...board.cells.filter(({ letter }) => letter).map(({ coordinates, letter }) => `set ${coordinates} ${letter}`), ...texts, ''].join('\n');
const pencilOf = (board, ...ink) => new Set(board.cells.filter(({ letter, coordinates }) => letter && !ink.includes(coordinates)).map(({ coordinates }) => coordinates));

// A session with a fill, as far as a raising needs it. `grades` are those of words.
class Session {
  list = { weak: 50, best: 100, apart: false, scored: true };
  texts = [];
  entered = [];
  #steps = [];

  constructor(board, grades, ...ink) {
    this.board = board;
    this.grades = grades;
    this.pencil = pencilOf(board, ...ink);
  }

  engine = {
    call: async (name, { words, lines, given }) => {
      if (name === 'grades') return words.map((word) => this.grades[word] ?? null);
      if (name !== 'autofill') return { refusal: null, lines };
      this.given.push(given.join(' '));
      this.sliced();
      if (this.given.length <= this.barren) return { answer: 'limit' };
      this.#enter(this.first);
      return { answer: 'filled' };
    },
  };

  ahead = [];
  // the lights that are chosen, and the lines of the first fill that the session finds
  chosen = new Set();
  first = [];

  get state() {
    return { record: this.record };
  }

  get record() {
    return recordOf(this.board, this.texts);
  }

  on(names, action) {
    if (names.includes('step')) this.#steps.push(action);
  }

  fill = { isRunning: false, isImproving: false, progress: null };
  // how far the fill was, each time that it was told
  progress = [];

  change({ fill = null }) {
    if (!fill) return;
    this.fill = fill;
    this.progress.push(fill.progress);
  }

  takes() {}

  // what each slice of a search in the session was given, what is done then, and how many of them find nothing
  given = [];
  sliced = () => {};
  barren = 0;

  async restore() {}

  inOrder = async (action) => action();

  ask = async () => this.board.lights.map((light) => ({ light: light.name, grade: this.grades[this.board.spell(light)] }));

  #enter(lines) {
    for (const line of lines) {
      const [, row, column, letter = ''] = line.split(' ');
      this.board.at(`${row} ${column}`).letter = letter;
    }
  }

  async edit(lines, { only = null, pencil = null } = {}) {
    await null;
    // what is done ahead of it
    this.ahead.splice(0).forEach((action) => action());
    if (only !== null && only !== this.record) return 'Changed';
    this.#enter(lines);
    if (pencil) this.pencil = pencil;
    if (only !== null) this.entered.push(this.row(1));
    this.#tell();
    return null;
  }

  // The letters of a row.
  row(number) {
    return this.board.cells.filter(({ coordinates }) => coordinates.startsWith(`${number} `)).map(({ letter }) => letter || '.').join('');
  }

  // Writes a clue.
  write(text) {
    this.texts = [`text clue 1 1 across ${text}`];
    this.#tell();
  }

  #tell() {
    for (const action of this.#steps) action();
  }
}

// Workers that a case answers for: `asked` has the calls of `best` in order, each with what answers it.
class Workers {
  asked = [];
  // the names of other calls
  others = [];
  #waiting = [];

  constructor(most) {
    this.most = most;
  }

  begin(record, count) {
    this.begun = record;
    return Array.from({ length: count }, async (_, at) => ({ call: (name, sent) => this.#call(at, name, sent) }));
  }

  #call(at, name, sent) {
    if (name !== 'best') this.others.push(name);
    if (name === 'forced') return Promise.resolve({ lights: [], near: null });
    if (name !== 'best') return Promise.resolve(null);
    return new Promise((answer, fail) => {
      this.asked.push({ at, sent, answer, fail });
      for (const due of this.#waiting.splice(0)) due();
    });
  }

  // The call of `best` with a number, once it is there.
  async call(number) {
    while (this.asked.length <= number) await new Promise((resolve) => this.#waiting.push(resolve));
    return this.asked[number];
  }
}

const lettersOf = (word) => [...word].map((letter, at) => `set 1 ${at + 1} ${letter}`);
const found = (word, grade, bound = 101) => ({ answer: 'filled', grade, sum: grade, bound, letters: lettersOf(word) });

// Five words in a chain: CAT crosses TOE, which crosses EAR, which crosses RAT, which crosses TEA.
const CHAIN = ['CAT####', '##O####', '##EAR##', '####A##', '####TEA'];
const CHAIN_GRADES = { CAT: 40, TOE: 30, EAR: 50, RAT: 40, TEA: 90, COT: 60, TIE: 70 };
// its letters with others in the first row and column
const chainWith = (...others) => [...new Map([...boardOf(...CHAIN).cells.filter(({ letter }) => letter).map(({ coordinates, letter }) => [coordinates, letter]), ...others])].map(([coordinates, letter]) => `set ${coordinates} ${letter}`);

// A search for better words around CAT in that grid.
function mending({ most = 1, ink = [] } = {}) {
  const [session, workers] = [new Session(boardOf(...CHAIN), CHAIN_GRADES, ...ink), new Workers(most)];
  const mender = new Mender(session, workers);
  return { session, workers, mender, ended: mender.run(session.board.byName.get('1 across'), 7) };
}

// The fills of an empty light of three letters: the session finds CAT first.
function filling({ list = {} } = {}) {
  const [session, workers] = [new Session(boardOf('...'), { CAT: 10, COT: 30, TAR: 80 }), new Workers(1)];
  Object.assign(session, { first: lettersOf('CAT'), list: { ...session.list, target: null, sources: [], ...list } });
  Object.assign(workers, { rest() {}, warm() {} });
  const figures = { worst: '', boundOf: () => 101, prove: async ({ bound }) => `no fill has ${bound}` };
  const filler = new Filler(session, workers, { add() {} }, figures);
  said.length = 0;
  return { session, workers, filler, shown: session.progress };
}

// A raising of the word CAT, which has grade 10, until no word is better.
function improving({ most = 1, ...given } = {}) {
  const [session, workers, tried] = [new Session(boardOf('CAT'), { CAT: 10, COT: 30, TAR: 80 }), new Workers(most), []];
  const raiser = new Raiser(session, workers, () => {}, (told) => tried.push(told));
  const run = { base: 'size 3 1\n', names: [], cells: ['1 1', '1 2', '1 3'], seed: 7, grade: 10, sum: 10, bound: 101, isEndless: true, ...given };
  return { session, workers, tried, raiser, ended: raiser.run(run) };
}

const CASES = {
  'each worker is told the best grade of all'() {
    const race = raceOf();
    same([race.next(0), race.next(1)], [{ least: 41, seed: 7, stage: 0 }, { least: 41, seed: 7 + SEEDS, stage: 0 }]);
    same(answered(race, 0, filled(50, 500)), 'better');
    // the one that found it also looks for a better mean, the other for a better worst word
    same([leastOf(race, 0), leastOf(race, 1)], [50, 51]);
    same(answered(race, 0, filled(50, 480)), 'none');
    same(answered(race, 0, filled(50, 520)), 'better');
    same(answered(race, 1, filled(60, 510)), 'better');
    same([leastOf(race, 0), leastOf(race, 1), race.grade, race.sum], [61, 60, 60, 510]);
    // what a slice finds that began before is no better any more
    same(answered(race, 0, filled(55, 900)), 'none');
    same([race.grade, race.sum], [60, 510]);
  },

  'the lowest bound of all workers counts'() {
    const race = raceOf({ bound: 90 });
    answered(race, 0, limit(95));
    same(race.proved, 90);
    answered(race, 1, limit(80));
    answered(race, 0, limit(85));
    same(race.proved, 80);
    same(answered(race, 0, { answer: 'limit', bound: null }), 'none');
    same([race.proved, race.isBlocked], [80, false]);
    // that there is no fill is a bound at the least grade
    answered(race, 0, { answer: 'nofill' });
    same([race.proved, race.isBlocked], [41, true]);
    same(race.take(0, race.next(0), { answer: 'NoLight' }), 'refused');
  },

  'words are held where no fill is better'() {
    const race = raceOf();
    const early = race.next(1);
    answered(race, 0, filled(50, 500, 51));
    same([race.isBlocked, race.isMet], [true, false]);
    race.hold({ names: ['2 down'], forced: ['2 down'], grade: 70, sum: 450 });
    same([race.grade, race.bound, race.proved, race.isBlocked], [70, 101, 51, false]);
    // a worker is told of it before its next slice, and what it found before is late
    same(race.take(1, early, filled(90, 900)), 'late');
    same([race.catchesUp(1), race.catchesUp(1), race.catchesUp(0)], [true, false, true]);
    same([leastOf(race, 0), leastOf(race, 1)], [71, 71]);
    answered(race, 1, limit(80));
    same([race.bound, race.proved], [80, 51]);
    same(answered(race, 1, filled(75, 460)), 'better');
    // the others may have the grade that a worker found before, which is none of its own in this stage
    race.hold({ names: ['4 down'], forced: [], grade: 75, sum: 400 });
    same([race.catchesUp(1), leastOf(race, 1)], [true, 76]);
    // where all others have the best grade no more is wanted
    race.hold({ names: ['3 down'], forced: [], grade: Infinity, sum: 0 });
    same([race.grade, race.isMet, race.held.length], [100, true, 3]);
  },

  'a race ends at its target'() {
    const race = raceOf({ target: 60 });
    same([race.isMet, race.isReached], [false, false]);
    answered(race, 0, filled(59, 500));
    same(race.isMet, false);
    answered(race, 0, filled(60, 500));
    same([race.isMet, race.isReached], [true, true]);
    same(raceOf({ target: 40 }).isMet, true);
    // where a word is proved to stay below, the others have to meet it
    const part = raceOf({ target: 60, bound: 41 });
    part.hold({ names: ['2 down'], forced: ['2 down'], grade: 50, sum: 350 });
    same([part.isMet, part.isReached, part.catchesUp(0)], [false, false, true]);
    answered(part, 0, filled(60, 360));
    same([part.isMet, part.isReached], [true, false]);
    // one that no word has ends it where all words have the best grade
    const high = raceOf({ target: Infinity });
    answered(high, 0, filled(100, 700));
    same([high.isMet, high.isReached], [true, false]);
  },

  'the grade that a score asks for'() {
    same([gradeFrom(0, 100), gradeFrom(60, 100), gradeFrom(100, 100), gradeFrom(101, 100)], [0, 60, 100, Infinity]);
    // of a list up to 5 grade 3 has the score 3; what is between whole scores asks for the next one
    same([gradeFrom(3, 5), gradeFrom(3.5, 5), gradeFrom(6, 5)], [3, 4, Infinity]);
    // of a list up to 250 grade 50 has the scores 125 to 127, and grade 51 those from 128
    same([gradeFrom(125, 250), gradeFrom(126, 250), gradeFrom(128, 250), gradeFrom(250, 250)], [50, 51, 51, 100]);
  },

  'the target is kept with the lists'() {
    const lists = Lists.builtIn({ name: 'built-in', bytes: new Uint8Array(3) });
    same([lists.target, lists.chosen.target], [null, null]);
    const aimed = lists.choosing({ target: 60 }).switching('built-in', false).withPersonal('cat;9').atLeast(5);
    same([aimed.target, aimed.chosen.target], [60, 60]);
    // what an older page kept has none, and another list has other scores
    same(new Lists({ parts: [] }).target, null);
    same(aimed.adding('other.txt', new Uint8Array(2)).target, null);
  },

  'a worker that finds nothing better takes another seed'() {
    const race = raceOf();
    answered(race, 0, filled(50, 500));
    for (let slice = 1; slice < MOST_IDLE; slice++) answered(race, 0, limit());
    same([race.startsAnew(0), race.next(0)], [false, { least: 50, seed: 7, stage: 0 }]);
    answered(race, 0, limit());
    same([race.startsAnew(0), race.startsAnew(0)], [true, false]);
    // the next seed that no worker has had; its own fill is none of the new search
    same(race.next(0), { least: 51, seed: 7 + 2 * SEEDS, stage: 0 });
    for (let slice = 1; slice <= MOST_IDLE; slice++) answered(race, 1, limit());
    same([race.startsAnew(1), race.next(1).seed, race.next(0).seed], [true, 7 + 3 * SEEDS, 7 + 2 * SEEDS]);
    // a better fill counts from anew
    answered(race, 0, filled(60, 600));
    for (let slice = 1; slice < MOST_IDLE; slice++) answered(race, 0, limit());
    same(race.startsAnew(0), false);
  },

  async 'a raising goes on until no fill is better'() {
    const { session, workers, tried, ended } = improving({ most: 2 });
    (await workers.call(1)).answer(found('COT', 30));
    // the one that found it goes on from there, and the other is told of it before its next slice
    same([(await workers.call(2)).at, workers.asked[2].sent.least, session.row(1)], [1, 30, 'COT']);
    workers.asked[0].answer(limit(95));
    same([(await workers.call(3)).at, workers.asked[3].sent.least], [0, 31]);
    // as many slices as it takes; one that finds nothing for long has its words again, and another seed
    for (let slice = 2; slice < 200; slice++) (await workers.call(slice)).answer(limit(95));
    const seeds = new Set(workers.asked.map(({ sent: { given: [, seed] } }) => seed));
    same([seeds.size > 2, workers.others.filter((name) => name === 'unstrike').length], [true, seeds.size - 2]);
    (await workers.call(200)).answer(found('TAR', 80, 81));
    same(await ended, { proved: 81, held: [{ names: ['1 across'], forced: [] }], isReached: false, isStopped: false, isChanged: false });
    same([session.entered, workers.begun], [['COT', 'TAR'], 'size 3 1\n']);
    const [{ seconds, ...told }] = tried;
    same([told, Number.isInteger(seconds)], [{ least: 11, bound: 101, isPart: false, isEndless: true }, true]);
  },

  async 'a raising ends at its target'() {
    const { session, workers, ended } = improving({ target: 30 });
    (await workers.call(0)).answer(limit(95));
    (await workers.call(1)).answer(found('COT', 30));
    same(await ended, { proved: 95, held: [], isReached: true, isStopped: false, isChanged: false });
    same([session.row(1), workers.asked.length], ['COT', 2]);
    // it may be met from the start
    const met = improving({ target: 10 });
    same([(await met.ended).isReached, met.workers.asked.length], [true, 0]);
  },

  async 'another target while a fill is raised'() {
    const { workers, raiser, ended } = improving();
    (await workers.call(0)).answer(found('COT', 30));
    await workers.call(1);
    raiser.aim(80);
    same(raiser.isRunning, true);
    raiser.aim(30);
    same((await ended).isReached, true);
  },

  async 'a raising that ends by time goes on if it is told to'() {
    const { workers, raiser, ended } = improving({ isEndless: false, target: 5 });
    await workers.call(0);
    // one that ends by time has no target
    raiser.aim(5);
    same([raiser.isRunning, raiser.isEndless], [true, false]);
    raiser.goOn(80);
    same([raiser.isRunning, raiser.isEndless], [true, true]);
    workers.asked[0].answer(found('TAR', 80));
    same((await ended).isReached, true);
  },

  async 'a raising that is stopped'() {
    const { session, workers, raiser, ended } = improving();
    await workers.call(0);
    same([raiser.isRunning, raiser.isEndless], [true, true]);
    raiser.stop();
    same(await ended, { proved: 101, held: [], isReached: false, isStopped: true, isChanged: false });
    (await workers.call(0)).answer(found('TAR', 80));
    same([raiser.isRunning, session.row(1), workers.asked.length], [false, 'CAT', 1]);
  },

  async 'an edit of the grid ends a raising, and a text does not'() {
    const { session, workers, ended } = improving();
    await workers.call(0);
    session.write('Pet');
    (await workers.call(0)).answer(found('COT', 30));
    await workers.call(1);
    same([session.row(1), session.texts], ['COT', ['text clue 1 1 across Pet']]);
    // a clue that comes while a better fill is on its way
    session.ahead.push(() => session.write('Bed'));
    (await workers.call(1)).answer(found('TAR', 80));
    await workers.call(2);
    same([session.row(1), session.texts], ['TAR', ['text clue 1 1 across Bed']]);
    await session.edit(['set 1 1 B']);
    const { isStopped, isChanged } = await ended;
    same([isStopped, isChanged, session.row(1)], [false, true, 'BAR']);
  },

  async 'a raising that begins while another one goes on'() {
    const { session, workers, raiser, ended } = improving();
    await workers.call(0);
    raiser.stop();
    const other = raiser.run({ base: 'size 3 1\n', names: [], cells: ['1 1', '1 2', '1 3'], seed: 8, grade: 10, sum: 10, bound: 101, isEndless: true });
    same([(await ended).isStopped, raiser.isRunning], [true, true]);
    // what the first one finds late is none of the second
    (await workers.call(0)).answer(found('TAR', 80));
    (await workers.call(1)).answer(found('COT', 30, 31));
    same([(await other).proved, session.entered], [31, ['COT']]);
  },

  async 'workers that fail leave a raising to the others'() {
    const fault = Object.assign(new Error('memory'), { status: 'Memory' });
    const { workers, raiser, ended } = improving({ most: 2 });
    (await workers.call(0)).fail(fault);
    (await workers.call(1)).answer(limit());
    same([raiser.isRunning, (await workers.call(2)).at], [true, workers.asked[1].at]);
    workers.asked[2].fail(fault);
    same((await ended).isStopped, false);
  },

  async 'a fill is searched in slices, until it is found or stopped'() {
    const { session, filler, shown } = filling({ list: { scored: false } });
    session.barren = 2;
    await filler.run(false);
    // they are quick here, so each has twice as many placements as the one before
    same([session.row(1), session.given], ['CAT', ['1000 0', '2000 0', '4000 0']]);
    same(shown.filter(Boolean).map(({ part, placements }) => [Math.round(part * 170000), placements]), [[0, 0], [1000, 1000], [3000, 3000]]);
    const other = filling();
    Object.assign(other.session, { barren: Infinity, sliced: () => other.session.given.length === 2 && other.filler.stop() });
    await other.filler.run(false);
    same([other.session.row(1), other.session.given.length, said.at(-1)], ['...', 2, 'stopped; the grid is as it was']);
    // one that is stopped goes on with its seed, and one that has made all its placements takes another one
    const { session: hard, filler: trying } = other;
    Object.assign(hard, { given: [], sliced: () => {} });
    await trying.run(false);
    const [first, last] = [hard.given[0], hard.given.length];
    await trying.run(false);
    same([first, hard.given[last]], ['1000 0', '1000 1']);
  },

  async 'the first fill does not wait for its raising, which goes on from it'() {
    const { session, workers, filler } = filling();
    const ended = filler.run(false);
    const { sent } = await workers.call(0);
    // no slice has an answer yet
    same([session.row(1), [...session.pencil], filler.isRunning, filler.isRaising, filler.isImproving], ['CAT', ['1 1', '1 2', '1 3'], false, true, false]);
    same([sent.least, workers.begun], [11, 'size 3 1\nset 1 1 C\nset 1 2 A\nset 1 3 T\nclear 1 1\nclear 1 2\nclear 1 3\n']);
    workers.asked[0].answer(found('TAR', 80, 81));
    await ended;
    same([session.row(1), said.at(-1)], ['TAR', 'filled: no fill has 81']);
  },

  async 'Keep improving fills, raises, and stops'() {
    const { session, workers, filler, shown } = filling();
    const ended = filler.improve();
    await workers.call(0);
    same([session.row(1), filler.isImproving, said.at(-1)], ['CAT', true, 'filled; its worst word is raised until no fill is better, or Esc stops it']);
    same(shown.at(-1).isRaising, true);
    filler.improve();
    await ended;
    same([filler.isImproving, said.at(-1), shown.at(-1), session.row(1)], [false, 'stopped: no fill has 101', null, 'CAT']);
    // again, from the fill that is there, until none is under a score
    session.list = { ...session.list, target: 30 };
    const again = filler.improve();
    await workers.call(1);
    same(said.at(-1), 'filled; its worst word is raised until none is under 30, or Esc stops it');
    workers.asked[1].answer(found('COT', 30));
    await again;
    same([session.row(1), said.at(-1)], ['COT', 'none is under 30: no fill has 101']);
  },

  async 'Keep improving takes over a raising that would end by time'() {
    const { workers, filler } = filling();
    const ended = filler.run(false);
    await workers.call(0);
    filler.improve();
    same([filler.isImproving, said.at(-1)], [true, 'filled; its worst word is raised until no fill is better, or Esc stops it']);
    filler.stop();
    await ended;
    same(said.at(-1), 'stopped: no fill has 101');
  },

  'what is emptied around a light'() {
    const board = boardOf(...CHAIN);
    const around = (name, pencil = pencilOf(board), kept = []) => {
      const { cells, lights } = partAround(board, pencil, board.byName.get(name), kept.map((one) => board.byName.get(one)));
      return [cells, lights.map((light) => light.name)];
    };
    same(board.lights.map((light) => [light.name, board.spell(light)]), [['1 across', 'CAT'], ['2 down', 'TOE'], ['3 across', 'EAR'], ['4 down', 'RAT'], ['5 across', 'TEA']]);
    // the light, the one that crosses it, and the one that crosses that; RAT loses a letter
    same(around('1 across'), [['1 1', '1 2', '1 3', '2 3', '3 3', '3 4', '3 5'], ['1 across', '2 down', '3 across', '4 down']]);
    same(around('3 across')[0].length, 11);
    // letters in ink stay, and those of lights that are kept
    same(around('1 across', pencilOf(board, '1 3', '3 4'))[0], ['1 1', '1 2', '2 3', '3 3', '3 5']);
    same(around('1 across', pencilOf(board), ['2 down', '4 down']), [['1 1', '1 2', '3 4'], ['1 across', '3 across']]);
    // a letter that is in no entered light would stay empty
    const open = boardOf('CAT####', '##O####', '##E.R##', '####.##', '####TEA');
    const { cells, lights } = partAround(open, pencilOf(open), open.byName.get('1 across'));
    same([cells, lights.map(({ name }) => name)], [['1 1', '1 2', '1 3', '2 3', '3 3'], ['1 across', '2 down']]);
  },

  'words that are no better stay where all cannot get better'() {
    const board = boardOf(...CHAIN);
    const parts = (pencil) => partsAround(board, pencil, board.byName.get('1 across'), (light) => CHAIN_GRADES[board.spell(light)]).map(({ cells }) => cells);
    same(parts(pencilOf(board)), [['1 1', '1 2', '1 3', '2 3', '3 3', '3 4', '3 5'], ['1 1', '1 2', '3 4']]);
    // the light itself is locked
    same(parts(pencilOf(board, '1 1', '1 2', '1 3')), []);
    // each letter of the light is in a word that is no better
    const square = boardOf('AB', 'CD');
    const graded = { AB: 60, CD: 70, AC: 50, BD: 50 };
    same(partsAround(square, pencilOf(square), square.byName.get('1 across'), (light) => graded[square.spell(light)]).map(({ cells }) => cells), [['1 1', '1 2', '2 1', '2 2']]);
    // where all others are better there is one try
    const other = { AB: 10, CD: 70, AC: 50, BD: 50 };
    same(partsAround(square, pencilOf(square), square.byName.get('1 across'), (light) => other[square.spell(light)]).length, 1);
  },

  async 'better words around a light are an offer'() {
    const { session, workers, mender, ended } = mending();
    const { sent } = await workers.call(0);
    same([sent.least, sent.given, sent.cells], [41, [2000, 7, '1 across', '2 down', '3 across', '4 down'], ['1 1', '1 2', '1 3', '2 3', '3 3', '3 4', '3 5']]);
    same([mender.isRunning, workers.begun], [true, recordOf(session.board) + sent.cells.map((cell) => `clear ${cell}\n`).join('')]);
    workers.asked[0].answer({ answer: 'filled', grade: 60, sum: 210, bound: 61, letters: chainWith(['1 2', 'O'], ['2 3', 'I']) });
    const { offer, ...how } = await ended;
    same(how, { isProved: false, isChanged: false, isLocked: false });
    same([offer.changed, offer.before, offer.after], [2, { worst: 30, mean: 40, under: 3, weak: 50 }, { worst: 40, mean: 55, under: 1, weak: 50 }]);
    same(['1 1', '1 2', '2 3', '5 7'].map((cell) => offer.letters.get(cell)), ['C', 'O', 'I', 'A']);
    same(offerText(offer), 'around 1 Across: worst 30, mean 40, 3 under 50 now; worst 40, mean 55, 1 under 50 with 2 other words');
    // nothing is changed before it is chosen
    same([session.row(1), session.entered, mender.isRunning], ['CAT....', [], false]);
  },

  async 'the search around a light ends after slices that find nothing'() {
    const { workers, ended } = mending();
    (await workers.call(0)).answer({ answer: 'filled', grade: 60, sum: 210, bound: 101, letters: chainWith(['1 2', 'O'], ['2 3', 'I']) });
    for (let slice = 1; slice <= 24; slice++) (await workers.call(slice)).answer(limit());
    same([(await ended).offer.changed, workers.asked.length], [2, 25]);
    // nothing around it, nor with the words that are no better as they are
    const none = mending();
    for (let slice = 0; slice < 48; slice++) (await none.workers.call(slice)).answer(limit());
    same([await none.ended, none.workers.asked[24].sent.cells], [{ offer: null, isProved: false, isChanged: false, isLocked: false }, ['1 1', '1 2', '3 4']]);
    const proved = mending();
    for (let slice = 0; slice < 2; slice++) (await proved.workers.call(slice)).answer({ answer: 'nofill' });
    same(await proved.ended, { offer: null, isProved: true, isChanged: false, isLocked: false });
  },

  async 'the search around a light is for the grid as it is'() {
    const changed = mending();
    await changed.workers.call(0);
    await changed.session.edit(['set 5 7 T']);
    changed.workers.asked[0].answer({ answer: 'filled', grade: 60, sum: 210, bound: 61, letters: chainWith(['1 2', 'O']) });
    same(await changed.ended, { offer: null, isProved: false, isChanged: true, isLocked: false });
    const written = mending();
    await written.workers.call(0);
    written.session.write('Pet');
    written.workers.asked[0].answer({ answer: 'filled', grade: 60, sum: 210, bound: 61, letters: chainWith(['1 2', 'O']) });
    same((await written.ended).offer.letters.get('1 2'), 'O');
    // a letter elsewhere is another one, as of a grid that came between
    const strange = mending();
    (await strange.workers.call(0)).answer({ answer: 'filled', grade: 60, sum: 210, bound: 61, letters: chainWith(['5 7', 'T']) });
    same((await strange.ended).offer, null);
    same(await mending({ ink: ['1 1', '1 2', '1 3'] }).ended, { offer: null, isProved: false, isChanged: false, isLocked: true });
    const stopped = mending();
    await stopped.workers.call(0);
    stopped.mender.stop();
    same(stopped.mender.isRunning, false);
    stopped.workers.asked[0].answer(limit());
    same(await stopped.ended, { offer: null, isProved: false, isChanged: false, isLocked: false });
  },

  'the weakest words, and what holds them'() {
    const board = boardOf(...CHAIN);
    const scores = new Map([['1 across', 40], ['2 down', 30], ['4 down', 40], ['5 across', 90]]);
    const listed = (most) => weakestOf(board, scores, most).map(({ light, score }) => `${light.name} ${score}`);
    same([listed(), listed(2)], [['2 down 30', '1 across 40', '4 down 40', '5 across 90'], ['2 down 30', '1 across 40']]);
    const [cat, toe] = ['1 across', '2 down'].map((name) => board.byName.get(name));
    const held = (light, ink, forced = []) => holderText(board, pencilOf(board, ...ink), light, forced);
    same(held(cat, []), '');
    same(held(cat, ['1 1', '1 2', '1 3']), 'locked');
    same([held(cat, ['1 1']), held(cat, ['1 1', '1 2'])], ['1 locked letter', '2 locked letters']);
    same(held(cat, ['1 3', '2 3', '3 3']), 'crosses TOE, locked');
    same(held(toe, ['1 1', '1 2', '1 3', '3 3', '3 4', '3 5']), 'crosses CAT and EAR, locked');
    same([held(cat, [], [toe]), held(cat, [], [cat, toe])], ['proved: 2 Down allows no more', 'proved: 1 Across and 2 Down allow no more']);
  },

  'what is said of a raising'() {
    same([0, 59, 60, 3601].map(timeText), ['0 s', '59 s', '1 min 0 s', '60 min 1 s']);
    const told = { least: 63, bound: 101, isPart: false, seconds: 6 };
    same(progressText(told, { worst: 'worst 62, mean 81', best: 100 }), 'worst 62, mean 81; looking for 63 or more; 6 s');
    same(progressText({ ...told, bound: 85, isPart: true, seconds: 75 }, { worst: '', best: 100 }), 'no fill is better than 84; looking for 63 or more for the others; 1 min 15 s');
    // scores above 100 are told as the list has them
    same(progressText({ ...told, bound: 80 }, { worst: '', best: 200 }), 'no fill is better than 159; looking for 126 or more; 6 s');
  },
};

const count = new Count();
await count.runAll(CASES);
count.end();
