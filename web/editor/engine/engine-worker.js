// The engine in a worker: it answers the messages of engine.js, edits in order and ahead of queries that wait.
import { linesOfList, readOwn } from '../formats/joined-lists.js';
import { lookAt } from '../formats/list-preview.js';
import { rescore } from '../formats/rescoring.js';
import { enumerationsOf } from '../formats/word-list.js';
import { Making } from '../grids/making.js';
import { withoutLeast } from '../model/record.js';
import { autofill, best, fillsWithout, firstDead, forced, search, unstrike } from './searches.js';
import { askOrNull, edit, file, knownOf, lightsOf, listGrades, loadModule, open, orbit, read, recordNow, scoreOf } from './session.js';
import { packed } from './told.js';
import { alternatives, probe } from './words-left.js';

/** @typedef {{ id: number, call: string, sent: object }} Call */

const making = new Making();

/** @type {Record<string, (sent: any) => any>} */
const calls = {
  // The session.
  load: loadModule,
  open,
  read,
  lights: lightsOf,
  edit,
  ask: askOrNull,
  autofill,
  record: () => withoutLeast(recordNow()),
  file,
  orbit,

  // Words. Those of a light are packed, with the scores of those that have one, and the places of their lists.
  words({ light }) {
    const words = askOrNull({ command: 'words', given: [light] })?.words ?? [];
    return { words: packed(words), ...knownOf(words) };
  },
  grades: ({ words }) => words.map(scoreOf),
  listGrades,
  enumerations: ({ words, sources, personal, plain }) => enumerationsOf(words, { sources, personal, plain }),
  probe,
  alternatives,

  // Lists: what one has before it is taken over; what a rule changes in it, in a worker of its own; and one as a file.
  lookAtList: ({ bytes, chosen }) => lookAt(bytes, chosen),
  rescore: ({ source, rule }) => rescore(readOwn(source), source.rescored ?? '', rule),
  linesOfList,

  // Searches, and new grids, in a worker that helps but for the first.
  fillsWithout,
  firstDead,
  search,
  best,
  forced,
  unstrike,
  beginGrids: (sent) => making.begin(sent),
  moreGrids: (sent) => making.more(sent),
  lookAtGrid: (sent) => making.look(sent),
  fillGrid: (sent) => making.fill(sent),
  boundOfGrid: (sent) => making.bound(sent),
};

/** @param {Call} data */
async function answer({ id, call, sent }) {
  try {
    postMessage({ id, value: await calls[call](sent) });
  } catch (fault) {
    const { status = 'Engine', answer: told = String(fault) } = /** @type {{ status?: string, answer?: string }} */ (fault);
    postMessage({ id, fault: { status, answer: told } });
  }
}

// Calls are answered in order. But those that leave all as it was wait until no other is there, so that a key is answered ahead of them.
const QUERIES = new Set(['ask', 'words', 'probe', 'alternatives', 'fillsWithout', 'grades', 'enumerations', 'lookAtList']);

let last = Promise.resolve();
/** @type {Call[]} */
const queries = [];
let isTurning = false;
const { port1: turn, port2: next } = new MessageChannel();

// Answers one query. What came meanwhile is ahead of the next one.
turn.onmessage = async () => {
  await last;
  const query = queries.shift();
  if (query) await answer(query);
  isTurning = queries.length > 0;
  if (isTurning) next.postMessage(0);
};

addEventListener('message', ({ data }) => {
  if (!QUERIES.has(data.call)) {
    last = last.then(() => answer(data));
    return;
  }
  queries.push(data);
  if (!isTurning) next.postMessage(0);
  isTurning = true;
});
