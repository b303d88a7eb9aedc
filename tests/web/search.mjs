// Searches by autofill and best of xw.js, and tells each step, as tests/c/search.c.
//
//   node search.mjs WORDS RECORD autofill|best LIMIT STOP SEED [LIGHTS]
import { readFileSync } from 'node:fs';
import { Fault, Xw, ask, autofill, best, load } from '../../web/dist/xw.js';

const [words, record, search, limit, stop, seed, lights = ''] = process.argv.slice(2);
const xw = Xw.open(await load(), { list: readFileSync(words), record: readFileSync(record) });
let told = 0;
// How long a slice may take. The clock is read when a slice begins, and when it ends; it begins at 0 with each slice. By default each slice takes as long as it may,
// and each fifth half as long, so that slices have twice as many placements after every five; with the variable PACE each takes so many milliseconds.
const SPAN = 125;
let reads = 0;
performance.now = () => {
  const pace = process.env.PACE ?? (reads % 10 === 9 ? SPAN / 2 : SPAN);
  return reads++ % 2 ? Number(pace) : 0;
};

// Searches to the end, or until `stop` steps were told.
const options = {
  limit: Number(limit) || Infinity,
  seed: Number(seed),
  lights: lights ? [lights] : [],
  every: process.env.PACE === undefined ? SPAN : undefined,
  milliseconds: Number(process.env.MILLISECONDS ?? Infinity),
  stop: process.env.STOPPED ? Int32Array.of(1) : undefined,
  progress: ({ placements, grade, bound }) => {
    console.log(placements, grade ?? -1, bound);
    return ++told === Number(stop);
  },
};
try {
  const found = search === 'best' ? await best(xw, options) : { answer: await autofill(xw, options), grade: null };
  console.log(found.answer);
  if (found.grade !== null) console.log(found.grade, found.bound);
} catch (fault) {
  if (!(fault instanceof Fault)) throw fault;
  console.log(fault.status);
}
console.log(ask(xw, 'show').join('\n'));
xw.close();
