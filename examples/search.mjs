// An example of a search that can be stopped: fills a grid in slices, on the module for the web. In a page the same function runs in a
// worker.
//
//   node examples/search.mjs WORDS RECORD [K]
//
// RECORD is a file of commands, such as examples/starter15.xw or what `--save` wrote, and K is the number of placements of the first slices.
// A line on standard input stops the search, and so does its end. The last line is `filled`, `nofill` or `stopped`; after `filled` the grid
// stands above it. It needs the package xw, or in a checkout ./build web.
import { readFileSync } from 'node:fs';

const { Xw, load } = await import('xw').catch(() => import('../web/dist/xw.js'));

// After so many slices they get twice as long. Each slice begins at the grid, so one that is too short for a hard grid never ends the search.
const SLICES = 5;

// Fills the grid in slices, the first ones of so many placements. Returns `filled`, `nofill`, or `stopped` once the signal is aborted.
export async function search(xw, placements, signal, seed = 0) {
  for (let slice = 0; ; slice++) {
    // goes on with what the slices before it learned
    const [answer] = xw.line(`autofill ${placements * 2 ** Math.floor(slice / SLICES)} ${seed}`).lines;
    if (answer !== 'limit') return answer;
    // other events come between two slices, such as a click on a stop button or a message to the worker
    await new Promise((next) => setTimeout(next));
    if (signal.aborted) return 'stopped';
  }
}

const [words, record, placements = '2000'] = process.argv.slice(2);
const xw = Xw.open(await load(), { list: readFileSync(words), record: readFileSync(record) });
const stop = new AbortController();
process.stdin.once('data', () => stop.abort()).once('end', () => stop.abort());
const answer = await search(xw, Number(placements), stop.signal);
process.stdin.destroy();
if (answer === 'filled') console.log(xw.line('show').lines.join('\n'));
console.log(answer);
xw.close();
