// The time of a letter, from its key to the frame that shows it, as Chromium tells it: its trace has the marks that the
// page sets, one of them at the time stamp of the key event, and for each frame when it took over what the page had drawn and when it was presented.
import { existsSync, readdirSync, readFileSync } from 'node:fs';

const CATEGORIES = ['cc', 'benchmark', 'input', 'devtools.timeline', 'blink.user_timing'];

// Switches with which headless Chromium presents a frame when it is ready. Without them it presents 60 in a second, and a letter waits for one.
export const UNLIMITED = ['--disable-frame-rate-limit', '--disable-gpu-vsync'];

// How long a key is held, and from one key to the next, in milliseconds.
const HELD = 60;
const BETWEEN = 180;

const pause = (time) => new Promise((resolve) => setTimeout(resolve, time));

function quantile(numbers, part) {
  const sorted = [...numbers].sort((a, b) => a - b);
  return sorted[Math.floor((sorted.length - 1) * part)];
}

// What is told of a run: for each part its median and 90th percentile in milliseconds.
export function summary(letters) {
  const parts = ['engine', 'answered', 'ready', 'letter', 'all'];
  return Object.fromEntries(parts.map((part) => [part, [0.5, 0.9].map((at) => quantile(letters.map((letter) => letter[part]), at))]));
}

// The trace of an action.
async function traced(browser, action) {
  const events = [];
  const ended = new Promise((resolve) => {
    browser.on('Tracing.dataCollected', ({ value }) => events.push(...value));
    browser.on('Tracing.tracingComplete', resolve);
  });
  await browser.send('Tracing.start', { transferMode: 'ReportEvents', traceConfig: { includedCategories: CATEGORIES } });
  await action();
  await browser.send('Tracing.end');
  await ended;
  browser.off('Tracing.dataCollected');
  browser.off('Tracing.tracingComplete');
  return events.sort((a, b) => a.ts - b.ts);
}

// The frames of a page that were presented: when each took over what the page had drawn, and when it was shown.
function framesOf(events, page) {
  const frames = [];
  const open = new Map();
  for (const { name, ph, id2, pid, ts } of events) {
    const id = id2?.local;
    if (pid !== page || !id) continue;
    if (name === 'PipelineReporter' && ph === 'b') open.set(id, {});
    const frame = open.get(id);
    if (!frame) continue;
    if (name === 'Commit' && ph === 'b') frame.ready = ts;
    if (name === 'SubmitCompositorFrameToPresentationCompositorFrame' && ph === 'e') frame.shown = ts;
    if (name === 'PipelineReporter' && ph === 'e') {
      open.delete(id);
      if (frame.ready && frame.shown) frames.push(frame);
    }
  }
  return frames.sort((a, b) => a.ready - b.ready);
}

// The letters of a trace. Each has the milliseconds from the time stamp of its key
//   `answered`  until all that it changes is in the page,
//   `ready`     until the frame with that is laid out and painted, and the page hands it over,
//   `letter`    until the frame is presented that is the first with the letter in its cell,
//   `all`       until the frame is presented that is the first with all that the letter changes,
// and `engine`, what of that the engine took.
function lettersOf(events) {
  const named = (wanted) => events.filter(({ name }) => name === wanted);
  const [keys, ...marks] = ['letter typed', 'letter drawn', 'letter answered'].map(named);
  const frames = framesOf(events, keys[0]?.pid);
  return keys.flatMap(({ ts }, at) => {
    const end = keys[at + 1]?.ts ?? Infinity;
    const [drawn, answered] = marks.map((some) => some.find((mark) => mark.ts > ts && mark.ts < end));
    const [first, all] = [drawn, answered].map((mark) => mark && frames.find(({ ready }) => ready >= mark.ts));
    if (!first || !all) return [];
    const since = (time) => (time - ts) / 1000;
    const { engine } = JSON.parse(answered.args.data.detail);
    return [{ engine, answered: since(answered.ts), ready: since(all.ready), letter: since(first.shown), all: since(all.shown) }];
  });
}

// Types at least so many letters of rows (`#` for a block) into the empty grid of the page, light after light, and tells the time of each.
export async function timeOfLetters(browser, rows, count = 60) {
  const lights = rows.flatMap((row, at) => [...row.matchAll(/[A-Z]+/g)].map(({ 0: word, index }) => ({ word, cell: `${at + 1}-${index + 1}` })));
  // every third light, so that they are all over the grid
  const order = [0, 1, 2].flatMap((first) => lights.filter((_, at) => at % 3 === first));
  let typed = 0;
  const events = await traced(browser, async () => {
    for (const { word, cell } of order) {
      if (typed >= count) break;
      await browser.click(`#cell-${cell}`);
      if (await browser.value("Boolean(document.querySelector('.cursor.down'))")) await browser.press('Enter');
      await pause(400);
      for (const letter of word.toLowerCase()) {
        await browser.press(letter, HELD);
        await pause(BETWEEN - HELD + 30 * Math.random());
      }
      typed += word.length;
    }
    // the last frame
    await pause(300);
  });
  const letters = lettersOf(events);
  if (letters.length < 0.95 * typed) throw new Error(`the trace has ${letters.length} of ${typed} letters`);
  return letters;
}

// The letters of a fill of a record's grid, in rows.
export function fillOf(Xw, module, list, record) {
  const xw = Xw.open(module, { list, record });
  for (let seed = 0; xw.line(`autofill 5000 ${seed}`).lines[0] !== 'filled'; seed++) if (seed > 20) throw new Error('no fill');
  return xw.line('show').lines.map((line) => [...line].filter((_, at) => at % 2 === 0).join(''));
}

// Words of Debian's lists that are installed, and made-up ones as far as these do not reach.
export function largeList() {
  const found = new Set();
  const folder = '/usr/share/dict';
  const files = existsSync(folder) ? readdirSync(folder).filter((name) => /^(american|british)-english/.test(name)).sort() : [];
  for (const file of files) {
    for (const word of readFileSync(`${folder}/${file}`, 'latin1').split('\n')) if (/^[a-z]{3,}$/.test(word) && found.size < 277620) found.add(word);
  }
  for (let number = 1; found.size < 277620; number++) {
    found.add(Array.from({ length: 3 + (number % 12) }, (_, at) => 'etaoinshrdlu'[Math.floor(number / 7 ** (at % 6)) % 12]).join('') + 'abcdefghij'[number % 10]);
  }
  return [...found];
}
