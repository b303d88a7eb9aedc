// How the lines of a word list have words and scores: what stands between the columns, which column is which, and how far the scores go.

// `separator` is '' where a line is a word, and `score` is null where no column has scores. Columns count from 0. Scores go from 0 to `scale`; those of 100 are
// taken as they stand.
/** @typedef {{ separator: string, word: number, score: number | null, scale: number }} Form */

/** @type {Form} */
export const PLAIN = { separator: '', word: 0, score: null, scale: 100 };

// What can stand between columns, in the order in which it is tried.
export const SEPARATORS = [';', '\t', ',', ' '];
export const SCALES = [1, 5, 100];
// how many lines tell the form of a list, and the most columns of one
const TELLING = 1000;
export const MOST_COLUMNS = 10;

/**
 * @param {number} count
 * @param {number} all
 */
export const isMost = (count, all) => 2 * count > all;

// The lines of a text that are not blank. A byte order mark is taken off the first line by the decoder, and off any other where files were put together.
/** @param {string} text */
export const linesOf = (text) => text.split(/\r\n?|\n/).filter((line) => line.trim()).map((line) => (line.charCodeAt(0) === 0xfeff ? line.slice(1) : line));

const SCORE = /^\s{0,20}(-?\d{1,15}(?:\.\d{1,15})?)/;
// a column of scores has nothing else, but for notes
const ONLY_SCORE = /^\s{0,20}-?\d{1,15}(?:\.\d{1,15})?\s*(?:#.*)?$/;
// a score behind blanks, and before them
const BEHIND = /^(.*\S) {1,20}(-?\d{1,15}(?:\.\d{1,15})?)\s*$/;
const BEFORE = /^ {0,20}(-?\d{1,15}(?:\.\d{1,15})?) {1,20}(\S.*)$/;

// A field in quotes may have the separator in it.
const QUOTED = Object.fromEntries([';', '\t', ','].map((sign) => [sign, new RegExp(`(?:^|${sign}) {0,20}(?:"((?:[^"]|"")*)"(?= {0,20}(?:${sign}|$))|([^${sign}]*))`, 'g')]));

// The fields of a line.
/**
 * @param {string} line
 * @param {Pick<Form, 'separator'> & Partial<Form>} form
 */
export function fieldsOf(line, form) {
  const { separator, word = 0, score = null } = form;
  if (!separator) return [line];
  if (separator === ' ') return ((score ?? word) < word ? BEFORE : BEHIND).exec(line)?.slice(1) ?? [line];
  if (!line.includes('"')) return line.split(separator);
  return [...line.matchAll(QUOTED[separator])].map(([, quoted, bare]) => quoted?.replaceAll('""', '"') ?? bare);
}

// One field of a line; '' if it does not have that many. Lists have hundreds of thousands of lines, so the others are not cut.
/**
 * @param {string} line
 * @param {number} column
 * @param {Form} form
 */
function fieldOf(line, column, form) {
  const { separator } = form;
  if (!separator || separator === ' ' || line.includes('"')) return fieldsOf(line, form)[column] ?? '';
  let begin = 0;
  for (let before = 0; before < column; before++) {
    begin = line.indexOf(separator, begin) + 1;
    if (!begin) return '';
  }
  const end = line.indexOf(separator, begin);
  return end < 0 ? line.slice(begin) : line.slice(begin, end);
}

// The score of a line in a form; null if it has none.
/**
 * @param {string} line
 * @param {Form} form
 */
function scoreIn(line, form) {
  const score = SCORE.exec(fieldOf(line, form.score ?? -1, form))?.[1];
  return score === undefined ? null : Number(score);
}

// What a line has in a form: how its word is spelled, and its score; null if it has none. A line that lacks the score is spelled as a whole.
/**
 * @param {string} line
 * @param {Form} form
 */
export function parsed(line, form) {
  const score = form.score === null ? null : scoreIn(line, form);
  return { spelling: form.score !== null && score === null ? line : fieldOf(line, form.word, form), score };
}

// A score from 0 to 100.
/**
 * @param {number} score
 * @param {number} scale
 */
export const toHundred = (score, scale) => (scale === 100 ? score : Math.round((10000 * score) / scale) / 100);

// So many lines from all over a list.
/** @param {string[]} lines */
function sampled(lines) {
  const count = Math.min(TELLING, lines.length);
  return Array.from({ length: count }, (_, at) => lines[Math.floor((at * lines.length) / count)]);
}

// Which columns the word and the score have in lines with a separator: the first column that most lines have letters in, and the first behind it, or else
// before it, in which most have a number. `score` is null if there is none.
/**
 * @param {string[]} lines
 * @param {string} separator
 */
function columnsOf(lines, separator) {
  const rows = lines.map((line) => fieldsOf(line, { separator }));
  const all = Array.from({ length: MOST_COLUMNS }, (_, column) => column);
  const having = (/** @type {RegExp} */ test) => all.filter((column) => isMost(rows.filter((fields) => test.test(fields[column] ?? '')).length, rows.length));
  const [word = 0] = having(/\p{L}/u);
  const scores = having(ONLY_SCORE).filter((column) => column !== word);
  return { word, score: scores.find((column) => column > word) ?? scores[0] ?? null };
}

// The scale that the scores of lines seem to have: they are shares of one if some are between 0 and 1 and none is elsewhere.
/**
 * @param {string[]} lines
 * @param {Form} form
 */
function scaleOf(lines, form) {
  const known = lines.flatMap((line) => scoreIn(line, form) ?? []);
  const best = known.reduce((most, score) => Math.max(most, score), 0);
  if (best > 5 || known.some((score) => score < 0)) return 100;
  if (best <= 1) return known.some((score) => !Number.isInteger(score)) ? 1 : 100;
  return 5;
}

// The form of a list: what is chosen of it, and as its lines seem to be.
/**
 * @param {Partial<Form>} chosen
 * @param {string[]} lines
 * @returns {Form}
 */
export function formOf(lines, chosen = {}) {
  const sample = sampled(lines);
  const separator = chosen.separator ?? SEPARATORS.find((one) => columnsOf(sample, one).score !== null) ?? '';
  /** @type {Form} */
  const form = { ...PLAIN, ...(separator ? columnsOf(sample, separator) : {}), separator, ...chosen };
  // where some lines tell that scores go up to 100, the others are not asked
  const isShort = form.score !== null && scaleOf(sample, form) !== 100;
  return { ...form, scale: chosen.scale ?? (isShort ? scaleOf(lines, form) : 100) };
}

// The form of a list that was taken over before forms were chosen. Its scores from 0 to 5 stay as they were.
/** @param {string[]} lines */
export function formerForm(lines) {
  const form = formOf(lines);
  return form.scale === 5 ? { ...form, scale: 100 } : form;
}

// A form with another column for the word or for the score. If the other has that column, they change places.
/**
 * @param {Form} form
 * @param {'word' | 'score'} which
 * @param {number | null} column
 */
export function withColumn(form, which, column) {
  const { separator, word, score } = form;
  if (which === 'word') return { separator, word: column ?? 0, score: score === column ? word : score };
  return { separator, word: word === column ? (score ?? (column ? 0 : 1)) : word, score: column };
}

// How the scores are read, in a few words, unless that is usual.
/** @param {Form} form */
export function formTexts(form) {
  const { separator, word, score, scale } = form;
  if (score === null) return [];
  const where = score < word ? 'the scores are before the words' : separator === ' ' && 'the scores are behind blanks';
  return [where, scale !== 100 && `scores from 0 to ${scale} are read as 0 to 100`].flatMap((text) => text || []);
}
