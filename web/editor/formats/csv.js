// Tables in CSV, as RFC 4180 has it.
import { FileFault } from './given.js';

/** @typedef {Record<string, string[]>} Names what each column may be called */

// What a spreadsheet would run as a formula stands behind an apostrophe. So does what has apostrophes there already, so that each text comes back.
const FORMULA = /^'*[=+\-@\t\r]/;
const GUARDED = /^'+[=+\-@\t\r]/;

// A table of texts. Spreadsheets take it for UTF-8 by its byte order mark.
/** @param {string[][]} rows */
export function csvOf(rows) {
  const field = (/** @type {string} */ text) => `"${text.replace(FORMULA, "'$&").replaceAll('"', '""')}"`;
  return `\ufeff${rows.map((row) => `${row.map(field).join(',')}\r\n`).join('')}`;
}

// What a field says as it is spelled.
/** @param {string} spelled */
function textOf(spelled) {
  const text = spelled.startsWith('"') ? spelled.slice(1, -1).replaceAll('""', '"') : spelled;
  return GUARDED.test(text) ? text.slice(1) : text;
}

// The rows of a table, each with the line that it begins in. Those without a text are left out.
/** @param {string} text */
export function rowsOf(text, separator = ',') {
  const field = new RegExp(`("[^"]*(?:""[^"]*)*"|[^"${separator}\r\n]*)(${separator}|\r\n|\r|\n|$)`, 'y');
  let [line, end] = [1, ''];
  /** @type {{ line: number, fields: string[] }[]} */
  const rows = [{ line, fields: [] }];
  do {
    const match = field.exec(text);
    if (!match) throw new FileFault(`line ${line} has a quote that opens or closes no field`);
    rows[rows.length - 1].fields.push(textOf(match[1]));
    line += match[0].match(/\r\n?|\n/g)?.length ?? 0;
    end = match[2];
    if (end && end !== separator) rows.push({ line, fields: [] });
  } while (end);
  return rows.filter(({ fields }) => fields.some(Boolean));
}

// What stands between the fields of a table: some spreadsheets have others than the comma.
const SEPARATORS = [',', ';', '\t'];

// The names in the first line of a text.
/**
 * @param {string} text
 * @param {string} separator
 */
const headsOf = (text, separator) => text.split(/[\r\n]/, 1)[0].split(separator).map((name) => name.trim().replace(/^"(.*)"$/, '$1').trim().toLowerCase());

// The separator of a table whose first line names all of these columns. `names` has what each column may be called.
/**
 * @param {string} text
 * @param {Names} names
 * @param {string[]} columns
 */
const separatorOf = (text, names, columns) => SEPARATORS.find((separator) => columns.every((column) => headsOf(text, separator).some((head) => names[column].includes(head))));

/**
 * @param {string} text
 * @param {Names} names
 * @param {string[]} columns
 */
export const hasColumns = (text, names, columns) => separatorOf(text, names, columns) !== undefined;

// The rows of a table, each with the texts of its columns by their names, and '' for a column that it does not have; or null if it lacks one of `columns`.
/**
 * @param {string} text
 * @param {Names} names
 * @param {string[]} columns
 */
export function tableOf(text, names, columns) {
  if (text.includes('\0')) throw new FileFault('it has a NUL, which no text has');
  const separator = separatorOf(text, names, columns);
  if (separator === undefined) return null;
  const heads = headsOf(text, separator);
  const places = Object.entries(names).map(([column, called]) => /** @type {[string, number]} */ ([column, heads.findIndex((head) => called.includes(head))]));
  const [, ...rows] = rowsOf(text, separator);
  const textsOf = (/** @type {string[]} */ fields) => /** @type {Record<string, string>} */ (Object.fromEntries(places.map(([column, at]) => [column, fields[at] ?? ''])));
  return rows.map(({ line, fields }) => ({ line, texts: textsOf(fields) }));
}
