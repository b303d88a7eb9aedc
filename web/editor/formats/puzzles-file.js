// A file of all puzzles that a browser keeps, with their versions: JSON, whose sessions are those of the store.
import { lawfulBeside } from '../model/beside.js';
import { Dropped } from './dropped.js';

const FORMAT = 'xw puzzles 1';

/** @param {string} head */
export const isPuzzlesFile = (head) => head.startsWith(`{"format":"${FORMAT}"`);

/**
 * @param {object[]} puzzles
 * @param {object[]} versions
 */
export const puzzlesFile = (puzzles, versions) => `${JSON.stringify({ format: FORMAT, puzzles, versions })}\n`;

// Whether a grid of a record can be drawn, and the session be kept under its names.
/** @param {any} session */
function isSession({ puzzle, record, at }) {
  if (![puzzle, record].every((part) => typeof part === 'string') || !Number.isFinite(at)) return false;
  return [...record.matchAll(/^[ \t]*size (.*)$/gm)].every(([, size]) => size.trim().split(' ').every((/** @type {string} */ side) => Number(side) >= 1 && Number(side) <= 255));
}

// A session of the file with what it may have, and nothing else.
/**
 * @param {any} session
 * @param {Dropped} dropped
 * @returns {import('../store/keep.js').Session}
 */
function lawful({ puzzle, record, at, cursor, direction, deleted, ...beside }, dropped) {
  return {
    puzzle, record, at, ...lawfulBeside(beside, dropped), cursor: Number.isInteger(cursor) ? cursor : 0, direction: direction === 'down' ? 'down' : 'across',
    deleted: Number.isFinite(deleted) ? deleted : null,
  };
}

// The puzzles and versions of such a file, and what of them is left out; throws if one of them is no session.
/** @param {string} text */
export function puzzlesIn(text) {
  const { puzzles, versions } = JSON.parse(text);
  if (![puzzles, versions].every((sessions) => Array.isArray(sessions) && sessions.every(isSession))) throw new Error('no puzzles');
  const dropped = new Dropped();
  /** @returns {import('../store/keep.js').Session[]} */
  const lawfulOf = (/** @type {unknown[]} */ sessions) => sessions.map((session) => lawful(session, dropped));
  return { puzzles: lawfulOf(puzzles), versions: lawfulOf(versions), dropped: dropped.phrases };
}
