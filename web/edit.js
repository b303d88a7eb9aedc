// The command `edit`: a session that answers standard input, as the program does (docs/commands.md).
import { keepApart, keepSessionApart, keepWritable } from './apart.js';
import { keep, leave, read, replace, stampOf } from './disk.js';
import { ACCEPTED, FORMAT, Failure, REFUSED, failureOf, inputFault, memory } from './failure.js';
import { MARK, done, isSession, openPuzzle, stampToRead, writePuzzle } from './puzzles.js';
import { Fault, Xw } from './xw.js';

// The first line of a file of --save.
const FIRST = Buffer.from('# xw session 1\n');
const LINE_FEED = 0x0a;
// A list with more line feeds than this takes a while to load.
const LONG = 1_000_000;
// The longest and the shortest words, and the longest line.
const [SHORTEST, LONGEST, LONGEST_LINE] = [2, 255, 4096];

const GREETING = 'xw: type one command per line; help lists them, and Ctrl D ends the session\n';
const UNKEPT = 'xw: the session is not kept; --save or --journal keeps it\n';

// ---- how a session begins

function feedsIn(bytes) {
  let count = 0;
  for (let at = bytes.indexOf(LINE_FEED); at >= 0; at = bytes.indexOf(LINE_FEED, at + 1)) count++;
  return count;
}

// The number of words that a session knows.
function wordsOf(xw) {
  let count = 0;
  // each answer has a line for each word, and the line `ok`
  for (let length = SHORTEST; length <= LONGEST; length++) count += feedsIn(xw.answer(Buffer.from(`match ${'.'.repeat(length)}`)).answer) - 1;
  return count;
}

function tellLoading(file, list, desk) {
  if (desk.isTerminal && feedsIn(list) > LONG) desk.report(`xw: ${file}: loading\n`);
}

// Each line of a list was added or skipped.
function tellLoaded(file, list, xw, desk) {
  const text = list.subarray(0, MARK.length).equals(MARK) ? list.subarray(MARK.length) : list;
  const lines = feedsIn(text) + (text.length && text[text.length - 1] !== LINE_FEED ? 1 : 0);
  const added = done(file, () => wordsOf(xw));
  desk.report(`xw: ${file}: ${added} added, ${lines - added} skipped\n`);
}

function openOver(module, list, files, desk) {
  if (files.from === undefined) return { xw: done(files.dict, () => Xw.open(module, { list })), note: '', readAs: null };
  const readAs = stampToRead(files.from);
  return { ...openPuzzle(module, list, files.from, desk.read(files.from)), readAs };
}

// Opens a session on the list and the puzzle of a call. What the list has is told even if the puzzle has a fault.
function open(module, files, desk) {
  if (files.dict === undefined) return openOver(module, '', files, desk);
  const list = desk.read(files.dict);
  tellLoading(files.dict, list, desk);
  let opened;
  const failure = failureOf(() => (opened = openOver(module, list, files, desk)));
  tellLoaded(files.dict, list, opened?.xw ?? done(files.dict, () => Xw.open(module, { list })), desk);
  if (failure) throw failure;
  return opened;
}

// The bytes of a session without a byte order mark before it.
const unmarked = (bytes) => (bytes.subarray(0, MARK.length).equals(MARK) && isSession(bytes) ? bytes.subarray(MARK.length) : bytes);

// The reports of a replay, with the name of the file.
const withName = (reports, file) => reports.replace(/^xw: record: /gm, () => `xw: ${file}: `);

// Replays a file to start with. Returns what the file was like, and whether a line was refused, which the record of the session then lacks.
function resume(xw, file, desk) {
  const stamp = stampToRead(file);
  const bytes = unmarked(desk.read(file));
  try {
    const reports = xw.resume(bytes);
    desk.report(withName(reports, file));
    return { stamp, isRefused: /^xw: record: line /m.test(reports) };
  } catch (fault) {
    if (!(fault instanceof Fault)) throw fault;
    throw fault.status === 'NoCommand' ? new Failure(FORMAT, withName(fault.answer, file)) : memory();
  }
}

// ---- the input

// Reads the next bytes of standard input; none at its end.
function nextBytes(desk) {
  try {
    return desk.more();
  } catch {
    throw inputFault();
  }
}

// The lines of the input, and whether each has an end. What is behind the bytes that a line may have is left out, but for one byte: the engine then refuses
// the line.
function* linesOf(desk) {
  let rest = Buffer.alloc(0);
  const joined = (bytes) => Buffer.concat([rest, bytes.subarray(0, LONGEST_LINE + 1 - rest.length)]);
  for (let bytes = nextBytes(desk); bytes.length; bytes = nextBytes(desk)) {
    let from = 0;
    for (let stop = bytes.indexOf(LINE_FEED); stop >= 0; stop = bytes.indexOf(LINE_FEED, from)) {
      yield { line: joined(bytes.subarray(from, stop)), isEnded: true };
      rest = Buffer.alloc(0);
      from = stop + 1;
    }
    rest = joined(bytes.subarray(from));
  }
  if (rest.length) yield { line: rest, isEnded: false };
}

// The bytes of a file with the session.
const savedOf = (xw, file) => Buffer.concat([FIRST, done(file, () => xw.record())]);

// Answers each line before the next one is read. `told` learns whether a line was refused, and the session before a last line without an end.
function converse(xw, desk, told) {
  for (const { line, isEnded } of linesOf(desk)) {
    if (!isEnded) told.before = savedOf(xw, '-');
    const { status, answer } = done('-', () => xw.answer(line));
    desk.write(answer);
    told.isRefused ||= status === 'Refused';
  }
}

// ---- how it ends

// Keeps the file that the session replaces if its bytes would be lost: the call did not read it, it has changed since, or a line of it was refused.
function keepOld(written, files, resumed, desk) {
  const stamp = stampOf(files.save);
  const isAsRead = stamp === resumed?.stamp;
  if (!stamp || (isAsRead && !resumed.isRefused)) return;
  const bytes = read(files.save);
  // what has the same bytes is not lost
  if (bytes.equals(written)) return;
  const name = keep(files.save, files.to, bytes);
  desk.report(`xw: ${files.save}: ${isAsRead ? 'refused lines; ' : ''}the old file is kept as ${name}\n`);
}

function replaceSaved(bytes, files, resumed, desk) {
  keepSessionApart(files, desk);
  keepOld(bytes, files, resumed, desk);
  replace(files.save, bytes);
}

// Writes the session. If its file does not get it, it is left in another one.
function save(xw, files, resumed, desk) {
  if (files.save === undefined) return;
  const bytes = savedOf(xw, files.save);
  const failure = failureOf(() => replaceSaved(bytes, files, resumed, desk));
  if (!failure) return;
  const place = leave(files.save, files.to, bytes);
  if (place !== null) desk.report(`xw: ${files.save}: not saved; the session is kept as ${place}\n`);
  throw failure;
}

function put(xw, files, readAs, apart, desk) {
  if (apart) throw apart;
  if (files.to === undefined) return;
  keepApart(files, desk);
  writePuzzle(xw, files.to, readAs, files.save, desk);
}

// Writes the session, also after a failure, and then the puzzle. If the session cannot be written, this is told, and the puzzle is written all the same.
function end(xw, files, { readAs, resumed, answered }, desk) {
  // two names may lead to one file by now
  const apart = failureOf(() => keepApart(files, desk));
  const unsaved = failureOf(() => save(xw, files, resumed, desk));
  if (answered) throw answered;
  if (!unsaved) {
    put(xw, files, readAs, apart, desk);
    return;
  }
  desk.report(unsaved.message);
  const other = files.to === undefined ? null : failureOf(() => put(xw, files, readAs, apart, desk));
  if (other) desk.report(other.message);
  throw new Failure(unsaved.status, '');
}

// Tells of a last line without an end that changed the session, and keeps the session before it: the line may have been cut.
function keepBefore(xw, files, before, desk) {
  if (!before || before.equals(savedOf(xw, '-'))) return;
  desk.report('xw: the last line had no end\n');
  if (files.save === undefined) return;
  const name = keep(files.save, files.to, before);
  desk.report(`xw: ${files.save}: the session before the last line is kept as ${name}\n`);
}

/**
 * Runs a session on a module of `load`. `files` are the files of the call by their options. Returns the exit status, or throws a failure.
 */
export function edit(module, files, desk) {
  keepApart(files, desk);
  keepWritable(files);
  const { xw, note, readAs } = open(module, files, desk);
  desk.report(note);
  const resumed = files.resume === undefined ? null : resume(xw, files.resume, desk);
  if (desk.isDialogue) desk.report(files.save === undefined ? GREETING + UNKEPT : GREETING);
  const told = { isRefused: resumed?.isRefused ?? false, before: null };
  const answered = failureOf(() => converse(xw, desk, told));
  const failure = failureOf(() => end(xw, files, { readAs, resumed, answered }, desk));
  const unkept = failureOf(() => keepBefore(xw, files, told.before, desk));
  if (failure ?? unkept) throw failure ?? unkept;
  xw.close();
  return told.isRefused ? REFUSED : ACCEPTED;
}
