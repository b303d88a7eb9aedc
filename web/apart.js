// Keeps the files of a call apart: a file that is written must be no other file of the call. docs/commands.md lists the pairs.
import { expectFree, expectWritable, isOneFile, keptName, named } from './disk.js';
import { misused } from './failure.js';

const OVER_LIST = 'the word list cannot be the file to write';
const IN_ONE = 'the puzzle and the session cannot be written into one file';
const OVER_PUZZLE = 'the session cannot be written over the puzzle to start with';
const OVER_START = 'the puzzle cannot be written over the session to start with';
const OVER_INPUT = 'standard input cannot be the file to write';
const SHARED_OUTPUT = 'standard output cannot be another file of the call';

/**
 * What a call does with a file: the options by their names, `kept` for the file that is kept beside the session, `commands` for the file of the commands on
 * standard input, and `output` for the file of standard output. They are compared in this order.
 */
const ROLES = ['output', 'kept', 'dict', 'from', 'resume', 'commands', 'to', 'save'];

// Why a file with a role must not be one with another role.
const PAIRS = {
  dict: { output: SHARED_OUTPUT, kept: OVER_LIST },
  from: { output: SHARED_OUTPUT },
  resume: { output: SHARED_OUTPUT },
  commands: { output: SHARED_OUTPUT },
  to: { output: SHARED_OUTPUT, kept: IN_ONE, dict: OVER_LIST, resume: OVER_START, commands: OVER_INPUT },
  save: { output: SHARED_OUTPUT, dict: OVER_LIST, from: OVER_PUZZLE, commands: OVER_INPUT, to: IN_ONE },
};

const isInput = (name) => name === '-';
const readsInput = (files) => [files.dict, files.from, files.resume].some(isInput);

/** Whether the bytes of a file that a puzzle is written to are `.puz`. */
export const isPuzName = (name) => /\.puz$/i.test(name);

// A file that is read. The name `-` stands for standard input.
const source = (name, desk) => (isInput(name) ? desk.input : named(name));

// The file with a role, or null if the call has none.
function fileOf(role, files, desk) {
  if (role === 'output') return desk.output;
  if (role === 'kept') return files.save === undefined ? null : named(keptName(files.save, 1));
  if (role === 'commands') return readsInput(files) ? null : desk.input;
  if (files[role] === undefined) return null;
  return role === 'to' || role === 'save' ? named(files[role]) : source(files[role], desk);
}

function expectPairApart(one, other, files, desk) {
  const why = PAIRS[other]?.[one];
  if (!why) return;
  const [first, second] = [fileOf(one, files, desk), fileOf(other, files, desk)];
  if (first && second && isOneFile(first, second)) throw misused(`${files[other] ?? '-'}: ${why}`);
}

/** Refuses to read two files from standard input, to write the session as `.puz`, and to use one file for two roles in which its bytes would be lost. */
export function keepApart(files, desk) {
  if (isInput(files.dict) && (isInput(files.from) || isInput(files.resume))) throw misused('-: standard input can be read only once');
  if (files.save !== undefined && isPuzName(files.save)) throw misused(`${files.save}: the session cannot be written as .puz`);
  for (const one of ROLES) for (const other of ROLES) expectPairApart(one, other, files, desk);
}

/** Refuses to write the session over another file of the call that is not written itself. */
export function keepSessionApart(files, desk) {
  for (const role of ROLES) if (role !== 'to') expectPairApart(role, 'save', files, desk);
}

/** Refuses files to write that another program has as its journal, or that cannot be written now. */
export function keepWritable(files) {
  const written = [files.save, files.to].filter((name) => name !== undefined);
  written.forEach(expectFree);
  written.forEach(expectWritable);
}
