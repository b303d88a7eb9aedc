// Does what the words of a call ask for.
import { callOf } from './calls.js';
import { edit } from './edit.js';
import { ACCEPTED, Failure, memory } from './failure.js';
import { check, convert } from './puzzles.js';
import { Xw } from './xw.js';

function perform(module, words, desk) {
  const { shown, version, command, files, operands } = callOf(words);
  if (command === 'edit') return edit(module, files, desk);
  if (command === 'convert') return convert(module, operands, desk);
  if (command === 'check') return check(module, operands, desk);
  desk.write(Buffer.from(version ? `${Xw.open(module).version}\n` : shown));
  return ACCEPTED;
}

/**
 * Runs a call of the command on a module of `load`, and returns its exit status. `desk` has what the call reads and writes besides the files that it names:
 *
 * - `more()` returns the next bytes of standard input, none at its end; `read(name)` those of a file, or for `-` the rest of standard input;
 * - `write(bytes)` writes to standard output, and `report(text)` to standard error;
 * - `input` and `output` are the files of `streamed` that standard input and output are, or null;
 * - `isTerminal` is whether messages go to a terminal, and `isDialogue` whether lines come from one too.
 */
export function run(module, words, desk) {
  try {
    return perform(module, words, desk);
  } catch (error) {
    // JavaScript has no room for an array
    const failure = error instanceof RangeError ? memory() : error;
    if (!(failure instanceof Failure)) throw error;
    desk.report(failure.message);
    return failure.status;
  }
}
