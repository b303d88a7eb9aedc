// The command line: what a call asks for, its help, and what is said of wrong words. The texts are those of the program, but the options that this command
// does not offer are not in its help, and are refused by their names.
import { Failure, USAGE, misused } from './failure.js';

// What the words after the name of each command may be.
const COMMANDS = {
  edit: { options: ['--dict', '--from', '--resume', '--to', '--save', '--journal'], flags: ['--sync', '--progress', '--explain'], operands: [] },
  convert: { options: [], flags: ['--explain'], operands: ['<FROM>', '<TO>'] },
  check: { options: [], flags: ['--explain'], operands: ['<FILE>...'] },
};
const NOT_OFFERED = ['--journal', '--sync', '--explain'];

const EXAMPLE = `
Example:
  $ xw edit --dict words.txt --to mine.puz
  size 3 1
  ok
  add cat
  ok
  words 1 across
  1
  CAT
  ok
  fill 10
  filled
  ok
  clue 1 across It purrs
  ok
`;

const HELP = `A crossword construction engine

Usage: xw <COMMAND>

Commands:
  edit     Answer commands from standard input, one per line
  convert  Convert a puzzle file to another format
  check    Read puzzle files and print their format, size and number of lights
  help     Print this message or the help of the given subcommand(s)

Options:
  -h, --help     Print help
  -V, --version  Print version
${EXAMPLE}`;

const HELPS = {
  edit: `Answer commands from standard input, one per line

Usage: xw edit [OPTIONS]

Options:
      --dict <FILE>     Load a word list, one word per line
      --from <FILE>     Start with this puzzle, .puz or text [default: an empty grid of 15 by 15]
      --resume <FILE>   Run the commands of this file first, without answers, as --save wrote them
      --to <FILE>       Write the puzzle here at the end: as .puz if the name ends in .puz, otherwise as text
      --save <FILE>     Write the session here at the end, as commands for --resume
      --progress        Accepted, but searches of this command do not tell how far they are
  -h, --help            Print help

The program has --journal, --sync and --explain too, which this command does not offer.
${EXAMPLE}`,
  convert: `Convert a puzzle file to another format

Usage: xw convert [OPTIONS] <FROM> <TO>

Arguments:
  <FROM>  Puzzle to read, .puz or text
  <TO>    File to write: as .puz if the name ends in .puz, otherwise as text

Options:
  -h, --help     Print help

The program has --explain too, which this command does not offer.
`,
  check: `Read puzzle files and print their format, size and number of lights

Usage: xw check [OPTIONS] <FILE>...

Arguments:
  <FILE>...  Puzzles to read, .puz or text

Options:
  -h, --help     Print help

The program has --explain too, which this command does not offer.
`,
};

// ---- what is said of wrong words

function wrong(fault, usage) {
  const parts = [`error: ${fault}`, ...(usage ? [`Usage: xw ${usage}`] : []), "For more information, try '--help'.\n"];
  return new Failure(USAGE, parts.join('\n\n'));
}

const unexpected = (word, usage, tip) => wrong(`unexpected argument '${word}' found${tip ? `\n\n  tip: ${tip}` : ''}`, usage);
const unrecognized = (word) => wrong(`unrecognized subcommand '${word}'`, '<COMMAND>');

// An option is named by its two dashes, or by the first letter after one.
const shownOption = (word) => (word.startsWith('--') ? word.split('=', 1)[0] : Array.from(word).slice(0, 2).join(''));

const usageOf = (command) => [command, '[OPTIONS]', ...COMMANDS[command].operands].join(' ');

// What to try in place of a word that is none of the command.
function tipFor(command, word) {
  const { options, flags, operands } = COMMANDS[command];
  if (operands.length) return word.startsWith('--') ? `to pass '${shownOption(word)}' as a value, use '-- ${shownOption(word)}'` : null;
  if ([...options, ...flags].includes(`-${word}`)) return `a similar argument exists: '-${word}'`;
  if (word.startsWith('-')) return null;
  if (word.endsWith('.puz')) return `to start with this puzzle, use '--from ${word}'`;
  return word.endsWith('.xw') ? `to go on with this session, use '--resume ${word}'` : `to load it as the word list, use '--dict ${word}'`;
}

const isDashed = (word) => word.startsWith('-') && word !== '-';

// ---- the words of a call

// A call, as its words are read.
class Words {
  constructor(command, words) {
    this.command = command;
    this.rest = [...words];
    // the values of the options and flags, by their names
    this.given = new Map();
    this.operands = [];
  }

  #unexpected(word) {
    return unexpected(isDashed(word) ? shownOption(word) : word, usageOf(this.command), tipFor(this.command, word));
  }

  // The value of an option: what is after its `=`, or the next word.
  #valueOf(option, attached) {
    if (attached !== null) return attached;
    const { options, flags } = COMMANDS[this.command];
    const [next] = this.rest;
    if (next !== undefined && !isDashed(next)) return this.rest.shift();
    if (next === undefined || [...options, ...flags].includes(shownOption(next))) throw wrong(`a value is required for '${option} <FILE>' but none was supplied`);
    throw this.#unexpected(next);
  }

  #takeOption(word) {
    const { options, flags } = COMMANDS[this.command];
    const at = word.indexOf('=');
    const [option, attached] = at < 0 ? [word, null] : [word.slice(0, at), word.slice(at + 1)];
    const isFlag = flags.includes(option) && attached === null;
    if (!isFlag && !options.includes(option)) throw this.#unexpected(word);
    const value = isFlag ? true : this.#valueOf(option, attached);
    if (this.given.has(option)) throw wrong(`the argument '${isFlag ? option : `${option} <FILE>`}' cannot be used multiple times`, usageOf(this.command));
    this.given.set(option, value);
  }

  #takeOperand(word) {
    const { operands } = COMMANDS[this.command];
    if (!operands.length || (!operands[0].endsWith('...') && this.operands.length === operands.length)) throw this.#unexpected(word);
    this.operands.push(word);
  }

  // Reads the words. Returns whether they ask for help.
  take() {
    for (let isOver = false; this.rest.length; ) {
      const word = this.rest.shift();
      if (isOver || !isDashed(word)) this.#takeOperand(word);
      else if (word === '--') isOver = true;
      else if (word === '-h' || word === '--help') return true;
      else this.#takeOption(word);
    }
    const missing = COMMANDS[this.command].operands.slice(this.operands.length);
    if (!missing.length || (this.operands.length && missing[0].endsWith('...'))) return false;
    const fault = ['the following required arguments were not provided:', ...missing].join('\n  ');
    throw wrong(fault, [this.command, ...COMMANDS[this.command].operands].join(' '));
  }
}

// ---- calls

// The names of all files of a call.
const namesOf = ({ given, operands }) => [...operands, ...[...given.values()].filter((value) => value !== true)];

// Refuses options that do not go together, names that are none, and options that are not offered.
function expectSound(words) {
  const has = (option) => words.given.has(option);
  if (has('--from') && has('--resume')) throw misused('--from and --resume cannot be given together');
  if (has('--journal') && (has('--from') || has('--resume'))) throw misused('--journal cannot be given with --from or --resume');
  if (has('--sync') && !has('--journal')) throw misused('--sync needs --journal');
  if (namesOf(words).includes('')) throw misused('the name of a file is empty');
  if (words.operands.filter((name) => name === '-').length > 1) throw misused('-: standard input can be read only once');
  const option = NOT_OFFERED.find(has);
  if (option) throw misused(`${option} is not offered by this command; use the program`);
}

// The help that words ask for without a command, if they do.
function helpAsked([first, second]) {
  if (first === '-h' || first === '--help' || (first === 'help' && second === undefined)) return HELP;
  if (first !== 'help') return null;
  if (!Object.hasOwn(HELPS, second)) throw unrecognized(second);
  return HELPS[second];
}

/**
 * What the words of a call ask for: `{ shown }`, which is help; `{ version }`; or `{ command, files, operands }`, with the files of the options by their names.
 * Throws a failure for other words.
 */
export function callOf(words) {
  // what Node makes of bytes that are not UTF-8
  if (words.some((word) => word.includes('\uFFFD'))) throw misused('arguments are not valid UTF-8');
  const [command] = words;
  if (command === undefined) throw wrong("'xw' requires a subcommand but one was not provided\n  [subcommands: edit, convert, check, help]", '<COMMAND>');
  const help = helpAsked(words);
  if (help) return { shown: help };
  if (command === '-V' || command === '--version') return { version: true };
  if (isDashed(command)) throw unexpected(shownOption(command), '<COMMAND>');
  if (!Object.hasOwn(COMMANDS, command)) throw unrecognized(command);
  const call = new Words(command, words.slice(1));
  if (call.take()) return { shown: HELPS[command] };
  expectSound(call);
  const named = [...call.given].filter(([, value]) => value !== true);
  const files = Object.fromEntries(named.map(([option, value]) => [option.slice('--'.length), value]));
  return { command, files, operands: call.operands };
}
