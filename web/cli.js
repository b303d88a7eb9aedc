#!/usr/bin/env node
// The command of the package: the engine over standard input and output, as the program has it.
import { fstatSync, readSync, writeSync } from 'node:fs';
import { isatty } from 'node:tty';
import { run } from './command.js';
import { read, readInput, streamed } from './disk.js';
import { outputFault } from './failure.js';
import { load } from './xw.js';

const [INPUT, OUTPUT, ERRORS] = [0, 1, 2];

// The control characters of a text but for line feeds, in UTF-8: C0 and DEL are one byte, C1 are two. Bytes are characters here.
const CONTROLS = /[\x00-\x09\x0b-\x1f\x7f]|\xc2[\x80-\x9f]/g;

// What a terminal is shown of a text: its control characters as escapes, so that they move no cursor.
const escaped = (control) => `\\x${control.charCodeAt(control.length - 1).toString(16).padStart(2, '0')}`;
const shown = (bytes) => Buffer.from(bytes.toString('latin1').replace(CONTROLS, escaped), 'latin1');

// The standard streams, which are read and written at once: an answer is written before the next line is read.
class Streams {
  #room = Buffer.allocUnsafe(65536);
  input = streamed('/dev/stdin', statOf(INPUT));
  output = streamed('/dev/stdout', statOf(OUTPUT));
  isTerminal = isatty(ERRORS);
  isDialogue = isatty(ERRORS) && isatty(INPUT);

  more() {
    return this.#room.subarray(0, readSome(this.#room));
  }

  read(name) {
    return name === '-' ? readInput(readSome, statOf(INPUT)?.isCharacterDevice()) : read(name);
  }

  write(bytes) {
    try {
      writeAll(OUTPUT, isatty(OUTPUT) ? shown(Buffer.from(bytes)) : bytes);
    } catch (error) {
      throw outputFault(error);
    }
  }

  report(text) {
    try {
      writeAll(ERRORS, this.isTerminal ? shown(Buffer.from(text)) : Buffer.from(text));
    } catch {
      // there is nobody to tell
    }
  }
}

function statOf(stream) {
  try {
    return fstatSync(stream, { bigint: true });
  } catch {
    return null;
  }
}

function readSome(room) {
  try {
    return readSync(INPUT, room);
  } catch (error) {
    // the end of a pipe on Windows
    if (error.code === 'EOF') return 0;
    throw error;
  }
}

function writeAll(stream, bytes) {
  for (let at = 0; at < bytes.length; ) at += writeSync(stream, bytes, at);
}

process.exitCode = run(await load(), process.argv.slice(2), new Streams());
