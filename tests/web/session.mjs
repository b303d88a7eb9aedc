// A session on the module for the web, as the command of its package runs it, with the arguments, the answers and the exit statuses of `xw edit`.
//
//   node session.mjs serve      many sessions, one after another: tests/embedded asks for them
import { createInterface } from 'node:readline';
import { run } from '../../web/dist/command.js';
import { read } from '../../web/dist/disk.js';
import { load } from '../../web/dist/xw.js';

// Runs a session for each line of the input, and answers in a line: both are JSON, with bytes in base64.
const module = await load();
for await (const line of createInterface({ input: process.stdin })) {
  const { words, room, typed } = JSON.parse(line);
  process.chdir(room);
  const [answers, messages, chunks] = [[], [], [Buffer.from(typed, 'base64')]];
  const status = run(module, words, {
    input: null,
    output: null,
    isTerminal: false,
    isDialogue: false,
    more: () => chunks.shift() ?? Buffer.alloc(0),
    read: (name) => (name === '-' ? (chunks.shift() ?? Buffer.alloc(0)) : read(name)),
    write: (bytes) => answers.push(bytes),
    report: (text) => messages.push(Buffer.from(text)),
  });
  const [answered, told] = [answers, messages].map((parts) => Buffer.concat(parts).toString('base64'));
  process.stdout.write(`${JSON.stringify({ answers: answered, messages: told, status })}\n`);
}
