// What the types of the package take and refuse. It is compiled, and does not run: each line after `@ts-expect-error` must be an error.
import { Best, Cell, Fill, Xw, ask, best } from 'xw';
import { RemoteXw } from 'xw/remote.js';

declare const xw: Xw;

export const changes: Cell[][] = [
  ask(xw, 'set', 1, 2, 'a'), ask(xw, 'clear', '1', '2'), ask(xw, 'place', '1 across', 'as'), ask(xw, 'place', 1, 'across', 'as'), ask(xw, 'bar', 1, 2, 'below'),
  ask(xw, 'sym', 'half'), ask(xw, 'watch', 'on'), ask(xw, 'add', 'as', 40), ask(xw, 'title', 'One'), ask(xw, 'text', 'clue 1 1 across', 'Two'),
];
export const total: number = ask(xw, 'words', '1 across', 10).total + ask(xw, 'words', 1, 'across').total + ask(xw, 'choices', '1 across', 9, 'as').length;
export const grades: (number | null)[] = ask(xw, 'grades', '1 across', '2 down').map(({ grade }) => grade);
export const kind: 'try' | 'noword' | 'dead' | 'done' = ask(xw, 'suggest').kind;
export const answer: Best = ask(xw, 'best', 1000, 0, '1 across');
ask(xw, 'help', 'words');

// @ts-expect-error
ask(xw, 'frob');
// @ts-expect-error
ask(xw, 'set', 1, 2);
// @ts-expect-error
ask(xw, 'set', 'one', 2, 'a');
// @ts-expect-error
ask(xw, 'bar', 1, 2, 'left');
// @ts-expect-error
ask(xw, 'sym', 'halves');
// @ts-expect-error
ask(xw, 'show', 1);
// @ts-expect-error
ask(xw, 'why', 1, 'sideways');

export async function last(stop: AbortController): Promise<Fill | null> {
  let found: Fill | null = null;
  for await (const fill of xw.best({ signal: stop.signal, least: 5 })) found = fill;
  const told = await best(xw, { progress: ({ rows }) => rows?.length === 5 });
  const end: IteratorResult<Fill, { bound: number }> = await xw.best().next();
  // @ts-expect-error
  xw.best({ signal: stop });
  await best(xw, { milliseconds: 5000, stop: new Int32Array(new SharedArrayBuffer(4)) });
  // @ts-expect-error
  await best(xw, { stop: new SharedArrayBuffer(4) });
  return end.done || told.bound === 101 ? found : end.value;
}

export async function remote(list: string, worker: Worker): Promise<number | null> {
  const opened = await RemoteXw.open({ list, worker });
  const changes: Cell[] = await opened.ask('set', 1, 2, 'a');
  const grades: (number | null)[] = (await opened.ask('grades', '1 across')).map(({ grade }) => grade);
  // @ts-expect-error
  await opened.ask('set', 1, 2);
  // @ts-expect-error
  await opened.ask('frob');
  // @ts-expect-error
  RemoteXw.open({ lists: list });
  for await (const { grade, rows } of opened.best({ least: 5, progress: ({ placements }) => placements > 1000 })) if (rows.length) return grade;
  const end: IteratorResult<Fill, { bound: number }> = await opened.best().next();
  const [puzzle, found]: [Uint8Array, 'filled' | 'nofill' | 'limit'] = [await opened.puz(), await opened.autofill({ limit: 5 })];
  opened.close();
  return end.done || changes.length || found === 'filled' ? puzzle.length : grades[0];
}

xw[Symbol.dispose]();
export const isClosed: boolean = xw.closed;
