// A small front end in TypeScript, written from docs/ and the types of the package: it fills a grid from a word list.
import { Answer, Fault, Xw, load } from 'xw';

export interface Puzzle {
  grid: string[];
  file: Uint8Array;
}

function expect(answer: Answer): string[] {
  if (!answer.ok) throw new Error(answer.refusal ?? 'refused');
  return answer.lines;
}

// Searches in slices. Between two of them a page shows its progress and takes a click on its stop button.
async function fill(xw: Xw, isStopped: () => boolean): Promise<boolean> {
  while (!isStopped()) {
    const [found] = expect(xw.line('autofill 2000 0'));
    if (found !== 'limit') return found === 'filled';
    await new Promise((next) => setTimeout(next));
  }
  return false;
}

// The characters of a title that a puzzle file cannot have.
export function strangeIn(xw: Xw, title: string): string | null {
  try {
    expect(xw.line(`title ${title}`));
    return null;
  } catch (fault) {
    if (fault instanceof Fault && fault.status === 'Character') return fault.answer;
    throw fault;
  }
}

// A puzzle of 5 by 5 with this title, or null if the search is stopped or finds none.
export async function made(list: Uint8Array, title: string, isStopped: () => boolean): Promise<Puzzle | null> {
  const xw = Xw.open(await load(), { list });
  try {
    expect(xw.line('size 5 5'));
    if (strangeIn(xw, title) !== null || !(await fill(xw, isStopped))) return null;
    return { grid: expect(xw.line('show')), file: xw.puz() };
  } finally {
    xw.close();
  }
}
