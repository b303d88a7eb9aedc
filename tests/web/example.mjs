// The JavaScript of a document.
import { readFileSync } from 'node:fs';

// The block of code that begins with a line, and the values that it prints: each `console.log` has its value in a comment.
export function exampleOf(document, beginning) {
  const text = readFileSync(new URL(`../../${document}`, import.meta.url), 'utf8');
  const block = text.split('```').find((part) => part.startsWith(`js\n${beginning}`));
  const code = block.slice('js\n'.length);
  const values = Array.from(code.matchAll(/console\.log\(.*; +\/\/ (.*)$/gm), ([, value]) => Function(`return (${value})`)());
  return { code, printed: values };
}
