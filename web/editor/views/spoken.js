// What is spoken to those who do not see the grid, beside the messages.
import { $ } from './page.js';
import { titleOf } from './words.js';

// A light with its letters, as in “1 Down, 7 letters, T O N blank blank blank blank”. `entries` has what is in each of its cells; '' if that is empty.
/**
 * @param {import('../model/board.js').Light} light
 * @param {readonly string[]} entries
 */
export function spokenOf(light, entries) {
  const { length } = light.cells;
  const letters = entries.some(Boolean) ? entries.map((entry) => [...entry].join(' ') || 'blank').join(' ') : 'all blank';
  return `${titleOf(light)}, ${length} ${length === 1 ? 'letter' : 'letters'}, ${letters}`;
}

// Has a screen reader say a text. One that was said before is said again.
/** @param {string} text */
export function speak(text) {
  const line = $('spoken');
  line.textContent = line.textContent === text ? `${text}\u00a0` : text;
}
