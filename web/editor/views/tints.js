// Colours of cells as classes, since cells have no styles of their own: the rule of a class is made when its colour first comes.
import { brightened } from '../model/colours.js';

/** @type {Set<string>} */
const made = new Set();
/** @type {HTMLStyleElement | null} */
let sheet = null;

// The class of cells of a colour.
/** @param {string} colour */
export function tintClass(colour) {
  const name = `tint-${colour}`;
  if (made.has(name)) return name;
  made.add(name);
  sheet ??= document.head.appendChild(document.createElement('style'));
  sheet.append(`.${name} { --tint: #${brightened(colour)}; }\n`);
  return name;
}
