// The elements of the page.
import { partsOfText } from '../model/marks.js';

// An element, of whatever kind it is.
/** @type {(id: string) => any} */
export const $ = (id) => document.getElementById(id);

// What a selector finds, in the page or in a part of it.
/** @type {(selector: string, part?: ParentNode) => HTMLElement & Record<string, any>} */
export const first = (selector, part = document) => /** @type {any} */ (part.querySelector(selector));

/** @type {(selector: string, part?: ParentNode) => (HTMLElement & Record<string, any>)[]} */
export const all = (selector, part = document) => [...part.querySelectorAll(selector)].map((element) => /** @type {HTMLElement} */ (element));

// The element that an event is about, within those that a selector finds; or null.
/** @type {(event: Event, selector: string) => (HTMLElement & Record<string, any>) | null} */
export const pressed = ({ target }, selector) => /** @type {any} */ (target).closest(selector);

// Sets what differs, since the browser draws anew what is set.
/**
 * @param {any} element
 * @param {string} name
 * @param {unknown} value
 */
export function put(element, name, value) {
  if (element[name] !== value) element[name] = value;
}

/**
 * @param {string} value
 * @param {string} textContent
 */
export const option = (value, textContent) => Object.assign(document.createElement('option'), { value, textContent });

// Says which language the text of an element is in, or with '' that nothing says it.
/**
 * @param {HTMLElement} element
 * @param {string} language
 */
export function speakIn(element, language) {
  if (language) put(element, 'lang', language);
  else element.removeAttribute('lang');
}

// Scrolls a box so that an element of it is in sight, and nothing around the box.
/**
 * @param {HTMLElement} box
 * @param {HTMLElement} element
 */
export function scrollWithin(box, element) {
  const [outer, inner] = [box.getBoundingClientRect(), element.getBoundingClientRect()];
  if (!outer.height) return;
  if (inner.top < outer.top || inner.bottom > outer.bottom) box.scrollTop += inner.top - outer.top - outer.height / 2;
}

// A part of a picture in SVG, with attributes, and elements or a text in it.
/**
 * @param {string} name
 * @param {Record<string, string | number>} attributes
 * @param {...Node | string} inner
 */
export function svgElement(name, attributes, ...inner) {
  const made = document.createElementNS('http://www.w3.org/2000/svg', name);
  for (const [attribute, value] of Object.entries(attributes)) made.setAttribute(attribute, String(value));
  made.append(...inner);
  return made;
}

// Whether an element is a field of text, other than the one of the grid.
/** @param {Element} element */
export const isText = (element) => /** @type {Element} */ (element).matches('input:not([type=range], #typing), textarea');

// A text as nodes, its italics as elements.
/** @param {string} text */
export const nodesOfText = (text) => partsOfText(text).map((/** @type {{ text: string, isItalic: boolean }} */ part) => {
  const node = document.createTextNode(part.text);
  if (!part.isItalic) return node;
  const italic = document.createElement('i');
  italic.append(node);
  return italic;
});
