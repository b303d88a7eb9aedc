// The names of keys, which are others on a Mac.

const isMac = /Mac|iP(ad|hone)/.test(navigator.platform);

// A text with the names of its keys.
/** @param {string} text */
export const keyed = (text) => (isMac ? text.replace(/Ctrl[ +]/g, '⌘').replace(/Shift Del(ete)?\b/g, '⇧⌫') : text);

// Names the keys of a page.
/** @param {ParentNode} root */
export function nameKeys(root) {
  if (!isMac) return;
  for (const key of root.querySelectorAll('kbd')) key.textContent = keyed(key.textContent ?? '');
  for (const element of root.querySelectorAll('[title]')) element.setAttribute('title', keyed(element.getAttribute('title') ?? ''));
}
