// Italics in texts, which clues spell as ipuz does: <i>Hamlet</i>. The engine and formats without them have the text alone.

const MARK = /<\/?i>/g;

/** @param {string} text */
export const hasItalics = (text) => text.search(MARK) >= 0;

/** @param {string} text */
export const withoutItalics = (text) => text.replace(MARK, '');

// The parts of a text, each with whether it is in italics.
/** @param {string} text */
export function partsOfText(text) {
  let isItalic = false;
  return text.split(/(<\/?i>)/).flatMap((part) => {
    if (part === '<i>' || part === '</i>') {
      isItalic = part === '<i>';
      return [];
    }
    return part ? [{ text: part, isItalic }] : [];
  });
}

// A text with its italics as elements of HTML, and the rest as `spell` spells it.
/**
 * @param {string} text
 * @param {(text: string) => string} spell
 */
export const markedUp = (text, spell) => partsOfText(text).map((part) => (part.isItalic ? `<i>${spell(part.text)}</i>` : spell(part.text))).join('');

/** @type {Record<string, string>} */
const REFERENCES = { '&': '&amp;', '<': '&lt;', '\r': '&#13;' };

// A text as HTML spells it, so that it reads back the same: what could begin an element or a reference is one, and a carriage return that a reader of
// HTML would drop. A text without these is itself.
/** @param {string} text */
export const htmlText = (text) => (/[<&]/.test(text) ? text.replace(/&(?=[#A-Za-z])|[<\r]/g, (one) => REFERENCES[one]) : text);

// The text of a field with its selection in italics, or without if it is; and where the selection is then.
/**
 * @param {string} text
 * @param {number} start
 * @param {number} end
 */
export function toggledItalics(text, start, end) {
  const [before, chosen, after] = [text.slice(0, start), text.slice(start, end), text.slice(end)];
  if (before.endsWith('<i>') && after.startsWith('</i>')) return { text: before.slice(0, -3) + chosen + after.slice(4), start: start - 3, end: end - 3 };
  if (hasItalics(chosen)) return { text: before + withoutItalics(chosen) + after, start, end: start + withoutItalics(chosen).length };
  return { text: `${before}<i>${chosen}</i>${after}`, start: start + 3, end: end + 3 };
}
