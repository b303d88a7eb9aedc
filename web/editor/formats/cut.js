// Files that are cut: as much of their beginning as can be read.

const ENDS = new Map([['{', '}'], ['[', ']']]);

// The begin of a JSON text up to its last whole value, with the ends of what is open there; null if the text is not only cut.
/** @param {string} text */
export function closedJson(text) {
  const open = [];
  // where the begin may end, and how many of the open ones it has
  let [end, depth, isString] = [0, 0, false];
  for (let at = 0; at < text.length; at++) {
    const sign = text[at];
    if (isString) {
      if (sign === '\\') at++;
      isString = sign !== '"';
    } else if (sign === '"') isString = true;
    else if (ENDS.has(sign)) open.push(ENDS.get(sign));
    else if ((sign === '}' || sign === ']') && open.pop() !== sign) return null;
    // a comma stands behind a value, and a bracket is one
    if (!isString && ',{[}]'.includes(sign)) [end, depth] = [sign === ',' ? at : at + 1, open.length];
  }
  return open.length ? text.slice(0, end) + open.slice(0, depth).reverse().join('') : null;
}

const TAG = /<(\/?)([\w:.-]+)[^<>]*?(\/?)>/g;

// The begin of an XML text up to its last whole tag, with the text behind it and the ends of what is open there; null if the text is not only cut.
/** @param {string} text */
export function closedXml(text) {
  const open = [];
  let end = 0;
  for (const { index, 0: tag, 1: isEnd, 2: name, 3: isWhole } of text.matchAll(TAG)) {
    if (isEnd && open.pop() !== name) return null;
    if (!isEnd && !isWhole) open.push(name);
    end = Number(index) + tag.length;
  }
  const rest = text.slice(end).replace(/<[^]*$|&[^;\s]*$/, '');
  return open.length ? text.slice(0, end) + rest + open.reverse().map((name) => `</${name}>`).join('') : null;
}
