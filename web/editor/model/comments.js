// Comments on a clue: a text with a line for each.

// The comments that a text has.
/**
 * @param {string} text
 * @returns {string[]}
 */
export const commentsIn = (text) => text.split(/[\r\n\u2028\u2029]+/).map((line) => line.trim()).filter(Boolean);

// The text of comments with another one, which goes into one line.
/**
 * @param {string} typed
 * @param {string[]} comments
 */
export const withComment = (comments, typed) => [...comments, commentsIn(typed).join(' ')].filter(Boolean).join('\n');

// The text of comments without the one at a place.
/**
 * @param {number} place
 * @param {string[]} comments
 */
export const withoutComment = (comments, place) => comments.filter((_, at) => at !== place).join('\n');

// What the comments of another session add to those that are here, by the names that records have for clues: the texts that come in their places, how many
// comments are new, and those on clues that are not here. `here` has the comments on each clue.
/**
 * @param {ReadonlyMap<string, string[]>} here
 * @param {[string, string][]} given
 */
export function addedComments(here, given) {
  const all = given.map(([field, text]) => ({ field, comments: commentsIn(text).filter((one) => !here.get(field)?.includes(one)) })).filter(({ comments }) => comments.length);
  const known = all.filter(({ field }) => here.has(field));
  return {
    texts: known.map(({ field, comments }) => /** @type {[string, string]} */ ([field, [...(here.get(field) ?? []), ...comments].join('\n')])),
    added: known.reduce((sum, { comments }) => sum + comments.length, 0),
    others: all.filter(({ field }) => !here.has(field)).flatMap(({ comments }) => comments),
  };
}
