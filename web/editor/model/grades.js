// Scores of word lists and grades of the engine, which go from 0 to 100. A list whose best score is higher is brought down to that.

/** @typedef {{ worst: number, mean: number, under: number, weak: number }} Figures */

export const MOST = 100;
// the grade of a word without a score
export const UNSCORED = 50;

// The grade of a score, in lists with this best score. `scoreOf` leads back.
/**
 * @param {number} score
 * @param {number} best
 */
export const gradeOf = (score, best) => Math.max(0, Math.min(MOST, Math.floor(best > MOST ? (MOST * score) / best : score)));

// The least whole score that has this grade or a better one.
/**
 * @param {number} grade
 * @param {number} best
 */
export const scoreOf = (grade, best) => (best > MOST ? Math.ceil((grade * best) / MOST) : grade);

// The least grade whose words all have this score or a better one; none where no word has it.
/**
 * @param {number} score
 * @param {number} best
 */
export function gradeFrom(score, best) {
  const grade = gradeOf(score, best);
  if (score > best) return Infinity;
  return scoreOf(grade, best) < score ? grade + 1 : grade;
}

// The score below which a word counts as weak, unless another is chosen.
/** @param {number} best */
export const usualWeak = (best) => (best > 50 && best <= MOST ? 50 : Math.ceil(best / 2));

/** @param {readonly number[]} grades */
export const totalOf = (grades) => grades.reduce((sum, grade) => sum + grade, 0);

// The worst and the mean of scores, and how many are under a score; null of none. Words without a score, as null, do not count.
/**
 * @param {readonly (number | null)[]} scores
 * @param {number} weak
 * @returns {Figures | null}
 */
export function figuresOf(scores, weak) {
  const known = scores.flatMap((score) => score ?? []);
  if (!known.length) return null;
  const mean = Math.round(totalOf(known) / known.length);
  return { worst: Math.min(...known), mean, under: known.filter((score) => score < weak).length, weak };
}

/** @param {Figures} figures */
export const figuresText = ({ worst, mean, under, weak }) => `worst ${worst}, mean ${mean}${under ? `, ${under} under ${weak}` : ''}`;

// Orders what has figures by them, the best worst word first, and then the best mean. What has none stays in its order.
/**
 * @param {{ figures: Figures | null }} one
 * @param {{ figures: Figures | null }} other
 */
export const byFigures = ({ figures: one }, { figures: other }) => (one && other ? other.worst - one.worst || other.mean - one.mean : 0);
