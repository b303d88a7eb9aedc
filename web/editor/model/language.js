// The language of a puzzle, as in “en-GB”, by which the browser checks the spelling of its texts. It is kept with the originals.

export const LANGUAGE = 'language';

// What names a language, as HTML has it.
/** @param {string} code */
export const isLanguage = (code) => /^[A-Za-z]{2,3}(?:-[A-Za-z0-9]{2,8}){0,4}$/.test(code);

// The languages that can be chosen.
const CHOICES = ['en-AU', 'en-CA', 'en-GB', 'en-IE', 'en-NZ', 'en-US', 'af', 'da', 'de', 'es', 'fi', 'fr', 'ga', 'it', 'nb', 'nl', 'pl', 'pt', 'sv', 'cy'];

// The choices for a puzzle, with its own if that is another one, each with its name in English.
/** @param {string} language */
export function languagesFor(language) {
  const names = new Intl.DisplayNames(['en'], { type: 'language' });
  return [...CHOICES, ...(language && !CHOICES.includes(language) ? [language] : [])].map((code) => ({ code, name: `${names.of(code)} (${code})` }));
}
