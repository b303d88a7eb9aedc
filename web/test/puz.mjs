// .puz files of all versions, written by the description of the format.
const checksum = (bytes, sum = 0) => {
  for (const byte of bytes) {
    sum = sum & 1 ? (sum >>> 1) | 0x8000 : sum >>> 1;
    sum = (sum + byte) & 0xffff;
  }
  return sum;
};

// A file of a version: its solution, the bytes of its texts, its sections, and the tag and the checksum of a scrambled solution.
export function puzOf({ version, width, height, solution, texts, sections = [], tag = 0, sum: before = 0 }) {
  const little = (number) => [number & 255, number >>> 8];
  const header = Buffer.alloc(0x34);
  header.write('ACROSS&DOWN\0', 2, 'latin1');
  header.write(version, 0x18, 'latin1');
  header.set([width, height, ...little(texts.length - 4), 1, 0, tag, 0], 0x2c);
  header.set(little(before), 0x1e);
  const state = Buffer.from(solution.replace(/[^.]/g, '-'));
  const [title, author, copyright, notes] = [texts[0], texts[1], texts[2], texts.at(-1)];
  const clues = texts.slice(3, -1);
  const ended = (text) => (text.length ? Buffer.concat([text, Buffer.from([0])]) : text);
  const sum = (from) => {
    let now = [title, author, copyright].reduce((so, text) => checksum(ended(text), so), from);
    now = clues.reduce((so, text) => checksum(text, so), now);
    return version.startsWith('1.2') ? now : checksum(ended(notes), now);
  };
  const cib = checksum(header.subarray(0x2c, 0x34));
  const board = Buffer.from(solution, 'latin1');
  header.set(little(cib), 0x0e);
  header.set(little(sum(checksum(state, checksum(board, cib)))), 0);
  const four = [cib, checksum(board), checksum(state), sum(0)];
  header.set([...'ICHE'].map((letter, at) => letter.charCodeAt(0) ^ (four[at] & 255)), 0x10);
  header.set([...'ATED'].map((letter, at) => letter.charCodeAt(0) ^ (four[at] >>> 8)), 0x14);
  const extra = sections.map(([name, data]) => Buffer.concat([Buffer.from(name), Buffer.from([...little(data.length), ...little(checksum(data))]), data, Buffer.from([0])]));
  return Buffer.concat([header, board, state, ...texts.flatMap((text) => [text, Buffer.from([0])]), ...extra]);
}

// Letters scrambled by a key, as the description has it: for each digit they are moved on by the digits of the key in turn, cut at the digit, and shuffled.
export function scrambledBy(key, letters) {
  const digits = [...key].map(Number);
  let now = letters;
  for (const digit of digits) {
    const moved = [...now].map((letter, at) => String.fromCharCode(65 + ((letter.charCodeAt(0) - 65 + digits[at % 4]) % 26))).join('');
    const cut = moved.slice(digit) + moved.slice(0, digit);
    const half = Math.floor(cut.length / 2);
    now = [...cut.slice(0, half)].map((letter, at) => cut[half + at] + letter).join('') + (cut.length % 2 ? cut.at(-1) : '');
  }
  return now;
}

// A file with a solution that a key scrambled, column by column.
export function lockedPuzOf({ key, solution, ...puzzle }) {
  const { width, height } = puzzle;
  const order = Array.from({ length: width * height }, (_, at) => (at % height) * width + Math.floor(at / height)).filter((cell) => solution[cell] !== '.');
  const letters = order.map((cell) => solution[cell]).join('');
  const scrambled = [...solution];
  [...scrambledBy(key, letters)].forEach((letter, at) => (scrambled[order[at]] = letter));
  return puzOf({ ...puzzle, solution: scrambled.join(''), tag: 4, sum: checksum(Buffer.from(letters)) });
}
