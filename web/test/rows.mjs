// Grids of rows, as the page has them, for cases that need no engine.

// Makes boards of the page's class of rows of letters: `#` is a block, and `.` an empty cell. Each run of two cells or more is a light.
export const boardsOf = (Board) => (...rows) => {
  const [width, all] = [rows[0].length, rows.join('')];
  const cells = [...all].map((letter, at) => ({
    coordinates: `${Math.floor(at / width) + 1} ${(at % width) + 1}`, letter: /[A-Z]/.test(letter) ? letter : '', block: letter === '#', across: null, down: null,
  }));
  const lights = [];
  const isOpen = (at) => all[at] !== undefined && all[at] !== '#';
  const nextIn = { across: (at) => ((at + 1) % width ? at + 1 : -1), down: (at) => at + width };
  const lastIn = { across: (at) => (at % width ? at - 1 : -1), down: (at) => at - width };
  let number = 0;
  for (const first of all.split('').keys()) {
    const begun = ['across', 'down'].filter((way) => isOpen(first) && !isOpen(lastIn[way](first)) && isOpen(nextIn[way](first)));
    if (begun.length) number++;
    for (const direction of begun) {
      const own = [];
      for (let at = first; isOpen(at); at = nextIn[direction](at)) own.push(at);
      const light = { name: `${number} ${direction}`, number: String(number), direction, cells: own };
      lights.push(light);
      cells[first].number = light.number;
      for (const at of own) cells[at][direction] = light;
    }
  }
  return new Board({ width, height: rows.length, cells, lights, counts: lights.map(() => 1), texts: new Map() });
};
