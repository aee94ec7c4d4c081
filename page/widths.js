// Sizes in pixels, which grow with the browser's letters, and the widths of columns, which this browser keeps.
const SCALE = parseFloat(getComputedStyle(document.documentElement).fontSize) / 16;
const WIDTH = Math.round(104 * SCALE), HEIGHT = Math.round(26 * SCALE), SIDE = Math.round(48 * SCALE);
const LEAST_WIDTH = Math.round(24 * SCALE), MOST_WIDTH = 900;
const widths = keptMap('widths');
let lefts = [];

const focusGrid = () => grid.focus({ preventScroll: true });
function layOut() {
  lefts = [0];
  for (let c = 0; c < COLUMNS; c++) lefts.push(lefts[c] + (widths.get(c) || WIDTH));
  Object.assign(space.style, { width: SIDE + lefts[COLUMNS] + 'px', height: HEIGHT + ROWS * HEIGHT + 'px' });
}
/** The column at a distance from the left end of the first one. */
function columnAt(x) {
  let column = 0;
  while (column < COLUMNS - 1 && lefts[column + 1] <= x) column++;
  return column;
}
const widthOf = column => lefts[column + 1] - lefts[column];
/** The box of an area, as it lies in the scrolled space. */
const pixels = area => [SIDE + lefts[area.left], HEIGHT + area.top * HEIGHT, lefts[area.right + 1] - lefts[area.left],
  (area.bottom - area.top + 1) * HEIGHT];

/** Lays everything out anew, once widths have changed. */
function layOutAgain() {
  layOut();
  sweep(cells, () => false);
  sweep(heads, () => false);
  draw();
}
function setWidth(column, width) {
  widths.set(column, max(LEAST_WIDTH, min(MOST_WIDTH, Math.round(width))));
  layOutAgain();
}
/** Gives a column the width that the widest of its cells wants. */
async function fitWidth(column) {
  const area = { ...ALL, left: column, right: column }, probe = made('div', '', space);
  let width = 0;
  await take(area).catch(() => tell(NO_LINK));
  for (const cell of cellsOf(area).filter(shownAt)) {
    fill(probe, cell);
    width = max(width, probe.offsetWidth + 4);
  }
  probe.remove();
  setWidth(column, width || WIDTH);
  keep('widths', widths);
}
