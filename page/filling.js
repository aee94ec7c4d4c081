// Filling: the cells of an area take the texts of its first rows or columns, again and again, with references moved.
/** Puts what `source` holds into the rest of `area`, which goes on below it or to its right. */
const fillArea = (source, area) => putMany(async () => {
  const wide = source.right - source.left + 1, high = source.bottom - source.top + 1, wanted = [];
  const entries = await readArea('entries', source);
  for (const cell of cellsOf(area)) {
    const from = [source.left + (cell[0] - area.left) % wide, source.top + (cell[1] - area.top) % high];
    if (isSame(from, cell)) continue;
    const text = textOf(from, textIn(entries, from));
    wanted.push(moved(cell, text, cell[0] - from[0], cell[1] - from[1]));
  }
  return wanted;
});
/** Fills what is selected from its first row or column, or a single one from that before it. */
function fillFrom(first, last) {
  const area = selected();
  if (area[first] === area[last]) area[first] = max(0, area[first] - 1);
  fillArea({ ...area, [last]: area[first] }, area);
}
const fillDown = () => fillFrom('top', 'bottom'), fillRight = () => fillFrom('left', 'right');
/** Where a drag of the handle goes: further down or to the right, whichever is more. */
function fillTo(source, [column, row]) {
  const down = row - source.bottom, right = column - source.right;
  if (down <= 0 && right <= 0) return source;
  return down >= right ? { ...source, bottom: row } : { ...source, right: column };
}
