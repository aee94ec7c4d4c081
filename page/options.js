// The options of a cell, as marks that are put on and off, and their names. These are the texts of a row or column of
// cells. A note says which: `options F1:K1` at the end of a text in the next cell to the right, or above in the column.
const NOTE = /\boptions ([A-Z]{1,2}\d+:[A-Z]{1,2}\d+)\)?$/;
const nameLists = new Map();
/** The cell with the note for a set of options, and the area that it tells; null where there is none. */
function noteFor([column, row]) {
  let note = noteAt([column + 1, row]);
  while (!note && row--) note = noteAt([column, row]);
  return note;
}
function noteAt(cell) {
  const found = NOTE.exec(heldAt(cell)), area = found && readRange(found[1]);
  return area && { cell, area };
}
function namesFor(cell) {
  const note = noteFor(cell), names = note && nameLists.get(areaName(note.area));
  return names || null;
}
/** Reads the names that the sets in view have. */
async function lookAtNames(area) {
  for (const cell of cellsOf(area).filter(each => heldAt(each) === '@choice')) {
    const note = noteFor(cell), where = note && areaName(note.area);
    if (!note) continue;
    const texts = isWithin(note.area, area) ? shown : await readArea('rows', note.area);
    const names = cellsOf(note.area).slice(0, 64).map(each => textIn(texts, each));
    if (String(nameLists.get(where)) !== String(names)) { nameLists.set(where, names); draw(); }
  }
}

function showOptions() {
  const cell = current, [title, list, naming] = options.children, names = namesFor(cell) || [];
  title.textContent = 'Options of ' + nameOf(cell);
  list.textContent = '';
  list.classList.toggle('named', names.some(Boolean));
  for (let option = 0; option < 64; option++) {
    const label = made('label', '', list), mark = made('input', '', label);
    label.append(names[option] ? `${option} ${names[option]}` : option);
    mark.type = 'checkbox';
    mark.onchange = async () => {
      if (!await step(mark.checked ? 'choose' : 'unchoose', cell, option)) drawOptions();
    };
  }
  const note = noteFor(cell);
  naming.querySelector('input').value = note ? areaName(note.area) : '';
  drawOptions();
  tell('');
  options.hidden = false;
  beside(options, cells.get(keyOf(...cell)));
  list.querySelector('input').focus();
}
/** Puts the marks on that the current cell shows, as they were chosen here or by others. Of named options, those
 * without a name are left out. */
function drawOptions() {
  const on = new Set(readOptions(shownAt(current))), names = namesFor(current) || [];
  options.querySelectorAll('label input').forEach((mark, option) => {
    mark.checked = on.has(String(option));
    mark.parentNode.hidden = names.some(Boolean) && option >= names.length && !mark.checked;
  });
}
function hideOptions() {
  if (options.hidden) return;
  options.hidden = true;
  focusGrid();
}
/** Keeps where the names are: in the note that there is, at the end of the column's head, or in the next cell. */
async function nameOptions(text) {
  const area = readRange(text), cell = current, note = noteFor(cell), head = heldAt([cell[0], 0]);
  if (!area) { tell('Names are a row or a column of cells, as F1:K1.'); return; }
  const told = 'options ' + areaName(area), next = [cell[0] + 1, cell[1]];
  const [at, entry] = note ? [note.cell, fromEntry(heldAt(note.cell)).replace(NOTE, told)]
    : cell[1] && head[0] === "'" ? [[cell[0], 0], `${head.slice(1)}, ${told}`] : [next, told];
  if (!note && at === next && (!isInGrid(next) || heldAt(next))) {
    tell(`Write "${told}" at the end of a text above ${nameOf(cell)}: the next cell has something.`);
    return;
  }
  hideOptions();
  await putMany([[at, entry]]);
  if (heldAt(at).endsWith(told))
    tell(`${nameOf(at)} has the note "${told}" now, which gives the options their names.`, at, false, true);
}
/** Puts the area that is pointed at into the field of the names. */
function pickNames(cell, from) {
  $('naming').value = areaName(boxOf(cell, from || cell));
}
on(options, 'keydown', event => {
  if (event.key === 'Escape') hideOptions();
  if (event.key === 'Enter' && event.target.id === 'naming') nameOptions(event.target.value);
});
