// Editing, in the cell or in the line above the grid. `begunWith` is what the cell held when that began; `isTyped` says
// that a key began it, so that the arrows end it; `picked` is where in the text a cell was last pointed into.
let editing = null, begunWith = '', isTyped = false, picked = null, pickedCell = null, home = null;
const field = () => editing === 'line' ? line : editor;
function edit(text, where, wasTyped = false) {
  if (editing) return;
  hideOptions();
  tell(takesLines() ? '' : WAITS, current, true);
  corner = current;
  [editing, begunWith, isTyped] = [where, heldAt(current), wasTyped];
  editor.value = text;
  if (line.value !== text) line.value = text;
  if (where !== 'cell') return;
  editor.style.display = 'block';
  placeEditor();
  editor.focus();
  editor.setSelectionRange(text.length, text.length);
}
/** The editor is as wide as its text, within the grid. */
function placeEditor() {
  const [x, y, width] = pixels(boxOf(current, current)), least = max(width + 1, 180 * SCALE);
  place(editor, x - 1, y - 1, least, HEIGHT + 1);
  const room = max(least, grid.scrollLeft + grid.clientWidth - x - 8);
  editor.style.width = max(least, min(editor.scrollWidth + 12, room)) + 'px';
}
function stopEditing() {
  editing = picked = pickedCell = null;
  editor.style.display = 'none';
  focusGrid();
  draw();
}
/** Ends what is edited; whether it has ended. */
function hasEnded() {
  if (editing) commit(0, 0);
  return !editing;
}
/** Where one is after an entry: Enter goes back to the column where a row of Tabs began. */
function moveAfter(cell, columns, rows) {
  const first = home === null ? cell[0] : home;
  moveTo([rows ? first : cell[0] + columns, cell[1] + rows]);
  home = columns ? first : null;
}
// The editor closes at once; a refused entry comes back into it, or waits for F2 where something else is done by then.
async function commit(columns, rows, isArrow) {
  const text = field().value, cell = current, base = begunWith, was = textOf(cell, base);
  if (!takesLines() && text !== was) {
    tell(WAITS, cell, true);
    return;
  }
  stopEditing();
  tell(link.isHeard || text === was ? '' : COMES, cell, true);
  if (isArrow) home = null;
  moveAfter(cell, columns, rows);
  if (isArrow) home = null;
  if (text === was) return;
  const to = current, [refused] = await put([[cell, text]], base) || [{ cell, text, why: LOST }];
  if (refused) takeUpAgain(refused, to); else tellNote(cell, text);
}
function takeUpAgain({ cell, text, why }, to) {
  if (!isAtGrid() || current !== to || !link.isHeard) mark(cell, text, why || 'It was not put here.');
  else {
    select(cell);
    reveal(cell);
    edit(text, 'cell');
  }
  draw();
  if (why) tell(nameOf(cell) + ': ' + why, cell, why === LOST);
}
/** Tells that an entry which looks like a number is a text. */
function tellNote(cell, text) {
  const note = text[0] === "'" ? '' : noteOf(heldAt(cell));
  if (note) tell(nameOf(cell) + ': ' + note, cell, false, true);
}
/** Tells what came into the cell while one types there. */
function tellMeanwhile() {
  const entry = heldAt(current);
  if (!editing || entry === begunWith || !$('refusal').hidden) return;
  tell(`Somebody has put ${entry ? '"' + fromEntry(entry) + '"' : 'nothing'} here meanwhile. Enter asks which stays.`,
    current, true, true);
}
/** Begins with what the cell holds, or with what was refused for it. */
function begin() {
  const mark = marks.get(keyOf(...current));
  if (!mark && heldAt(current) === '@choice') { showOptions(); return; }
  edit(mark ? mark.text : textOf(current, heldAt(current)), 'cell');
}
/** Puts a cell that is pointed at while a formula is typed into the formula. */
function pick(cell, from) {
  const box = field(), text = from && !isSame(from, cell) ? nameOf(from) + ':' + nameOf(cell) : nameOf(cell);
  const [start, end] = picked || [box.selectionStart, box.selectionEnd];
  box.setRangeText(text, start, end, 'end');
  picked = [start, start + text.length];
  pickedCell = cell;
  (editing === 'line' ? editor : line).value = box.value;
  box.focus();
  placeEditor();
}
/** Whether an arrow points at a cell, since a formula waits for one. */
const isPicking = box => isFormula(box.value) &&
  (picked || /[=+\-*(;,<>:]\s*$/.test(box.value.slice(0, box.selectionStart)));
const ARROWS = { ArrowLeft: [-1, 0], ArrowRight: [1, 0], ArrowUp: [0, -1], ArrowDown: [0, 1] };
function editorKey(event) {
  const back = event.shiftKey ? -1 : 1, arrow = ARROWS[event.key];
  if (event.isComposing) return;
  if (event.key === 'Enter') commit(0, back);
  else if (event.key === 'Tab') commit(back, 0);
  else if (event.key === 'Escape') { tell(''); stopEditing(); }
  else if (event.key === 'F6') commit(0, 0);
  else if (event.key === 'F2') isTyped = false;
  else if (arrow && isTyped && editing === 'cell' && !event.ctrlKey && !event.altKey && !event.shiftKey) {
    const [column, row] = pickedCell || current, to = [column + arrow[0], row + arrow[1]];
    if (!isPicking(editor)) commit(...arrow, true); else if (isInGrid(to)) pick(to);
  } else return;
  claim(event);
}
for (const [box, other] of [[editor, line], [line, editor]]) {
  on(box, 'keydown', editorKey);
  on(box, 'input', () => {
    picked = pickedCell = null;
    other.value = box.value;
    if (box === editor) placeEditor();
  });
}
on(line, 'focus', () => {
  if (isMoving) focusGrid();
  afterMove(() => { line.focus(); edit(line.value, 'line'); });
});
