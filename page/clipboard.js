// Copy, cut and paste. What is copied goes out as the text that cells show, and for this page as entries beside it,
// whose references move along; what was cut moves as it is.
const FORM = 'application/x-sheet-entries';
let cutArea = null, lastText = null, lastCopy = '';
const isAtGrid = () => !editing && document.activeElement === grid;
/** Whether all of an area was read, as it lies in view or was asked for since it is selected. */
const isKnown = area => seenRange === areaName(area) || seenAt === areaName(visible()) && isWithin(area, visible());
const quoted = text => /^"|[\t\r\n]/.test(text) ? '"' + text.replace(/"/g, '""') + '"' : text;
/** What is selected, without what is empty at the end of whole rows and columns. */
function copiedArea() {
  const area = selected(), isWhole = area.right === COLUMNS - 1 || area.bottom === ROWS - 1;
  if (!isWhole) return area;
  const used = [...held.keys()].map(cellAt).filter(cell => isIn(cell, area));
  const inner = used.length ? areaAround(used) : { right: area.left, bottom: area.top };
  return { ...area, right: max(area.left, inner.right), bottom: max(area.top, inner.bottom) };
}
const copied = () => rowsOf(copiedArea(), cell => quoted(shownAt(cell))).map(row => row.join('\t')).join('\n');
const copiedEntries = () => {
  const area = copiedArea();
  return { left: area.left, top: area.top, rows: rowsOf(area, cell => textOf(cell, heldAt(cell))) };
};
/** What `put` is given for a text that was so many columns and rows away: it with its references moved. */
function moved(cell, text, columns, rows) {
  const found = isFormula(text) ? shifted(text, columns, rows) : text;
  return found === null ? [cell, text, 'A reference would leave the sheet.'] : [cell, found];
}
/** The texts of a copy for its new place. */
const movedRows = ({ left, top, rows }, [column, row]) => rows.map((texts, i) => texts.map((text, j) =>
  moved([column + j, row + i], text, column - left, row - top))).flat();
/** The copy that a page like this one put there; null where it is none. */
function readCopy(text) {
  try {
    const copy = JSON.parse(text), isRow = row => row.length && row.every(each => typeof each === 'string');
    return copy.rows.length && copy.rows.every(isRow) ? copy : null;
  } catch {
    return null;
  }
}
/** Repeats the rows of a copy to fill a selection that is a multiple of it. */
function repeated(copy, range) {
  const high = copy.rows.length, wide = copy.rows[0].length, found = [];
  const down = (range.bottom - range.top + 1) / high, right = (range.right - range.left + 1) / wide;
  const isMultiple = Number.isInteger(down) && Number.isInteger(right);
  for (let i = 0; i < (isMultiple ? down : 1); i++)
    for (let j = 0; j < (isMultiple ? right : 1); j++)
      found.push(...movedRows(copy, [range.left + j * wide, range.top + i * high]));
  return found;
}
/** Reads a table of texts: fields in quotes may have the separator, quotes and line breaks, which become blanks. */
function readFields(text, separator) {
  const rows = [[]];
  let breaks = 0, at = 0;
  const end = text.replace(/\r?\n$/, '').length;
  const isEnd = i => i >= end || text[i] === separator || /[\r\n]/.test(text[i]);
  while (at <= end) {
    const quote = /"((?:[^"]|"")*)"/y;
    quote.lastIndex = at;
    const found = quote.exec(text), isQuoted = found && isEnd(quote.lastIndex);
    let stop = isQuoted ? quote.lastIndex : at;
    while (!isEnd(stop)) stop++;
    const field = isQuoted ? found[1].replace(/""/g, '"') : text.slice(at, stop);
    breaks += (field.match(/\r\n|[\r\n]/g) || []).length;
    rows.at(-1).push(field.replace(/\r\n|[\t\r\n]/g, ' '));
    if (stop >= end) break;
    if (text[stop] !== separator) rows.push([]);
    at = stop + (text[stop] === '\r' && text[stop + 1] === '\n' ? 2 : 1);
  }
  return [rows, breaks];
}
const placed = (rows, [column, row]) =>
  rows.map((texts, i) => texts.map((text, j) => [[column + j, row + i], text])).flat();
/** Pastes a text; one that is a single field fills what is selected. */
function pasteText(text) {
  const range = selected(), [rows, breaks] = readFields(text, '\t');
  if (rows.length > 1 || rows[0].length > 1) return putMany(placed(rows, [range.left, range.top]), breaks);
  return putMany(cellsOf(range).map(cell => [cell, rows[0][0]]), breaks);
}
/** Moves what was cut: its entries stay as they are. Counters and sets stay where they are, with what they have. */
async function moveCut(from, to) {
  let stayed = 0;
  await putMany(async () => {
    const entries = await readArea('entries', from);
    const all = placed(rowsOf(from, cell => textOf(cell, textIn(entries, cell))), to);
    const targets = all.filter(([, text]) => !isCounter(text));
    const covered = new Set(targets.map(([cell]) => keyOf(...cell)));
    const left = targets.map(([[column, row]]) => [from.left + column - to[0], from.top + row - to[1]]);
    if (all.some(([cell]) => !isInGrid(cell))) { tell('This would leave the sheet: nothing was moved.'); return []; }
    stayed = all.length - targets.length;
    return [...targets, ...left.filter(cell => !covered.has(keyOf(...cell))).map(cell => [cell, ''])];
  });
  const kinds = several(stayed, 'counter or set', 'counters and sets');
  if (stayed) tell(kinds + ' stayed, since counts and marks do not move.', to, true, true);
}
function drawCut() {
  $('cut').hidden = !cutArea;
  if (cutArea) place($('cut'), ...pixels(cutArea));
}
function dropCut() {
  if (cutArea) { cutArea = null; drawCut(); }
}
for (const kind of ['copy', 'cut'])
  on(document, kind, event => {
    if (!isAtGrid()) return;
    claim(event);
    if (acting || isMoving || !isKnown(selected())) {
      tell('The cells are still being read: once more, please.');
      return;
    }
    [lastText, lastCopy] = [copied(), JSON.stringify(copiedEntries())];
    event.clipboardData.setData('text/plain', lastText);
    event.clipboardData.setData(FORM, lastCopy);
    cutArea = kind === 'cut' ? copiedArea() : null;
    drawCut();
  });
on(document, 'paste', event => {
  if (!isAtGrid()) return;
  claim(event);
  const [text, form] = ['text/plain', FORM].map(kind => event.clipboardData.getData(kind));
  afterMove(() => { if (editing) insert(text); else paste(text, form); });
});
function paste(text, form) {
  const copy = readCopy(form), from = cutArea, range = selected();
  // (a clipboard may drop the second form)
  const isCut = from && (form ? form === lastCopy : text === lastText);
  dropCut();
  if (isCut) moveCut(from, [range.left, range.top]);
  else if (copy) putMany(repeated(copy, range));
  else pasteText(text);
}
