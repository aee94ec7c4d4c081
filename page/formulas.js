// How formulas are shown and typed: A1 for [.A1], A1:B2 for [.A1:.B2], and a comma may stand for a semicolon.
const isFormula = text => /^(of:)?=/.test(text);
const short = text => text.replace(/\[\.([A-Z]+\d+)(?::\.([A-Z]+\d+))?\]/g, (all, a, b) => b ? a + ':' + b : a);
const CORNER = String.raw`(\$?)([A-Za-z]{1,2})(\$?)([1-9]\d{0,3})`;
const END = String.raw`(?![A-Za-z0-9_])(?!\s*\()`;
const CORNERS = new RegExp('(?<![A-Za-z0-9_])' + CORNER + END, 'g');
const PLACES = new RegExp(String.raw`(?<![A-Za-z0-9_])${CORNER}(?:\s*:\s*${CORNER})?${END}`, 'g');
const outside = text => text.replace(/,/g, ';').replace(PLACES, (all, a, column, b, row, c, toColumn, d, toRow) =>
  '[.' + (column + row).toUpperCase() + (toColumn ? ':.' + (toColumn + toRow).toUpperCase() : '') + ']');
const long = text => text.split(/(\[[^\]]*\])/).map((part, i) => i % 2 ? part : outside(part)).join('');
const toEntry = text => isFormula(text) ? long(text) : text;
// A text is shown without its apostrophe, where it is the same entry without.
const needsApostrophe = text => /^'([+-]?\d+$|=|of:=|@tally$|@choice$|'|$)/.test(text);
const fromEntry = text => text[0] === '=' ? short(text)
  : text[0] === "'" && !needsApostrophe(text) ? text.slice(1) : text;

/** A formula with its references moved, but where a $ holds a column or a row; null where one leaves the grid. */
function shifted(text, columns, rows) {
  let isLost = false;
  const moved = short(text).replace(CORNERS, (all, holdsColumn, column, holdsRow, row) => {
    const cell = [readColumn(column) + (holdsColumn ? 0 : columns), row - 1 + (holdsRow ? 0 : rows)];
    isLost = isLost || !isInGrid(cell);
    return holdsColumn + columnName(max(0, cell[0])) + holdsRow + (cell[1] + 1);
  });
  return isLost ? null : moved;
}
// A range in an entry, or a reference that stands alone as an argument of a function that takes ranges, too.
const ITEM = /\[\.\w+:\.\w+\]|(?<=(SUM|MIN|MAX|COUNT)\(((\([^()]*\)|[^()])*;)?)\[\.\w+\](?=[;)])/g;
/** The areas whose texts a formula passes over. */
const rangesOf = entry => [...entry.matchAll(ITEM)].map(([place]) => readRange(short(place)));

// The formulas that were typed here with a $, which the sheet doesn't keep: cell by cell the typed text, and the entry
// that it became. While the cell holds that entry, the text with its $ is shown and copied.
const typed = keptMap('formulas');
function keepTyped(cell, text, entry) {
  const key = keyOf(...cell);
  if (!isFormula(text) || !text.includes('$')) { if (!typed.delete(key)) return; } else typed.set(key, [text, entry]);
  keep('formulas', typed);
}
/** What is typed to have this entry in this cell. */
function textOf(cell, entry) {
  const [text, kept] = typed.get(keyOf(...cell)) || [];
  return kept === entry ? text : fromEntry(entry);
}
