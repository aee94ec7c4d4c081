'use strict';
// The grid and the names of its cells. A cell is [column, row], both from 0; an area is the box between two cells.
const COLUMNS = 104, ROWS = 1024;
const ALL = { left: 0, top: 0, right: COLUMNS - 1, bottom: ROWS - 1 };

const { floor, max, min } = Math;
const $ = id => document.getElementById(id);
const on = (target, kind, call) => target.addEventListener(kind, call);
/** Takes an event, so that the browser does nothing at it. */
const claim = event => event.preventDefault();
// What this browser keeps: maps, each by its name. They are read after the first picture, since a browser that has just
// started takes long for that.
const kept = {};
const keptMap = name => kept[name] = new Map();
function recall() {
  for (const name in kept)
    try {
      for (const [key, value] of JSON.parse(localStorage.getItem(name) || '[]')) kept[name].set(key, value);
    } catch {
      // (it keeps nothing by this name)
    }
}
function keep(name, map) {
  try {
    localStorage.setItem(name, JSON.stringify([...map]));
  } catch {
    // (it is kept as long as the page is open)
  }
}
/** The time in milliseconds, which never goes back. */
const clock = () => performance.now();
const bound = (value, most) => max(0, min(most - 1, value));
const keyOf = (column, row) => row * COLUMNS + column;
const cellAt = key => [key % COLUMNS, floor(key / COLUMNS)];
const isSame = (a, b) => a[0] === b[0] && a[1] === b[1];
const isInGrid = ([column, row]) => column >= 0 && row >= 0 && column < COLUMNS && row < ROWS;

const columnName = c => c < 26 ? String.fromCharCode(65 + c) : columnName(floor(c / 26) - 1) + columnName(c % 26);
const nameOf = ([column, row]) => columnName(column) + (row + 1);
const readColumn = s => [...s.toUpperCase()].reduce((n, letter) => n * 26 + letter.charCodeAt(0) - 64, 0) - 1;
function readName(text) {
  const found = /^\$?([A-Z]{1,2})\$?([1-9]\d{0,3})$/i.exec(text.trim());
  const cell = found && [readColumn(found[1]), found[2] - 1];
  return cell && isInGrid(cell) ? cell : null;
}

const boxOf = (a, b) => ({
  left: min(a[0], b[0]), top: min(a[1], b[1]), right: max(a[0], b[0]), bottom: max(a[1], b[1]),
});
const areaName = area => nameOf([area.left, area.top]) + ':' + nameOf([area.right, area.bottom]);
const isWithin = (inner, area) => inner.left >= area.left && inner.right <= area.right && inner.top >= area.top &&
  inner.bottom <= area.bottom;
const isIn = (cell, area) => isWithin(boxOf(cell, cell), area);
/** The area that a text names: two cells with a colon between them, or one cell. */
function readRange(text) {
  const [first, last] = text.split(':').map(readName);
  return first && (text.includes(':') ? last && boxOf(first, last) : boxOf(first, first));
}
/** The smallest area with all of these cells. */
const areaAround = cells => cells.reduce(({ left, top, right, bottom }, [column, row]) => ({
  left: min(left, column), top: min(top, row), right: max(right, column), bottom: max(bottom, row),
}), { left: COLUMNS, top: ROWS, right: 0, bottom: 0 });
/** What `each` gives for the cells of an area, row by row. */
function rowsOf(area, each) {
  const rows = [];
  for (let r = area.top; r <= area.bottom; r++) {
    rows.push([]);
    for (let c = area.left; c <= area.right; c++) rows[r - area.top].push(each([c, r]));
  }
  return rows;
}
const cellsOf = area => rowsOf(area, cell => cell).flat();
/** What a map from keys to texts has for a cell. */
const textIn = (map, cell) => map.get(keyOf(...cell)) || '';
