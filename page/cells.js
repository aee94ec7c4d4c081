// What is known of the sheet: what cells show, and what they hold, each by its key. After a loss it stays until there
// are replies again.
const shown = new Map(), held = new Map();
// (counts what is taken in, so that sums are worked out once for each change)
let knownCount = 0;
let seenAt = '', seenRange = '', isLooking = false, isStale = false, isEmpty = true;
const shownAt = cell => textIn(shown, cell), heldAt = cell => textIn(held, cell);
const isCounter = entry => entry === '@tally' || entry === '@choice';
const isNumber = (entry, value) => entry[0] !== "'" && /^-?\d+$/.test(value);

function readRecord(record) {
  const fields = [];
  for (const found of (',' + record).matchAll(/,(?:"((?:[^"]|"")*)"|([^,]*))/g))
    fields.push(found[1] === undefined ? found[2] : found[1].replace(/""/g, '"'));
  return fields;
}
/** Asks for an area, by `rows` what it shows or by `entries` what it holds: a map of what isn't blank. */
async function readArea(word, area) {
  const [first, ...records] = await ask(word + ' ' + areaName(area)), found = new Map();
  if (!first.startsWith(word)) throw new Error(first);
  records.forEach((record, i) => {
    if (!/[^,]/.test(record)) return;
    readRecord(record).forEach((text, j) => { if (text) found.set(keyOf(area.left + j, area.top + i), text); });
  });
  return found;
}
/** Takes what was found of an area into what is known, and adds the cells that are others to `changed`. */
function takeIn(found, area, into, changed) {
  for (let row = area.top; row <= area.bottom; row++)
    for (let key = keyOf(area.left, row); key <= keyOf(area.right, row); key++) {
      const text = found.get(key);
      if (into.get(key) === text) continue;
      if (text) into.set(key, text); else into.delete(key);
      knownCount++;
      changed.add(key);
    }
}
async function take(area, changed = new Set()) {
  const [values, entries] = await Promise.all([readArea('rows', area), readArea('entries', area)]);
  if (seenAt === '') { shown.clear(); held.clear(); isEmpty = true; }
  takeIn(values, area, shown, changed);
  takeIn(entries, area, held, changed);
}
async function lookOnce() {
  const area = visible(), where = areaName(area), changed = new Set(), isAnother = where !== seenAt;
  await take(area, changed);
  seenAt = where;
  if (changed.size || isAnother) draw(isAnother ? new Set() : changed);
  await lookAtSelected(area);
  await lookAtRanges(area);
  await lookAtNames(area);
  drawLine();
  tellMeanwhile();
  if (isWithin(boxOf([0, 0], [0, 0]), area)) drawTitle();
  // (once a sheet isn't empty, it never is again)
  if (isEmpty) isEmpty = !held.size && (await ask('pull 0 1'))[0] === 'end 0';
  $('examples').hidden = !isEmpty || !!editing;
}
let later = 0;
function lookAfter(wait) {
  later = later || setTimeout(() => { later = 0; look(); }, wait);
}
/** Whether what was read at a time is that old; where it isn't yet, there is a further look once it is. */
function isOld(at, age) {
  const wait = at + age - clock();
  if (wait > 0) lookAfter(wait);
  return wait <= 0;
}
// What is selected and can't be seen is asked for when it is selected, and now and then, so that a copy has it.
let seenSelected = 0;
async function lookAtSelected(area) {
  const range = selected(), where = areaName(range);
  if (where === seenRange && (isWithin(range, area) || !isOld(seenSelected, 2000))) return;
  if (!isWithin(range, area)) await take(range);
  seenSelected = clock();
  seenRange = where;
}
// The texts in the ranges of the current formula that look like numbers, and so are passed over.
let passedOver = '', passedOf = '', passedAt = 0;
async function lookAtRanges(area) {
  const entry = heldAt(current), ranges = entry[0] === '=' ? rangesOf(entry) : [];
  if (entry === passedOf && !(ranges.length && isOld(passedAt, 1000))) return;
  const texts = [];
  for (const range of ranges)
    for (const [key, text] of isWithin(range, area) ? held : await readArea('entries', range)) {
      const cell = cellAt(key);
      if (isIn(cell, range) && noteOf(text)) texts.push(nameOf(cell));
    }
  const names = [...new Set(texts)];
  passedOver = names.length ? 'without ' + (names.length > 4 ? several(names.length, 'text') : names.join(', ')) +
    ', which only look' + (names.length > 1 ? ' like numbers' : 's like a number') : '';
  [passedOf, passedAt] = [entry, clock()];
}
async function look() {
  if (isLooking) { isStale = true; return; }
  isLooking = true;
  try {
    do { isStale = false; await lookOnce(); } while (isStale);
  } catch (error) {
    if (error.message !== 'lost') { console.error(error); lookAfter(1000); }
  }
  isLooking = false;
}
/** The smallest area from A1 on with all that the sheet shows or holds; null where it has nothing. */
async function usedArea() {
  const cells = [...(await readArea('entries', ALL)).keys()].map(cellAt);
  return cells.length ? { ...areaAround(cells), left: 0, top: 0 } : null;
}
