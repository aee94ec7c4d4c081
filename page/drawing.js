// The current cell, and the opposite corner of what is selected.
let current = [0, 0], corner = [0, 0];
const selected = () => boxOf(current, corner);
function visible() {
  const width = max(grid.clientWidth - SIDE, WIDTH), height = max(grid.clientHeight - HEIGHT, HEIGHT);
  return {
    left: columnAt(grid.scrollLeft), top: bound(floor(grid.scrollTop / HEIGHT), ROWS),
    right: columnAt(grid.scrollLeft + width - 1),
    bottom: bound(floor((grid.scrollTop + height - 1) / HEIGHT), ROWS),
  };
}
function reveal([column, row]) {
  const x = lefts[column], y = row * HEIGHT, width = grid.clientWidth - SIDE, height = grid.clientHeight - HEIGHT;
  if (x < grid.scrollLeft || widthOf(column) > width) grid.scrollLeft = x;
  else if (lefts[column + 1] > grid.scrollLeft + width) grid.scrollLeft = lefts[column + 1] - width;
  if (y < grid.scrollTop) grid.scrollTop = y;
  else if (y + HEIGHT > grid.scrollTop + height) grid.scrollTop = y + HEIGHT - height;
}
/** Selects the area between two cells. The first is the current one. */
function select(from, to = from) {
  if (!isSame(from, current)) leaveMark(current);
  [current, corner] = [from, to];
  hideOptions();
  draw();
  look();
}
function moveTo([column, row], isExtending) {
  const to = [bound(column, COLUMNS), bound(row, ROWS)];
  reveal(to);
  select(isExtending ? current : to, to);
}
// A move that has to wait for a reply is made where nothing else was selected since it was asked for.
let askedAt = null;
const askMove = () => { askedAt = corner; };
function moveLate(cell, isExtending) {
  if (corner !== askedAt || editing || !options.hidden) return;
  moveTo(cell, isExtending);
  askMove();
}

// Drawing: only what is visible has elements.
const MOST_FLASHING = 40;
const cells = new Map(), heads = new Map(), rowElements = new Map();
function place(element, x, y, width, height) {
  Object.assign(element.style, { left: x + 'px', top: y + 'px', width: width + 'px', height: height + 'px' });
}
function made(tag, name, parent, before) {
  const element = document.createElement(tag);
  element.className = name;
  parent.insertBefore(element, before || null);
  return element;
}
function drawHead(key, parent, name, text, box, isOn) {
  let element = heads.get(key);
  if (!element) {
    element = made('div', name, parent);
    Object.assign(element, { textContent: text, role: name + 'header' });
    element.dataset.head = key;
    if (name === 'column') made('i', 'edge', element).dataset.edge = key.slice(1);
    place(element, ...box);
    heads.set(key, element);
  }
  const wanted = isOn ? name + ' on' : name;
  if (element.className !== wanted) element.className = wanted;
}
function drawHeads(area, range) {
  for (let c = area.left; c <= area.right; c++) {
    const isOn = c >= range.left && c <= range.right;
    drawHead('c' + c, $('columns'), 'column', columnName(c), [SIDE + lefts[c], 0, widthOf(c), HEIGHT], isOn);
  }
  for (let r = area.top; r <= area.bottom; r++) {
    const isOn = r >= range.top && r <= range.bottom;
    drawHead('r' + r, $('rows'), 'row', r + 1, [0, HEIGHT + r * HEIGHT, SIDE, HEIGHT], isOn);
  }
}
function sweepAround(area) {
  const isRow = row => row >= area.top && row <= area.bottom;
  const isColumn = column => column >= area.left && column <= area.right;
  sweep(heads, key => (key[0] === 'c' ? isColumn : isRow)(+key.slice(1)));
  sweep(cells, key => isIn(cellAt(key), area));
  sweep(rowElements, isRow);
}
function sweep(elements, isKept) {
  for (const [key, element] of elements) if (!isKept(key)) { element.remove(); elements.delete(key); }
}
function rowElement(row) {
  let element = rowElements.get(row);
  if (!element) {
    element = made('div', 'cells', space, $('range'));
    Object.assign(element, { role: 'row', ariaRowIndex: row + 2 });
    rowElements.set(row, element);
  }
  return element;
}
function cellElement(column, row) {
  const key = keyOf(column, row);
  let element = cells.get(key);
  if (!element) {
    element = made('div', 'cell', rowElement(row));
    Object.assign(element, { id: 'cell-' + key, role: 'gridcell', ariaColIndex: column + 2 });
    element.dataset.key = key;
    element.style.lineHeight = HEIGHT - 1 + 'px';
    place(element, SIDE + lefts[column], HEIGHT + row * HEIGHT, widthOf(column), HEIGHT);
    cells.set(key, element);
  }
  return element;
}
function draw(changed = new Set()) {
  const area = visible(), range = selected();
  drawHeads(area, range);
  sweepAround(area);
  // what flashes already begins anew, at the price of one layout for all; many cells would flash too slowly
  const flashing = changed.size > MOST_FLASHING ? new Set() : changed;
  for (const key of flashing) if (cells.has(key)) cells.get(key).classList.remove('flash');
  if (flashing.size) void grid.offsetWidth;
  for (const cell of cellsOf(area)) fill(cellElement(...cell), cell, flashing.has(keyOf(...cell)));
  const [x, y, width, height] = pixels(boxOf(current, current)), [left, top, wide, high] = pixels(range);
  place($('current'), x - 1, y - 1, width + 1, height + 1);
  place($('range'), left, top, wide - 1, high - 1);
  $('range').hidden = isSame(current, corner);
  place($('handle'), left + wide - 6, top + high - 6, 10, 10);
  drawCut();
  grid.setAttribute('aria-activedescendant', 'cell-' + keyOf(...current));
  drawLine();
  if (!options.hidden && changed.has(keyOf(...current))) drawOptions();
}
/** What a cell is, beside what it shows: for screen readers, and below the grid. */
function kindOf(cell, entry, value) {
  const mark = marks.get(keyOf(...cell));
  if (mark) return `refused: ${mark.text}: ${mark.why} F2 takes it up again`;
  if (entry[0] === '=') return FAULTS[value] ? value + ' ' + FAULTS[value] : 'formula ' + fromEntry(entry);
  return entry === '@tally' ? 'counter: + and \u2212 count'
    : entry === '@choice' ? 'options: Enter shows them' : noteOf(entry);
}
function drawLine() {
  const entry = heldAt(current), value = shownAt(current), isFault = entry[0] === '=' && FAULTS[value];
  const kind = kindOf(current, entry, value);
  const where = isSame(current, corner) ? nameOf(current) : areaName(selected());
  if (document.activeElement !== $('name')) $('name').value = where;
  if (!editing) line.value = textOf(current, entry);
  const note = entry === passedOf && passedOver ? ', ' + passedOver : '';
  $('value').title = $('value').textContent = entry[0] === '=' ? '= ' + value + note : '';
  $('value').className = isFault || note ? 'fault' : '';
  const hint = entry[0] === '=' && !isFault ? '' : kind;
  if ($('hint').textContent !== hint) $('hint').textContent = hint;
  if (isAtGrid() && marks.has(keyOf(...current))) marks.get(keyOf(...current)).isSeen = true;
  drawSums();
}
function fill(element, cell, isNew) {
  const value = shownAt(cell), entry = heldAt(cell), mark = marks.get(keyOf(...cell));
  if (isNew) element.classList.add('flash');
  const isSelected = String(isSame(cell, current));
  if (element.ariaSelected !== isSelected) element.ariaSelected = isSelected;
  const names = entry === '@choice' ? namesFor(cell) : null;
  if (element.value === value && element.entry === entry && element.mark === mark && element.names === names) return;
  Object.assign(element, { value, entry, mark, names });
  const kind = kindOf(cell, entry, value);
  element.title = mark || noteOf(entry) || FAULTS[value] && entry[0] === '=' ? kind : value.length > 12 ? value : '';
  element.ariaLabel = [value, nameOf(cell), kind].filter(Boolean).join(', ');
  element.textContent = '';
  const more = (isNew ? ' flash' : '') + (mark ? ' refused' : noteOf(entry) ? ' looks' : '');
  if (entry === '@tally' && /^-?\d+$/.test(value)) fillTally(element, value, more);
  else if (entry === '@choice' && value[0] === '{') fillChoice(element, value, more, names);
  else {
    const fault = entry[0] === '=' && FAULTS[value];
    const look = fault ? value === '#CYCLE!' ? ' fault cycle' : ' fault' : isNumber(entry, value) ? ' number' : '';
    element.className = 'cell' + look + more;
    element.textContent = value;
  }
}
function button(parent, action, sign, label) {
  const element = made('button', '', parent);
  Object.assign(element, { textContent: sign, tabIndex: -1, ariaLabel: label });
  element.dataset.action = action;
}
function fillTally(element, value, more) {
  element.className = 'cell tally' + more;
  button(element, 'sub', '\u2212', 'one less');
  made('span', '', element).textContent = value;
  button(element, 'add', '+', 'one more');
}
const readOptions = value => value.length > 2 ? value.slice(1, -1).split(',') : [];
function fillChoice(element, value, more, names) {
  element.className = 'cell choice' + more;
  const list = made('span', 'marks', element);
  for (const option of readOptions(value)) made('i', 'mark', list).textContent = names && names[option] || option;
  button(element, 'options', '\u25be', 'options');
}
