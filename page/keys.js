// The keys of the grid. A move that has to ask the server holds up the keys, clicks and pastes after it, so that none
// goes elsewhere. So does a sign that is typed before the page knows whether its cell has become a counter.
let isMoving = false, heldUp = [];
const afterMove = act => { if (isMoving) heldUp.push(act); else act(); };
const isControl = event => event.ctrlKey || event.metaKey;
function target(event) {
  const isFar = event.shiftKey && event.key !== 'Tab', [column, row] = isFar ? corner : current;
  const page = max(1, floor((grid.clientHeight - HEIGHT) / HEIGHT) - 1), arrow = ARROWS[event.key];
  if (arrow) return [column + arrow[0], row + arrow[1]];
  switch (event.key) {
    case 'Tab': return [column + (event.shiftKey ? -1 : 1), row];
    case 'Home': return isControl(event) ? [0, 0] : [0, row];
    case 'PageDown': return [column, row + page];
    case 'PageUp': return [column, row - page];
    default: return null;
  }
}
/** Where Control and an arrow lead: to the last filled cell of a run, or over empty ones to the next filled one. */
async function edgeFrom(cell, [right, down]) {
  const area = right ? { ...ALL, top: cell[1], bottom: cell[1] } : { ...ALL, left: cell[0], right: cell[0] };
  const found = await readArea('entries', area), at = n => [cell[0] + n * right, cell[1] + n * down];
  const isFull = n => found.has(keyOf(...at(n)));
  let n = 1;
  if (!isInGrid(at(1))) return cell;
  if (isFull(0) && isFull(1)) while (isInGrid(at(n + 1)) && isFull(n + 1)) n++;
  else while (isInGrid(at(n + 1)) && !isFull(n)) n++;
  return at(n);
}
/** The last cell of the row that holds something, or with Control that of the used part. */
async function endFrom([column, row], isWhole) {
  const keys = [...(await readArea('entries', isWhole ? ALL : { ...ALL, top: row, bottom: row })).keys()];
  const area = areaAround(keys.map(cellAt));
  return keys.length ? [area.right, isWhole ? area.bottom : row] : isWhole ? [0, 0] : [0, row];
}
function moveFar(finding, isExtending) {
  askMove();
  holdUp(finding.then(cell => moveLate(cell, isExtending)));
}
/** Holds up keys, clicks and pastes until this is done. */
async function holdUp(awaited) {
  isMoving = true;
  try {
    await awaited;
  } catch {
    tell(NO_LINK);
    heldUp = [];
  }
  isMoving = false;
  while (heldUp.length && !isMoving) heldUp.shift()();
}
/** Does what a key would have done that was held up. */
function replay(event) {
  const { key } = event;
  if (!editing) gridKey(event);
  else if (key === 'Backspace') document.execCommand('delete');
  else if (key.length > 1) editorKey(event);
  else if (!isControl(event)) insert(key);
}
const insert = text => document.execCommand('insertText', false, text);
const COMMANDS = {
  a: () => select([0, 0], [COLUMNS - 1, ROWS - 1]), z: undo, y: redo, d: fillDown, r: fillRight, f: openFind,
  p: printSheet, Z: redo,
};
/** Does what a key with Control does, unless the browser does it. */
function controlKey(event) {
  const arrow = ARROWS[event.key], from = event.shiftKey ? corner : current;
  const key = event.shiftKey ? event.key.toUpperCase() : event.key.toLowerCase();
  if (arrow) moveFar(edgeFrom(from, arrow), event.shiftKey);
  else if (event.key === 'End' || event.key === 'Home') plainKey(event);
  else if (event.key === ' ') select([current[0], 0], [corner[0], ROWS - 1]);
  else if (COMMANDS[key] && event.key.length === 1) COMMANDS[key]();
  else return false;
  return true;
}
function plainKey(event) {
  const key = event.key, to = target(event), isSign = key === '+' || key === '-';
  if (to) {
    if (key !== 'Tab') home = null; else if (home === null) home = current[0];
    moveTo(to, event.shiftKey && key !== 'Tab');
  }
  else if (key === 'End') moveFar(endFrom(event.shiftKey ? corner : current, isControl(event)), event.shiftKey);
  else if (key === 'Enter' && event.shiftKey) moveTo([current[0], current[1] - 1]);
  else if (key === 'Enter' || key === 'F2') begin();
  else if (key === 'Delete' || key === 'Backspace') clearArea(selected());
  else if (key === 'Escape') {
    if (lastAnswer()) lastAnswer().click(); else { hideOptions(); tell(''); dropCut(); select(current); }
  }
  else if (key === 'F1' || key === '?') openHelp();
  else if (key === 'F6')
    (lastAnswer() || $(event.shiftKey ? 'help-button' : $('examples').hidden ? 'name' : 'vote')).focus();
  else if (key === ' ' && event.shiftKey) select([0, current[1]], [COLUMNS - 1, corner[1]]);
  else if (isSign && heldAt(current) === '@tally') step(key === '+' ? 'add' : 'sub', current, 1);
  else if (isSign && acting && link.isHeard && !lastAnswer()) {
    heldUp.unshift(() => replay(event));
    holdUp(new Promise(done => setTimeout(done, 20)));
  }
  else if (key.length === 1) edit(key, 'cell', true);
  else return false;
  return true;
}
/** Alt and Shift with an arrow: a narrower or wider column, or the width that fits. */
function widthKey(event) {
  const arrow = event.shiftKey && ARROWS[event.key];
  if (!arrow) return false;
  if (arrow[1]) fitWidth(current[0]); else setWidth(current[0], widthOf(current[0]) + 16 * arrow[0]);
  keep('widths', widths);
  return true;
}
function gridKey(event) {
  const isClipboard = isControl(event) && /^[cvx]$/i.test(event.key) || event.key === 'Insert';
  if (isMoving && !isClipboard) { heldUp.push(() => replay(event)); claim(event); return; }
  if (event.isComposing || event.key === 'Shift' || event.key === 'Control') return;
  // (where Alt and a key give a sign, as @ on some keyboards, it is typed)
  const isSign = !event.ctrlKey && /^[^\w\s]$/.test(event.key);
  const isTaken = event.altKey && !isSign ? widthKey(event) : isControl(event) ? controlKey(event) : plainKey(event);
  if (isTaken) claim(event);
}
on(document, 'keydown', event => {
  const { key, target } = event;
  // (a click beside the cells, or a box that closes, takes the focus away also while one types)
  if (target === grid || target === document.body) {
    focusAgain();
    if (editing) editorKey(event); else gridKey(event);
    return;
  }
  if (isControl(event) && /^[fp]$/.test(key)) { COMMANDS[key](); claim(event); }
  if (!/^(F6|Escape)$/.test(key)) return;
  const isNext = key === 'F6', isIn = id => $(id).contains(target);
  // (the browser has a place of its own for F6)
  if (isNext) claim(event);
  if (isIn('bar') && !editing) grid.focus();
  if (isIn('examples')) (isNext ? $('name') : grid).focus();
  if (isIn('question')) { if (isNext) focusAgain(); else lastAnswer().click(); }
});
on($('name'), 'focus', event => {
  if (editing) (hasEnded() ? event.target : field()).focus(); else event.target.select();
});
on($('name'), 'keydown', event => {
  const to = event.key === 'Enter' ? readRange(event.target.value) : null;
  if (event.key === 'Enter' && !to) tell(REFUSALS[1]);
  if (!to && event.key !== 'Escape') return;
  claim(event);
  grid.focus();
  if (!to) { draw(); return; }
  reveal([to.left, to.top]);
  select([to.left, to.top], [to.right, to.bottom]);
});
