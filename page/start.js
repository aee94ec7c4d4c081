// The examples for an empty sheet, the buttons, the help, and the start.
const VOTE = [['Friday lunch', 'Votes'], ['Pizza', '@tally'], ['Pasta', '@tally'], ['Salad', '@tally'],
  ['', ''], ['All votes', '=SUM(B2:B4)'], ['Most', '=MAX(B2:B4)']];
const PLAN = [['Who', 'Days', 'Hours a day', 'Hours'], ['Ann', '@choice', '6', '=B2*C2'],
  ['Bob', '@choice', '8', '=B3*C3'], ['Eve', '@choice', '4', '=B4*C4'], ['', '', '', ''],
  ['All hours', '', '', '=SUM(D2:D4)']];
function fillIn(table) {
  $('examples').hidden = true;
  isEmpty = false;
  putMany(placed(table, [0, 0]));
}
function make(entry) {
  const entryNow = heldAt(current), cell = current;
  if (editing) commit(0, 0);
  else if (!entryNow) putMany([[cell, entry]]);
  else if (entryNow !== entry) tell(nameOf(cell) + ': This cell holds something. Delete it first.');
}
function openHelp() {
  $('help').showModal();
  $('help').scrollTop = 0;
}
const CLICKS = {
  tally: () => make('@tally'), choice: () => make('@choice'), undo, redo, 'help-button': openHelp,
  'open-csv': () => $('file').click(), 'save-rows': () => saveCsv('rows'), 'save-entries': () => saveCsv('entries'),
  'print': printSheet, 'find-button': openFind, 'fit': () => fitWidth(current[0]), 'fill-down': fillDown,
  'fill-right': fillRight, vote: () => fillIn(VOTE), plan: () => fillIn(PLAN),
};
for (const [id, call] of Object.entries(CLICKS))
  $(id).onclick = () => {
    if ($('more').matches(':popover-open')) $('more').hidePopover();
    focusAgain();
    call();
  };
$('help').onclose = focusAgain;
on($('more'), 'toggle', event => {
  if (event.newState === 'open') beside($('more'), $('menu'));
  else if (editing && document.activeElement === $('menu')) focusAgain();
});
function redraw() {
  draw();
  if (link.isUp) look();
}
on(grid, 'scroll', redraw);
on(window, 'resize', redraw);
// (a print by the browser's own menu has nothing laid out, and says so)
on(window, 'afterprint', () => { $('paper').textContent = ''; });
link.onLink = () => {
  document.body.classList.toggle('lost', !link.isHeard);
  $('link').textContent = link.words;
  if (link.isUp && !link.isHeard) { seenAt = seenRange = ''; look(); draw(); }
  if (link.isHeard) tell('');
  showGrid();
};
link.onChange = look;
// A page that waits for its first slot has no grid: an empty one would look like an empty sheet.
let isDue = false, wasHeard = false;
function showGrid() {
  wasHeard = wasHeard || link.isHeard;
  document.body.classList.toggle('unseen', !wasHeard && (!isDue || link.isUp || link.isFull));
}
place($('corner'), 0, 0, SIDE, HEIGHT);
$('corner').style.marginBottom = -HEIGHT + 'px';
layOut();
drawButtons();
drawLine();
grid.focus();
// The first picture has the bar alone, and keys are taken already. What takes long in a browser that has just started
// comes after it: the cells, the connection, and what the browser keeps.
let hasStarted = false;
function start() {
  if (hasStarted) return;
  hasStarted = true;
  connect();
  recall();
  $('title').value = givenTitle();
  layOutAgain();
}
new PerformanceObserver(start).observe({ type: 'paint', buffered: true });
// (a page behind others has no picture, and a connection may be slow)
setTimeout(() => { start(); isDue = true; showGrid(); }, 500);
