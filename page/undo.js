// Undo and redo of what this browser did: new edits that set back what was there, and only where nobody has changed it
// since. A count is taken back by its opposite, a mark of a set too.
const MOST_ACTS = 200, OPPOSITE = { add: 'sub', sub: 'add', choose: 'unchoose', unchoose: 'choose' };
let done = [], undone = [];

/** Keeps an act, so that it can be undone; what was undone before can't be done again then. */
function remember(act) {
  if (!act.steps.length) return;
  done.push(act);
  if (done.length > MOST_ACTS) done.shift();
  undone = [];
  drawButtons();
}
function drawButtons() {
  $('undo').disabled = !done.length;
  $('redo').disabled = !undone.length;
}
/** Takes back those entries of an act that are still there: the steps of that, and the cells that others changed. */
async function setBack(steps) {
  const area = areaAround(steps.map(({ cell }) => cell)), back = [], others = [];
  const [now, values] = await readBoth(area);
  await Promise.all(steps.map(async ({ cell, before, after, value }) => {
    const isOurs = textIn(now, cell) === after && (!isCounter(after) || textIn(values, cell) === value);
    if (!isOurs || await outcome(`set ${nameOf(cell)} ${before}`)) { others.push(cell); return; }
    own.set(keyOf(...cell), before);
    back.push({ cell, before: after, after: before });
  }));
  const later = await readArea('rows', area);
  for (const each of back) each.value = textIn(later, each.cell);
  return [back, others];
}
async function countBack(steps) {
  const back = [], others = [];
  for (const { cell, verb, value } of steps)
    if (await outcome(`${OPPOSITE[verb]} ${nameOf(cell)} ${value}`)) others.push(cell);
    else back.push({ cell, verb: OPPOSITE[verb], value });
  return [back, others];
}
/** Undoes the last act of one list, and puts what undoes that on the other. */
async function takeBack(from, to, word) {
  if (!link.isHeard) { tell(NO_LINK); return; }
  const act = from.pop();
  if (!act) { tell('There is nothing to ' + word + '.', current, false, true); return; }
  try {
    const [back, others] = await (act.steps[0].verb ? countBack : setBack)(act.steps);
    if (back.length) to.push({ steps: back });
    const first = (back[0] || { cell: others[0] }).cell;
    moveLate(first);
    const which = `${several(others.length, 'cell')} left alone (${firstNames(others)})`;
    if (others.length) tell(which + ': somebody has changed ' + (others[1] ? 'them' : 'it') + ' since.', first, true);
  } catch {
    from.push(act);
    tell(NO_LINK);
  }
  drawButtons();
  look();
}
function undo() {
  askMove();
  return inTurn(() => takeBack(done, undone, 'undo'));
}
function redo() {
  askMove();
  return inTurn(() => takeBack(undone, done, 'redo'));
}
