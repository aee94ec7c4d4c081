// What the page says, beside a cell, and what it asks, in a box that waits for an answer.
let telling = null;
/** Tells a text beside a cell, for some seconds or until another one; `isNote` where nothing went wrong. */
function tell(text, cell = current, stays = false, isNote = false) {
  const box = $('refusal'), element = cells.get(keyOf(...cell));
  box.textContent = text;
  box.className = isNote ? 'note' : '';
  box.hidden = !text;
  clearTimeout(telling);
  if (!text) return;
  beside(box, element, true);
  if (!stays) telling = setTimeout(() => { tell(''); tellMeanwhile(); }, 8000);
}
const boundsOf = element => element.getBoundingClientRect();
/**
 * Lays a box beside an element, or the grid: below it, or where what comes next has to stay in sight, above it or to
 * its right.
 */
function beside(box, element, isAside) {
  const near = boundsOf(element || grid), below = near.bottom + 4, above = near.top - box.offsetHeight - 4;
  const isAbove = isAside ? above > boundsOf(grid).top : below + box.offsetHeight > innerHeight;
  const left = isAside && !isAbove ? near.right + 4 : near.left;
  box.style.left = max(4, min(left, innerWidth - box.offsetWidth - 8)) + 'px';
  box.style.top = max(4, isAbove ? above : min(below, innerHeight - box.offsetHeight - 4)) + 'px';
}
/** Gives the keys back to what is edited, or to the grid. */
function focusAgain() {
  if (editing) field().focus(); else focusGrid();
}
let asking = Promise.resolve();
/** The last answer of an open question. */
const lastAnswer = () => $('question').open && $('question').lastElementChild.lastElementChild;
/**
 * Asks, and promises the number of the answer. The box takes no keys from what one types: F6 leads to it, and Escape
 * takes the last answer.
 */
function question(text, answers) {
  asking = asking.then(() => showQuestion(text, answers));
  return asking;
}
function showQuestion(text, answers) {
  return new Promise(done => {
    const box = $('question'), row = box.lastElementChild;
    box.firstElementChild.textContent = text;
    row.textContent = '';
    answers.forEach((answer, i) => {
      const element = made('button', '', row);
      element.textContent = answer;
      element.onclick = () => {
        box.open = false;
        focusAgain();
        done(i);
      };
    });
    box.open = true;
  });
}
$('question').onmousedown = claim;

// What was refused of a paste, a fill or a file: cell by cell its text and why, until the cell has been looked at.
const marks = new Map();
function mark(cell, text, why) {
  marks.set(keyOf(...cell), { text, why, isSeen: false });
}
/** Drops the mark of a cell that is left, once it was looked at. */
function leaveMark(cell) {
  const found = marks.get(keyOf(...cell));
  if (found && found.isSeen) marks.delete(keyOf(...cell));
}
const firstNames = list => list.slice(0, 3).map(nameOf).join(', ') + (list.length > 3 ? ', ..' : '');
/** Tells how much of what was wanted was refused, and why: one line, which stays. */
function report(refused, count, beyond, breaks) {
  const whys = refused.map(({ why }) => why.split('. ')[0].replace(/\.?$/, '.'));
  const reasons = [...new Set(whys)].slice(0, 2).join(' '), names = firstNames(refused.map(({ cell }) => cell));
  const parts = [];
  if (refused.length) parts.push(`${refused.length} of ${several(count, 'cell')} refused (${names}): ${reasons} ` +
    'Marked until you look at them; F2 there takes the text up again.');
  if (beyond) parts.push(`${several(beyond, 'cell')} beyond the sheet's end left out.`);
  if (breaks) parts.push(several(breaks, 'line break') + (breaks > 1 ? ' became blanks.' : ' became a blank.'));
  const first = refused.length ? refused[0].cell : current;
  if (parts.length) tell(parts.join(' '), first, refused.length > 0, !refused.length);
}
