// Changes. Each is a line to the server; many are under way at a time, and what was done together is undone together.
// What is done later waits for what was done before, so that it finds what that made.
const LONGEST_ENTRY = 4096, MANY = 20000;
let turn = Promise.resolve(), acting = 0;
function inTurn(act) {
  const mine = turn.then(act), end = () => { acting--; };
  acting++;
  turn = mine.then(end, end);
  return mine;
}

/** What a line comes to: '' where it was carried out, or why not; `into` gets the number of the change. */
async function outcome(text, wanted, into = {}) {
  try {
    const [reply] = await ask(text);
    into.version = +reply.slice(3);
    return reply.startsWith('ok') ? '' : refusalOf(reply, wanted);
  } catch {
    return LOST;
  }
}
/** Puts a text into a cell, and gives the step the entry that it became there, whatever others put there since. */
async function setCell(step, text) {
  const sent = outcome(`set ${nameOf(step.cell)} ${toEntry(text)}`, text, step);
  if (isCounter(text)) step.value = (await ask('get ' + nameOf(step.cell)).catch(() => ['']))[0].slice(4);
  const why = await sent;
  step.after = isWhole(text) ? String(BigInt(text)) : !text || isCounter(text) ? text
    : text[0] === "'" ? text : "'" + text;
  if (!why && isFormula(text)) step.after = await formulaOf(step.version).catch(() => toEntry(text));
  return why;
}
/** The formula that was put in by the change of this number. */
async function formulaOf(version) {
  const [reply] = await ask('pull ' + (version - 1));
  return JSON.parse(reply.slice(reply.indexOf('[')))[0][1][2];
}
/** What keeps a text from being sent at all. */
function problemOf(text) {
  return /[\r\n]/.test(text) ? 'An entry is one line.' : text.length > LONGEST_ENTRY ? REFUSALS[4] : '';
}
/** Asks whether counters and sets that have something may be replaced: those to leave as they are. */
async function asksFor(precious, values) {
  if (!precious.length) return [];
  const [cell] = precious[0], value = values.get(keyOf(...cell));
  const what = precious.length > 1 ? `${precious.length} of these cells are counters or sets of options`
    : `${nameOf(cell)} is a ${value[0] === '{' ? 'set of options' : 'counter'} that shows ${value}`;
  const back = 'What was counted or chosen is hidden then, and comes back when the cell is made a counter or a set ' +
    'again: by Undo, or emptied and then by its button.';
  return await question(`${what}. Replace ${precious.length > 1 ? 'them' : 'it'}? ${back}`, ['Replace', 'Leave']) === 0
    ? [] : precious;
}
const MINE = 0, THEIRS = 1;
/** Asks which of two entries stays, where another one came while this one was typed. */
function asksWhich(cell, text, other) {
  const theirs = other ? `"${fromEntry(other)}"` : 'nothing';
  return question(`${nameOf(cell)}: somebody has put ${theirs} here while you typed "${text}". Which stays?`,
    ['Mine', 'Theirs', 'Go on typing']);
}
/** Whether a cell got another entry than this one, and not the wanted one. */
const isDisputed = (cell, was, base, text) => base !== undefined && was !== base &&
  ![own.get(keyOf(...cell)), toEntry(text)].includes(was) && fromEntry(was) !== text;
/**
 * Puts texts into cells, `wanted` being a cell, a text and perhaps why it can't be put, each; all in one act that is
 * undone by one step. `base` is what the one cell held when its text was begun. Returns what was refused, or null where
 * nothing could be asked.
 */
const put = (wanted, base) => inTurn(() => putNow(wanted, base));
async function putNow(wanted, base) {
  dropCut();
  const inside = wanted.filter(([cell]) => isInGrid(cell)), refused = [], steps = [];
  if (!inside.length) return refused;
  const area = areaAround(inside.map(([cell]) => cell));
  let before, after, values;
  const was = cell => textIn(before, cell);
  try {
    [before, values] = await readBoth(area);
    const [[cell, text]] = inside, other = was(cell);
    const choice = isDisputed(cell, other, base, text) && await asksWhich(cell, text, other);
    if (choice === THEIRS) return refused;
    if (choice) return [{ cell, text, why: '' }];
    const isFull = at => isCounter(was(at)) && !/^(0|\{\})$/.test(values.get(keyOf(...at)));
    const left = new Set(await asksFor(inside.filter(([at, due]) => isFull(at) && due !== was(at)), values));
    const due = inside.filter(each => !left.has(each) && (each[1] || was(each[0])));
    await Promise.all(due.map(async ([at, wish, problem]) => {
      const each = { cell: at, text: wish, before: was(at) };
      const why = problem || problemOf(wish) || await setCell(each, wish);
      if (why) refused.push({ cell: at, text: wish, why }); else steps.push(each);
    }));
    [after, values] = await readBoth(area);
  } catch (error) {
    if (error.message !== 'lost') throw error;
    if (!before) return null;
  }
  for (const step of steps) settle(step, after, values);
  remember({ steps });
  draw();
  look();
  return refused;
}
const readBoth = area => Promise.all([readArea('entries', area), readArea('rows', area)]);
// What was last put into each cell from here.
const own = new Map();
/** Notes what a cell holds and shows after a step. */
function settle(step, after, values) {
  const key = keyOf(...step.cell), now = after ? after.get(key) : step.after;
  marks.delete(key);
  own.set(key, step.after);
  for (const [into, text] of [[held, now], [shown, values.get(key)]])
    if (text) into.set(key, text); else into.delete(key);
  knownCount++;
  keepTyped(step.cell, step.text, step.after);
}
/**
 * Puts many texts, which `find` gives or finds once all acts before are done: what was refused is marked, and told at
 * the end.
 */
const putMany = (find, breaks = 0) => inTurn(async () => {
  if (!takesLines()) { tell(NO_LINK); return; }
  try {
    await putFound(Array.isArray(find) ? find : await find(), breaks);
  } catch (error) {
    if (error.message !== 'lost') throw error;
    tell(NO_LINK);
  }
});
async function putFound(wanted, breaks) {
  const beyond = wanted.filter(([cell]) => !isInGrid(cell)).length;
  if (wanted.length > MANY && await question(`These are ${wanted.length} cells. Go on?`, ['Go on', 'Cancel'])) return;
  if (wanted.length > 200) $('progress').textContent = several(wanted.length, 'cell') + ' on their way';
  const refused = await putNow(wanted);
  $('progress').textContent = '';
  if (refused === null) { tell(LOST, current, true); return; }
  for (const { cell, text, why } of refused) mark(cell, text, why);
  draw();
  report(refused, wanted.length - beyond, beyond, breaks);
}
/** Empties an area. */
const clearArea = area =>
  putMany(async () => [...(await readArea('entries', area)).keys()].map(key => [cellAt(key), '']));
/** Counts, or puts a mark on or off: a line that has an opposite. */
async function step(verb, cell, value) {
  const why = await inTurn(() => outcome(`${verb} ${nameOf(cell)} ${value}`));
  if (why) tell(nameOf(cell) + ': ' + why, cell, why === LOST); else remember({ steps: [{ cell, verb, value }] });
  look();
  return !why;
}
