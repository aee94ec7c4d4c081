// Tables of CSV out and in, and print.
const LARGEST_FILE = 4000000;
const csvField = text => /[",\r\n]/.test(text) ? '"' + text.replace(/"/g, '""') + '"' : text;
/** The used part of the sheet as CSV: by `rows` what it shows, by `entries` what it holds. */
async function csvOf(word) {
  const area = await usedArea(), found = area ? await readArea(word, area) : new Map();
  const fieldOf = cell => csvField(textIn(found, cell));
  return area ? rowsOf(area, fieldOf).map(row => row.join(',') + '\r\n').join('') : '';
}
async function saveCsv(word) {
  try {
    const file = new Blob([await csvOf(word)], { type: 'text/csv' }), anchor = document.createElement('a');
    const name = (givenTitle() || 'sheet') + (word === 'rows' ? '' : '-entries');
    Object.assign(anchor, { href: URL.createObjectURL(file), download: name + '.csv' });
    anchor.click();
    setTimeout(() => URL.revokeObjectURL(anchor.href), 10000);
  } catch {
    tell(NO_LINK);
  }
}
/** The separator that the first line of a table has most often. */
function separatorOf(text) {
  const [first] = text.split('\n', 1);
  return [',', ';', '\t'].reduce((a, b) => first.split(b).length > first.split(a).length ? b : a);
}
/** The text of a file, and its encoding. */
function decoded(bytes, encoding = 'UTF-8') {
  try {
    return [new TextDecoder(encoding, { fatal: true }).decode(bytes), encoding];
  } catch {
    return decoded(bytes, 'windows-1252');
  }
}
/** Takes in a file: it tells first what would change, and then what was refused. */
async function openCsv(file) {
  if (file.size > LARGEST_FILE) { tell('The file is too large: at most 4 MB are taken in.'); return; }
  const at = current, [text, encoding] = decoded(await file.arrayBuffer());
  const [rows, breaks] = readFields(text, separatorOf(text));
  const wanted = placed(rows, at), inside = wanted.filter(([cell]) => isInGrid(cell));
  const entries = await readArea('entries', areaAround(inside.map(([cell]) => cell))).catch(() => null);
  if (!entries) { tell(NO_LINK); return; }
  const was = cell => textIn(entries, cell);
  const isNew = ([cell, due]) => fromEntry(was(cell)) !== due && was(cell) !== due;
  const changed = inside.filter(isNew), filled = changed.filter(([cell]) => was(cell));
  const size = `${several(rows.length, 'row')} and ${several(max(...rows.map(row => row.length)), 'column')}`;
  const beyond = wanted.length - inside.length;
  const what = `${file.name}: ${size}, from ${nameOf(at)} on. ${several(changed.length, 'cell')} would change, ` +
    `${filled.length} of them hold something now.` + (beyond ? ` ${several(beyond, 'cell')} beyond the sheet.` : '') +
    ` Read as ${encoding}.`;
  const due = wanted.filter(each => !isInGrid(each[0]) || isNew(each));
  if (await question(what, ['Take in', 'Cancel']) === 0) await putMany(due, breaks);
}
$('file').onchange = event => {
  const [file] = event.target.files;
  if (file) openCsv(file);
  event.target.value = '';
};
// Wherever a file is dropped, it is taken in, since a browser would go away from the page to it. A text goes into a
// field.
for (const kind of ['dragover', 'drop'])
  on(document, kind, event => {
    const { types, files } = event.dataTransfer;
    if (event.target.tagName === 'INPUT' && !types.includes('Files')) return;
    claim(event);
    if (files[0]) openCsv(files[0]);
  });
/** Lays out the used part on paper, as a plain table. */
async function layOutPaper() {
  const area = await usedArea() || boxOf([0, 0], [0, 0]), paper = $('paper');
  const [entries, values] = await readBoth(area);
  paper.textContent = '';
  const table = made('table', '', paper);
  for (const row of rowsOf(area, cell => cell)) {
    const line = made('tr', '', table);
    for (const cell of row) {
      const entry = textIn(entries, cell), value = textIn(values, cell), names = entry === '@choice' && namesFor(cell);
      made('td', isNumber(entry, value) ? 'number' : '', line).textContent =
        names && value[0] === '{' ? readOptions(value).map(n => names[n] || n).join(', ') : value;
    }
  }
}
async function printSheet() {
  try {
    await layOutPaper();
    print();
  } catch {
    tell(NO_LINK);
  }
}
