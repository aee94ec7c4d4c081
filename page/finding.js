// Finding a text among all cells, what they show and what they hold.
let matches = [], match = -1, sought = '';
async function find(way) {
  const text = $('sought').value.toLowerCase();
  if (!text) { $('found').textContent = ''; return; }
  askMove();
  try {
    const [entries, values] = await readBoth(ALL);
    const keys = [...new Set([...values.keys(), ...entries.keys()])].sort((a, b) => a - b);
    matches = keys.filter(key => (values.get(key) || '').toLowerCase().includes(text) ||
      fromEntry(entries.get(key) || '').toLowerCase().includes(text));
  } catch {
    tell(NO_LINK);
    return;
  }
  if (text !== sought) [sought, match, way] = [text, -1, 1];
  match = matches.length ? (match + way + matches.length) % matches.length : -1;
  $('found').textContent = matches.length ? `${match + 1} of ${matches.length}` : 'nowhere';
  if (matches.length) moveLate(cellAt(matches[match]));
}
function openFind() {
  $('find').hidden = false;
  $('sought').focus();
  $('sought').select();
}
function closeFind() {
  $('find').hidden = true;
  sought = '';
  focusGrid();
}
on($('find'), 'keydown', event => {
  if (event.key === 'Escape') closeFind();
  else if (event.key === 'Enter' && event.target.id === 'sought') find(event.shiftKey ? -1 : 1);
  else return;
  claim(event);
});
$('next').onclick = () => find(1);
$('close').onclick = closeFind;
