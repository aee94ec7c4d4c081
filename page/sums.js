// Sum, count, least and greatest of what is selected, below the grid.
let summed = '';
function drawSums() {
  const area = selected(), box = $('sums'), what = [areaName(area), isKnown(area), knownCount].join(' ');
  if (what === summed) return;
  summed = what;
  let text = '';
  if (!isSame(current, corner) && isKnown(area)) {
    const numbers = [], texts = [];
    for (const [key, value] of shown) {
      const cell = cellAt(key), entry = held.get(key) || '';
      if (!isIn(cell, area)) continue;
      if (isNumber(entry, value)) numbers.push(BigInt(value)); else if (noteOf(entry)) texts.push(cell);
    }
    numbers.sort((a, b) => a < b ? -1 : a > b ? 1 : 0);
    if (numbers.length) text = `Sum ${numbers.reduce((a, b) => a + b)} \u00b7 Count ${numbers.length} \u00b7 ` +
      `Least ${numbers[0]} \u00b7 Greatest ${numbers.at(-1)}`;
    const look = several(texts.length, 'text that looks', 'texts that look') + ' like a number';
    if (texts.length) text += ` (without ${look})`;
  }
  if (box.textContent !== text) box.textContent = text;
}
