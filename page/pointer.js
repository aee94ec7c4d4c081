// The pointer: it selects, points cells into a formula, fills, and moves the edges of columns. A finger scrolls; its
// tap selects a cell, and its tap on the selected cell edits it.
let drag = null;
const cellOf = target => {
  const element = target.closest ? target.closest('.cell') : null;
  return element && cellAt(+element.dataset.key);
};
/** The cell at a place of the window, as near as the grid has one. */
function cellNear(event) {
  const box = boundsOf(grid);
  return [columnAt(max(0, event.clientX - box.left - SIDE) + grid.scrollLeft),
    bound(floor((max(0, event.clientY - box.top - HEIGHT) + grid.scrollTop) / HEIGHT), ROWS)];
}
/** Selects whole columns or rows, from that of a head on. */
function selectHead(head, isExtending) {
  const n = +head.slice(1), isColumn = head[0] === 'c', from = isExtending ? current[isColumn ? 0 : 1] : n;
  if (isColumn) select([from, 0], [n, ROWS - 1]); else select([0, from], [COLUMNS - 1, n]);
}
function pressHead(event, head) {
  claim(event);
  if (!hasEnded()) return;
  focusGrid();
  if (head) { selectHead(head, event.shiftKey); drag = { kind: 'heads', head }; } else COMMANDS.a();
}
function pressEdge(event, column) {
  claim(event);
  drag = { kind: 'edge', column, from: event.clientX - widthOf(column) };
}
function pressCell(event, cell) {
  claim(event);
  if (editing && isPicking(field()) && !isSame(cell, current)) {
    drag = { kind: 'pick', from: cell };
    pick(cell);
    return;
  }
  if (!hasEnded()) return;
  if (document.activeElement === $('naming')) {
    drag = { kind: 'names', from: cell };
    pickNames(cell);
    return;
  }
  focusGrid();
  const action = event.target.dataset.action, hadOptions = !options.hidden && isSame(cell, current);
  home = null;
  reveal(cell);
  select(event.shiftKey ? current : cell, cell);
  if (action === 'options') { if (!hadOptions) showOptions(); }
  else if (action) step(action, cell, 1);
  else drag = { kind: 'select', from: cell };
}
on(grid, 'pointerdown', event => {
  const cell = cellOf(event.target), { head, edge } = event.target.dataset;
  if (event.button !== 0 || event.pointerType === 'touch' && !edge && event.target.id !== 'handle') return;
  const press = () => {
    if (event.target.id === 'handle') { claim(event); drag = { kind: 'fill', source: selected() }; }
    else if (edge) pressEdge(event, +edge);
    else if (head || event.target.id === 'corner') pressHead(event, head);
    else if (cell) pressCell(event, cell);
  };
  if (isMoving) { claim(event); heldUp.push(() => { press(); drag = null; }); } else press();
});
on(grid, 'click', event => {
  const cell = cellOf(event.target), { head } = event.target.dataset;
  if (event.pointerType !== 'touch') return;
  if (head || event.target.id === 'corner') { pressHead(event, head); drag = null; return; }
  if (!cell) return;
  const wasCurrent = isSame(cell, current) && !editing && !event.target.dataset.action;
  pressCell(event, cell);
  drag = null;
  if (wasCurrent) begin();
});
on(window, 'pointermove', event => {
  if (!drag) return;
  const cell = cellNear(event), kind = drag.kind;
  if (kind === 'edge') setWidth(drag.column, event.clientX - drag.from);
  else if (kind === 'pick') pick(cell, drag.from);
  else if (kind === 'names') pickNames(cell, drag.from);
  else if (kind === 'heads') selectHead(drag.head[0] + cell[drag.head[0] === 'c' ? 0 : 1], true);
  else if (kind === 'select' && !isSame(cell, corner)) moveTo(cell, true);
  else if (kind === 'fill') {
    drag.area = fillTo(drag.source, cell);
    reveal(cell);
    [current, corner] = [[drag.area.left, drag.area.top], [drag.area.right, drag.area.bottom]];
    draw();
  }
});
for (const end of ['pointerup', 'pointercancel'])
  on(window, end, () => {
    const ended = drag;
    drag = null;
    if (ended && ended.kind === 'edge') keep('widths', widths);
    if (ended && ended.area && areaName(ended.area) !== areaName(ended.source)) fillArea(ended.source, ended.area);
  });
on(grid, 'dblclick', event => {
  if (event.target.dataset.edge) fitWidth(+event.target.dataset.edge);
  else if (cellOf(event.target) && !event.target.dataset.action) afterMove(begin);
});
on(document, 'pointerdown', event => {
  if (!options.contains(event.target) && !grid.contains(event.target)) hideOptions();
});
