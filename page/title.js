// The title of the window: the one that was given here, which this browser keeps, or the server's, or the text in the
// first cell; and the port, which tells sheets apart. A print has it at its head; a saved file has the given one
// as its name.
const titles = keptMap('title'), givenTitle = () => titles.get('') || '';
let servedTitle = '';
function drawTitle() {
  const title = givenTitle() || servedTitle || heldAt([0, 0])[0] === "'" && shownAt([0, 0]);
  const text = (title ? title + ' - sheet ' : 'Sheet ') + location.port;
  if (document.title !== text) document.title = text;
}
on($('title'), 'change', event => {
  titles.set('', event.target.value.trim());
  keep('title', titles);
  $('more').hidePopover();
  focusGrid();
  drawTitle();
});
link.onAbout = (here, title) => {
  $('here').textContent = here > 1 || link.isFull ? here + ' here' : '';
  servedTitle = title;
  drawTitle();
};
