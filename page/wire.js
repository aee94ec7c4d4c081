// The connection: nothing else knows how lines reach the server. What the rest has of it is `ask`, which promises the
// lines of a reply, `link`, which tells how the connection is, and the calls `onLink`, `onChange` and `onAbout`.
const POLL = 200, LEAST_GAP = 40, FIRST_WAIT = 500, LONGEST_WAIT = 5000, MOST_UNDER_WAY = 250;
// Why the server closes a connection.
const ENDS = { 'no room': 'all places are taken' };
// (`isNew` until the first connection is there or has failed: what is asked meanwhile waits for it; `isFull` while
// there is no slot)
const link = {
  isUp: false, isHeard: false, isNew: true, isFull: false, words: 'connecting',
  onLink() {}, onChange() {}, onAbout() {},
};
const takesLines = () => link.isHeard || link.isNew;
let socket = null, pause = FIRST_WAIT, waiting = [], underWay = [];

/** Sends a line; promises the lines of its reply. Many may be under way: they are answered in order. */
function ask(text) {
  return new Promise((done, fail) => {
    if (!link.isUp && !link.isNew) { fail(new Error('lost')); return; }
    waiting.push({ text, done, fail });
    if (link.isUp) sendWaiting();
  });
}
function sendWaiting() {
  while (waiting.length && underWay.length < MOST_UNDER_WAY) {
    underWay.push(waiting.shift());
    socket.send(underWay[underWay.length - 1].text);
  }
}
function connect() {
  const opened = new WebSocket('ws://' + location.host + '/live');
  socket = opened;
  opened.onopen = () => {
    link.isUp = true;
    tellLink('waiting for the server');
    sendWaiting();
  };
  opened.onmessage = event => {
    if (!link.isHeard) {
      link.isHeard = true;
      link.isNew = link.isFull = false;
      pause = FIRST_WAIT;
      tellLink('connected');
      setTimeout(askAside, 0, true);
    }
    // A message has one reply or several. A reply is one line, or its first line tells how many follow.
    for (const lines = event.data.split('\n'); lines.length > 1;) {
      const more = /^(?:rows|entries) (.+)/.exec(lines[0]);
      const reply = lines.splice(0, more ? 1 + Number(more[1]) : 1), asked = underWay.shift();
      if (asked) asked.done(reply);
    }
    sendWaiting();
  };
  opened.onclose = event => { if (socket === opened) lose(ENDS[event.reason]); };
}
function lose(reason) {
  const was = link.isHeard;
  link.isUp = link.isHeard = link.isNew = false;
  link.isFull = !!reason;
  if (reason) askAside(true);
  for (const asked of [...underWay.splice(0), ...waiting.splice(0)]) asked.fail(new Error('lost'));
  if (was) { silence = max(400, silence / 2); giveSign(); }
  tellLink((reason || (was ? 'connection lost' : 'no connection')) + ', trying again');
  setTimeout(connect, pause);
  pause = min(pause * 1.7, LONGEST_WAIT);
}
function tellLink(words) {
  link.words = words;
  link.onLink();
}
/** Asks how many are here and what the title is, and for the news. */
function askAside(isFirst) {
  const asked = new XMLHttpRequest();
  asked.onload = () => link.onAbout(...asked.responseText.split('\n'));
  asked.open('GET', '/about');
  if (isFirst || !document.hidden) asked.send();
  if (link.isHeard && !news) askNews();
}
setInterval(askAside, 5000);
// The news: the server says the number of the last change, at first and whenever there is another one. Where it says
// nothing, a change is supposed several times a second.
let news = null, heard = -1, due = 0, toldAt = 0;
function askNews() {
  news = new WebSocket('ws://' + location.host + '/news');
  news.onmessage = event => {
    const version = +event.data.slice(8);
    if (version <= heard) return;
    heard = version;
    // (many changes in a row are looked at together)
    due = due || setTimeout(tellChange, toldAt + LEAST_GAP - clock());
  };
  news.onclose = () => { news = null; heard = -1; };
}
function tellChange() {
  due = 0;
  toldAt = clock();
  if (link.isUp && !document.hidden) link.onChange();
}
setInterval(() => { if (heard < 0) tellChange(); }, POLL);
on(document, 'visibilitychange', tellChange);
// A sign of life, since the server ends what is silent for long. It also finds what the news left out. A connection
// that was lost may have been silent for too long, so it comes more often then.
let silence = 10000, sign = 0;
async function giveSign() {
  clearTimeout(sign);
  sign = setTimeout(giveSign, silence);
  const [reply] = await ask(heard < 0 ? 'get A1' : `pull ${heard} 1`).catch(() => ['end']);
  if (reply[0] !== 'e') tellChange();
}
giveSign();
