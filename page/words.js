// What the page says of refusals, of faults, and of texts that look like numbers.
const REFUSALS = {
  1: 'Cells are A1 to CZ1024.',
  2: 'A text has at most 64 bytes, and no control characters.',
  3: 'This is no formula. Write one as =A1*2, =SUM(A1:A9) or =IF(A1>2;1;0), with + - * and comparisons.',
  4: 'This is too long: an entry has at most 512 bytes, a formula 256.',
  5: 'This cell is no counter now.',
  6: 'This cell has no options now.',
  7: 'An amount is 1 to 1000000.',
  8: 'An option is 0 to 63.',
  10: 'The counter is full.',
  11: 'These options were changed too often from here.',
  12: 'This option is out already.',
  13: 'This cell can change no more.',
  19: 'The server is out of memory.',
};
const FAULTS = {
  '#CYCLE!': 'a circle: the cell refers to itself, perhaps over others',
  '#DIV/0!': 'a division by zero',
  '#NUM!': 'too large a number',
  '#VALUE!': 'a text where a number is wanted',
};
const LOST = 'The connection was lost. Look whether this has arrived.';
const NO_LINK = 'There is no connection: nothing can be changed now.';
const COMES = 'There is no connection yet: what you typed is put here once there is.';
const WAITS = 'There is no connection: the entry waits here until it is back.';
const FUNCTIONS = 'SUM MIN MAX COUNT IF MOD QUOTIENT ABS AND OR NOT TRUE FALSE'.split(' ');
const inWords = reply => REFUSALS[reply.split(' ')[1]] || 'Refused: ' + reply.slice(4);
const several = (count, one, more = one + 's') => count + ' ' + (count === 1 ? one : more);

/** Whether an entry is a whole number of 64 bits. */
const isWhole = text => /^[+-]?\d+$/.test(text) && BigInt.asIntN(64, text) === BigInt(text);
const isUnderstood = text => isWhole(text) || /^(=|of:=|@tally$|@choice$)/.test(text);
const CURRENCY = '[$\u20ac\u00a3\u00a5\u00a2\u20b9]';
const HABITS = [
  [/^(@tally|@choice)$|^of:=/i, '@tally, @choice and of:= are in small letters'],
  [/^(TRUE|FALSE)$/, 'truth values are written =TRUE() and =FALSE()'],
  [new RegExp(String.raw`^\[\..*\]|^(${FUNCTIONS.join('|')})\(.*\)$`), 'a formula begins with ='],
  [/^\d{1,4}([-.\/])\d{1,2}\1\d{1,4}$|^\d{1,2}:\d{2}(:\d{2})?$/, 'there are no dates and times'],
  [/^[+-]?\d+\/\d+$/, 'numbers are whole'],
];
/** What keeps digits, points, commas and an exponent from being a number; nothing where they look like none. */
function numeralHabit(text) {
  const found = /^([\d,]*\.?[\d,]*)(e\d*[+-]?\d*)?$/i.exec(text);
  if (!found || !/\d/.test(found[1])) return '';
  return found[2] ? 'numbers are digits alone' : text.includes(',') ? 'numbers have no commas'
    : text.includes('.') ? 'numbers are whole' : 'numbers are -9223372036854775808 to 9223372036854775807';
}
function signHabit(text) {
  if (/^[\u2212\u2013\u2010]/.test(text)) return numeralHabit(text.slice(1)) && 'the minus sign is -';
  const bare = text.replace(/^[-+]/, '');
  const amount = bare.replace(new RegExp(`^${CURRENCY}\\s*-?|\\s*${CURRENCY}$`), '');
  if (amount !== bare) return numeralHabit(amount) && 'numbers have no sign of a currency';
  if (bare.endsWith('%')) return numeralHabit(bare.slice(0, -1).trim()) && 'numbers have no percent sign';
  return numeralHabit(bare);
}
/** Why a text that looks like a number or a formula is none, as `run --explain` says it; '' where it isn't so. */
function habitOf(text) {
  if (isUnderstood(text)) return '';
  const bare = text.trim();
  if (bare !== text && isUnderstood(bare)) return 'a blank stands before or after it';
  const habit = HABITS.find(([form]) => form.test(bare));
  return habit ? habit[1] : signHabit(bare);
}
/** What is said of a cell that holds such a text; '' where it holds none. */
function noteOf(entry) {
  if (entry[0] !== "'") return '';
  const text = entry.slice(1), habit = isWhole(text) ? 'an apostrophe stands before it' : habitOf(text);
  return habit && (/^\s|\s$/.test(text) ? `"${text}"` : text) + ' is kept as a text: ' + habit;
}

const SIGNS = [
  ['/', 'QUOTIENT(a;b)'], ['%', 'MOD(a;b) or QUOTIENT(a;100)'], ['!=', '<>'], ['==', '='], ['=<', '<='], ['=>', '>='],
  ['&&', 'AND(a;b)'], ['||', 'OR(a;b)'], ['\u2212', '-'], ['\u00d7', '*'], ['\u00f7', 'QUOTIENT(a;b)'],
  ['\u2264', '<='], ['\u2265', '>='], ['\u2260', '<>'],
];
/** What is at fault in a refused formula, where that is easily told; else what a formula is. */
function faultOf(text) {
  const body = text.replace(/^(of:)?=/, ''), count = sign => body.split(sign).length;
  const call = [...body.matchAll(/([A-Za-z]+)\s*\(/g)].find(([, name]) => !FUNCTIONS.includes(name.toUpperCase()));
  const sign = SIGNS.find(([written]) => body.includes(written)), point = /\d*\.\d+/.exec(body);
  if (/["']/.test(body)) return 'a formula has no texts';
  if (call) return `${call[1]} is no function; the functions are ${FUNCTIONS.join(', ')}`;
  if (sign) return `${sign[0]} is written ${sign[1]}`;
  if (point) return `${point[0]}: numbers are whole`;
  if (count('(') > count(')')) return "a ( isn't closed";
  if (count('(') < count(')')) return 'a ) closes nothing';
  return '';
}
/** What is said of a refusal of this text. */
function refusalOf(reply, text) {
  const fault = /^err 3 /.test(reply) && faultOf(text);
  return fault ? 'This is no formula: ' + fault + '.' : inWords(reply);
}
