// Makes the payoffs that are measured: node bench/payoffs.js
//
// Writes sets of payoffs into bench/out, each a file NAME.set. All comes from a fixed start, so that every run writes
// the same files. A set is the number of its payoffs, and then for each payoff, in words of four bytes, lowest byte
// first: how long its file is, its options, how many rows its table has (or 2^32 - 1 where it is shortened by what its
// nodes say of themselves), the rooms for nodes, entries and bytes of text; then the ten words of the report that
// vectors/session.js gives of it; and then the file, and the rows.
'use strict';
const fs = require('fs');
const path = require('path');
const { chance, times } = require('../vectors/shared');
const { LIMITS, make, parts, inOrder, bytesOf, judged, treeOf } = require('../vectors/format');
const { Session } = require('../vectors/session');

const below = chance(20280214);
const oneOf = (list) => list[below(list.length)];
const { string, number, boolean, name, hole, spread, array, dot, at, call, template, quasi, unary, binary, opaque } = make;
const none = make.null;
const concat = (base, ...calls) => calls.reduce((x, args) => call(dot(x, 'concat'), args), base);
const math = (word, ...args) => call(dot(name('Math'), word), args);

const SETTINGS = { templates: true, power: true };
const TEMPLATES = 1;
const POWER = 2;
const NO_TABLE = 0xffffffff;
const SMALL_ROOMS = [256, 16384, 65536];
const FOLDER = path.join(__dirname, 'out');

// ---- Sets ----

// The payoff, as a set has it; `rows` is its table.
function packed(tree, { rows, rooms = LIMITS } = {}) {
  const file = parts(tree);
  const bytes = bytesOf(file);
  const judgement = judged(bytes, rooms);
  if (judgement.fault !== undefined) throw new Error(`no lawful file: ${judgement.fault}`);
  const sizes = [file.nodes.length, file.entries.length, file.text.length];
  const session = new Session(treeOf(judgement.sections), sizes, rooms, SETTINGS);
  const host = rows === undefined ? 'structural' : `table=${Buffer.from(rows).toString('hex')}`;
  const answer = session.call(`sweep:${host}`, sizes[0]);
  const numbers = answer.match(/\d+/g).map(Number);
  const swept = answer.startsWith('swept');
  const [rewrites, rounds, left] = swept ? numbers : [numbers[3], 0, 0];
  const fault = swept ? [0, 0, 0] : numbers.slice(0, 3);
  const report = [...fault, rewrites, rounds, left, session.root.number, ...session.held];
  return { file: bytes, rows, rooms, report, nodes: sizes[0], held: session.held };
}

function writeSet(name, payoffs) {
  const words = (list) => { const b = Buffer.alloc(4 * list.length); list.forEach((w, i) => b.writeUInt32LE(w, 4 * i)); return b; };
  const pieces = [words([payoffs.length])];
  for (const { file, rows, rooms, report } of payoffs) {
    pieces.push(words([file.length, TEMPLATES | POWER, rows === undefined ? NO_TABLE : rows.length, ...rooms, ...report]), file);
    if (rows !== undefined) pieces.push(Buffer.from(rows));
  }
  fs.writeFileSync(path.join(FOLDER, `${name}.set`), Buffer.concat(pieces));
  const sum = (f) => payoffs.reduce((all, x) => all + f(x), 0);
  const [nodes, rewrites, refused] = [sum((x) => x.nodes), sum((x) => x.report[3]), sum((x) => (x.report[0] === 0 ? 0 : 1))];
  const most = Math.max(...payoffs.map((x) => x.report[4]));
  const shortened = sum((x) => (x.report[3] > 0 ? 1 : 0));
  console.log(`${name}: ${payoffs.length} payoffs, ${nodes} nodes, ${shortened} shortened by ${rewrites} rewrites, in ${most} rounds at most, ${refused} refused`);
}

// ---- Payoffs of options ----

const MARKETS = ['spot', 'fwd', 'hub', 'strike', 'vol', 'rate', 'tenor', 'desk', 'fees', 'legs', 'qty', 'fx', 'peak', 'base', 'gas', 'cap', 'floor', 'dates'];
const WORDS = ['PWR ', ' Q1 at $', ' MWh', 'TTF ', ' therm', ' vs ', 'Cal-28 ', '/', ' @ ', ' €/MWh', ' strike ', 'NBP ', ' peak ', ' `ask`', ' ', ', ', 'DE base ', ' settle '];
const CODES = ['FGHJKMNQUVXZ', 'Q1Q2Q3Q4', 'PWR', 'GAS', 'DE', 'TTF'];
const PROPERTIES = ['price', 'mid', 'bid', 'ask', 'strike', 'length', 'volume', 'settle'];
const AMOUNTS = [0, 1, 2, 24, 168, 720, 0.25, 0.5, 0.75, 45.1, 47.25, 100, 1e6, 365.25, 0.01, 12];
const MARKS = 40; // other expressions: products, sums, comparisons, conditionals, functions

const market = () => name(oneOf(MARKETS));
const amount = () => number(oneOf(AMOUNTS));
const word = () => string(oneOf(WORDS));
const other = (...children) => opaque(children, below(MARKS), 0);
const index = () => number(below(4));

// What a price may be, nested as deep as d.
const PRICES = [
  (d) => binary('-', price(d), amount()),
  (d) => binary('/', price(d), price(d)),
  (d) => math('max', binary('-', price(d), amount()), number(0)),
  (d) => math('pow', price(d), oneOf([amount, amount, market])()),
  (d) => math('pow', binary('-', market(), amount()), number(2)),
  (d) => math(oneOf(['min', 'exp', 'abs', 'log']), price(d)),
  (d) => other(price(d), price(d)),
  (d) => other(price(d), price(d), price(d)),
  (d) => at(array(times(2 + below(3), amount)), index()),
  (d) => dot(market(), oneOf(PROPERTIES)),
  (d) => at(market(), number(below(12))),
  (d) => unary(oneOf(['minus', 'plus']), price(d)),
  (d) => call(market(), [word(), price(d)]),
  (d) => call(dot(market(), oneOf(['at', 'quote', 'reduce'])), times(1 + below(2), () => price(d))),
];
const price = (d) => (d <= 0 || below(4) === 0 ? oneOf([market, market, amount])() : oneOf(PRICES)(d - 1));

// What a label may be.
const part = (d) => oneOf([market, market, word, word, amount, () => dot(market(), oneOf(PROPERTIES)), () => (d > 0 ? label(d - 1) : word()), () => at(string(oneOf(CODES)), index())])();
const LABELS = [
  (d) => concat(word(), ...times(2 + below(3), () => times(1 + below(2), () => part(d)))),
  (d) => concat(string(''), ...times(2 + below(2), () => [part(d)])),
  (d) => concat(word(), [part(d)]),
  (d) => concat(word(), [word(), part(d)], [part(d)]),
  (d) => concat(word(), times(2 + below(5), () => oneOf([market, amount])())),
  (d) => at(string(oneOf(CODES)), index()),
  (d) => template([quasi(oneOf(['', 'PWR ', '\\`', 'at \\$'])), part(d), quasi(oneOf(['', ' MWh', ' Q1']))]),
  (d) => word(),
  (d) => call(dot(market(), 'join'), [word()]),
];
const label = (d) => oneOf(LABELS)(d);

// What a list may be: legs, schedules, fees.
const item = (d) => (below(7) === 0 ? spread(market()) : below(5) === 0 ? string(oneOf(CODES)) : d > 0 ? price(d) : amount());
const LISTS = [
  (d) => array(times(1 + below(5), () => item(d))),
  (d) => concat(array(times(1 + below(3), amount)), [array(times(1 + below(3), amount)), market()]),
  (d) => concat(array(times(below(3), amount)), ...times(2 + below(2), () => [oneOf([() => array([price(d)]), amount, word])()])),
  (d) => concat(array(times(2, amount)), [amount(), amount()], [market()]),
  (d) => call(dot(name('Array'), 'of'), times(1 + below(4), () => item(d))),
  (d) => concat(array([]), [market()], [market()]),
  (d) => concat(array(times(1 + below(3), amount)), []),
  (d) => call(dot(market(), oneOf(['map', 'filter', 'concat'])), [other(price(d))]),
  (d) => array([hole(), amount(), boolean(below(2) === 1), none()]),
];
const list = (d) => oneOf(LISTS)(d);

const PARTS = [price, price, price, label, label, list, list, (d) => other(price(d), label(d), list(d))];
const anyPart = () => oneOf(PARTS)(3);
const sizeOf = (tree) => inOrder(tree).length;

// A payoff of exactly `size` nodes: an array of parts, filled up with amounts.
function payoff(size) {
  if (size === 1) return amount();
  const all = [];
  let left = size - 1;
  for (let tries = 0; left > 0 && tries < 40; tries++) {
    const next = anyPart();
    const many = sizeOf(next);
    if (many <= left) {
      all.push(next);
      left -= many;
      tries = 0;
    }
  }
  return array([...all, ...times(left, amount)]);
}

// Payoffs that are shortened without a refusal, each made by `one`.
function accepted(count, one, options) {
  const payoffs = [];
  while (payoffs.length < count) {
    const next = packed(one(), options);
    if (next.report[0] === 0) payoffs.push(next);
  }
  return payoffs;
}

// Where there is no space for a new node: such parts, but of what is rewritten only readings of array literals, and
// calls that give their array back.
const PLAIN = [
  () => at(array(times(2 + below(3), amount)), number(below(2))),
  () => concat(array(times(1 + below(3), amount)), []),
  () => binary('-', market(), amount()),
  () => other(market(), other(market(), amount())),
  () => call(dot(market(), oneOf(PROPERTIES)), [string(oneOf(CODES)), market()]),
  () => array(times(1 + below(5), () => oneOf([market, amount])())),
  () => concat(string('PWR '), [market(), market()]), // kept
  () => concat(array([]), [market()], [market()]), // kept
];
function kept(size) {
  const all = [];
  let left = size - 1;
  for (;;) {
    const next = oneOf(PLAIN)();
    const many = sizeOf(next);
    if (many > left) break;
    all.push(next);
    left -= many;
  }
  return array([...all, ...times(left, amount)]);
}

// ---- The worst shapes, each of about `size` nodes ----

const nested = (count, f, x) => times(count).reduce((y) => f(y), x);
const chained = (base, count, args) => times(count).reduce((x, _, i) => call(dot(x, 'concat'), args(i)), base);
const SHAPES = {
  // One chain of all nodes, by what becomes of it.
  'chain-to-string': (n) => chained(string('a'), Math.floor((n - 2) / 3), () => [string('b')]),
  'chain-to-template': (n) => chained(string('a'), Math.floor((3 * n / 4 - 4) / 3), () => [market()]),
  'chain-to-call': (n) => chained(array([market()]), Math.floor((n - 3) / 3), () => [amount()]),
  'chain-kept': (n) => chained(array([]), Math.floor((n - 1) / 3), () => [market()]),
  'chain-of-empty-calls': (n) => chained(array([]), Math.floor((n - 2) / 2), () => []),
  'chain-on-a-name': (n) => chained(name('x'), Math.floor((n - 1) / 3), () => [market()]),
  // One call with all nodes as arguments.
  'flat-strings': (n) => concat(string('a'), times(n - 4, () => string('b'))),
  'flat-texts-and-names': (n) => concat(string('a'), times(Math.floor((n - 6) / 2), (_, k) => (k % 2 === 0 ? string('b') : template([quasi('c')])))),
  'flat-names': (n) => concat(string('a'), times(n - 3, market)),
  'flat-array': (n) => concat(array([]), times(n - 4, amount)),
  'flat-arrays': (n) => concat(array([]), times(n - 4, () => array([]))),
  'flat-rest': (n) => concat(array([]), [amount(), ...times(n - 7, market)]),
  'flat-of': (n) => call(dot(name('Array'), 'of'), times(n - 4, amount)),
  'flat-index': (n) => at(array(times(n - 3, amount)), number(n - 4)),
  // The deepest nesting. Places deeper than 256 steps are not visited.
  'deep-unary': (n) => nested(n - 1, (x) => unary('minus', x), market()),
  'deep-array': (n) => nested(n - 1, (x) => array([x]), market()),
  'deep-call': (n) => nested(n - 1, (x) => call(x, []), market()),
  'deep-pow': (n) => nested(Math.floor((2 * n / 3 - 1) / 4), (x) => math('pow', x, number(2)), market()),
  'deep-of': (n) => nested(Math.floor((4 * n / 5 - 1) / 4), (x) => call(dot(name('Array'), 'of'), [x]), market()),
  'deep-index': (n) => nested(Math.floor((n - 1) / 3), (x) => at(array([x]), number(0)), number(1)),
  'deep-concat': (n) => nested(Math.floor((n - 1) / 4), (x) => concat(array([]), [x]), amount()),
};

// The most rounds. A round visits 256 steps down, so a later one has more to do only where a rewrite lifts what lies
// deeper. In each round one chain goes that lifts the next one to within reach: it has to be as long as the steps that
// are left, so that their number grows with the square root of that of the nodes.
function manyRounds(size) {
  const chain = (place, x) => chained(array([x]), Math.ceil((256 - place) / 2), () => []);
  let best;
  for (let count = 1; ; count++) {
    const first = 257 - count;
    if (first < 0) break;
    let tree = number(1);
    for (let place = 256; place >= first; place--) tree = chain(place, tree);
    tree = nested(first, (x) => unary('minus', x), tree);
    if (sizeOf(tree) + count > size) break;
    best = tree;
  }
  return best;
}

// By a table that says that nothing has effects, each reading of an array in a round of its own: as many rounds as
// there are readings, and a tree of as many nodes beside it, which is visited in each round.
function manyRoundsByTable(size) {
  const readings = Math.floor((size - 260) / 6);
  const spine = nested(255, (x) => unary('minus', x), nested(readings, (x) => at(array([x]), number(0)), number(1)));
  const rest = times(Math.floor(size / 2) - 8, () => unary('minus', none()));
  const tree = array([spine, ...rest.slice(0, Math.floor((size - sizeOf(spine) - 1) / 2))]);
  const rows = inOrder(tree).map(() => 0);
  return { tree, rows };
}

// Texts of `bytes` bytes, in one string.
const TEXTS = {
  'text-plain': (bytes) => array([string('a'.repeat(bytes))]),
  'text-wide': (bytes) => array([string('é'.repeat(bytes / 2))]),
  'text-of-surrogates': (bytes) => array([string('\ude00'.repeat(bytes / 3))]),
  'text-quasi': (bytes) => template([quasi('a'.repeat(bytes / 2))]),
  'text-of-escapes': (bytes) => template([quasi('\\x41'.repeat(bytes / 5))]),
  'text-to-template': (bytes) => concat(string('a'.repeat(bytes / 3)), [market()], [string('b')]),
  'text-escaped': (bytes) => concat(string('$'.repeat(bytes / 4)), [market()], [string('b')]),
  'text-index': (bytes) => at(string('é'.repeat(bytes / 2 - 2)), number(bytes / 2 - 3)),
};

// One long text that many nodes share, so that a file is much shorter than all its texts.
function sharedText(nodes, bytes, x) {
  const file = parts(array(times(nodes - 1, () => string(''))));
  file.text = Array.from(Buffer.from(x.repeat(bytes / Buffer.from(x).length)));
  file.nodes.forEach((n) => { if (n.kind === 1) n.words = [0, file.text.length, 0, 0]; });
  return file;
}

// One long list that all nodes share: a file that is refused, at node 0, which is a child of its own.
function sharedList(nodes, entries) {
  const file = parts(nested(nodes - 1, (x) => array([x]), array([])));
  file.entries = times(entries, () => 0);
  file.nodes.forEach((n) => { n.words = [0, entries, 0, 0]; });
  return file;
}

// ---- All sets ----

fs.mkdirSync(FOLDER, { recursive: true });
for (const old of fs.readdirSync(FOLDER)) if (old.endsWith('.set')) fs.unlinkSync(path.join(FOLDER, old));

writeSet('payoffs', accepted(2400, () => payoff(30 + below(171)), { rooms: SMALL_ROOMS }));
const SCALES = [[10, 3000], [100, 300], [1000, 30], [3000, 10]];
for (const [size, count] of SCALES) writeSet(`mixed-${size}`, accepted(count, () => payoff(size)));
for (const [size, count] of [[10, 4000], [100, 400], [1000, 40], [4096, 10]]) writeSet(`kept-${size}`, accepted(count, () => kept(size)));
for (const size of [10, 100, 1000, 4096]) {
  for (const [shape, tree] of Object.entries(SHAPES)) writeSet(`${shape}-${size}`, [packed(tree(size))]);
}
for (const size of [1000, 4096]) {
  writeSet(`many-rounds-${size}`, [packed(manyRounds(size))]);
  const { tree, rows } = manyRoundsByTable(size);
  writeSet(`many-rounds-by-table-${size}`, [packed(tree, { rows })]);
}
for (const bytes of [240, 2400, 24000, 64800]) {
  for (const [shape, tree] of Object.entries(TEXTS)) writeSet(`${shape}-${bytes}`, [packed(tree(bytes))]);
}
for (const [nodes, bytes] of [[10, 20], [100, 200], [1000, 2000], [4096, 8192]]) {
  for (const [shape, x] of [['shared-text', 'a'], ['shared-wide-text', 'é']]) {
    const file = sharedText(nodes, bytes, x);
    const report = [0, 0, 0, 0, 1, 0, nodes - 1, nodes, nodes - 1, bytes];
    writeSet(`${shape}-${nodes}`, [{ file: bytesOf(file), rooms: LIMITS, report, nodes, held: [] }]);
  }
  const { fault, node } = judged(bytesOf(sharedList(nodes, nodes >> 2)));
  const report = [fault, 2, node, ...times(7, () => 0)];
  writeSet(`shared-list-${nodes}`, [{ file: bytesOf(sharedList(nodes, nodes >> 2)), rooms: LIMITS, report, nodes, held: [] }]);
}
