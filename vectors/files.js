// Makes the vectors of files: node vectors/files.js
//
// Writes crates/filevectors/stdin, a command on each line, and crates/filevectors/stdout, the answer to each;
// crates/payoff/data/quote.payoff, and crates/payoff/stdout, what is printed of it and of what a sweep leaves; and checks the
// example of docs/FORMAT.md and what README.md shows of the quote. The answers are those of the checker in format.js and of
// session.js. Random trees and damage come from a fixed start, so that every run writes the same files.
'use strict';
const fs = require('fs');
const path = require('path');
const { stored, hex, chance, times } = require('./shared');
const { KINDS, LIMITS, make, printed, parts, inOrder, bytesOf, fileOf, judged, treeOf } = require('./format');
const { Session } = require('./session');
const { treesOfAnyKind } = require('./trees');

const root = path.join(__dirname, '..');
const below = chance(20260202);
const oneOf = (list) => list[below(list.length)];
const { anyTree, ordinaryTree, anyOrder, junk } = treesOfAnyKind(below);

// ---- Vectors ----

const lines = [];
const counts = {};
function vector(kind, command, answer) {
  lines.push([command, answer]);
  const key = `${kind}: ${answer.replace(/^loaded.*/, 'loaded').replace(/ node .*/, '').replace(/^.*\*.*/, 'runs')}`;
  counts[key] = (counts[key] || 0) + 1;
}

const verdict = ({ fault, node }) => (fault === undefined ? 'ok' : `${fault}@${node}`);

// A file to load and to print `trees` times. Where `want` is given, the checker has to agree with it.
function fileVector(kind, file, { rooms = LIMITS, want, trees = 1, options = '0 0' } = {}) {
  const judgement = judged(file, rooms);
  if (want !== undefined && verdict(judgement) !== want) throw new Error(`${kind}: ${want} expected, and ${verdict(judgement)} found`);
  const command = `case ${hex(file)} ${rooms.join(',')} ${options}${' tree'.repeat(trees)}`;
  if (judgement.fault !== undefined) {
    vector(kind, command, `refused ${judgement.fault} layer 2 node ${judgement.node}`);
    return;
  }
  const { sections } = judgement;
  const tree = printed(treeOf(sections));
  const end = `end ${sections.root} 0 ${sections.nodes.length} ${sections.entries.length} ${sections.bytes}`;
  vector(kind, command, ['loaded', ...times(trees, () => tree), end].join('; '));
}

// A tree whose file is lawful, and prints as the tree does.
function treeVector(kind, tree, options = {}) {
  const file = fileOf(tree, options);
  const judgement = judged(file);
  if (judgement.fault !== undefined) throw new Error(`${kind}: the file of ${printed(tree)} is refused`);
  if (printed(treeOf(judgement.sections)) !== printed(tree)) throw new Error(`${kind}: ${printed(tree)} is read as another tree`);
  fileVector(kind, file, { want: 'ok', ...options });
}

// The parts of a tree's file, changed, and the verdict that is wanted.
function changed(kind, tree, change, want, options = {}) {
  const file = parts(tree);
  change(file);
  fileVector(kind, bytesOf(file), { want, ...options });
}

// ---- Small trees ----

const { string, bits, number, boolean, name, hole, spread, array, dot, at, call, template, quasi, unary, binary, opaque } = make;
const none = make.null;

// One node of each kind, with children where it needs them.
const ONE = {
  string: () => string('a'), number: () => number(45.1), boolean: () => boolean(true), null: () => none(), name: () => name('x'),
  hole: () => hole(), spread: () => spread(name('x')), array: () => array([]), static: () => dot(name('x'), 'p'),
  computed: () => at(name('x'), string('p')), call: () => call(name('f'), []), template: () => template([quasi('a')]),
  quasi: () => quasi('\\n'), unary: () => unary('minus', name('x')), binary: () => binary('/', name('x'), name('y')),
  opaque: () => opaque([], 7, 0),
};
const NAMES = Object.values(KINDS).map(([kind]) => kind);

// Each place of a child.
const PLACES = {
  'spread in an array': (x) => array([spread(x)]),
  'spread in a call': (x) => call(name('f'), [spread(x)]),
  element: (x) => array([x]),
  'second element': (x) => array([name('a'), x]),
  'object, static': (x) => dot(x, 'p'),
  'object, computed': (x) => at(x, name('k')),
  key: (x) => at(name('o'), x),
  callee: (x) => call(x, [name('a')]),
  argument: (x) => call(name('f'), [x]),
  'last argument': (x) => call(name('f'), [name('a'), x]),
  'only quasi': (x) => template([x]),
  'first quasi': (x) => template([x, name('a'), quasi('')]),
  'expression of a template': (x) => template([quasi(''), x, quasi('')]),
  'last quasi': (x) => template([quasi(''), name('a'), x]),
  operand: (x) => unary('void', x),
  left: (x) => binary('**', x, name('b')),
  right: (x) => binary('-', name('a'), x),
  'opaque child': (x) => opaque([x], 1, 0),
  'reference': (x) => opaque([x], 1, 1),
  'child behind a reference': (x) => opaque([name('a'), x], 1, 1),
};
const ELEMENTS = ['element', 'second element'];
const ARGUMENTS = ['argument', 'last argument'];
const QUASIS = ['only quasi', 'first quasi', 'last quasi'];
function mayStand(kind, place) {
  if (QUASIS.includes(place)) return kind === 'quasi';
  if (kind === 'hole') return ELEMENTS.includes(place);
  if (kind === 'spread') return [...ELEMENTS, ...ARGUMENTS].includes(place);
  return kind !== 'quasi';
}
for (const place of Object.keys(PLACES)) {
  for (const kind of NAMES) {
    const tree = PLACES[place](ONE[kind]());
    const holder = inOrder(tree).findIndex((n) => n.children.some((c) => KINDS[c.kind][0] === kind && printed(c) === printed(ONE[kind]())));
    fileVector('places', fileOf(tree), { want: mayStand(kind, place) ? 'ok' : `5@${holder}` });
  }
}

// Each kind as the root.
for (const kind of NAMES) {
  const tree = ONE[kind]();
  const last = inOrder(tree).length - 1;
  fileVector('roots', fileOf(tree), { want: ['hole', 'spread', 'quasi'].includes(kind) ? `5@${last}` : 'ok' });
}

// Every kind in one tree.
const EVERY = array([
  string('PWR é \u2028😀\ud83d'), number(-0), boolean(false), boolean(true), none(), name('hub'), hole(), spread(name('legs')), array([]), array([hole(), hole()]),
  dot(name('Math'), 'max'), at(name('a'), number(0)), call(name('f'), []), call(name('f'), [spread(name('x')), string('')]),
  template([quasi('')]), template([quasi('Q\\u{31}'), name('y'), quasi('\\\n$'), none(), quasi('\r\n')]),
  unary('plus', name('p')), unary('minus', name('p')), unary('void', number(0)),
  binary('**', number(2), number(3)), binary('-', number(5e-324), number(1.7976931348623157e308)), binary('/', name('a'), name('b')),
  opaque([], 0, 0), opaque([name('a')], 4294967295, 0), opaque([dot(name('a'), 'b'), none()], 7, 1),
]);
treeVector('every kind', EVERY);
treeVector('every kind', EVERY, { trees: 0 });
treeVector('every kind', EVERY, { trees: 3 });
for (const options of ['0 1', '1 0', '1 1']) treeVector('every kind', EVERY, { options });

// ---- Refusals, from both sides ----

// 1: the header.
const SMALL = () => binary('-', name('spot'), number(45.1));
const LIST = () => array([name('a'), string('bc')]);
const small = fileOf(SMALL());
for (const length of [0, 1, 4, 31]) fileVector('header', small.subarray(0, length), { want: '1@0' });
fileVector('header', small.subarray(0, 32), { want: '2@0' });
for (const version of [0, 2, 3, 255, 256, 257, 0x01000001, 0x01000000, 0x00010001, 0xffffffff]) {
  changed('header', SMALL(), (file) => { file.header[0] = version; }, '1@0');
  changed('header', SMALL(), (file) => { file.header = { 0: version, 2: 0 }; }, '1@0', { rooms: [0, 0, 0] });
}
fileVector('header', Buffer.alloc(32), { want: '1@0' });

// 2: counts, offsets and length.
for (const tree of [SMALL, LIST]) {
  changed('sizes', tree(), () => {}, 'ok');
  for (const word of [2, 3, 4, 5, 6, 7]) {
    for (const by of [-1, 1, 4, 20, 0x10000, 0x1000000, 0x80000000]) {
      const old = bytesOf(parts(tree())).readUInt32LE(4 * word);
      changed('sizes', tree(), (file) => { file.header[word] = (old + by) >>> 0; }, '2@0');
    }
  }
  const whole = fileOf(tree());
  for (const cut of [1, 2, 4, whole.length - 32]) fileVector('sizes', whole.subarray(0, whole.length - cut), { want: '2@0' });
  for (const more of [1, 4, 20, 300]) fileVector('sizes', Buffer.concat([whole, Buffer.alloc(more)]), { want: '2@0' });
}
fileVector('sizes', bytesOf({ root: 0, nodes: [], entries: [], text: [], header: {} }), { want: '2@0' });
fileVector('sizes', bytesOf({ root: 0, nodes: [], entries: [0], text: [1], header: {} }), { want: '2@0' });
// Sections in another order, with a gap, and with counts whose sizes agree only where a sum wraps.
changed('sizes', LIST(), (file) => { file.header = { 3: 32 + 8, 5: 32 }; }, '2@0');
changed('sizes', LIST(), (file) => { file.header = { 5: 96, 7: 104 }; file.text.push(0, 0, 0, 0); }, '2@0');
changed('sizes', name('a'), (file) => { file.header = { 4: 0x40000000 }; }, '2@0');
changed('sizes', name('a'), (file) => { file.header = { 2: 0x33333334, 5: 32 + 16, 7: 32 + 16 }; }, '2@0');
changed('sizes', name('a'), (file) => { file.header = { 6: 0xffffffff, 7: 53 }; }, '2@0');
changed('sizes', name('a'), (file) => { file.header[2] = 0xffffffff; }, '2@0', { rooms: [0, 0, 0] });

// 3: the stores, each with room enough and one short.
const ROOMY = () => call(dot(name('a'), 'bc'), [string('def'), number(1)]); // 5 nodes, 2 entries, 6 bytes
const EXACT = [5, 2, 6];
fileVector('stores', fileOf(ROOMY()), { rooms: EXACT, want: 'ok' });
fileVector('stores', fileOf(ROOMY()), { rooms: [0, 0, 0], want: '3@0' });
fileVector('stores', fileOf(none()), { rooms: [1, 0, 0], want: 'ok' });
fileVector('stores', fileOf(none()), { rooms: [0, 0, 0], want: '3@0' });
for (const k of [0, 1, 2]) {
  const rooms = (by) => EXACT.map((room, i) => (i === k ? room + by : room));
  fileVector('stores', fileOf(ROOMY()), { rooms: rooms(1), want: 'ok' });
  fileVector('stores', fileOf(ROOMY()), { rooms: rooms(-1), want: '3@0' });
  fileVector('stores', fileOf(ROOMY()), { rooms: rooms(-EXACT[k]), want: '3@0' });
  // Asked before any record, and after the sizes.
  changed('stores', ROOMY(), (file) => { file.nodes[0].kind = 0; }, '3@0', { rooms: rooms(-1) });
  changed('stores', ROOMY(), (file) => { file.nodes[0].kind = 0; }, '4@0', { rooms: rooms(0) });
  changed('stores', ROOMY(), (file) => { file.root = 0; }, '3@0', { rooms: rooms(-1) });
  changed('stores', ROOMY(), (file) => { file.header[3] = 33; }, '2@0', { rooms: rooms(-1) });
}
for (const rooms of [[4097, 16385, 65537], [99999, 99999, 99999], ['18446744073709551615', '18446744073709551615', '18446744073709551615'], ['0005', '02', '006']]) {
  fileVector('stores', fileOf(ROOMY()), { rooms, want: 'ok' });
}

// 4: records that are unlawful on their own. The node that is changed stands second, behind a name.
const SECOND = (x) => array([name('a'), x]);
const record = (x, change, want = '4@1') => changed('records', SECOND(x), (file) => change(file.nodes[1], file), want);
for (const kind of [0, 17, 18, 32, 127, 128, 255]) record(none(), (n) => { n.kind = kind; });
for (const kind of NAMES) {
  const [code, [, flags, forms]] = Object.entries(KINDS).find(([, form]) => form[0] === kind);
  const words = { T: 2, L: 2, N: 1, W: 1 };
  const used = [...forms].reduce((sum, form) => sum + words[form], 0);
  const tree = () => array([kind === 'quasi' ? template([ONE[kind]()]) : ONE[kind]()]);
  const place = inOrder(tree()).findIndex((n) => n.kind === Number(code));
  const one = (change, want) => changed('records', tree(), (file) => change(file.nodes[place], file), want);
  for (let flag = 0; flag < flags; flag++) one((n) => { n.flag = flag; }, kind === 'opaque' && flag === 1 ? `4@${place}` : 'ok');
  for (const flag of [flags, flags + 1, 128, 255]) one((n) => { n.flag = flag; }, `4@${place}`);
  for (const zeros of [[1, 0], [0, 1], [255, 255], [0, 128]]) one((n) => { n.zeros = zeros; }, `4@${place}`);
  for (let k = used; k < 4; k++) {
    for (const word of [1, 256, 0x80000000, 0xffffffff]) one((n) => { n.words[k] = word; }, `4@${place}`);
  }
}

// Pieces of texts and lists: just within, one past, and sums that wrap.
const PIECES = [[() => string('bc'), 0], [() => name('bc'), 0], [() => dot(none(), 'bc'), 1], [() => quasi('bc'), 0], [() => quasi('bc'), 2]];
for (const [x, k] of PIECES) {
  const place = x().kind === 9 ? 1 : 0;
  const tree = () => array([x().kind === 13 ? template([x()]) : x()]);
  const piece = (start, length, want) => changed('pieces', tree(), (file) => {
    file.text = [...stored('bcbcbc')];
    const all = x().kind === 13 ? [0, 2, 2, 2] : file.nodes[place].words;
    file.nodes[place].words = all.map((w, i) => (i === k ? start : i === k + 1 ? length : w));
  }, want);
  const lawful = x().kind !== 13;
  for (const start of [0, 2, 4]) piece(start, 2, 'ok');
  piece(0, 6, lawful ? 'ok' : `4@${place}`);
  piece(6, 0, lawful ? 'ok' : `4@${place}`);
  piece(3, 2, lawful ? 'ok' : `4@${place}`);
  for (const [start, length] of [[5, 2], [6, 1], [7, 0], [0, 7], [0xffffffff, 0], [0xffffffff, 1], [0xffffffff, 2], [2, 0xffffffff], [0x80000000, 0x80000000], [0xfffffffe, 4]]) {
    piece(start, length, `4@${place}`);
  }
}
const LISTS = [[() => array([name('a'), name('b')]), 0], [() => call(none(), [name('a'), name('b')]), 1], [() => opaque([name('a'), name('b')], 5, 0), 0]];
for (const [tree, k] of LISTS) {
  const last = inOrder(tree()).length - 1;
  const piece = (start, length, want) => changed('pieces', tree(), (file) => file.nodes[last].words.splice(k, 2, start, length), want);
  piece(0, 2, 'ok');
  const orphan = tree().kind === 11 ? [1, 2] : [0, 1]; // the nodes that the lists hold
  piece(0, 1, `5@${orphan[1]}`);
  piece(1, 1, `5@${orphan[0]}`);
  piece(0, 0, `5@${orphan[0]}`);
  piece(2, 0, `5@${orphan[0]}`);
  for (const [start, length] of [[3, 0], [1, 2], [2, 1], [0, 3], [0xffffffff, 0], [0xffffffff, 1], [0xffffffff, 3], [1, 0xffffffff], [0x80000000, 0x80000000]]) {
    piece(start, length, `4@${last}`);
  }
}

// Texts that are no stored text.
const UNLAWFUL = ['80', 'bf', 'c0', 'c080', 'c1bf', 'c3', 'e08080', 'e09fbf', 'e282', 'f08fbfbf', 'f4908080', 'f5808080', 'f8', 'ff', '61ff', 'eda0bdedb880', 'edafbfedbfbf', 'eda0'];
const LAWFUL = ['', '00', '7f', 'c280', 'dfbf', 'e0a080', 'efbfbf', 'efbbbf', 'f0908080', 'f48fbfbf', 'eda080', 'edbfbf', 'edb080eda080', 'f09f9880', 'eda0bdf09f9880', 'f09f9880edb880'];
for (const text of [...UNLAWFUL, ...LAWFUL]) {
  const bytes = [...Buffer.from(text, 'hex')];
  const want = (place) => (LAWFUL.includes(text) ? 'ok' : `4@${place}`);
  const put = (x, place, k) => changed('texts', array([none(), x]), (file) => {
    file.text = bytes;
    file.nodes[place].words.splice(k, 2, 0, bytes.length);
  }, want(place));
  put(string('a'), 1, 0);
  put(name('a'), 1, 0);
  put(dot(none(), 'a'), 2, 1);
}

// Numbers.
const DOUBLES = { '7fefffffffffffff': true, '7ff0000000000000': false, '7ff0000000000001': false, '7ff8000000000000': false, '7fffffffffffffff': false,
  ffefffffffffffff: true, fff0000000000000: false, fff8000000000000: false, ffffffffffffffff: false, '0000000000000000': true, '8000000000000000': true,
  '0000000000000001': true, '000fffffffffffff': true, '0010000000000000': true, '3ff0000000000000': true, '40468ccccccccccd': true, '00000000ffffffff': true,
  '7fe0000000000000': true, '7ff00000ffffffff': false, 'bff0000000000001': true, '07ff000000000000': true, '7f70000000000000': true };
for (const digits of Object.keys(DOUBLES)) {
  const x = Buffer.from(digits, 'hex').readDoubleBE();
  if (Number.isFinite(x) !== DOUBLES[digits]) throw new Error(`${digits} is ${x}`);
  fileVector('numbers', fileOf(array([none(), bits(BigInt(`0x${digits}`))])), { want: DOUBLES[digits] ? 'ok' : '4@1' });
}
[0, -0, 1, -1, 45.1, 0.1, 1e21, 2 ** 53, 2 ** -1074, Number.MAX_VALUE, Math.PI].forEach((x) => treeVector('numbers', number(x)));

// Quasis: raw text, and the text that it is said to cook to. `undefined` where no text is right.
const ANY = ['', 'a', '\n', '\r', '\r\n', '\\', '`', '$', '\0', '1', '😀', '\ud83d', '\ude00', 'é', '${', '\ufeff'];
const RAWS = ['', 'a', '\n', '\r', '\r\n', '\\\\', '\\`', '`', '$', '\\$', '${', '\\${', '$\\{', '\\0', '\\00', '\\1', '\\x31', '\\x3', '\\u0031', '\\u{31}', '\\u{110000}', '\\u{}',
  '\\', '\\\n', '\\\r\n', '\\\u2028', '\\ud83d', '\\ud83d\\ude00', '\\u{d83d}\\\n\\ude00', '😀', 'é', '\\n', '\\r', '\\8', '\\q', '\ufeff', 'a`b', '\\u{0000000000000061}'];
for (const raw of RAWS) {
  for (const text of ANY) {
    changed('quasis', template([quasi('')]), (file) => {
      file.text = [...stored(raw), ...stored(text)];
      file.nodes[0].words = [0, stored(raw).length, stored(raw).length, stored(text).length];
    });
  }
}
for (const bytes of ['ff', 'c3', 'eda0bd', 'edb880', 'eda0bdedb880', '5ceda0bd', '80', 'f4908080', 'c080']) {
  for (const text of ['', bytes, '61']) {
    changed('quasis', template([quasi('')]), (file) => {
      file.text = [...Buffer.from(bytes + text, 'hex')];
      file.nodes[0].words = [0, bytes.length / 2, bytes.length / 2, text.length / 2];
    }, '4@0');
  }
}
// A raw text and its cooked text may be one piece, or overlap.
changed('quasis', template([quasi('abc')]), (file) => { file.text = [...stored('abc')]; file.nodes[0].words = [0, 3, 0, 3]; }, 'ok');
changed('quasis', template([quasi('\\\\')]), (file) => { file.text = [...stored('\\\\')]; file.nodes[0].words = [0, 2, 1, 1]; }, 'ok');
changed('quasis', template([quasi('\\\\')]), (file) => { file.text = [...stored('\\\\')]; file.nodes[0].words = [1, 1, 0, 2]; }, '4@0');

// Templates have an odd number of entries, and a reference has a child.
for (let length = 0; length <= 6; length++) {
  const odd = (k) => (k % 2 === 0 ? quasi('') : none());
  fileVector('templates', fileOf(template(times(length, (_, k) => odd(k)))), { want: length % 2 === 1 ? 'ok' : `4@${length}` });
}
for (const length of [0, 1, 2]) {
  fileVector('references', fileOf(opaque(times(length, () => name('a')), 3, 1)), { want: length > 0 ? 'ok' : '4@0' });
  fileVector('references', fileOf(opaque(times(length, () => name('a')), 3, 0)), { want: 'ok' });
}

// The lowest unlawful record, and records before the root and the links.
const FOUR = () => array([none(), none(), none(), none()]);
for (let a = 0; a < 5; a++) {
  for (let b = 0; b < 5; b++) changed('order', FOUR(), (file) => { file.nodes[a].kind = 0; file.nodes[b].zeros = [1, 0]; }, `4@${Math.min(a, b)}`);
  changed('order', FOUR(), (file) => { file.nodes[a].kind = 99; file.root = 0; file.entries[0] = 77; }, `4@${a}`);
}

// 5: the root.
for (const by of [0, 1, 2, 3, 5, 6, 0x100, 0xffffffff, 0x80000000, 0x10004]) changed('roots', FOUR(), (file) => { file.root = by; }, '5@4');
changed('roots', FOUR(), (file) => { file.root = 4; }, 'ok');
for (const by of [1, 2, 0xffffffff]) changed('roots', none(), (file) => { file.root = by; }, '5@0');
// Before any link.
changed('roots', FOUR(), (file) => { file.root = 3; file.entries[0] = 4; }, '5@4');
changed('roots', spread(FOUR()), (file) => { file.entries[0] = 4; }, '5@5');
changed('roots', array([none(), hole(), none()]), (file) => { file.root = 1; }, '5@3');
changed('roots', array([none(), hole(), none()]), (file) => { file.nodes.push(...file.nodes.splice(1, 1)); file.entries = [0, 3, 1]; file.root = 2; }, '5@3');

// Links: to a lower number, the node itself, a higher one and one that is not there.
const LINKED = [
  [(x) => array([spread(x)]), 0], [(x) => dot(x, 'p'), 0], [(x) => at(x, name('k')), 0], [(x) => at(name('o'), x), 1], [(x) => call(x, [name('a')]), 0],
  [(x) => unary('plus', x), 0], [(x) => binary('-', x, none()), 0], [(x) => binary('/', none(), x), 1],
];
for (const [around, k] of LINKED) {
  const inner = around(none());
  const holder = inOrder(inner).findIndex((n) => n.children.some((c) => c.kind === 4 || c.kind === 1) && n.kind !== 8);
  const total = inOrder(inner).length;
  const link = (to, want) => changed('links', around(none()), (file) => { file.nodes[holder].words[k] = to; }, want);
  for (const to of [total, total + 1, 4096, 0x7fffffff, 0xffffffff]) link(to, undefined);
  for (let to = 0; to < total; to++) link(to, undefined);
}
const ENTRIES = [(xs) => array(xs), (xs) => call(none(), xs), (xs) => opaque(xs, 1, 0), (xs) => opaque(xs, 1, 1), (xs) => template([quasi(''), xs[0], quasi(''), xs[1], quasi('')])];
for (const around of ENTRIES) {
  const file = parts(around([name('a'), none()]));
  for (let i = 0; i < file.entries.length; i++) {
    for (const to of [...file.nodes.keys(), file.nodes.length, 4096, 0x7fffffff, 0xffffffff]) {
      changed('links', around([name('a'), none()]), (f) => { f.entries[i] = to; });
    }
  }
}
changed('links', unary('plus', none()), (file) => { file.nodes[1].words[0] = 1; }, '5@0');
changed('links', unary('plus', none()), (file) => { file.nodes[1].words[0] = 2; }, '5@0');
changed('links', FOUR(), (file) => { file.entries[3] = 4; }, '5@3');
changed('links', FOUR(), (file) => { file.entries[3] = 5; }, '5@3');
changed('links', FOUR(), (file) => { file.entries[0] = 1; }, '5@0');
changed('links', FOUR(), (file) => { file.entries = [1, 1, 2, 3]; }, '5@0');
changed('links', FOUR(), (file) => { file.entries = [0, 1, 2, 2]; }, '5@2');
changed('links', FOUR(), (file) => { file.entries = [3, 2, 1, 0]; }, 'ok');
// A node without a parent, with two, and with 256 and 257 of them.
changed('parents', array([none()]), (file) => { file.nodes.unshift({ kind: 4, flag: 0, zeros: [0, 0], words: [0, 0, 0, 0] }); file.entries = [1]; file.root = 2; }, '5@0');
changed('parents', array([none()]), (file) => { file.entries = [0, 0]; file.nodes[1].words[1] = 2; }, '5@0');
for (const many of [255, 256, 257, 512]) {
  changed('parents', array([none()]), (file) => { file.entries = times(many, () => 0); file.nodes[1].words[1] = many; }, '5@0');
  changed('parents', array([none(), name('b')]), (file) => { file.entries = [...times(many, () => 1), 0]; file.nodes[2].words[1] = many + 1; }, '5@1');
}
changed('parents', binary('**', none(), none()), (file) => { file.nodes[2].words = [1, 1, 0, 0]; }, '5@0');
changed('parents', binary('**', none(), none()), (file) => { file.nodes[2].words = [1, 0, 0, 0]; }, 'ok');
// Two lists over one entry.
changed('parents', array([array([none()]), array([none()])]), (file) => { file.nodes[3].words = [...file.nodes[1].words]; }, '5@0');
// A wrong link below a wrong number of parents, and the other way round; unlawful links count as parents.
changed('order', array([unary('plus', none()), none()]), (file) => { file.nodes[1].words[0] = 1; }, '5@0');
changed('order', array([unary('plus', none()), none()]), (file) => { file.nodes[1].words[0] = 2; }, '5@0');
changed('order', array([none(), unary('plus', none())]), (file) => { file.nodes[2].words[0] = 3; }, '5@1');
changed('order', array([none(), unary('plus', hole()), hole()]), (file) => { file.entries[2] = 0; }, '5@0');
changed('order', array([none(), unary('plus', hole()), hole(), none()]), (file) => { file.entries[2] = 4; }, '5@2');
changed('order', array([name('a'), name('b'), unary('minus', quasi('')), none(), none()]), (file) => { file.entries[3] = 5; file.entries[4] = 5; }, '5@3');
changed('order', array([name('a'), name('b'), none(), none(), unary('minus', quasi(''))]), (file) => { file.entries[2] = 3; }, '5@2');

// ---- What nothing asks: unused entries and text, shared texts, numbers in another order ----

treeVector('unused parts', EVERY, { spare: junk });
treeVector('unused parts', none(), { spare: junk });
changed('unused parts', none(), (file) => { file.entries = [0, 0xffffffff, 7]; file.text = [0xff, 0xed, 0xa0]; }, 'ok');
changed('unused parts', array([string('ab'), name('ab'), dot(none(), 'ab')]), (file) => {
  file.text = [...stored('ab')];
  file.nodes[0].words = file.nodes[1].words = [0, 2, 0, 0];
  file.nodes[3].words = [2, 0, 2, 0];
}, 'ok');
changed('unused parts', array([string('é'), string('\u0080')]), (file) => {
  file.text = [0xc3, 0xc2, 0x80, 0xc3, 0xa9, 0xff];
  file.nodes[0].words = [3, 2, 0, 0];
  file.nodes[1].words = [1, 2, 0, 0];
}, 'ok');

// ---- Trees by chance ----

const someTrees = (n) => times(n, ordinaryTree);
someTrees(250).forEach((tree) => treeVector('by chance', tree));
someTrees(250).forEach((tree) => treeVector('by chance, in any order', tree, { order: anyOrder, spare: junk }));

// Rooms by chance, around what is needed.
for (const tree of someTrees(60)) {
  const { nodes, entries, text } = parts(tree);
  const rooms = [nodes, entries, text].map((section) => Math.max(0, section.length + oneOf([0, 0, 0, 1, -1])));
  fileVector('rooms by chance', fileOf(tree), { rooms });
}

// Damage by chance: a few bytes, anywhere, to values that mean something or to any.
function damaged(file) {
  const copy = Buffer.from(file);
  for (let k = 1 + below(4); k > 0; k--) {
    const i = below(8) === 0 ? below(32) : 32 + below(copy.length - 32);
    copy[i] = oneOf([0, 1, 2, copy[i] + 1, copy[i] - 1, below(18), below(256)]) & 255;
  }
  return below(12) === 0 ? copy.subarray(0, copy.length - below(5)) : copy;
}
for (const tree of someTrees(900)) fileVector('damage by chance', damaged(fileOf(tree, below(2) === 0 ? {} : { order: anyOrder, spare: junk })));

// ---- The largest file, and one more of each; the deepest tree ----

const long = (n) => times(n, (_, i) => 'abcdefgh'[i % 8]).join('');
function largest() {
  const trees = [];
  let room = LIMITS[0] - 2; // the root, and a string for the rest of the text
  while (room > 0) {
    const tree = anyTree(5);
    const size = inOrder(tree).length;
    if (size > room) trees.push(...times(room, none));
    else trees.push(tree);
    room -= Math.min(size, room);
  }
  const used = parts(array([string(''), ...trees])).text.length;
  return array([string(long(LIMITS[2] - used)), ...trees]);
}
const large = parts(largest(), { order: anyOrder });
while (large.entries.length < LIMITS[1]) large.entries.push(0xffffffff);
if ([large.nodes, large.entries, large.text].some((section, i) => section.length !== LIMITS[i])) throw new Error('the largest file is not');
fileVector('largest', bytesOf(large), { want: 'ok' });
fileVector('largest', bytesOf({ root: 0, nodes: times(4097, () => ({ kind: 4, flag: 0, zeros: [0, 0], words: [0, 0, 0, 0] })), entries: [], text: [], header: {} }), { want: '2@0' });
changed('largest', none(), (file) => { file.entries = times(16384, () => 0); }, 'ok', { rooms: [1, 16384, 0] });
changed('largest', none(), (file) => { file.entries = times(16385, () => 0); }, '2@0');
changed('largest', none(), (file) => { file.text = times(65536, () => 0); }, 'ok', { rooms: [1, 0, 65536] });
changed('largest', none(), (file) => { file.text = times(65537, () => 0); }, '2@0');
const LEVELS = [(x) => unary('minus', x), (x) => array([x]), (x) => dot(x, 'p'), (x) => call(x, []), (x) => opaque([x], 9, 1)];
let deep = none();
for (let k = 1; k < LIMITS[0]; k++) deep = LEVELS[k % LEVELS.length](deep);
treeVector('deepest', deep, { rooms: [LIMITS[0], 1638, 819] });

// ---- Lines that are no case ----

const good = hex(small);
const LINES = ['case', 'case ', 'case  ', `case ${good}`, `case ${good} 9,9,9`, `case ${good} 9,9,9 0`, `case ${good} 9,9,9 0 0 `, `case ${good} 9,9,9 0 0  tree`,
  `case ${good} 9,9,9 0 0 tree `, `case ${good} 9,9,9 0 0 Tree`, `case ${good} 9,9,9 0 0 trees`, `case ${good} 9,9,9 0 0 tree tre`, `case ${good} 9,9,9 0 0 tree;tree`,
  `case ${good} 9,9,9 2 0 tree`, `case ${good} 9,9,9 0 2 tree`, `case ${good} 9,9,9 00 0 tree`, `case ${good} 9,9,9 0 +1 tree`, `case ${good} 9,9,9  0 tree`, `case ${good} 9,9,9 0  tree`,
  `case ${good} 9,9,9 true 0 tree`, `case ${good} 9,9,9 tree`, `case ${good} 9,9 0 0 tree`, `case ${good} 9,9,9,9 0 0 tree`, `case ${good} ,9,9 0 0 tree`, `case ${good} 9,,9 0 0 tree`,
  `case ${good} 9,9, 0 0 tree`, `case ${good} 9 9 9 0 0 tree`, `case ${good} +9,9,9 0 0 tree`, `case ${good} 9,-9,9 0 0 tree`, `case ${good} 9,9,0x9 0 0 tree`, `case ${good} 9;9;9 0 0 tree`,
  `case ${good} 18446744073709551616,9,9 0 0 tree`, `case ${good} 9,18446744073709551616,9 0 0 tree`, `case ${good} 9,9,18446744073709551616 0 0 tree`, `case ${good}0 9,9,9 0 0 tree`,
  `case ${good.toUpperCase()} 9,9,9 0 0 tree`, `case ${good.slice(0, 8)}g0 9,9,9 0 0 tree`, `case ${good}  9,9,9 0 0 tree`, ` case ${good} 9,9,9 0 0 tree`, `Case ${good} 9,9,9 0 0 tree`,
  `cases ${good} 9,9,9 0 0 tree`, `case\t${good} 9,9,9 0 0 tree`, `case ${good} 9,9,9 0 0 tree\r`, `case ${good} 9,9,9 0 0 é`, `case é 9,9,9 0 0 tree`, 'case 00 9,9,9 0 0 tree x',
  'tree', '', 'damage', `damage ${good}`, `damage ${good} x`, `damage ${good} ${small.length}`, `damage ${good} 1 1`, 'damage 6 0', `damage ${good} +1`, `damage ${good} 18446744073709551615`];
LINES.forEach((line) => vector('no case', line, 'malformed'));
fileVector('no file', Buffer.alloc(0), { want: '1@0' });
vector('other requests', 'cook 5c6e', 'ok 0a');
vector('other requests', 'escape 60', 'ok 5c60');

// ---- Every byte of three files, with every value ----

const DAMAGED = [
  array([string('é'), number(45.1), boolean(true), none(), name('x'), hole(), spread(name('y'))]),
  call(dot(name('M'), 'max'), [binary('-', name('s'), at(name('a'), unary('minus', number(2))))]),
  template([quasi('Q'), opaque([name('a'), array([])], 7, 1), quasi('\\n')]),
];
function runs(words) {
  const out = [];
  for (const word of words) {
    const last = out[out.length - 1];
    if (last !== undefined && last[0] === word) last[1]++;
    else out.push([word, 1]);
  }
  return out.map(([word, n]) => `${word}*${n}`).join(' ');
}
const seen = new Set(DAMAGED.flatMap((tree) => inOrder(tree).map((n) => n.kind)));
if (seen.size !== NAMES.length) throw new Error('a kind is not damaged');
let damagedBytes = 0;
for (const tree of DAMAGED) {
  const file = fileOf(tree);
  if (judged(file).fault !== undefined) throw new Error('a file to damage is unlawful');
  damagedBytes += file.length;
  for (let i = 0; i < file.length; i++) {
    const copy = Buffer.from(file);
    const verdicts = times(256, (_, value) => { copy[i] = value; return verdict(judged(copy)); });
    vector('every value', `damage ${hex(file)} ${i}`, runs(verdicts));
  }
}

// ---- The quote's payoff, and the example of the document ----

// ["PWR ".concat(hub).concat(" Q1 at $45.10"), Math.pow(spot - 45.1, 2) / [1, 24, 168][1], [0.25, 0.25].concat([0.5], fees),
//  Array.of(...legs), `${desk} MWh`]
const QUOTE = array([
  call(dot(call(dot(string('PWR '), 'concat'), [name('hub')]), 'concat'), [string(' Q1 at $45.10')]),
  binary('/', call(dot(name('Math'), 'pow'), [binary('-', name('spot'), number(45.1)), number(2)]), at(array([number(1), number(24), number(168)]), number(1))),
  call(dot(array([number(0.25), number(0.25)]), 'concat'), [array([number(0.5)]), name('fees')]),
  call(dot(name('Array'), 'of'), [spread(name('legs'))]),
  template([quasi(''), name('desk'), quasi(' MWh')]),
]);
treeVector('quote', QUOTE);

// The bytes that the document draws: an offset of four digits, bytes, and words on them.
function drawn(text) {
  const rows = text.split('\n').map((line) => /^ {4}([0-9a-f]{4}) {2}((?:[0-9a-f]{2} )*[0-9a-f]{2})(?: {2}.*)?$/.exec(line)).filter((row) => row !== null);
  const bytes = [];
  for (const [, offset, row] of rows) {
    if (parseInt(offset, 16) !== bytes.length) throw new Error(`docs/FORMAT.md: ${offset} is not where the row stands`);
    bytes.push(...row.split(' ').map((byte) => parseInt(byte, 16)));
  }
  return Buffer.from(bytes);
}
const EXAMPLE = call(dot(name('Math'), 'max'), [binary('-', name('spot'), number(45.1)), number(0)]);
const document = path.join(root, 'docs', 'FORMAT.md');
if (fs.existsSync(document)) {
  const text = fs.readFileSync(document, 'utf8');
  if (!drawn(text).equals(fileOf(EXAMPLE))) throw new Error('docs/FORMAT.md draws another file');
  if (!text.includes(printed(EXAMPLE))) throw new Error('docs/FORMAT.md prints another tree');
}
treeVector('document', EXAMPLE);

// ---- The files ----

const write = (...names) => (content) => {
  const file = path.join(root, ...names);
  fs.mkdirSync(path.dirname(file), { recursive: true });
  fs.writeFileSync(file, content);
};
write('crates', 'filevectors', 'stdin')(lines.map(([command]) => command + '\n').join(''));
write('crates', 'filevectors', 'stdout')(lines.map(([, answer]) => answer + '\n').join(''));
const quote = parts(QUOTE);
const sizes = [quote.nodes.length, quote.entries.length, quote.text.length];
const held = (word, [nodes, entries, text]) => `${word.padEnd(9)} ${nodes} nodes, ${entries} list entries, ${text} bytes of text`;
const session = new Session(treeOf(judged(bytesOf(quote)).sections), sizes, LIMITS, { templates: true, power: true });
const before = printed(session.root);
const [, rewrites, rounds] = session.call('sweep:structural', sizes[0]).split(' ');
const shown = [`file      quote.payoff, ${bytesOf(quote).length} bytes`, held('holds', sizes),
  `before    ${before}`, `after     ${printed(session.root)}`, `swept     ${rewrites} rewrites in ${rounds} rounds`, held('left', session.held),
  `packet    ${bytesOf(quote).length} bytes before, ${fileOf(session.root).length} bytes after`];
write('crates', 'payoff', 'data', 'quote.payoff')(bytesOf(quote));
write('crates', 'payoff', 'stdout')(shown.map((line) => line + '\n').join(''));
const readme = path.join(root, 'README.md');
if (fs.existsSync(readme)) {
  const indented = shown.map((line) => `    ${line}\n`).join('');
  if (!fs.readFileSync(readme, 'utf8').includes(indented)) throw new Error('README.md shows another tree of the quote');
}
for (const key of Object.keys(counts).sort()) console.log(`${counts[key]} ${key}`);
console.log(`${lines.length} in all, ${damagedBytes} bytes damaged`);
