// Damaged payoffs, tables, texts and lines by chance, always the same from the same start.
'use strict';
const { stored, hex, escaped, chance, times } = require('./shared');
const { KINDS, LIMITS, make, parts, inOrder, bytesOf } = require('./format');
const { treesOfAnyKind, treesToShorten } = require('./trees');

const { string, array, quasi, template, unary } = make;
const none = make.null;

let number = chance(0);
const below = (n) => number(n);
const oneOf = (list) => list[below(list.length)];
const rarely = (n) => below(n) === 0;
const between = (least, most) => least + below(most - least + 1);
const anyBytes = (most) => Buffer.from(times(below(most + 1), () => below(256)));
const { ordinaryTree, anyOrder, junk } = treesOfAnyKind(below);
const { anyPayoff, anyCall } = treesToShorten(below);

// All that is made from now on comes from this start.
function startFrom(start) {
  number = chance(start);
}

// ---- Edges ----

const MOST = 0xffffffff;
const word = (x) => Number(BigInt.asUintN(32, BigInt(x)));

// A word that stands for one: an edge of words, of counts or of limits, one beside what it was, or any.
function edgeWord(old, counts) {
  const limits = oneOf(LIMITS);
  const count = oneOf(counts);
  return word(oneOf([0, 1, 2, 0x7fffffff, 0x80000000, MOST - 1, MOST, old - 1, old + 1, -old, count - 1, count, count + 1,
    limits - 1, limits, limits + 1, below(8), below(8), below(0x10000), below(0x10000) * 0x10000]));
}
const countsOf = (file) => [file.nodes.length, file.entries.length, file.text.length];

// Bytes that are no text, or whose parts are none.
const BROKEN_TEXTS = ['80', 'bf', 'c0', 'c080', 'c1bf', 'c3', 'c328', 'e0', 'e080', 'e08080', 'e09fbf', 'e282', 'e28228', 'f0', 'f09f98', 'f08080af', 'f08fbfbf', 'f4908080',
  'f5808080', 'f8888080', 'fe', 'ff', 'eda0bdedb880', 'edafbfedbfbf', 'eda0', 'ed', 'eda080', 'edafbf', 'edb080', 'edbfbf', 'f09f9880', 'efbbbf', '00', '0a', '0d', '7f']
  .map((text) => [...Buffer.from(text, 'hex')]);
const ESCAPES = ['\\', '`', '$', '${', '{', '}', '\r', '\n', '\r\n', '\\\r\n', '\\\n', '\\\u2028', '\u2028', '\\0', '\\00', '\\1', '\\8', '\\x', '\\x4', '\\x41', '\\u', '\\u1', '\\u004', '\\u0041',
  '\\u{', '\\u{}', '\\u{41', '\\u{41}', '\\u{110000}', '\\u{10ffff}', '\\u{00000000000000000041}', '\\u{FFFFFFFFF}', '\\ud83d', '\\ude00', '\\u{d83d}', '\\n', '\\\\', '\\`', '\\$', 'a', 'é', '😀', '\0'];

// ---- Damage to the parts of a file ----
// What is changed is no longer what the tree says, but the header says where everything stands.

const anyNode = (file) => oneOf(file.nodes);
const anyRecord = () => ({ kind: between(1, 16), flag: oneOf([0, 0, 0, 1, 2]), zeros: [0, 0], words: times(4, () => oneOf([0, 0, 1, 2, below(8)])) });

// The words of the record, from k on, of a form of words.
function wordsOf(n, form) {
  const [, , forms] = KINDS[n.kind] || [0, 0, ''];
  const widths = { T: 2, L: 2, N: 1, W: 1 };
  const places = [];
  [...forms].reduce((k, f) => { if (f === form) places.push(k); return k + widths[f]; }, 0);
  return places;
}

// Places that hold the number of a node, each with how it is set and whose it is.
function linksOf(file) {
  return file.nodes.flatMap((n, of) => {
    const own = wordsOf(n, 'N').map((k) => ({ of, set: (to) => { n.words[k] = to; } }));
    const held = ([start, length]) => Math.max(0, Math.min(length, 40, file.entries.length - start));
    const listed = wordsOf(n, 'L').flatMap((k) => times(held(n.words.slice(k)), (_, i) => ({ of, set: (to) => { file.entries[n.words[k] + i] = to; } })));
    return [...own, ...listed];
  });
}

function withLink(file, change) {
  const links = linksOf(file);
  if (links.length > 0) change(oneOf(links));
}

const PARTS = {
  'a header word': (file) => { const k = below(8); file.header[k] = edgeWord(oneOf([1, file.root, 32, ...countsOf(file)]), countsOf(file)); },
  'the root': (file) => { file.root = edgeWord(file.root, countsOf(file)); },
  'a kind': (file) => { anyNode(file).kind = oneOf([0, 17, between(1, 16), between(1, 16), between(1, 16), below(256)]); },
  'a flag': (file) => { anyNode(file).flag = oneOf([0, 1, 1, 2, 3, below(256)]); },
  'zeros': (file) => { anyNode(file).zeros = oneOf([[1, 0], [0, 1], [0, 128], [below(256), below(256)]]); },
  'a word': (file) => { const n = anyNode(file); const k = below(4); n.words[k] = edgeWord(n.words[k], countsOf(file)); },
  'a record by chance': (file) => { file.nodes[below(file.nodes.length)] = anyRecord(); },
  'an entry': (file) => { if (file.entries.length > 0) { const i = below(file.entries.length); file.entries[i] = edgeWord(file.entries[i], countsOf(file)); } },
  'a link out of range': (file) => withLink(file, ({ set }) => set(oneOf([file.nodes.length, file.nodes.length + 1, 4095, 4096, 0x7fffffff, MOST]))),
  'a cycle': (file) => withLink(file, ({ of, set }) => set(between(of, file.nodes.length - 1))),
  'a shared child': (file) => withLink(file, ({ of, set }) => set(below(of + 1))),
  'a list cut': (file) => { const n = anyNode(file); wordsOf(n, 'L').forEach((k) => { n.words[k + 1] = below(n.words[k + 1] + 1); }); },
  'a list moved': (file) => { const n = anyNode(file); wordsOf(n, 'L').forEach((k) => { n.words[k] = word(n.words[k] + oneOf([-1, 1, 2])); }); },
  'a text moved': (file) => { const n = anyNode(file); wordsOf(n, 'T').forEach((k) => { n.words[k + below(2)] = edgeWord(n.words[k], [file.text.length]); }); },
  'a node more': (file) => { file.nodes.splice(below(file.nodes.length), 0, anyRecord()); file.root = word(file.root + 1); },
  'a node less': (file) => { file.nodes.splice(below(file.nodes.length), 1); },
  'two nodes swapped': (file) => { const [i, k] = [below(file.nodes.length), below(file.nodes.length)]; [file.nodes[i], file.nodes[k]] = [file.nodes[k], file.nodes[i]]; },
  'two entries swapped': (file) => { if (file.entries.length > 0) { const [i, k] = times(2, () => below(file.entries.length)); [file.entries[i], file.entries[k]] = [file.entries[k], file.entries[i]]; } },
  'text broken': (file) => { const bytes = oneOf(BROKEN_TEXTS); const at = below(file.text.length + 1); bytes.forEach((b, i) => { if (at + i < file.text.length) file.text[at + i] = b; }); },
  'text of a node broken': (file) => newText(file, () => oneOf(BROKEN_TEXTS)),
  'raw text broken': (file) => newText(file, () => times(between(1, 4), () => stored(oneOf(ESCAPES))).flat()),
};

// Another text for a node, behind all others; the old one may stay in front of it.
function newText(file, bytes) {
  const n = oneOf(file.nodes.filter((x) => wordsOf(x, 'T').length > 0).concat(anyNode(file)));
  for (const k of wordsOf(n, 'T')) {
    const old = file.text.slice(n.words[k], n.words[k] + n.words[k + 1]);
    const text = [...(rarely(2) ? old : []), ...bytes()];
    n.words.splice(k, 2, file.text.length, text.length);
    file.text.push(...text);
    if (rarely(2)) return;
  }
}

// ---- Damage to the bytes of a file ----

const BYTES = {
  'bits flipped': (bytes) => { times(between(1, 8), () => { bytes[below(bytes.length)] ^= 1 << below(8); }); return bytes; },
  'bytes changed': (bytes) => { times(between(1, 4), () => { const i = below(bytes.length); bytes[i] = oneOf([0, 1, 2, bytes[i] + 1, bytes[i] - 1, below(18), below(256)]); }); return bytes; },
  'words at edges': (bytes) => {
    times(between(1, 3), () => { const at = 4 * below(bytes.length >> 2); bytes.writeUInt32LE(edgeWord(bytes.readUInt32LE(at), [bytes.length, bytes.length >> 2, bytes[8], bytes[16], bytes[24]]), at); });
    return bytes;
  },
  'cut': (bytes) => bytes.subarray(0, oneOf([below(bytes.length + 1), below(33), bytes.length - between(1, 4)])),
  'extended': (bytes) => Buffer.concat([bytes, oneOf([Buffer.alloc(between(1, 24)), anyBytes(40), bytes, Buffer.from([10])])]),
  'sections swapped': (bytes) => {
    const [, , , first, , second, , third] = times(8, (_, i) => bytes.readUInt32LE(4 * i));
    const sections = [[first, second], [second, third], [third, bytes.length]].map(([from, to]) => bytes.subarray(from, to));
    const [i, k] = oneOf([[0, 1], [1, 2], [0, 2]]);
    [sections[i], sections[k]] = [sections[k], sections[i]];
    const moved = Buffer.concat([bytes.subarray(0, 32), ...sections]);
    if (rarely(2)) [moved.writeUInt32LE(first + sections[0].length, 20), moved.writeUInt32LE(first + sections[0].length + sections[1].length, 28)];
    return moved;
  },
  'spliced': (bytes) => {
    const other = bytesOf(parts(ordinaryTree()));
    const [i, k] = oneOf([[32, 32], [bytes.readUInt32LE(20), other.readUInt32LE(20)], [below(bytes.length), below(other.length)]]);
    return Buffer.concat([bytes.subarray(0, i), other.subarray(k)]);
  },
  'a body by chance': (bytes) => { for (let i = 32; i < bytes.length; i++) bytes[i] = below(256); return bytes; },
  'a piece repeated': (bytes) => { const at = below(bytes.length); const more = bytes.subarray(at, at + between(1, 40)); return Buffer.concat([bytes.subarray(0, at), more, bytes.subarray(at)]); },
  'a piece zeroed': (bytes) => bytes.fill(oneOf([0, 255]), below(bytes.length)),
};

// ---- Files ----

// Records by chance that link to lower numbers, over entries and texts by chance.
function filesOfRecords() {
  const nodes = times(between(1, 12), anyRecord);
  nodes.forEach((n, i) => { for (const k of wordsOf(n, 'N')) n.words[k] = below(i + 1); });
  const entries = times(below(12), () => below(nodes.length));
  return { root: nodes.length - 1, nodes, entries, text: [...stored('abé$`\\n')], header: {} };
}

// Files at the limits and beyond, deep ones, and ones with lists that many nodes name.
const LARGE = [
  () => { const over = below(2); return parts(array(times(LIMITS[0] - 1 + over, none))); },
  () => { const file = parts(none()); file.entries = times(LIMITS[1] + below(2), () => below(9)); return file; },
  () => { const file = parts(string('')); file.text = [...Buffer.alloc(LIMITS[2] + below(2), 0x61)]; file.nodes[0].words[1] = oneOf([65535, 65536, 65537]); return file; },
  () => parts(times(between(4000, LIMITS[0] - 1)).reduce((x) => unary('minus', x), none())),
  () => { const file = parts(array([none()])); file.entries = times(between(1000, LIMITS[1]), () => 0); file.nodes = [file.nodes[0], ...times(between(2, 20), () => ({ kind: 8, flag: 0, zeros: [0, 0], words: [0, file.entries.length, 0, 0] }))]; file.root = file.nodes.length - 1; return file; },
  () => { const raw = oneOf(['a', '\\n', '\\u{41}', '`']).repeat(8000); const file = parts(template([quasi('')])); file.text = [...stored(raw)]; file.nodes[0].words = [0, raw.length, 0, below(raw.length)]; return file; },
];

function soundParts() {
  const tree = rarely(3) ? anyPayoff() : ordinaryTree();
  return parts(tree, rarely(2) ? {} : { order: anyOrder, spare: junk });
}

// A damaged file, and how it was damaged.
function damagedFile() {
  if (rarely(60)) return { how: 'any bytes', bytes: rarely(2) ? anyBytes(200) : Buffer.concat([bytesOf(soundParts()).subarray(0, 32), anyBytes(200)]) };
  if (rarely(400)) return { how: 'large', bytes: bytesOf(oneOf(LARGE)()) };
  const made = rarely(12) ? filesOfRecords() : soundParts();
  const [some, one] = [oneOf([PARTS, PARTS, PARTS, BYTES, BYTES]), rarely(4) ? 2 : 1];
  const names = times(one, () => oneOf(Object.keys(some)));
  if (some === PARTS) {
    names.forEach((name) => { if (made.nodes.length > 0) PARTS[name](made); });
    return { how: names[0], bytes: bytesOf(made) };
  }
  return { how: names[0], bytes: names.reduce((bytes, name) => (bytes.length < 40 ? bytes : BYTES[name](bytes)), bytesOf(made)) };
}

// ---- Words of cases ----

const HUGE = ['18446744073709551615', '9223372036854775808', '4294967296', '4294967295', '65537', '00000000000000000000000012'];
const TOO_LARGE = ['18446744073709551616', '99999999999999999999', '1'.repeat(400)];

// Rooms for a file that says so many nodes, entries and bytes.
function anyRooms(sizes) {
  const k = below(3);
  return oneOf([
    () => LIMITS, () => LIMITS, () => LIMITS, () => sizes, () => sizes.map((size) => size + below(12)), () => sizes.map((size) => size + below(6)),
    () => sizes.map((size, i) => (i === k ? Math.max(0, size - 1) : size)), () => [0, 0, 0], () => times(3, () => oneOf(HUGE)),
    () => sizes.map((size, i) => (i === k ? size : oneOf(HUGE))), () => sizes.map((size) => `00${size}`),
  ])().join(',');
}
const sizesIn = (bytes) => [8, 16, 24].map((at) => (bytes.length < 32 ? 0 : bytes.readUInt32LE(at)));

const ROWS = [0x80, 0x00, 0x03, 0x83, 0x05, 0x07, 0x87, 0xc3, 0xc0, 0x40, 0x04, 0x01];
const CALM = [0x00, 0x03, 0x03, 0x05, 0x40, 0x43];
const anyRow = () => (rarely(3) ? below(256) : oneOf(ROWS));
const BOUND = ['4d617468', '4172726179', '756e646566696e6564', '', 'ff', 'c3', 'eda0bd', '00', '4d6174', '4d61746880', 'f4908080', '687562'];

// A host of a payoff with so many nodes, whose table may be too short or too long, with rows that are none, or whose
// bound names are no texts.
function anyHost(nodes) {
  return oneOf([
    () => 'silent', () => 'structural', () => `structural=${times(between(1, 4), () => oneOf(BOUND)).join(',')}`,
    () => `table=${hex(times(nodes, anyRow))}`, () => `table=${hex(times(nodes, () => oneOf(ROWS)))}`, () => `table=${hex(times(nodes, () => oneOf(CALM)))}`,
    () => `table=${hex(times(below(2 * nodes + 2), anyRow))}`, () => `table=${hex(times(nodes, () => below(256)))}`, () => 'table=',
  ])();
}
const anyEnter = () => `enter:${oneOf([0, 0, 0, 1, 1, 2, 3, 4, 4095, ...HUGE])}`;
const calls = (nodes, most) => times(below(most + 1), () => (rarely(5) ? 'tree' : rarely(6) ? anyEnter() : anyCall(() => anyHost(nodes))));
const few = (nodes) => Math.min(nodes, 60);

function caseOf(bytes, rooms, most) {
  const nodes = few(sizesIn(bytes)[0]);
  return ['case', hex(bytes), rooms, oneOf([1, 1, 1, 0]), oneOf([1, 1, 0]), ...calls(nodes, most)].join(' ');
}

// Down to where the tree ends, and up past the root.
const walk = () => [...times(between(1, 4), () => oneOf(['enter:0', 'enter:0', 'enter:1', 'enter:9'])), 'leave', 'leave', 'leave', 'leave', 'leave'].join(' ');

// Payoffs that are lawful, some of them deep, with hosts and rooms of any kind.
function soundCase() {
  if (rarely(300)) {
    const deep = times(between(254, 258)).reduce((x) => unary('minus', x), ordinaryTree());
    return ['case', hex(bytesOf(parts(deep))), LIMITS.join(','), 1, 1, ...times(258, () => 'enter:0'), 'tree', `sweep:${anyHost(40)}`].join(' ');
  }
  const file = parts(rarely(5) ? ordinaryTree() : anyPayoff(), rarely(2) ? {} : { order: anyOrder, spare: junk });
  const sweep = rarely(2) ? ` sweep:${anyHost(file.nodes.length)} tree` : '';
  const first = rarely(2) ? ['chain', 'method', 'property'].map((rule) => ` ${rule}:${anyHost(file.nodes.length)}`).join('') : '';
  return caseOf(bytesOf(file), anyRooms(countsOf(file)), 0) + first + calls(file.nodes.length, 8).map((call) => ` ${call}`).join('') + (rarely(8) ? ` ${walk()}` : '') + sweep;
}

// ---- Lines about texts ----

const units = () => times(below(12), () => String.fromCharCode(oneOf([below(128), below(0x10000), 0xd800 + below(0x800), 0x24, 0x5c, 0x60, 0x0d]))).join('');
const anyText = () => oneOf([
  () => stored(units()), () => stored(units()), () => times(below(6), () => stored(oneOf(ESCAPES))).flat(), () => times(below(6), () => stored(oneOf(ESCAPES))).flat(),
  () => [...stored(units()), ...oneOf(BROKEN_TEXTS), ...stored(units())], () => [...anyBytes(16)], () => stored(escaped(units())), () => [...stored(escaped(units())), ...stored(oneOf(ESCAPES))],
])();

function textLine() {
  const text = anyText();
  const room = oneOf(['', '', '', ` ${text.length}`, ` ${Math.max(0, text.length - 1)}`, ` ${text.length + below(8)}`, ' 0', ` ${below(30)}`, ` ${oneOf(HUGE)}`]);
  return `${oneOf(['escape', 'cook', 'cook'])} ${hex(text)}${room}`;
}

// ---- Damaged lines ----

// One place of a line changed; lines are Latin-1.
const at = (line, change) => { const i = below(line.length + 1); return line.slice(0, i) + change(line.slice(i)); };
const put = (piece) => (line) => at(line, (rest) => piece() + rest);
const spaces = (line) => [...line].flatMap((c, i) => (c === ' ' ? [i] : []));
const atSpace = (piece) => (line) => { const places = spaces(line); if (places.length === 0) return line + piece(); const i = oneOf(places); return line.slice(0, i) + piece() + line.slice(i + 1); };
const numbersTo = (change) => (line) => { let left = below(4); return line.replace(/(?<=[ ,:])[0-9]+(?=[ ,]|$)/g, (digits) => (left-- === 0 ? change(digits) : digits)); };
const words = (change) => (line) => change(line.split(' ')).join(' ');
const LINES = {
  'a byte put in': put(() => String.fromCharCode(below(256))),
  'a byte changed': (line) => at(line, (rest) => String.fromCharCode(below(256)) + rest.slice(1)),
  'a byte left out': (line) => at(line, (rest) => rest.slice(1)),
  'bytes that are no UTF-8': put(() => Buffer.from(oneOf(BROKEN_TEXTS)).toString('latin1')),
  'NUL': put(() => '\0'),
  'CR at the end': (line) => line + '\r',
  'CR': put(() => '\r'),
  'two spaces': atSpace(() => '  '),
  'a tab': atSpace(() => '\t'),
  'no space': atSpace(() => ''),
  'a space of another kind': atSpace(() => oneOf(['\u00a0', '\x0b', '\x0c', '\xe2\x80\x83', '\xc2\xa0'])),
  'a space in front': (line) => ' ' + line,
  'a space behind': (line) => line + ' ',
  'a line feed': put(() => '\n'),
  'cut': (line) => at(line, () => ''),
  'a sign': numbersTo((digits) => oneOf(['+', '-', '0x']) + digits),
  'leading zeros': numbersTo((digits) => '0'.repeat(oneOf([1, 2, 30, 300])) + digits),
  'a large number': numbersTo(() => oneOf([...HUGE, ...TOO_LARGE])),
  'no number': numbersTo(() => oneOf(['', '.', '1.0', '1e3', '0b1', '\u0661', 'a', '1_000', '1,1'])),
  'capitals': (line) => at(line, (rest) => rest.slice(0, 9).toUpperCase() + rest.slice(9)),
  'a capital': (line) => line.replace(/[a-f]/, (c) => c.toUpperCase()),
  'an odd digit': words((all) => all.map((w, i) => (i === 1 ? w + oneOf(['0', 'f', 'g', 'A']) : w))),
  'an odd digit of a host': (line) => line.replace(/=[0-9a-f]*/, (rows) => rows + oneOf(['0', 'g', 'F', '00 ', ','])),
  'words swapped': words((all) => { const [i, k] = [below(all.length), below(all.length)]; [all[i], all[k]] = [all[k], all[i]]; return all; }),
  'a word left out': words((all) => { all.splice(below(all.length), 1); return all; }),
  'a word more': words((all) => { all.splice(below(all.length + 1), 0, oneOf(['', '0', '1', 'tree', 'leave', 'cook', 'case', '61', 'sweep:silent', 'chain:table', 'enter:', ':', '='])); return all; }),
  'a word twice': words((all) => { const i = below(all.length); all.splice(i, 0, all[i]); return all; }),
  'two lines in one': (line) => line + shortLine(),
};
const shortCase = () => { const file = parts(make.at(string('ab'), make.number(below(3)))); return caseOf(bytesOf(file), anyRooms(countsOf(file)), 3); };
const shortLine = () => oneOf([textLine, textLine, shortCase, shortCase, soundCase])();
function damagedLine() {
  if (rarely(30)) return { how: 'any bytes', line: anyBytes(60).toString('latin1') };
  if (rarely(30)) return { how: 'an empty line', line: '' };
  const how = oneOf(Object.keys(LINES));
  const once = LINES[how](shortLine());
  return { how, line: rarely(6) ? LINES[oneOf(Object.keys(LINES))](once) : once };
}

// Very long lines.
const LONG = [
  () => ' '.repeat(300000), () => 'a'.repeat(1000000), () => `cook ${'61'.repeat(300000)}`, () => `escape ${'24'.repeat(100000)} ${oneOf([199999, 200000])}`,
  () => `cook 61 ${'0'.repeat(100000)}1`, () => `${shortCase()}${' leave'.repeat(3000)}`, () => `escape ${'6'.repeat(200001)}`, () => `${shortCase()} sweep:table=${'03'.repeat(100000)}`,
  () => `${shortCase()} sweep:structural=${'4d617468,'.repeat(20000)}`, () => `escape ${'eda0bd'.repeat(50000)}edb880`, () => '\0'.repeat(100000), () => `cook ${'5c'.repeat(100001)}`,
];

// Each of these once, and each large file twice.
function largeInputs() {
  const long = LONG.map((made) => ({ sort: 'long lines', how: 'long', line: made() }));
  return [...long, ...[...LARGE, ...LARGE].map((made) => ({ sort: 'damaged files', how: 'large', line: caseOf(bytesOf(made()), LIMITS.join(','), 3) }))];
}

// ---- Everything ----

// A piece of input by chance: its sort, how it was damaged, and its bytes, which stand without a line feed behind them.
function anyInput() {
  if (rarely(4000)) return { sort: 'long lines', how: 'long', line: oneOf(LONG)() };
  const kind = below(20);
  if (kind < 9) {
    const { how, bytes } = damagedFile();
    return { sort: 'damaged files', how, line: caseOf(bytes, anyRooms(sizesIn(bytes).map((size) => Math.min(size, 70000))), 3) };
  }
  if (kind < 13) return { sort: 'damaged tables, names and rooms', how: 'any', line: soundCase() };
  if (kind < 16) return { sort: 'damaged texts', how: 'any', line: textLine() };
  return { sort: 'damaged lines', ...damagedLine() };
}

module.exports = { startFrom, anyInput, largeInputs, damagedFile, soundParts, anyRow, below, oneOf };
