// The file of a payoff, written from docs/FORMAT.md apart from the program under test: making files, judging them, and
// printing their trees.
'use strict';
const { stored, hex, cooked } = require('./shared');

const HEADER = 32;
const RECORD = 20;
const LIMITS = [4096, 16384, 65536]; // nodes, entries, bytes of text

// Each kind: its name, how many flags it has, and its words. T is a text and L a list, of two words each, N the number of
// a node, W any word. Words that are not named are 0.
const KINDS = {
  1: ['string', 1, 'T'], 2: ['number', 1, 'WW'], 3: ['boolean', 2, ''], 4: ['null', 1, ''], 5: ['name', 1, 'T'],
  6: ['hole', 1, ''], 7: ['spread', 1, 'N'], 8: ['array', 1, 'L'], 9: ['static', 1, 'NT'], 10: ['computed', 1, 'NN'],
  11: ['call', 1, 'NL'], 12: ['template', 1, 'L'], 13: ['quasi', 1, 'TT'], 14: ['unary', 3, 'N'], 15: ['binary', 3, 'NN'],
  16: ['opaque', 2, 'LW'],
};
const UNARY = ['plus', 'minus', 'void'];
const BINARY = ['**', '-', '/'];

// ---- Trees ----
// A node is its kind, its flag, its texts (as bytes), its children in order, and a value: a number's 64 bits or a mark.

const node = (kind, children = [], { flag = 0, texts = [], value = 0 } = {}) => ({ kind, flag, texts, children, value });
const bitsOf = (x) => { const b = Buffer.alloc(8); b.writeDoubleLE(x); return b.readBigUInt64LE(); };

const make = {
  string: (text) => node(1, [], { texts: [stored(text)] }),
  bits: (value) => node(2, [], { value }),
  number: (x) => make.bits(bitsOf(x)),
  boolean: (b) => node(3, [], { flag: b ? 1 : 0 }),
  null: () => node(4),
  name: (text) => node(5, [], { texts: [stored(text)] }),
  hole: () => node(6),
  spread: (x) => node(7, [x]),
  array: (xs) => node(8, xs),
  dot: (x, name) => node(9, [x], { texts: [stored(name)] }),
  at: (x, key) => node(10, [x, key]),
  call: (f, xs) => node(11, [f, ...xs]),
  template: (parts) => node(12, parts), // quasis and expressions in turn
  quasi: (raw) => node(13, [], { texts: [stored(raw), stored(cooked(raw))] }),
  unary: (word, x) => node(14, [x], { flag: UNARY.indexOf(word) }),
  binary: (sign, x, y) => node(15, [x, y], { flag: BINARY.indexOf(sign) }),
  opaque: (children, mark, flag) => node(16, children, { flag, value: mark }),
};

// The printed form of a tree: node by node, since trees may be deep.
function printed(tree) {
  const forms = new Map();
  for (const n of inOrder(tree)) forms.set(n, printedOver(n, n.children.map((child) => forms.get(child))));
  return forms.get(tree);
}

// The printed form of a node, over those of its children.
function printedOver({ kind, flag, texts, value }, below) {
  const words = (...parts) => `(${[...parts, ...below].join(' ')})`;
  switch (KINDS[kind][0]) {
    case 'string': return `s:${hex(texts[0])}`;
    case 'number': return `n:${value.toString(16).padStart(16, '0')}`;
    case 'boolean': return flag === 1 ? 'true' : 'false';
    case 'null': return 'null';
    case 'name': return `id:${hex(texts[0])}`;
    case 'hole': return 'hole';
    case 'spread': return words('...');
    case 'array': return `[${below.join(' ')}]`;
    case 'static': return `(. ${below[0]} ${hex(texts[0])})`;
    case 'computed': return words('at');
    case 'call': return words('call');
    case 'template': return words('template');
    case 'quasi': return `${hex(texts[0])}:${hex(texts[1])}`;
    case 'unary': return words(UNARY[flag]);
    case 'binary': return words(BINARY[flag]);
    case 'opaque': return words('opaque', value, flag);
  }
}

// ---- Making files ----
// Parts of a file: its root, its nodes ({ kind, flag, zeros, words }), its entries, its text, and words of the header that
// are to be other than the rest says.

// The parts of a tree's file. `order` numbers the nodes, each after its children; `spare` gives entries and bytes that
// stand unused before each list and text.
function parts(tree, { order = inOrder, spare = () => [[], []] } = {}) {
  const all = order(tree);
  const number = new Map(all.map((n, x) => [n, x]));
  const file = { root: all.length - 1, nodes: [], entries: [], text: [], header: {} };
  const textWords = (bytes) => {
    file.text = file.text.concat(spare()[1], bytes);
    return [file.text.length - bytes.length, bytes.length];
  };
  const listWords = (children) => {
    file.entries = file.entries.concat(spare()[0], children.map((c) => number.get(c)));
    return [file.entries.length - children.length, children.length];
  };
  for (const n of all) {
    const texts = [...n.texts];
    const children = [...n.children];
    const words = [...KINDS[n.kind][2]].flatMap((form) => {
      if (form === 'T') return textWords(texts.shift());
      if (form === 'N') return [number.get(children.shift())];
      if (form === 'L') return listWords(children);
      return n.kind === 2 ? [] : [n.value];
    });
    if (n.kind === 2) words.push(Number(n.value & 0xffffffffn), Number(n.value >> 32n));
    while (words.length < 4) words.push(0);
    file.nodes.push({ kind: n.kind, flag: n.flag, zeros: [0, 0], words });
  }
  return file;
}

// Children before their parents, from the left.
function inOrder(tree) {
  const all = [];
  const walk = [[tree, 0]];
  while (walk.length > 0) {
    const top = walk[walk.length - 1];
    if (top[1] < top[0].children.length) walk.push([top[0].children[top[1]++], 0]);
    else all.push(walk.pop()[0]);
  }
  return all;
}

// The bytes of a file's parts.
function bytesOf({ root, nodes, entries, text, header }) {
  const offsets = [HEADER, HEADER + RECORD * nodes.length, HEADER + RECORD * nodes.length + 4 * entries.length];
  const words = [1, root, nodes.length, offsets[0], entries.length, offsets[1], text.length, offsets[2]];
  const file = Buffer.alloc(offsets[2] + text.length);
  words.forEach((w, i) => file.writeUInt32LE(i in header ? header[i] : w, 4 * i));
  nodes.forEach((n, x) => {
    const at = HEADER + RECORD * x;
    file.set([n.kind, n.flag, ...n.zeros], at);
    n.words.forEach((w, i) => file.writeUInt32LE(w, at + 4 + 4 * i));
  });
  entries.forEach((e, i) => file.writeUInt32LE(e, offsets[1] + 4 * i));
  file.set(text, offsets[2]);
  return file;
}

const fileOf = (tree, options) => bytesOf(parts(tree, options));

// ---- Judging files ----

// The text whose stored form the bytes are, or undefined: characters as their first bytes announce them, if writing them
// again gives the same bytes.
function textOf(bytes) {
  let text = '';
  for (let i = 0; i < bytes.length;) {
    const first = bytes[i];
    const length = first < 0x80 ? 1 : first < 0xc0 ? 0 : first < 0xe0 ? 2 : first < 0xf0 ? 3 : first < 0xf8 ? 4 : 0;
    if (length === 0 || i + length > bytes.length) return undefined;
    let c = length === 1 ? first : first & (0x7f >> length);
    for (const byte of bytes.slice(i + 1, i + length)) c = c << 6 | byte & 63;
    if (c > 0x10ffff) return undefined;
    text += String.fromCodePoint(c);
    i += length;
  }
  return Buffer.from(stored(text)).equals(Buffer.from(bytes)) ? text : undefined;
}

const isText = (bytes) => textOf(bytes) !== undefined;

// The text that raw template text cooks to, in its stored form in hexadecimal, or undefined where the engine refuses it.
const utf8 = new TextDecoder('utf-8', { fatal: true, ignoreBOM: true });
const known = new Map();
function cookedOf(raw) {
  const key = hex(raw);
  if (!known.has(key)) {
    let text;
    try {
      text = cooked(utf8.decode(raw));
    } catch (error) {
      text = undefined; // no UTF-8
    }
    known.set(key, text === undefined ? undefined : hex(stored(text)));
  }
  return known.get(key);
}

// Whether the first bytes are raw template text that the engine cooks to the text of the second.
const cooksTo = (raw, bytes) => cookedOf(raw) === hex(bytes);

// The sections of a file whose header is in order.
function cut(file) {
  const [, root, nodes, , entries, at, bytes, behind] = Array.from({ length: 8 }, (_, i) => file.readUInt32LE(4 * i));
  const record = (x) => {
    const from = HEADER + RECORD * x;
    return { kind: file[from], flag: file[from + 1], zeros: file.readUInt16LE(from + 2), words: [4, 8, 12, 16].map((k) => file.readUInt32LE(from + k)) };
  };
  return {
    root, bytes,
    nodes: Array.from({ length: nodes }, (_, x) => record(x)),
    entries: Array.from({ length: entries }, (_, i) => file.readUInt32LE(at + 4 * i)),
    text: file.subarray(behind),
  };
}

// What a record's words are by its kind, or undefined where its flag, its zeros or a piece is out of range.
function fieldsOf({ kind, flag, zeros, words }, { entries, text }) {
  if (!(kind in KINDS) || zeros !== 0 || flag >= KINDS[kind][1]) return undefined;
  const fields = { texts: [], links: [], list: [] };
  let k = 0;
  for (const form of KINDS[kind][2]) {
    if (form === 'N') fields.links.push(words[k++]);
    else if (form === 'W') k++;
    else {
      const [start, length] = words.slice(k, k += 2);
      const section = form === 'T' ? text : entries;
      if (start + length > section.length) return undefined;
      const piece = section.slice(start, start + length);
      if (form === 'T') fields.texts.push(piece);
      else fields.list = piece;
    }
  }
  return words.slice(k).every((w) => w === 0) ? fields : undefined;
}

function isLawfulRecord(record, sections) {
  const fields = fieldsOf(record, sections);
  if (fields === undefined) return false;
  switch (KINDS[record.kind][0]) {
    case 'string': case 'name': case 'static': return isText(fields.texts[0]);
    case 'number': return (record.words[1] >>> 20 & 0x7ff) !== 0x7ff;
    case 'template': return fields.list.length % 2 === 1;
    case 'quasi': return cooksTo(fields.texts[0], fields.texts[1]);
    case 'opaque': return record.flag === 0 || fields.list.length > 0;
    default: return true;
  }
}

// The children of a node, each with the kinds that may not stand there.
const NO_OPERAND = ['hole', 'spread', 'quasi'];
const NO_ELEMENT = ['quasi'];
const NO_ARGUMENT = ['hole', 'quasi'];
const NO_QUASI = Object.values(KINDS).map(([name]) => name).filter((name) => name !== 'quasi');
function childrenOf(record, sections) {
  const { links, list } = fieldsOf(record, sections);
  const barred = (k) => {
    switch (KINDS[record.kind][0]) {
      case 'array': return NO_ELEMENT;
      case 'call': return NO_ARGUMENT;
      case 'template': return k % 2 === 0 ? NO_QUASI : NO_OPERAND;
      default: return NO_OPERAND;
    }
  };
  return [...links.map((child) => [child, NO_OPERAND]), ...list.map((child, k) => [child, barred(k)])];
}

// The lowest node with a wrong link or a wrong number of parents, or undefined.
function wrongLink(sections) {
  const { nodes } = sections;
  const last = nodes.length - 1;
  if (sections.root !== last || NO_OPERAND.includes(KINDS[nodes[last].kind][0])) return last;
  const children = nodes.map((record) => childrenOf(record, sections));
  const parents = nodes.map(() => 0);
  children.flat().forEach(([child]) => { if (child < nodes.length) parents[child]++; });
  const x = nodes.findIndex((_, i) =>
    children[i].some(([child, barred]) => child >= i || barred.includes(KINDS[nodes[child].kind][0])) || parents[i] !== (i === last ? 0 : 1));
  return x < 0 ? undefined : x;
}

// What loading the file into stores with these rooms gives: { fault, node }, or { sections } where it is loaded.
function judged(file, rooms = LIMITS) {
  if (file.length < HEADER || file.readUInt32LE(0) !== 1) return { fault: 1, node: 0 };
  const [, , nodes, first, entries, second, bytes, third] = Array.from({ length: 8 }, (_, i) => file.readUInt32LE(4 * i));
  const counts = [nodes, entries, bytes];
  if (nodes < 1 || counts.some((count, i) => count > LIMITS[i])) return { fault: 2, node: 0 };
  if (first !== HEADER || second !== first + RECORD * nodes || third !== second + 4 * entries || file.length !== third + bytes) return { fault: 2, node: 0 };
  if (counts.some((count, i) => BigInt(count) > BigInt(rooms[i]))) return { fault: 3, node: 0 };
  const sections = cut(file);
  const unlawful = sections.nodes.findIndex((record) => !isLawfulRecord(record, sections));
  if (unlawful >= 0) return { fault: 4, node: unlawful };
  const wrong = wrongLink(sections);
  return wrong === undefined ? { sections } : { fault: 5, node: wrong };
}

// The tree of a lawful file, each node with its number: nodes are read in order, so each after its children.
function treeOf(sections) {
  const trees = [];
  sections.nodes.forEach((record, number) => {
    const children = childrenOf(record, sections).map(([child]) => trees[child]);
    const texts = fieldsOf(record, sections).texts.map((bytes) => [...bytes]);
    const value = record.kind === 2 ? BigInt(record.words[1]) << 32n | BigInt(record.words[0]) : record.kind === 16 ? record.words[2] : 0;
    trees.push({ ...node(record.kind, children, { flag: record.flag, texts, value }), number });
  });
  return trees[sections.root];
}

module.exports = { KINDS, UNARY, BINARY, LIMITS, make, printed, parts, inOrder, bytesOf, fileOf, judged, textOf, cookedOf, treeOf };
