// Payoffs by chance, which several scripts take. Each function here is given `below`, which gives numbers by chance.
'use strict';
const { times } = require('./shared');
const { make, inOrder } = require('./format');

const { string, number, boolean, name, hole, spread, array, dot, at, call, template, quasi, unary, binary, opaque } = make;
const none = make.null;

// Trees of every kind, orders of their nodes, and what may stand unused between their pieces.
function treesOfAnyKind(below) {
  const oneOf = (list) => list[below(list.length)];
  const anyText = () => times(below(5), () => oneOf([...'abc $`\\\r\nQ1é中', '😀', '\ud83d', '\ude00'])).join('');
  const SOUND = ['', 'a', 'Q', ' $', '\\n', '\\\n', '\\u{1F600}', '\\ud83d', '\\`', '😀', '\r\n', 'é'];
  const anyRaw = () => times(below(4), () => oneOf(SOUND)).join('');
  const LEAVES = [() => string(anyText()), () => number((below(20001) - 10000) / oneOf([1, 8, 10, 1000])), () => boolean(below(2) === 1), none, () => name(oneOf(['hub', 'spot', 'strike', 'é', '']))];
  const PARENTS = [
    (d) => array(times(below(5), () => anyElement(d))),
    (d) => dot(anyTree(d), oneOf(['concat', 'max', 'length', ''])),
    (d) => at(anyTree(d), anyTree(d)),
    (d) => call(anyTree(d), times(below(4), () => anyArgument(d))),
    (d) => template(times(2 * below(3) + 1, (_, k) => (k % 2 === 0 ? quasi(anyRaw()) : anyTree(d)))),
    (d) => unary(oneOf(['plus', 'minus', 'void']), anyTree(d)),
    (d) => binary(oneOf(['**', '-', '/']), anyTree(d), anyTree(d)),
    (d) => opaque(times(below(4), () => anyTree(d)), oneOf([0, 7, 65536, 0xffffffff]), 0),
    (d) => opaque(times(1 + below(3), () => anyTree(d)), below(100), 1),
  ];
  const anyTree = (depth) => (depth === 0 || below(4) === 0 ? oneOf(LEAVES)() : oneOf(PARENTS)(depth - 1));
  const anyArgument = (depth) => (below(5) === 0 ? spread(anyTree(depth)) : anyTree(depth));
  const anyElement = (depth) => (below(5) === 0 ? hole() : anyArgument(depth));
  const ordinaryTree = () => { for (;;) { const tree = anyTree(4); if (inOrder(tree).length <= 24) return tree; } };
  const junk = () => [times(below(3), () => oneOf([0, 1, 0xffffffff, 4096])), times(below(3), () => oneOf([0x80, 0xff, 0xed, 0x61]))];
  return { anyTree, ordinaryTree, anyOrder: (tree) => anyOrder(tree, below), junk };
}

// The nodes numbered in any order that has each behind its children.
function anyOrder(tree, below) {
  const all = inOrder(tree);
  const waiting = new Map(all.map((n) => [n, n.children.length]));
  const parent = new Map(all.flatMap((n) => n.children.map((c) => [c, n])));
  const ready = all.filter((n) => n.children.length === 0);
  const order = [];
  while (ready.length > 0) {
    const [n] = ready.splice(below(ready.length), 1);
    order.push(n);
    const above = parent.get(n);
    if (above !== undefined && waiting.set(above, waiting.get(above) - 1).get(above) === 0) ready.push(above);
  }
  return order;
}

// The row of a table by what it says of a node, and a node with a row of its own.
const TYPE = { UNDETERMINED: 0, UNDEFINED: 1, NULL: 2, NUMBER: 3, BIGINT: 4, STRING: 5, BOOLEAN: 6, OBJECT: 7 };
const row = ({ effects = false, type = 0, global = false }) => (effects ? 128 : 0) + (global ? 64 : 0) + type;
const told = (n, said) => ({ ...n, row: row(said) });
const concat = (base, ...calls) => calls.reduce((x, args) => call(dot(x, 'concat'), args), base);

// Trees that the rules have something to say of, each node with a row, and calls of sessions on them.
function treesToShorten(below) {
  const oneOf = (list) => list[below(list.length)];
  const SAID = [{ effects: true }, {}, { type: TYPE.NUMBER }, { effects: true, type: TYPE.NUMBER }, { type: TYPE.OBJECT }, { type: TYPE.STRING }, { effects: true, type: TYPE.OBJECT }];
  const anyText = () => times(below(4), () => oneOf([...'ab$`\\\r{', 'é', '😀', '\ud83d', '\ude00'])).join('');
  const LEAVES = [() => string(anyText()), () => number(below(4)), () => number(below(4)), () => boolean(below(2) === 1), none, () => name(oneOf(['hub', 'Math', 'Array'])), () => opaque([], below(100), 0)];
  const CALLS = [
    (d) => concat(oneOf([() => string(anyText()), () => array(times(below(3), () => anyElement(d)))])(), ...times(1 + below(3), () => times(below(4), () => anyArgument(d)))),
    (d) => call(at(oneOf([string('a'), array([none()])]), string('concat')), times(below(3), () => anyArgument(d))),
    (d) => call(dot(name('Math'), oneOf(['pow', 'pow', 'max'])), times(oneOf([1, 2, 2, 2, 3]), () => anyTree(d))),
    (d) => call(dot(name('Array'), 'of'), times(below(3), () => anyArgument(d))),
    (d) => at(anyTree(d), number(oneOf([0, 1, 2, -0, 0.5]))),
    (d) => at(array(times(1 + below(3), () => anyElement(0))), number(below(3))),
    (d) => at(string(anyText()), number(below(3))),
  ];
  const PARENTS = [
    (d) => array(times(below(4), () => anyElement(d))),
    (d) => call(anyTree(d), times(below(3), () => anyArgument(d))),
    (d) => template(times(2 * below(2) + 1, (_, k) => (k % 2 === 0 ? quasi(oneOf(['', 'a', '\\`', '\\n'])) : anyTree(d)))),
    (d) => unary(oneOf(['plus', 'minus', 'void']), anyTree(d)),
    (d) => binary(oneOf(['**', '-', '/']), anyTree(d), anyTree(d)),
    (d) => opaque(times(1 + below(2), () => anyTree(d)), below(100), below(2)),
    (d) => dot(anyTree(d), oneOf(['concat', 'length'])),
  ];
  const anyTree = (d) => said(d === 0 || below(5) === 0 ? oneOf(LEAVES)() : below(3) === 0 ? oneOf(PARENTS)(d - 1) : oneOf(CALLS)(d - 1));
  const anyArgument = (d) => (below(8) === 0 ? said(spread(anyTree(d))) : anyTree(d));
  const anyElement = (d) => (below(6) === 0 ? hole() : anyArgument(d));
  const said = (x) => told(x, { ...oneOf(SAID), global: below(3) > 0 });
  const anyPayoff = () => { for (;;) { const tree = anyTree(4); if (inOrder(tree).length <= 40) return tree; } };
  const anyHost = () => oneOf(['silent', 'structural', 'structural', 'structural=4d617468', 'table', 'table', 'table']);
  const anyCall = (host = anyHost) => (below(8) === 0 ? 'leave' : below(2) === 0 ? `enter:${below(3)}` : `${oneOf(['chain', 'method', 'property', 'chain', 'method', 'property', 'sweep'])}:${host()}`);
  return { anyPayoff, anyHost, anyCall };
}

module.exports = { TYPE, row, told, concat, treesOfAnyKind, treesToShorten };
