// Makes the vectors of sessions: node vectors/sessions.js
//
// Writes crates/sessionvectors/stdin, a case on each line, and crates/sessionvectors/stdout, the answer to each. The
// answers are those of session.js. Random payoffs come from a fixed start, so that every run writes the same files.
'use strict';
const fs = require('fs');
const path = require('path');
const { hex, chance, times } = require('./shared');
const { LIMITS, make, printed, parts, inOrder, bytesOf } = require('./format');
const { itemsOf } = require('./protocol');
const { TYPE, row, told, concat, treesToShorten } = require('./trees');

const below = chance(20260303);
const oneOf = (list) => list[below(list.length)];
const { anyPayoff, anyHost, anyCall } = treesToShorten(below);

// ---- Vectors ----

const lines = [];
const counts = {};
function vector(kind, command, answer) {
  lines.push([command, answer]);
  counts[kind] = (counts[kind] || 0) + 1;
}

const ALL = { templates: true, power: true };
const sizesOf = (file) => [file.nodes.length, file.entries.length, file.text.length];

// Loads the payoff, with `more` room than it needs if that is given, and makes the calls; `table` stands for the host by
// the rows of the nodes. Answers the items. Those of `want`, written by hand, have to be the last ones before the end.
function sessionVector(kind, tree, calls, { more, rooms, settings = ALL, want, change = () => {} } = {}) {
  const file = parts(tree);
  change(file);
  const sizes = sizesOf(file);
  const room = rooms || (more === undefined ? LIMITS : sizes.map((size, i) => size + more[i]));
  const rows = hex(inOrder(tree).map((n) => (n.row === undefined ? rowOf(n) : n.row)));
  const words = calls.map((call) => call.replace(/\btable$/, `table=${rows}`));
  const bytes = bytesOf(file);
  const items = itemsOf(bytes, room, settings, words);
  if (want !== undefined && items.slice(-1 - want.length, -1).join('; ') !== want.join('; ')) {
    throw new Error(`${kind}, ${printed(tree)}, ${calls}: ${want.join('; ')} expected, and ${items.join('; ')} found`);
  }
  const command = ['case', hex(bytes), room.join(','), settings.templates ? 1 : 0, settings.power ? 1 : 0, ...words].join(' ');
  vector(kind, command, items.join('; '));
  return items;
}

// ---- Parts of payoffs ----

const { string, number, boolean, name, hole, spread, array, dot, at, call, template, quasi, unary, binary, opaque } = make;
const none = make.null;

// What the table says of a node: what is known of literals and holes, and nothing of the others, unless it is told.
const rowOf = ({ kind }) => row({ 1: { type: STRING }, 2: { type: NUMBER }, 3: { type: BOOLEAN }, 4: { type: NULL }, 6: {} }[kind] || { effects: true });
const { UNDETERMINED, NULL, NUMBER, STRING, BOOLEAN, OBJECT } = TYPE;

let mark = 0;
const some = (said) => told(opaque([], mark++ % 10, 0), said);
const p = () => some({ effects: true });
const n = () => some({ type: NUMBER });
const HOSTS = ['silent', 'structural', 'table'];
const SETTINGS = [ALL, { templates: false, power: true }, { templates: true, power: false }, { templates: false, power: false }];
const math = () => told(name('Math'), { effects: true, global: true });
const arrays = () => told(name('Array'), { effects: true, global: true });
const pow = (...args) => call(dot(math(), 'pow'), args);
const of = (...args) => call(dot(arrays(), 'of'), args);

// ---- What RULES.md shows, worked by hand ----

const KEPT = ['kept'];
const shows = (rule, tree, want, options = {}) => sessionVector('shown in RULES.md', tree, [`${rule}:table`, 'tree'], { want: ['rewritten', want], ...options });
const keeps = (rule, tree, options = {}) => sessionVector('shown in RULES.md', tree, [`${rule}:table`], { want: KEPT, ...options });
const A = () => told(opaque([], 1, 0), { effects: true });
const B = () => told(opaque([], 2, 0), { effects: true });
const N = () => told(opaque([], 3, 0), { type: NUMBER });
const [TA, TB, TN] = ['(opaque 1 0)', '(opaque 2 0)', '(opaque 3 0)'];
const plain = (x) => told(x, {});
shows('chain', concat(string(''), [A()], [B()]), `(template : ${TA} : ${TB} :)`);
keeps('chain', concat(string(''), [A()]));
shows('chain', concat(array([]), [N()], [N()]), `(call (. [] 636f6e636174) ${TN} ${TN})`);
keeps('chain', concat(array([]), [A()], [B()]));
shows('method', concat(string(''), [N(), N(), N(), N()]), `(template : ${TN} : ${TN} : ${TN} : ${TN} :)`);
keeps('method', concat(string(''), [N(), N(), N(), N(), N()]));
keeps('method', concat(string(''), [A(), B()]));
keeps('method', concat(string(''), [name('a'), call(dot(name('a'), 'push'), [number(1)])]));
shows('method', concat(array([]), [number(1), array([number(2), hole()]), A()]), `(call (. [n:3ff0000000000000 n:4000000000000000 hole] 636f6e636174) ${TA})`);
keeps('method', concat(array([]), [A()]));
shows('method', pow(A(), N()), `(** ${TA} ${TN})`);
shows('method', pow(N(), A()), `(** ${TN} (plus ${TA}))`);
shows('property', at(plain(string('abc')), number(2)), 's:63');
shows('property', at(plain(string('abc')), number(3)), '(void n:0000000000000000)');
shows('property', at(plain(array([number(1), number(2)])), number(0)), 'n:3ff0000000000000');
keeps('property', at(plain(array([number(1), number(2)])), number(2)));
keeps('property', at(told(array([A(), number(1)]), { effects: true }), number(1)));

// The space of each, from its table: it fits exactly, and with one less it does not.
const SPACES = [
  ['property', () => at(plain(string('abc')), number(2)), [1, 0, 1]],
  ['property', () => at(plain(string('abc')), number(3)), [2, 0, 0]],
  ['property', () => at(plain(array([number(1), number(2)])), number(0)), [0, 0, 0]],
  ['method', () => pow(N(), A()), [2, 0, 0]],
  ['method', () => of(N(), N()), [1, 0, 0]],
  ['method', () => concat(array([]), [number(1), array([number(2), hole()]), A()]), [3, 3, 0]],
  ['chain', () => concat(array([]), [N()], [N()]), [1, 2, 0]],
  ['chain', () => concat(string(''), [A()], [B()]), [4, 5, 0]],
  ['method', () => concat(string('$'), [A()]), [3, 3, 3]],
  ['method', () => pow(A(), N()), [1, 0, 0]],
  ['method', () => concat(array([number(1)]), [array([hole(), hole()]), none()]), [1, 4, 0]],
  ['method', () => concat(array([number(1)]), []), [0, 0, 0]],
  ['method', () => concat(string('é`'), [string('\ud83d'), A(), string('\ude00\r')]), [3, 3, 28]],
  ['method', () => concat(string('\ud83d'), [string('\ude00')]), [1, 0, 4]],
  ['chain', () => concat(string('ab'), [string('c')], [string('d')]), [1, 0, 4]],
];
const refusal = (fault, node) => `refused ${fault} layer 2 node ${node}`;
for (const [rule, tree, need] of SPACES) {
  const root = inOrder(tree()).length - 1;
  const kind = 'space, exactly full and one short';
  sessionVector(kind, tree(), [`${rule}:table`, 'tree'], { more: need });
  if (!lines[lines.length - 1][1].includes('; rewritten; ')) throw new Error(`${rule} of ${printed(tree())} does not fit`);
  need.forEach((needed, i) => {
    if (needed === 0) return;
    sessionVector(kind, tree(), [`${rule}:table`], { more: need.map((x, k) => (k === i ? x - 1 : x)), want: [refusal(9 + i, root)] });
    sessionVector(kind, tree(), [`${rule}:table`, 'tree', 'sweep:table', 'tree'], { more: need.map((x, k) => (k === i ? x - 1 : x + 9)) });
    // The lowest fault comes first.
    sessionVector(kind, tree(), [`${rule}:table`], { more: need.map((x, k) => (k >= i && x > 0 ? x - 1 : x)), want: [refusal(9 + i, root)] });
    sessionVector(kind, tree(), [`${rule}:table`], { more: need.map((x, k) => (k === i ? 0 : x)), want: [refusal(9 + i, root)] });
  });
}

// Against the limits of a payoff, with as much room as there can be and more.
const fill = (file, sizes) => {
  while (file.entries.length < sizes[1]) file.entries.push(0xffffffff);
  while (file.text.length < sizes[2]) file.text.push(0x61);
};
const many = (count, x) => array([...times(count, none), x]);
for (const [rule, x, need] of [['method', () => concat(string('$'), [A()]), [3, 3, 3]]]) {
  const most = 4096 - inOrder(x()).length - 1 - need[0];
  const last = (k) => [`enter:${most + k}`, `${rule}:table`];
  for (const rooms of [LIMITS, ['18446744073709551615', '18446744073709551615', '18446744073709551615']]) {
    sessionVector('space, within the limits', many(most, x()), last(0), { rooms, want: ['ok', 'rewritten'] });
    sessionVector('space, within the limits', many(most + 1, x()), last(1), { rooms, want: ['ok', refusal(9, most + 1 + inOrder(x()).length - 1)] });
  }
  const root = inOrder(x()).length - 1;
  for (const k of [0, 1]) {
    sessionVector('space, within the limits', x(), [`${rule}:table`], { change: (file) => fill(file, [0, 16384 - need[1] + k, 0]), want: [k === 0 ? 'rewritten' : refusal(10, root)] });
    sessionVector('space, within the limits', x(), [`${rule}:table`], { change: (file) => fill(file, [0, 0, 65536 - need[2] + k]), want: [k === 0 ? 'rewritten' : refusal(11, root)] });
  }
}

// ---- Each rule by each host, over pairs of arguments ----

const ARGUMENTS = [
  ['p', p], ['n', n],
  ['effects, Number', () => some({ effects: true, type: NUMBER })], ['no effects, Undetermined', () => some({ type: UNDETERMINED })],
  ['no effects, Object', () => some({ type: OBJECT })],
  ['string', () => string('x$')], ['number', () => number(7)], ['name', () => name('hub')],
  ['array', () => told(array([none()]), { type: OBJECT })], ['array with effects', () => told(array([p()]), { effects: true, type: OBJECT })],
  ['spread', () => told(spread(p()), { effects: true })], ['spread without effects', () => told(spread(n()), {})],
  ['template', () => told(template([quasi('Q')]), { type: STRING })],
];
const BASES = [() => string('a`'), () => told(array([number(1)]), { type: OBJECT })];
for (const base of BASES) {
  for (const [, x] of ARGUMENTS) {
    for (const [, y] of ARGUMENTS) {
      sessionVector('chain, pairs in two calls', concat(base(), [x()], [y()]), ['chain:table', 'tree']);
      sessionVector('method, pairs in one call', concat(base(), [x(), y()]), ['method:table', 'tree']);
    }
    for (const host of HOSTS) {
      sessionVector('one argument, by each host', concat(base(), [x()], [string('z')]), [`chain:${host}`, `method:${host}`, 'tree']);
      sessionVector('one argument, by each host', concat(base(), [x()]), [`chain:${host}`, `method:${host}`, `sweep:${host}`, 'tree']);
    }
    sessionVector('one argument, no templates', concat(base(), [x()], [n()]), ['chain:table', 'method:table', 'tree'], { settings: SETTINGS[1] });
    sessionVector('one argument, no templates', concat(base(), [x()]), ['method:table', 'tree'], { settings: SETTINGS[1] });
  }
}

// Each type, as what stands first of two, with one that has effects behind it.
for (let type = 0; type < 64; type++) {
  if (type > 9 && type % 9 !== 0) continue;
  for (const effects of [false, true]) {
    const x = () => some({ effects, type });
    sessionVector('types', concat(string(''), [x(), p()]), ['method:table', 'tree']);
    sessionVector('types', concat(array([]), [x()], [p()]), ['chain:table', 'tree']);
    sessionVector('types', pow(p(), x()), ['method:table', 'tree']);
  }
}

// ---- How long a template may be ----

for (const calls of [1, 2, 3]) {
  for (let e = 1; e <= 5 + 5 * calls; e++) {
    for (const strings of [0, 1, 3]) {
      const args = [...times(e, n), ...times(strings, () => string('s'))];
      const split = times(calls, (_, k) => (k === calls - 1 ? args.slice(k) : args.slice(k, k + 1)));
      sessionVector('how long a template may be', concat(string('B'), ...split), [calls === 1 ? 'method:table' : 'chain:table', 'tree']);
      if (calls > 1) {
        const apart = [[p(), ...args], ...times(calls - 1, () => [p()])];
        sessionVector('how long a template may be', concat(string('B'), ...apart), ['chain:table', 'tree']);
      }
    }
  }
}

// ---- Chains ----

const chains = (tree, calls = ['chain:table', 'tree'], options = {}) => sessionVector('chains', tree, calls, options);
for (const base of [string('a'), array([]), none(), name('x'), number(1), template([quasi('a')]), call(name('f'), []), dot(string('a'), 'p')]) {
  for (const links of [1, 2, 3]) chains(concat(base, ...times(links, () => [n()])));
}
chains(concat(call(dot(string('a'), 'join'), [n()]), [n()], [n()]));
chains(call(at(concat(string('a'), [n()]), string('concat')), [n()]), ['chain:table', 'method:table', 'tree']);
chains(concat(call(at(string('a'), string('concat')), [n()]), [n()]));
chains(concat(call(at(array([]), string('concat')), [n()]), [n()]), ['chain:table', 'enter:0', 'enter:0', 'method:table', 'tree']);
chains(concat(string('a'), [], []));
chains(concat(array([]), [], []));
chains(concat(string('a'), [], [n()], []));
chains(concat(array([n(), hole(), told(spread(p()), { effects: true })]), [n()], [n(), n()], []));
chains(concat(string(''), [string('a'), string('b')], [string('c')]));
chains(concat(string('a'), [n()], [n()]), ['enter:0', 'enter:0', 'chain:table', 'leave', 'leave', 'chain:table', 'tree']);
chains(concat(string('a'), [n()], [n()], [n()]), ['enter:0', 'enter:0', 'chain:table', 'method:table', 'tree', 'leave', 'leave', 'sweep:table', 'tree']);
chains(dot(concat(string('a'), [n()], [n()]), 'concat'), ['enter:0', 'chain:table', 'leave', 'sweep:table', 'tree']);
chains(dot(concat(string('a'), [n()], [n()]), 'length'), ['enter:0', 'chain:table', 'tree']);
chains(at(concat(string('a'), [n()], [n()]), string('concat')), ['enter:0', 'chain:table', 'tree']);
chains(call(concat(string('a'), [n()], [n()]), []), ['enter:0', 'chain:table', 'tree']);
chains(opaque([concat(array([]), [n()], [n()])], 5, 1), ['enter:0', 'chain:table', 'tree']);
chains(unary('void', concat(array([]), [n()], [n()])), ['enter:0', 'chain:table', 'enter:1', 'tree']);

// ---- Methods ----

const methods = (tree, calls = ['method:table', 'tree'], options = {}) => sessionVector('methods', tree, calls, options);
const TAKEN = [() => string('s'), () => number(-0), () => boolean(true), none, () => array([]), () => array([hole(), n()]), () => array([spread(p()), hole()])];
for (const x of TAKEN) {
  for (const member of [(base) => dot(base, 'concat'), (base) => at(base, string('concat'))]) {
    methods(call(member(array([none()])), [x()]));
    methods(call(member(array([hole()])), [x(), x()]));
    methods(call(member(array([])), [x(), p(), x()]));
    methods(call(member(array([n()])), [p(), x()]));
    methods(call(member(array([n()])), [x(), spread(p()), x()]));
  }
}
methods(call(dot(array([n()]), 'concat'), []));
methods(call(at(array([n()]), string('concat')), []), ['method:silent', 'tree']);
methods(call(at(string('a'), string('concat')), [n()]));
methods(call(dot(string('a'), 'concat'), []));
for (const other of ['Concat', 'concat ', 'conca', '', 'join', 'pow', 'of', 'cоncat']) {
  methods(call(dot(string('a'), other), [n()]));
  methods(call(dot(array([]), other), [number(1)]));
}
methods(call(at(array([]), name('concat')), [number(1)]));
methods(call(at(array([]), template([quasi('concat')])), [number(1)]));
methods(call(dot(array([]), 'concat'), [number(1)]), ['enter:0', 'method:table', 'leave', 'method:table', 'tree']);
methods(concat(array([]), [number(1)], [number(2)]), ['method:silent', 'enter:0', 'enter:0', 'method:silent', 'leave', 'leave', 'sweep:silent', 'tree']);
methods(at(concat(array([]), [number(1)]), string('concat')), ['enter:0', 'method:silent', 'tree']);
methods(call(concat(array([]), [number(1)]), []), ['enter:0', 'method:silent', 'tree']);
methods(call(concat(string('a'), [n()]), []), ['enter:0', 'method:table', 'tree']);
for (const settings of SETTINGS) {
  for (const host of ['silent', 'structural', 'structural=4d617468', 'structural=4172726179', 'structural=4172726179,4d617468', 'structural=', 'structural=ff,78', 'table']) {
    methods(array([pow(p(), n()), pow(name('a'), number(2)), of(n(), spread(p())), of()]), times(4, (_, k) => [`enter:${k}`, `method:${host}`, 'leave']).flat().concat('tree'), { settings });
    methods(array([pow(p(), p()), concat(string('a'), [string('b')])]), [`sweep:${host}`, 'tree'], { settings });
  }
}
for (const args of [[], [n()], [n(), n(), n()], [spread(p()), n()], [n(), spread(p())], [spread(n())]]) methods(pow(...args));
methods(call(at(math(), string('pow')), [n(), n()]));
methods(call(at(arrays(), string('of')), [n(), n()]));
methods(call(dot(told(name('Math'), { effects: true }), 'pow'), [n(), n()]), ['method:table', 'method:structural', 'tree']);
methods(call(dot(told(name('Maths'), { global: true }), 'pow'), [n(), n()]));
methods(call(dot(told(name('Array'), { global: true }), 'pow'), [n(), n()]));
methods(call(dot(told(name('Math'), { global: true }), 'of'), [n(), n()]));
methods(call(dot(dot(math(), 'x'), 'pow'), [n(), n()]));
methods(call(dot(told(opaque([], 1, 0), { global: true }), 'pow'), [n(), n()]));
methods(concat(of(n()), [n()]), ['enter:0', 'enter:0', 'method:table', 'leave', 'leave', 'chain:table', 'method:table', 'tree']);
methods(dot(pow(n(), n()), 'concat'), ['enter:0', 'method:table', 'tree']);
methods(call(pow(n(), n()), []), ['enter:0', 'method:table', 'tree']);

// ---- Properties ----

const properties = (tree, calls = ['property:structural', 'tree'], options = {}) => sessionVector('properties', tree, calls, options);
const KEYS = [0, -0, 1, 2, 3, 4, 0.5, -1, 1e-300, 4294967295, 4294967296, 4294967294, 1e300, 2 ** 53, -4294967295];
for (const key of KEYS) {
  properties(at(string('ab😀'), number(key)));
  properties(at(array([none(), hole(), number(7)]), number(key)));
  properties(at(array([]), number(key)));
  properties(at(string(''), number(key)));
}
const TEXTS = ['$', '`', '\\', '\r', 'é', '中', '\ud83d', '\ude00', '😀', '\ude00\ud83d', 'a\ud83d', '\u0000'];
for (const text of TEXTS) for (const k of [0, 1]) properties(at(string(text), number(k)));
const ELEMENTS = [p, n, hole, () => spread(p()), () => array([hole()]), () => string('s')];
for (const x of ELEMENTS) {
  for (const y of ELEMENTS) {
    for (const k of [0, 1, 2]) {
      for (const effects of [false, true]) properties(at(told(array([x(), y()]), { effects }), number(k)), ['property:table', 'tree']);
    }
    properties(at(array([x(), y()]), number(1)), ['property:silent', 'property:structural', 'tree']);
  }
}
for (const key of [string('0'), boolean(false), none(), name('k'), unary('minus', number(0)), at(string('a'), number(0))]) properties(at(string('a'), key));
for (const base of [name('x'), template([quasi('abc')]), number(12), none(), call(name('f'), []), dot(string('a'), 'b')]) {
  properties(at(told(base, {}), number(0)), ['property:table', 'property:structural', 'tree']);
}
const PICKED = () => at(string('abc'), number(1));
for (const around of [(x) => call(x, [n()]), (x) => call(name('f'), [x]), (x) => opaque([x], 1, 1), (x) => opaque([x], 1, 0), (x) => dot(x, 'concat'), (x) => dot(x, 'q'), (x) => at(x, none()), (x) => unary('plus', x)]) {
  properties(around(PICKED()), ['enter:0', 'property:structural', 'leave', 'tree']);
  properties(around(PICKED()), ['enter:1', 'property:structural', 'tree', 'sweep:structural', 'tree']);
}
properties(opaque([name('a'), PICKED()], 1, 1), ['enter:1', 'property:structural', 'tree']);
properties(dot(string('a'), '0'), ['property:structural', 'tree']);

// ---- What is no expression is kept ----

for (const rule of ['chain', 'method', 'property']) {
  for (const host of HOSTS) {
    sessionVector('no expression', array([hole(), spread(PICKED())]), ['enter:0', `${rule}:${host}`, 'leave', 'enter:1', `${rule}:${host}`, 'enter:0', `${rule}:${host}`, 'tree']);
    sessionVector('no expression', template([quasi('a'), PICKED(), quasi('')]), ['enter:0', `${rule}:${host}`, 'leave', 'enter:1', `${rule}:${host}`, 'leave', 'enter:2', `${rule}:${host}`, 'tree']);
  }
}

// ---- Texts that meet ----

for (const first of TEXTS) {
  for (const second of ['\ude00', '\ud83d', '$', '{', 'a']) {
    sessionVector('texts that meet', concat(string(first), [string(second)]), ['method:table', 'tree']);
    sessionVector('texts that meet', concat(string(first), [string(second)], [n(), string(second), string(first)]), ['chain:table', 'tree']);
  }
}
const ESCAPES = ['\\', '`', '$', '${', '\r', '\n', '\r\n', '\ud800', '\udfff', '\u2028', '😀', '\\u{0}', '\u0000', 'é'];
for (const text of ESCAPES) sessionVector('escapes in quasis', concat(string(text), [string('x'), n(), string(text), string(text), n(), string(text)]), ['method:table', 'tree']);

// ---- The cursor ----

const cursor = (tree, calls, want) => sessionVector('the cursor', tree, calls, { want });
cursor(none(), ['leave'], ['refused 8 layer 3 node 0']);
cursor(none(), ['enter:0'], ['refused 6 layer 3 node 0']);
cursor(array([none(), none()]), ['enter:1', 'leave', 'enter:2'], ['ok', 'ok', 'refused 6 layer 3 node 2']);
cursor(array([none(), none()]), ['enter:0', 'enter:0', 'leave', 'leave'], ['ok', 'refused 6 layer 3 node 0', 'ok', 'refused 8 layer 3 node 2']);
for (const k of ['4294967295', '4294967296', '18446744073709551615', '00', '01']) cursor(array([none(), name('a')]), [`enter:${k}`, 'leave']);
for (const x of [call(name('f'), [n(), n()]), at(n(), n()), opaque([n(), n()], 1, 1), template([quasi('a'), n(), quasi('')]), binary('-', n(), n()), dot(n(), 'p'), unary('void', n()), array([n(), n(), n()])]) {
  for (let k = 0; k < 4; k++) cursor(x, [`enter:${k}`, 'leave', 'tree']);
}
cursor(concat(array([]), [n()], [n()]), ['chain:table', 'leave', 'enter:2', 'leave', 'enter:0', 'enter:0', 'enter:0', 'leave', 'leave', 'leave', 'leave']);
cursor(array([PICKED(), PICKED()]), ['enter:0', 'property:structural', 'enter:0', 'property:structural', 'leave', 'enter:1', 'tree', 'property:structural', 'leave', 'leave', 'tree']);

// Payoffs that are deep: a place 256 steps down is the last one.
const deep = (steps, x) => times(steps).reduce((y) => unary('minus', y), x);
for (const steps of [254, 255, 256, 257, 258]) {
  const down = times(steps, () => 'enter:0');
  const kind = 'deep payoffs';
  sessionVector(kind, deep(steps, PICKED()), [...down, 'enter:0', 'leave', 'leave']);
  sessionVector(kind, deep(steps, PICKED()), [...down, 'property:structural', 'enter:0', 'leave', 'tree']);
  sessionVector(kind, deep(steps, PICKED()), ['sweep:structural', 'tree', 'leave']);
  sessionVector(kind, deep(steps, none()), ['sweep:silent', 'sweep:structural']);
  sessionVector(kind, deep(steps, array([PICKED(), array([PICKED()])])), ['sweep:structural', 'tree', ...down, 'enter:1', 'enter:0', 'leave', 'sweep:silent', 'tree']);
  sessionVector(kind, array([deep(steps - 1, PICKED()), PICKED(), deep(steps, PICKED())]), ['sweep:structural', 'tree']);
}

// ---- Sweeps ----

const sweeps = (tree, calls = ['sweep:structural', 'tree'], options = {}) => sessionVector('sweeps', tree, calls, options);
const NESTED = [
  () => at(concat(array([number(1)]), [array([PICKED()])]), number(1)),
  () => concat(concat(array([]), [number(1)]), [array([number(2)])]),
  () => concat(string('a'), [concat(string('b'), [string('c')])], [string('d')]),
  () => pow(at(array([number(2), number(3)]), number(0)), at(array([number(2), number(3)]), number(1))),
  () => at(of(number(1), none()), number(0)),
  () => concat(of(number(1), string('x')), [number(2)]),
  () => at(call(dot(array([string('ab'), string('cd')]), 'concat'), []), number(1)),
  () => at(at(array([string('ab'), string('cd')]), number(1)), number(0)),
  () => concat(string('Q'), [at(string('123'), number(1))], [at(string('45'), number(0)), pow(n(), number(2))]),
  () => template([quasi('a'), concat(string('$'), [number(1)]), quasi('b')]),
  () => call(at(array([name('f')]), number(0)), [PICKED()]),
  () => opaque([PICKED(), PICKED()], 3, 1),
  () => array([hole(), spread(concat(array([hole()]), [array([hole()])])), concat(array([spread(name('x'))]), [none()])]),
];
for (const tree of NESTED) {
  for (const host of HOSTS) for (const settings of SETTINGS) sweeps(tree(), [`sweep:${host}`, 'tree', `sweep:${host}`], { settings });
  sweeps(tree(), ['enter:0', 'sweep:structural', 'leave', 'sweep:table', 'sweep:silent', 'tree']);
}

// A sweep that is refused: what it has made stays, and the cursor is at the root.
const THREE = () => array([at(string('ab'), number(0)), concat(array([number(1)]), [number(2)]), concat(string('$'), [told(number(1), { type: NUMBER })])]);
for (let nodes = 0; nodes <= 6; nodes++) {
  sessionVector('refused sweeps', THREE(), ['enter:1', 'sweep:table', 'tree', 'leave', 'sweep:table', 'enter:2', 'tree'], { more: [nodes, 9, 9] });
  sessionVector('refused sweeps', THREE(), ['enter:1', 'sweep:structural', 'tree', 'leave', 'sweep:silent', 'enter:2', 'tree'], { more: [9, nodes, 9] });
  sessionVector('refused sweeps', THREE(), ['enter:1', 'sweep:structural', 'tree', 'leave', 'sweep:silent', 'enter:2', 'tree'], { more: [9, 9, nodes] });
}
// One that is refused in its second round.
const LATER = () => at(concat(array([string('ab')]), [string('c')]), number(0));
for (const text of [0, 1]) {
  for (let nodes = 0; nodes <= 3; nodes++) sessionVector('refused sweeps', at(LATER(), number(0)), ['sweep:structural', 'tree', 'leave', 'sweep:structural'], { more: [nodes, 2, text] });
}

// ---- Tables that are short, long, or spell no row ----

for (const word of ['table=', 'table=00', 'table=0303', 'table=030303030303030303030303', 'table=08080808080808', 'table=3f3f3f3f3f3f3f', 'table=43838383838383', 'table=ffffffffffffff', 'table=c3c3c3c3c3c3c3']) {
  sessionVector('tables', concat(string('a'), [opaque([], 1, 0)], [opaque([], 2, 0)]), [`chain:${word}`, 'tree']);
  sessionVector('tables', concat(array([]), [opaque([], 1, 0)], [opaque([], 2, 0)]), [`chain:${word}`, 'tree']);
  sessionVector('tables', call(dot(name('Math'), 'pow'), [opaque([], 1, 0), opaque([], 2, 0)]), [`method:${word}`, 'tree']);
  sessionVector('tables', at(concat(array([]), [number(1)]), number(0)), ['enter:0', `method:${word}`, 'leave', `property:${word}`, 'tree']);
}

// ---- Payoffs by chance ----

const anySettings = () => oneOf([ALL, ALL, ALL, ...SETTINGS]);
for (let i = 0; i < 400; i++) {
  const tree = anyPayoff();
  sessionVector('by chance', tree, [...times(below(4), () => anyCall()), `sweep:${anyHost()}`, 'tree'], { settings: anySettings() });
  sessionVector('by chance', tree, [...times(12, () => anyCall()), 'tree', `sweep:${anyHost()}`, 'tree'], { settings: anySettings(), more: [below(12), below(12), below(12)] });
}

// ---- Lines that are no case ----

const good = hex(bytesOf(parts(PICKED())));
const start = `case ${good} 9,9,9 1 1`;
const WORDS = ['enter', 'enter:', 'enter:x', 'enter:-1', 'enter:+1', 'enter: 1', 'enter:1:1', 'enter:18446744073709551616', 'enter=1', 'Enter:1', 'leave:', 'leave:0', 'leaves', 'chain', 'chain:',
  'chain:Silent', 'chain:silent:', 'chain:silent=', 'chain:silents', 'chain:structural:', 'chain:structural=0', 'chain:structural=zz', 'chain:structural=AA', 'chain:structural=61,6', 'chain:structural=61;62',
  'chain:table', 'chain:table=0', 'chain:table=gg', 'chain:table=FF', 'chain:table=00,00', 'chain:table=00=00', 'chain:structural=61=62', 'chain=silent', 'chains:silent', 'method', 'method:', 'property', 'property:', 'sweep',
  'sweep:', 'sweep:table', 'sweep:silent,silent', 'sweep:structural,61', 'tree:', 'tree:silent', 'end', 'loaded', 'rewrite:silent', ':', ':silent', '', 'chain:structural= 61', 'sweep:é', 'sweep:silent\r'];
for (const word of WORDS) {
  vector('no case', `${start} ${word}`, 'malformed');
  vector('no case', `${start} sweep:silent ${word} tree`, 'malformed');
}
for (const word of ['chain:structural=,', 'chain:structural=', 'chain:structural=61,', 'sweep:structural=c3a9,61,,62', 'chain:table=']) sessionVector('almost no case', PICKED(), [word, 'tree']);
sessionVector('a file that is refused', none(), ['sweep:silent', 'leave', 'tree'], { rooms: [0, 0, 0] });
sessionVector('a file that is refused', none(), ['leave'], { change: (file) => { file.root = 1; } });

// ---- The files ----

if (lines.length < 600) throw new Error('too few');
const folder = path.join(__dirname, '..', 'crates', 'sessionvectors');
fs.mkdirSync(folder, { recursive: true });
fs.writeFileSync(path.join(folder, 'stdin'), lines.map(([command]) => command + '\n').join(''));
fs.writeFileSync(path.join(folder, 'stdout'), lines.map(([, answer]) => answer + '\n').join(''));
for (const key of Object.keys(counts).sort()) console.log(`${counts[key]} ${key}`);
const answers = lines.map(([, answer]) => answer.split('; ')).flat();
for (const word of ['rewritten', 'kept', 'swept', 'malformed', ...[3, 5, 6, 7, 8, 9, 10, 11].map((fault) => `refused ${fault} `)]) {
  console.log(`${answers.filter((item) => item.startsWith(word)).length} times ${word}`);
}
console.log(`${lines.length} in all`);
