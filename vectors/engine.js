// Runs payoffs before and after they are shortened, in a JavaScript engine: node vectors/engine.js [PROGRAM]
//
// Makes payoffs from a fixed start, as trees; has PROGRAM, which is crates/payoff/out/payoff if none is named (./run help
// builds it), shorten them all by one `payoff script`; and runs the source of each tree and the source of what is left of
// it, in this engine, each in a new world of its own (worlds.js). The two have to do the same: the same log of effects, the
// same value or a throw, the same state behind it. What is thrown may be another error, since a run's throw carries nothing
// (docs/MEANING.md, "Runs"); where it is, that is counted. Each payoff is shortened by hosts that are true of it: by its
// shape, or by a table of what the script knows of its nodes and opaque expressions, some of which it leaves unsaid.
//
// Fails where a payoff does something else, and shows each that does, cut down to the smallest payoff that still does; and
// where PROGRAM answers otherwise than session.js. Else it writes crates/enginevectors/stdin and stdout: cases that were
// rewritten, with the answers that this engine, the program and session.js agree on.
'use strict';
const fs = require('fs');
const path = require('path');
const { spawnSync } = require('child_process');
const { stored, hex, chance, times } = require('./shared');
const { KINDS, UNARY, LIMITS, make, printed, parts, inOrder, bytesOf, judged, textOf, treeOf } = require('./format');
const { Session } = require('./session');
const { treeOfForm, sourceOf, numberOf } = require('./source');
const { NAMES, VALUES, opaqueSource, runIn } = require('./worlds');

const PROGRAM = process.argv[2] || path.join(__dirname, '..', 'crates', 'payoff', 'out', 'payoff');
const MOST_VECTORS = 3000;
const MOST_NODES = 60;

const below = chance(20270127);
const oneOf = (list) => list[below(list.length)];
const { string, number, boolean, name, hole, spread, array, dot, at, call, template, quasi, unary, binary, opaque } = make;
const none = make.null;
const kindOf = (n) => KINDS[n.kind][0];
const is = (n, ...kinds) => kinds.includes(kindOf(n));
const PLACED = ['hole', 'spread', 'quasi'];

// ---- What is true of a node ----

const TYPES = ['Undetermined', 'Undefined', 'Null', 'Number', 'BigInt', 'String', 'Boolean', 'Object'];
const NUMERIC = ['Undefined', 'Null', 'Number', 'String', 'Boolean']; // what is made a number without a throw
const TEXTUAL = [...NUMERIC, 'BigInt']; // and a text
const ofType = (types) => ({ type }) => types.includes(type);

// Whether the node runs without effects, of which type its values are, and whether it is a global name, as far as the script
// knows; `known` has the same of its children.
function truthOver(n, known, { marks, bound }) {
  const calm = known.every((child) => child.calm);
  const [first] = known;
  switch (kindOf(n)) {
    case 'string': return { calm: true, type: 'String' };
    case 'number': return { calm: true, type: 'Number' };
    case 'boolean': return { calm: true, type: 'Boolean' };
    case 'null': return { calm: true, type: 'Null' };
    case 'hole': case 'quasi': return { calm: true };
    case 'name': {
      const word = textOf(n.texts[0]);
      if (['Math', 'Array'].includes(word)) return { calm: true, type: 'Object', global: !bound.includes(word) };
      return { ...NAMES[word], global: word === 'undefined' };
    }
    case 'spread': return { calm: calm && (is(n.children[0], 'array') || first.type === 'String') };
    case 'array': return { calm, type: 'Object' };
    case 'static': return { calm: false };
    case 'computed': {
      const [base, key] = n.children;
      return { calm: calm && is(base, 'string', 'array') && is(key, 'number') && numberOf(key.value) >= 0 && Number.isInteger(numberOf(key.value)) };
    }
    case 'call': return truthOfCall(n, known.slice(1), bound);
    case 'template': return { calm: calm && known.filter((_, k) => k % 2 === 1).every(ofType(TEXTUAL)), type: 'String' };
    case 'unary': {
      if (UNARY[n.flag] === 'void') return { calm, type: 'Undefined' };
      const numeric = ofType(NUMERIC)(first);
      return { calm: calm && numeric, type: UNARY[n.flag] === 'plus' || numeric ? 'Number' : 'Undetermined' };
    }
    case 'binary': {
      const numeric = known.every(ofType(NUMERIC));
      return { calm: calm && numeric, type: known.some(ofType(NUMERIC)) ? 'Number' : 'Undetermined' };
    }
    case 'opaque': {
      const { form, run, effect, value } = marks[n.value];
      switch (form) {
        case 'world': return { calm: effect === 'none' && (run === 'none' || calm), type: VALUES[value] };
        case 'comma': return { calm, type: known[known.length - 1].type };
        case 'choice': return { calm };
        case 'delete': return { calm: false, type: 'Boolean' };
        case 'typeof': return { calm: false, type: 'String' };
        default: return { calm: false };
      }
    }
  }
}

function truthOfCall({ children: [callee, ...args] }, known, bound) {
  const free = known.every(({ calm }) => calm);
  const key = is(callee, 'static') ? textOf(callee.texts[0]) : is(callee, 'computed') && is(callee.children[1], 'string') ? textOf(callee.children[1].texts[0]) : '';
  const [base] = callee.children;
  const plain = !args.some((x) => is(x, 'spread'));
  if (key === 'concat' && is(base, 'string')) return { calm: free && plain && known.every(ofType(TEXTUAL)), type: 'String' };
  if (key === 'concat' && is(base, 'array') && base.children.every((x) => is(x, 'string', 'number', 'boolean', 'null', 'hole'))) {
    return { calm: free && plain && known.every((x, k) => is(args[k], 'array') || ofType(TEXTUAL)(x)), type: 'Object' };
  }
  const own = (word) => base !== undefined && is(base, 'name') && textOf(base.texts[0]) === word && !bound.includes(word);
  if (key === 'pow' && own('Math')) return { calm: free && plain && args.length === 2 && known.every(ofType(NUMERIC)), type: 'Number' };
  if (key === 'of' && own('Array')) return { calm: free, type: 'Object' };
  return { calm: false };
}

// The table's rows: what is true of the nodes, less what each is to leave unsaid.
function rowsOf(tree, item) {
  const truths = new Map();
  const rows = inOrder(tree).map((n, i) => {
    const any = is(n, ...PLACED) ? TYPES[i % TYPES.length] : 'Undetermined'; // what has no value is of every type
    const { calm, type = any, global = false } = truthOver(n, n.children.map((child) => truths.get(child)), item);
    truths.set(n, { calm, type, global });
    if (n.unsaid === 'all') return 128;
    return (calm && n.unsaid !== 'effects' ? 0 : 128) + (global ? 64 : 0) + (n.unsaid === 'type' ? 0 : TYPES.indexOf(type));
  });
  return hex(rows);
}

// ---- Parts of payoffs ----

let marks = []; // of the payoff that is being made
const marked = (form, children, flag, does = {}) => opaque(children, marks.push({ form, ...does }) - 1, flag);
const world = (value, effect = 'none', run = 'none', children = []) => marked('world', children, 0, { value, effect, run });
const concat = (base, ...calls) => calls.reduce((x, args) => call(dot(x, 'concat'), args), base);
const pow = (...args) => call(dot(name('Math'), 'pow'), args);
const of = (...args) => call(dot(name('Array'), 'of'), args);

// Arguments of which each pair is tried.
const ARGUMENTS = [
  () => string('$`\\\r'), () => string('x\ud83d'), () => string('\ude00y'), () => number(7), () => number(-0), () => number(-1.5e-7), () => boolean(true), none,
  ...['hub', 'half', 'spot', 'count', 'big', 'sym', 'fees', 'legs', 'odd', 'twisted', 'thrower', 'sp', 'nsp', 'spt', 'proxied', 'desk', 'moving', 'bad', 'nowhere', 'undefined'].map((word) => () => name(word)),
  () => world('one', 'count'), () => world('one', 'push'), () => world('odd', 'count'), () => world('sp', 'log'), () => world('text', 'throw'),
  () => world('count'), () => world('countText'), () => world('odd'), () => world('fresh'), () => world('fees'), () => world('high'), () => world('low'),
  () => array([none(), hole(), number(2)]), () => array([name('count'), world('one', 'count')]), () => array([]), () => array([hole()]),
  () => spread(name('legs')), () => spread(string('a\ud83d\ude00')), () => spread(array([hole(), number(1)])), () => spread(name('spot')),
  () => spread(array([name('fees'), name('nsp')])), () => array([name('fees'), name('sp')]), () => world('big'), () => unary('minus', name('big')),
  () => template([quasi('Q'), name('count'), quasi('\\u{1f600}')]), () => call(dot(name('o'), 'f'), [name('odd')]), () => dot(name('o'), 'g'), () => call(name('push'), []),
  () => unary('plus', name('odd')), () => unary('minus', name('twisted')), () => unary('void', name('desk')), () => binary('-', name('count'), number(1)),
];

const anyText = () => times(below(4), () => oneOf([...'ab$`\\\r\n{', 'é', '😀', '\ud83d', '\ude00', '\u2028', '\u0000'])).join('');
const anyRaw = () => times(below(3), () => oneOf(['a', '\\`', '\\n', '\\\n', '\\u{1f600}', '\\ud83d', '\\ude00', '\\0', '\r\n', '$', '😀'])).join('').replace(/\$$/, '\\$');
const KEYS = [0, 0, 1, 1, 2, 3, -0, 0.5, -1, 4294967295, 4294967296];
const LEAVES = [
  () => string(anyText()), () => number(oneOf([0, -0, 1, 2, 0.1, -3, 1e21, 5e-324])), () => boolean(below(2) === 1), none,
  ...times(4, () => () => name(oneOf(Object.keys(NAMES)))), ...times(3, () => () => world(oneOf(Object.keys(VALUES)), oneOf(['none', 'none', 'log', 'count', 'push', 'throw']))),
];
const CALLS = [
  (d) => concat(string(anyText()), ...times(1 + below(3), () => times(below(4), () => anyArgument(d)))),
  (d) => concat(string(anyText()), ...times(2 + below(2), () => times(1 + below(2), () => anyTree(d)))),
  (d) => concat(array(times(below(3), () => anyElement(d))), ...times(1 + below(3), () => times(below(4), () => anyArgument(d)))),
  (d) => call(at(oneOf([() => string('a'), () => array([none()])])(), string('concat')), times(below(3), () => anyArgument(d))),
  (d) => call(dot(name('Math'), oneOf(['pow', 'pow', 'pow', 'max'])), times(oneOf([1, 2, 2, 2, 2, 3]), () => anyTree(d))),
  (d) => call(at(name('Math'), string('pow')), [anyTree(d), anyTree(d)]),
  (d) => call(dot(name('Array'), 'of'), times(below(4), () => anyArgument(d))),
  (d) => at(anyTree(d), number(oneOf(KEYS))),
  (d) => at(array(times(1 + below(3), () => anyElement(d))), number(oneOf(KEYS))),
  (d) => at(array(times(1 + below(3), () => oneOf([hole, none, () => string(anyText()), () => number(1), () => name('count')])())), number(oneOf(KEYS))),
  (d) => at(string(anyText()), number(oneOf(KEYS))),
];
// What stands as a callee, or is taken as a reference.
const REFERENCES = [
  (d) => at(array([oneOf([() => dot(name('o'), 'f'), () => name('f'), () => string('ab')])(), anyElement(d)]), number(below(3))),
  (d) => at(array([name('f')]), number(0)), (d) => at(string('ab'), number(below(3))), (d) => dot(name('o'), oneOf(['f', 'g', 'p', 'bad', 'concat'])),
  (d) => at(name('o'), oneOf([() => string('f'), () => at(array([string('f'), string('g')]), number(below(2))), () => at(string('gf'), number(below(2)))])()),
  (d) => dot(at(array([name('o'), none()]), number(0)), oneOf(['f', 'g', 'p'])), (d) => at(name('fees'), number(below(3))),
  (d) => dot(concat(array([]), [anyTree(d)]), oneOf(['concat', 'length'])), (d) => dot(string(anyText()), oneOf(['concat', 'length'])),
  (d) => call(dot(name('o'), 'f'), [name('f')]), (d) => concat(array([none()]), [none()]),
];
const PARENTS = [
  (d) => array(times(below(4), () => anyElement(d))),
  (d) => call(oneOf(REFERENCES)(d), times(below(3), () => anyArgument(d))),
  (d) => call(oneOf([() => name('f'), () => name('push'), () => anyTree(d)])(), times(below(3), () => anyArgument(d))),
  (d) => template(times(2 * below(3) + 1, (_, k) => (k % 2 === 0 ? quasi(anyRaw()) : anyTree(d)))),
  (d) => unary(oneOf(['plus', 'minus', 'void']), anyTree(d)),
  (d) => binary(oneOf(['**', '-', '/']), anyTree(d), anyTree(d)),
  (d) => world(oneOf(['child', ...Object.keys(VALUES)]), oneOf(['none', 'none', 'log', 'count', 'push', 'throw']), oneOf(['none', 'all', 'all', 'first', 'reverse', 'twice', 'caught', 'caught']), times(1 + below(3), () => anyTree(d))),
  (d) => marked('comma', [anyTree(d), anyTree(d)], 0),
  (d) => marked('choice', [anyTree(d), anyTree(d), anyTree(d)], 0),
  (d) => marked(oneOf(['delete', 'typeof', 'optional', 'tag']), [oneOf(REFERENCES)(d)], 1),
  (d) => marked(oneOf(['optional', 'tag']), [oneOf(REFERENCES)(d), anyTree(d)], 1),
  (d) => dot(anyTree(d), oneOf(['concat', 'length'])),
];
const anyTree = (d) => (d === 0 || below(5) === 0 ? oneOf(LEAVES)() : below(3) === 0 ? oneOf(PARENTS)(d - 1) : oneOf(CALLS)(d - 1));
const anyArgument = (d) => (below(8) === 0 ? spread(oneOf([() => name('legs'), () => anyTree(d)])()) : below(2) === 0 ? oneOf(ARGUMENTS)() : anyTree(d));
const anyElement = (d) => (below(6) === 0 ? hole() : anyArgument(d));

// ---- The payoffs ----

const items = [];
const HOSTS = [['structural'], ['table'], ['table'], ['table', 'structural'], ['structural', 'table'], ['silent', 'table']];
function payoff(kind, build) {
  let tree;
  do { marks = []; tree = build(); } while (inOrder(tree).length > MOST_NODES);
  for (const n of inOrder(tree)) n.unsaid = oneOf([undefined, undefined, undefined, undefined, undefined, 'all', 'type', 'effects']);
  const bound = oneOf([[], [], [], [], [], ['Math'], ['Array'], ['Math', 'Array']]);
  const settings = { templates: below(8) > 0, power: below(8) > 0 };
  items.push({ kind, tree, marks, bound, settings, strict: below(2) === 1, hosts: oneOf(HOSTS) });
}

const BASES = { string: () => string(oneOf(['', 'a', '$', '\ud83d'])), array: () => array(oneOf([() => [], () => [number(1), hole()]])()) };
for (const x of ARGUMENTS) {
  for (const y of ARGUMENTS) {
    for (const base of Object.keys(BASES)) {
      payoff(`a chain on a ${base}`, () => concat(BASES[base](), [x()], [y()]));
      payoff(`concat on a ${base}`, () => concat(BASES[base](), [x(), y()]));
    }
    payoff('Math.pow', () => pow(x(), y()));
    payoff('Array.of', () => of(x(), y()));
  }
}
for (const reference of REFERENCES) {
  for (let i = 0; i < 12; i++) {
    payoff('a callee', () => call(reference(1), times(below(3), () => anyArgument(1))));
    for (const form of ['delete', 'typeof', 'optional', 'tag']) payoff(`a reference of ${form}`, () => marked(form, [reference(1)], 1));
  }
}
for (const text of ['', 'a', '$a', '😀', '\ud83d\ud83d\ude00', '\ude00\ud83d']) for (const key of KEYS) payoff('a string index', () => at(string(text), number(key)));
for (let i = 0; i < 400; i++) payoff('an array index', () => at(array(times(below(4), () => anyElement(1))), number(oneOf(KEYS))));
for (let i = 0; i < 800; i++) payoff('a chain of three', () => concat(BASES[oneOf(Object.keys(BASES))](), ...times(3, () => times(below(3), () => oneOf(ARGUMENTS)()))));
for (let i = 0; i < 800; i++) payoff('a call of many', () => concat(BASES[oneOf(Object.keys(BASES))](), times(1 + below(6), () => oneOf(ARGUMENTS)())));
for (let i = 0; i < 4000; i++) payoff('by chance', () => anyTree(4));

// ---- Shortening ----

// The words of the item's case, but for the first.
function wordsOf(item) {
  const bound = item.bound.length === 0 ? '' : `=${item.bound.map((word) => hex(stored(word))).join(',')}`;
  const words = { silent: 'silent', structural: `structural${bound}`, table: `table=${rowsOf(item.tree, item)}` };
  return [...item.hosts.map((host) => `sweep:${words[host]}`), 'tree'];
}

function caseOf(item) {
  const file = parts(item.tree);
  const words = wordsOf(item);
  const { settings } = item;
  const bytes = bytesOf(file);
  const line = ['case', hex(bytes), LIMITS.join(','), settings.templates ? 1 : 0, settings.power ? 1 : 0, ...words].join(' ');
  return { line, file, bytes, words };
}

// The program's answers to the cases' lines.
function answersOf(lines) {
  const { stdout, status, error } = spawnSync(PROGRAM, ['script'], { input: lines.map((line) => line + '\n').join(''), maxBuffer: 1 << 30 });
  if (error) throw error;
  const answers = stdout.toString().split('\n').slice(0, -1);
  if (status !== 0 || answers.length !== lines.length) throw new Error(`${PROGRAM} answered ${answers.length} of ${lines.length} lines, with status ${status}`);
  return answers;
}

// The answer of session.js.
function secondAnswer({ file, bytes, words }, { settings }) {
  const sizes = [file.nodes.length, file.entries.length, file.text.length];
  const session = new Session(treeOf(judged(bytes, LIMITS).sections), sizes, LIMITS, settings);
  return ['loaded', ...words.map((word) => (word === 'tree' ? printed(session.root) : session.call(word, sizes[0]))), session.end()].join('; ');
}

// What comes of the item by the program's answer: whether it was rewritten, both sources, and how the two runs end.
function outcomeOf(item, answer) {
  const all = answer.split('; ');
  if (all[0] !== 'loaded' || all.some((x) => x.startsWith('refused'))) throw new Error(`refused: ${answer}`);
  const form = all[all.length - 2];
  const write = (tree) => sourceOf(tree, opaqueSource(item.marks));
  const before = write(item.tree);
  const after = write(treeOfForm(form));
  const rewritten = form !== printed(item.tree);
  const [first, second] = [runIn(before, item), runIn(after, item)];
  if (!first.program) throw new Error(`${before}: ${first.told}`);
  return { rewritten, rewrites: Number(all[all.length - 1].split(' ')[2]), before, after, first, second, same: first.told === second.told, sameThrown: first.thrown === second.thrown };
}

// ---- Cutting down what differs ----

// The trees that are smaller at one place: an expression becomes one of the expressions in it, or null, or a list loses one.
function* smaller(n) {
  const expressions = (x) => (is(x, 'spread') ? x.children : is(x, ...PLACED) ? [] : [x]);
  if (!is(n, ...PLACED)) {
    yield* n.children.flatMap(expressions);
    if (!is(n, 'null')) yield none();
  }
  const listed = { array: 0, call: 1, opaque: n.flag === 1 ? 1 : 0 }[kindOf(n)];
  for (let k = 0; k < n.children.length; k++) {
    const put = (...xs) => ({ ...n, children: [...n.children.slice(0, k), ...xs, ...n.children.slice(k + 1)] });
    if (listed !== undefined && k >= listed) yield put();
    for (const x of smaller(n.children[k])) yield put(x);
  }
}

function cutDown(item) {
  let least = item;
  for (let round = 0; round < 100; round++) {
    const most = weight(least.tree);
    const tries = [...smaller(least.tree)].filter((tree) => weight(tree) < most).map((tree) => ({ ...item, tree }));
    const cases = [];
    for (const t of tries) { try { cases.push([t, caseOf(t).line]); } catch (error) { /* no payoff, or nothing known of it */ } }
    const answers = answersOf(cases.map(([, line]) => line));
    const found = cases.find(([t], i) => {
      try { return !outcomeOf(t, answers[i]).same; } catch (error) { return false; }
    });
    if (found === undefined) break;
    [least] = found;
  }
  return least;
}
const weight = (tree) => inOrder(tree).reduce((sum, n) => sum + (is(n, 'null') ? 1 : 2), 0);

// ---- The comparison ----

const cases = items.map(caseOf);
const answers = answersOf(cases.map(({ line }) => line));
const counts = new Map();
const vectors = [];
const differences = [];
const others = [];
const disagreements = [];
items.forEach((item, i) => {
  const count = counts.get(item.kind) || { made: 0, shortened: 0, rewrites: 0, thrown: 0 };
  counts.set(item.kind, count);
  const outcome = outcomeOf(item, answers[i]);
  count.made++;
  count.rewrites += outcome.rewrites;
  if (outcome.rewritten) count.shortened++;
  if (outcome.first.thrown !== '') count.thrown++;
  if (!outcome.same) differences.push(item);
  else if (!outcome.sameThrown) others.push(outcome);
  const second = secondAnswer(cases[i], item);
  if (second !== answers[i]) disagreements.push([cases[i].line, answers[i], second]);
  else if (outcome.same && outcome.rewritten) vectors.push([cases[i].line, answers[i]]);
});

const total = { made: 0, shortened: 0, rewrites: 0, thrown: 0 };
for (const [kind, count] of counts) {
  for (const key of Object.keys(total)) total[key] += count[key];
  console.log(`${kind}: ${count.made} payoffs, ${count.shortened} shortened by ${count.rewrites} rewrites, ${count.thrown} end with a throw`);
}
console.log(`in all ${total.made} payoffs, ${total.shortened} shortened by ${total.rewrites} rewrites, ${total.thrown} end with a throw`);
console.log(`${differences.length} do something else, ${disagreements.length} are answered otherwise by session.js`);
console.log(`${others.length} throw something else`);
others.sort((x, y) => x.before.length - y.before.length);
for (const { before, after, first, second } of others.slice(0, 3)) console.log(`  as ${before} throws ${first.thrown}, and ${after} throws ${second.thrown}`);
for (const [line, answer, second] of disagreements.slice(0, 5)) console.log(`${line}\n  program: ${answer}\n  session: ${second}`);
const shown = new Set();
for (const item of differences) {
  if (shown.size >= 20) break;
  const least = cutDown(item);
  const { line } = caseOf(least);
  const { before, after, first, second } = outcomeOf(least, answersOf([line])[0]);
  if (shown.has(before)) continue;
  shown.add(before);
  console.log(`\n${line}\n--- ${before}\n${first.told}\n+++ ${after}\n${second.told}\nmarks ${JSON.stringify(least.marks)} bound ${least.bound} strict ${least.strict}`);
}
if (differences.length > 0 || disagreements.length > 0) process.exit(1);

// ---- The files ----

// As many as fit, spread evenly over what was made.
const step = Math.max(1, vectors.length / MOST_VECTORS);
const picked = times(Math.min(MOST_VECTORS, vectors.length), (_, i) => vectors[Math.floor(i * step)]);
const folder = path.join(__dirname, '..', 'crates', 'enginevectors');
fs.mkdirSync(folder, { recursive: true });
fs.writeFileSync(path.join(folder, 'stdin'), picked.map(([line]) => line + '\n').join(''));
fs.writeFileSync(path.join(folder, 'stdout'), picked.map(([, answer]) => answer + '\n').join(''));
console.log(`${picked.length} cases written`);
