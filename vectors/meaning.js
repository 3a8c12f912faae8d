// Makes the answers of an engine about values: node vectors/meaning.js
//
// Writes crates/meaning/specs/Engine.antt: for each definition that computes, cases by hand and by chance, and what this
// JavaScript engine gave for each. That the definitions give the same is the law `the_engine_agrees` of that crate. The
// cases by chance come from a fixed start, so that every run writes the same file.
// It also asks the engine in which order the parts of an expression run, and fails where that is another order than the
// one of the runs in `OrderShows` of crates/meaning/specs/Laws.antt; and what objects, functions and BigInts are asked,
// where it fails at another answer than the one of the runs in `RunsTell` of crates/witnesses/specs/Told.antt.
'use strict';
const assert = require('assert');
const fs = require('fs');
const path = require('path');
const { chance, times } = require('./shared');

const below = chance(20260303);
const oneOf = (list) => list[below(list.length)];

// ---- Values, and how they are spelled ----

// One BigInt, one symbol and one object stand for whatever a world has.
const BIG = 45n;
const SYMBOL = Symbol('a symbol');
const OBJECT = Object.freeze({});

// The 64 bits of a number, and the number of 64 bits.
const view = new DataView(new ArrayBuffer(8));
function bitsOf(x) {
  view.setFloat64(0, x);
  return view.getBigUint64(0);
}
function numberOf(bits) {
  view.setBigUint64(0, bits);
  return view.getFloat64(0);
}
const digits = (n, width) => '0x' + n.toString(16).toUpperCase().padStart(width, '0');
const numeral = (x) => (Number.isNaN(x) ? 'Number.nan' : `Number.bits ${digits(bitsOf(x), 16)}`);

const bracketed = (term) => (/ /.test(term) ? `(${term})` : term);

// A text's units: a run of plain characters as such, and any other unit by its number.
function units(text) {
  const parts = text.match(/[ !#-[\]-~]{2,}|[^]/g) || [];
  assert.strictEqual(parts.join(''), text);
  const plain = (part) => /^[ !#-[\]-~]+$/.test(part) && (part.length > 1 || parts.length === 1);
  return parts.reduceRight((rest, part) => {
    if (plain(part)) return rest === '[]' ? `codes "${part}"` : `codes "${part}" ++ ${rest}`;
    return `${digits(part.charCodeAt(0), 2)} ∷ ${rest}`;
  }, '[]');
}

// The short names of values, and the terms that they stand for.
const NAMES = [
  ['undefined', undefined, 'Value.primitive Primitive.undefined'], ['null', null, 'Value.primitive Primitive.null'],
  ['yes', true, 'Value.primitive (Primitive.boolean true)'], ['no', false, 'Value.primitive (Primitive.boolean false)'],
  ['big', BIG, 'Value.primitive (Primitive.bigint b)'], ['symbol', SYMBOL, 'Value.primitive (Primitive.symbol y)'],
  ['object', OBJECT, 'Value.object o'],
  ...[['nan', NaN], ['plus_zero', 0], ['minus_zero', -0], ['one', 1], ['two', 2], ['three', 3]]
    .map(([name, x]) => [name, x, `Value.primitive (Primitive.number ${bracketed(numeral(x))})`]),
];

// A value that is no object, by its constructor.
function primitive(value) {
  if (typeof value === 'boolean') return `Primitive.boolean ${value}`;
  if (typeof value === 'number') return `Primitive.number ${bracketed(numeral(value))}`;
  if (typeof value === 'string') return `Primitive.text ${bracketed(units(value))}`;
  if (value === BIG) return 'Primitive.bigint b';
  if (value === SYMBOL) return 'Primitive.symbol y';
  assert(value === undefined || value === null, `no spelling for ${String(value)}`);
  return `Primitive.${value}`;
}

// A row of slots. A hole is where the array has no such property.
function slots(array) {
  let row = 'no_slots';
  for (let i = array.length - 1; i >= 0; i--) {
    const front = i in array ? `value ${bracketed(spelled(array[i]))}` : 'hole';
    row = `${front} ${bracketed(row)}`;
  }
  return row;
}

// A value: by its short name if it has one. Another BigInt, symbol or object has no spelling.
function spelled(value) {
  const named = NAMES.find(([, other]) => Object.is(value, other));
  if (named) return named[0];
  if (typeof value === 'string') return `text ${bracketed(units(value))}`;
  if (Array.isArray(value)) return `array ${bracketed(slots(value))}`;
  assert(typeof value === 'number', `no spelling for ${String(value)}`);
  return numeral(value).replace('Number.bits', 'number');
}
const list = (values) => values.map((value) => `${spelled(value)} ∷ `).join('') + '[]';

// A whole number: as it is, or, if it has many digits, as an odd number times a power of two.
function natural(n) {
  if (n < 2n ** 64n) return n.toString();
  let [odd, power] = [n, 0n];
  while (odd % 2n === 0n) [odd, power] = [odd / 2n, power + 1n];
  assert.strictEqual(odd * 2n ** power, n);
  return odd === 1n ? `2 ^ ${power}` : `${odd} * 2 ^ ${power}`;
}

// ---- The cases of each definition ----

// What the engine gives, or `THROWS` where it throws a TypeError. Any other error ends the script.
const THROWS = Symbol('throws');
function given(ask, input) {
  try {
    return ask(...input);
  } catch (error) {
    if (!(error instanceof TypeError)) throw error;
    return THROWS;
  }
}
function resulting(spell) {
  return (answer) => (answer === THROWS ? 'Result.throws' : `Result.gives ${bracketed(spell(answer))}`);
}

// A definition: its name; the types of an input and of an answer; what the engine is asked, and that in words; how the
// parts of an input, and an answer, are spelled; and the cases, each taken once.
const definitions = [];
function compared(name, { types, words, ask, input, output }, cases) {
  const spelling = (parts) => input(...parts);
  const inputs = new Map(cases.map((parts) => [spelling(parts).join(), parts]));
  const answers = [...inputs.values()].map((parts) => [output(given(ask, parts))]);
  definitions.push({ name, types, words, inputs: [...inputs.values()].map(spelling), answers });
}
const single = (values) => values.map((x) => [x]);

// Texts: plain ones, what a coercion writes, halves of pairs alone, the wrong way round and together, the first and last
// unit and character.
const TEXTS = ['', 'a', 'PWR ', 'Q1 at $45.10', '0', '-0', 'NaN', 'null', 'undefined', 'true', ' ', '"', '\\', '`${x}`',
  '\r\n', '\u2028', '\0', '\x7f', 'é', '\uffff', '\ud83d', '\ude00', '😀', '\ude00\ud83d', 'a\ud83d', '\ude00b',
  '\ud83d\ud83d\ude00', '中\u{10ffff}'];
const UNITS = [() => 0x20 + below(0x5f), () => below(0x10000), () => 0xd800 + below(0x400), () => 0xdc00 + below(0x400)];
const unit = () => String.fromCharCode(oneOf(UNITS)());
const anyText = () => (below(2) === 0 ? oneOf(TEXTS) : times(below(4), unit).join(''));

// Numbers: zeros, small ones, both sides of the ends of the widths that indices and exact numbers have, the ends of the
// range, and NaN.
const NUMBERS = [0, -0, 1, -1, 2, 3, 10, 0.5, -0.5, 1.5, -1.5, 45.1, 0.1, 1 - 2 ** -53, 1 + 2 ** -52, 2 ** 31 - 1,
  2 ** 31, 2 ** 32 - 2, 2 ** 32 - 1, 2 ** 32 - 0.5, 2 ** 32, 2 ** 32 + 1, 2 ** 51 + 0.5, 2 ** 52 - 0.5, 2 ** 52,
  2 ** 52 + 1, 2 ** 53 - 1, 2 ** 53, 2 ** 53 + 2, -(2 ** 53), 2 ** 54 + 4, 2 ** 63, 2 ** 64, 1e21, 2 ** 1023, Number.MAX_VALUE,
  -Number.MAX_VALUE, 2 ** -1022, 2 ** -1022 - 2 ** -1074, 2 ** -1040, Number.MIN_VALUE, -Number.MIN_VALUE, Infinity,
  -Infinity, NaN];
const anyBits = () => BigInt(below(2 ** 32)) << 32n | BigInt(below(2 ** 32));
const anyDouble = () => numberOf(anyBits());

// A number whose exponent is near those of whole numbers, and whose fraction ends in some number of zeros.
function nearWhole() {
  const exponent = BigInt(1020 + below(60));
  const zeros = BigInt(below(53));
  const fraction = anyBits() & (1n << 52n) - 1n;
  return numberOf((exponent << 52n) | (fraction >> zeros << zeros));
}

// Values that are no object, and arrays: holes, such values, objects, and arrays as elements.
const ATOMS = [undefined, null, true, false, 1, NaN, -0, '', 'a', BIG, SYMBOL];
const worded = () => oneOf([() => undefined, () => null, () => below(2) === 0, anyText, anyText])();
const anyPrimitive = () => oneOf([worded, () => oneOf(ATOMS), () => oneOf(NUMBERS), nearWhole, anyDouble])();
function anyArray(depth = 0) {
  const array = new Array(below(4 - depth));
  for (let i = 0; i < array.length; i++) {
    const kind = below(8);
    if (kind === 0) array[i] = OBJECT;
    else if (kind === 1 && depth < 2) array[i] = anyArray(depth + 1);
    else if (kind < 6) array[i] = oneOf(ATOMS);
  }
  return array;
}

// Every row of up to three slots, each a hole or its place's number.
const ROWS = [0, 1, 2, 3].flatMap((length) => times(2 ** length, (_, holes) => {
  const row = new Array(length);
  for (let i = 0; i < length; i++) if ((holes >> i & 1) === 0) row[i] = i + 1;
  return row;
}));

// The method concat of texts.
compared('text_concat', {
  types: ['(ValueIn w × List (ValueIn w))', '(Result (ValueIn w))'],
  words: 'String.prototype.concat.call(receiver, ...values)',
  ask: (receiver, values) => String.prototype.concat.call(receiver, ...values),
  input: (receiver, values) => [spelled(receiver), list(values)],
  output: resulting(spelled),
}, [
  ['', []], ['a', []], ['\ud83d', []], ['', ['']], ['PWR ', ['hub', ' ', 'Q1 at $45.10']], ['a', ['b', 'c', 'd', 'e']],
  ['\ud83d', ['\ude00']], ['\ude00', ['\ud83d']], ['a\ud83d', ['', '\ude00b']], ['\ud83d', [null, '\ude00']],
  ...[undefined, null, true, false, '', 'null', SYMBOL].map((value) => ['a', [value]]),
  ['', [undefined, null, true, false]], ['undefined', [undefined]],
  ...[true, false, undefined, null, SYMBOL].flatMap((receiver) => [[receiver, []], [receiver, ['a', null]]]),
  // A throw, whatever the text of a number or BigInt beside is.
  [undefined, [SYMBOL]], [null, [1]], [SYMBOL, [SYMBOL]], ['a', [SYMBOL, 'b']], ['a', ['b', SYMBOL]], ['a', [1, SYMBOL]],
  ['a', [SYMBOL, 1]], [1, [SYMBOL]], [BIG, ['a', SYMBOL]],
  ...times(20, () => [oneOf([anyText, worded])(), times(below(5), () => (below(12) === 0 ? SYMBOL : worded()))]),
]);

// The method concat of arrays.
compared('array_concat', {
  types: ['(SlotsIn w × List (ValueIn w))', '(Result (ValueIn w))'],
  words: 'Array.prototype.concat.call(receiver, ...values); a hole is where `i in array` is false',
  ask: (receiver, values) => Array.prototype.concat.call(receiver, ...values),
  input: (receiver, values) => [slots(receiver), list(values)],
  output: resulting(spelled),
}, [
  ...ROWS.map((row, i) => [row, [ROWS[ROWS.length - 1 - i]]]),
  ...[undefined, null, true, false, '', 'ab', 0, -0, NaN, BIG, SYMBOL].map((value) => [[1], [value]]),
  [[], []], [[,], []], [[,], ['a']], [[,], [[,], [,]]], [['a'], [[], [,], [null], undefined]],
  [[,], [null, [,], undefined]], [[[1, , 2]], []], [[], [[[1, , 2]]]], [[], [[[[]]]]], [[], [[[,], , [[,]]]]],
  [[OBJECT], [[OBJECT, , BIG]]],
  [[NaN, -0, 0], [-0, NaN]],
  ...times(18, () => [anyArray(), times(below(4), () => (below(2) === 0 ? anyPrimitive() : anyArray()))]),
]);

// Array.of.
compared('array_of', {
  types: ['(List (ValueIn w))', '(ValueIn w)'],
  words: 'Array.of(...values)',
  ask: (values) => Array.of(...values),
  input: (values) => [bracketed(list(values))],
  output: spelled,
}, single([
  [], ...single([...ATOMS, OBJECT, 'ab', '\ud83d', 0, 3, -1, 0.5, 2 ** 32, Infinity, [], [,], [1, , 2], [[,]]]),
  [undefined, undefined], [1, 2, 3], [3, 0], ['a', 'b'], [[], []], [[,], undefined, [undefined]], [OBJECT, [OBJECT]],
  [-0, 0, NaN],
  ...times(20, () => times(below(5), () => (below(3) === 0 ? anyArray(1) : anyPrimitive()))),
]));

// A text and an array at an index.
const FAR = [2 ** 31, 2 ** 32 - 2, 2 ** 32 - 1];
const placeIn = ({ length }) => (below(5) === 0 ? length + below(3) : below(length + 1));
compared('unit_at', {
  types: ['(Units × ℕ)', '(ValueIn w)'],
  words: 'text[k]',
  ask: (text, k) => text[k],
  input: (text, k) => [units(text), k],
  output: spelled,
}, [
  ...['', 'a', '\ud83d', '😀', 'a😀b', '\ude00\ud83d', '\0']
    .flatMap((text) => times(text.length + 2, (_, k) => [text, k])),
  ...FAR.flatMap((k) => [['', k], ['ab', k]]),
  ...times(24, () => anyText() + unit()).map((text) => [text, placeIn(text)]),
]);
compared('slot_at', {
  types: ['(SlotsIn w × ℕ)', '(ValueIn w)'],
  words: 'array[k]',
  ask: (array, k) => array[k],
  input: (array, k) => [slots(array), k],
  output: spelled,
}, [
  ...ROWS.slice(0, 11).flatMap((row) => times(row.length + 1, (_, k) => [row, k])),
  ...[...ATOMS, OBJECT, 'ab', [], [,], [1, , 2]].map((value) => [[, value], 1]),
  ...FAR.flatMap((k) => [[[], k], [[1, , 'a'], k]]),
  ...times(12, () => anyArray()).map((array) => [array, placeIn(array)]),
]);

// The text of a primitive value. A template asks for it, and so throws at a symbol.
compared('primitive_text', {
  types: ['(PrimitiveIn w)', '(Result Units)'],
  words: '`${x}`',
  ask: (x) => `${x}`,
  input: (x) => [primitive(x)],
  output: resulting(units),
}, single([undefined, null, true, false, SYMBOL, ...TEXTS, ...times(25, anyText)]));

// The Number or BigInt of a primitive value: x++ gives what x was before one was added.
function numeric(x) {
  assert(typeof x === 'number' || x === BIG);
  return x === BIG ? 'Numeric.bigint b' : `Numeric.number ${bracketed(numeral(x))}`;
}
compared('primitive_numeric', {
  types: ['(PrimitiveIn w)', '(Result (Numeric w.Big))'],
  words: 'x++',
  ask: (x) => x++,
  input: (x) => [primitive(x)],
  output: resulting(numeric),
}, single([undefined, null, true, false, SYMBOL, BIG, ...NUMBERS]));

// Whether a value may have properties: an object pattern asks that, and gives the value.
compared('coercible', {
  types: ['(ValueIn w)', '(Result (ValueIn w))'],
  words: '({} = x)',
  ask: (x) => ({} = x),
  input: (x) => [spelled(x)],
  output: resulting(spelled),
}, single([...ATOMS, OBJECT, [], [,], [undefined], [null], [[]], 0, Infinity, 'undefined', 'null', '\ud83d', '😀',
  ...times(30, () => oneOf([anyPrimitive, anyArray])())]));

// Unary operators, but for the number of a text and the negative of a BigInt, which are the world's.
const UNARY = { Plus: (x) => +x, Minus: (x) => -x, Void: (x) => void x };
compared('unary', {
  types: ['(UnaryOperator × ValueIn w)', '(Result (ValueIn w))'],
  words: '+x, -x and void x',
  ask: (operator, x) => UNARY[operator](x),
  input: (operator, x) => [operator, spelled(x)],
  output: resulting(spelled),
}, [
  ...Object.keys(UNARY).flatMap((operator) => [undefined, null, true, false, SYMBOL, 0, -0, 1, 0.5, NaN, Infinity,
    -Infinity, Number.MIN_VALUE].map((x) => [operator, x])),
  ['Plus', BIG], ...[BIG, '', '1', OBJECT, [], [,], [SYMBOL]].map((x) => ['Void', x]),
]);

// Binary operators and Math.pow, where they throw: at a symbol, and at a BigInt beside what is none (Math.pow: at any).
// What they give else is the world's.
const BINARY = { Exponentiation: (x, y) => x ** y, Subtraction: (x, y) => x - y, Division: (x, y) => x / y };
const MIXED = [[1, BIG], [BIG, 1], [undefined, BIG], [BIG, null], [true, BIG], [BIG, NaN], ['1', BIG], [BIG, ''],
  [SYMBOL, 1], [1, SYMBOL], [SYMBOL, BIG], [BIG, SYMBOL], [SYMBOL, SYMBOL], [null, SYMBOL]];
compared('binary', {
  types: ['(BinaryOperator × ValueIn w × ValueIn w)', '(Result (ValueIn w))'],
  words: 'x ** y, x - y and x / y, where they throw',
  ask: (operator, x, y) => BINARY[operator](x, y),
  input: (operator, x, y) => [operator, spelled(x), spelled(y)],
  output: resulting(spelled),
}, Object.keys(BINARY).flatMap((operator) => MIXED.map(([x, y]) => [operator, x, y])));
compared('pow', {
  types: ['(ValueIn w × ValueIn w)', '(Result (ValueIn w))'],
  words: 'Math.pow(x, y), where it throws',
  ask: (x, y) => Math.pow(x, y),
  input: (x, y) => [spelled(x), spelled(y)],
  output: resulting(spelled),
}, [...MIXED, [BIG, BIG]]);

// Whole numbers from 0; and negatives. A whole number below 2 ^ 32 names the property that its decimal digits name.
function whole(x) {
  if (!Number.isInteger(x) || x < 0) return undefined;
  const n = BigInt(x);
  if (n < 2n ** 32n) assert.deepStrictEqual([String(x), ...Object.keys({ [x]: 0 })], [String(n), String(n)]);
  return n;
}
const DOUBLES = [...NUMBERS, ...times(30, nearWhole), ...times(8, anyDouble)];
compared('whole', {
  types: ['Number', '(Option ℕ)'],
  words: 'Number.isInteger(x) && x >= 0, and if so BigInt(x)',
  ask: whole,
  input: (x) => [numeral(x)],
  output: (n) => (n === undefined ? 'None' : `Some ${bracketed(natural(n))}`),
}, single(DOUBLES));
compared('negative', {
  types: ['Number', 'Number'],
  words: '-x',
  ask: (x) => -x,
  input: (x) => [numeral(x)],
  output: numeral,
}, single(DOUBLES));

// ---- The order of evaluation ----

// What is seen of a run: which names and properties are read, which objects are made a text or a number, which functions
// are called, where a spread begins and ends, in order; and last whether it throws a TypeError.
function seen(source) {
  const log = [];
  const object = (name) => ({
    [Symbol.toPrimitive](hint) {
      log.push(`${name} to ${hint}`);
      return 1;
    },
  });
  const called = (...values) => { log.push(`call with ${values.length}`); };
  const values = { x: object('x'), y: object('y'), k: object('k'), f: called };
  values.o = {
    get p() {
      log.push('get p');
      return called;
    },
  };
  values.s = {
    * [Symbol.iterator]() {
      log.push('begin s');
      yield 1;
      log.push('end s');
    },
  };
  const scope = {};
  for (const name of Object.keys(values)) {
    const get = () => {
      log.push(name);
      return values[name];
    };
    Object.defineProperty(scope, name, { get });
  }
  try {
    new Function('scope', `with (scope) { ${source}; }`)(scope);
  } catch (error) {
    if (!(error instanceof TypeError)) throw error;
    log.push('throws');
  }
  return log.join(', ');
}

const ORDERS = [
  // `template_makes_text_at_once`: a template makes a text of a value before the next expression runs.
  ['`${x}${y}`', 'x, x to string, y, y to string'],
  ['`a${x}b${null.a}c${y}`', 'x, x to string, throws'],
  // `operands_run_first`: both operands run before either is coerced, and the left one is coerced first.
  ['x - y', 'x, y, x to number, y to number'],
  ['x / y', 'x, y, x to number, y to number'],
  ['x ** y', 'x, y, x to number, y to number'],
  ['x - null.a', 'x, throws'],
  // `callee_before_arguments`: the callee's property is read before the arguments run, and each once.
  ['null.a(x)', 'throws'],
  ['o.p(x, y)', 'o, get p, x, y, call with 2'],
  ['o[k](x)', 'o, k, k to string, x, throws'],
  // `arguments_before_call`: what is no function throws once the arguments have run.
  ['null(x)', 'x, throws'],
  ['f(x, y)', 'f, x, y, call with 2'],
  ['"a".a(x, y)', 'x, y, throws'],
  ['null(x, null.a, y)', 'x, throws'],
  // `key_before_property`: object and key run before the property is read, and that makes the key a property's name.
  ['null[x]', 'x, throws'],
  ['o[k]', 'o, k, k to string'],
  ['x[y]', 'x, y, y to string'],
  // `spread_before_next`: a spread is iterated to its end before the next element, or argument, runs.
  ['[...null, x]', 'throws'],
  ['[x, ...s, y]', 'x, s, begin s, end s, y'],
  ['[...s, ...null, x]', 's, begin s, end s, throws'],
  ['f(x, ...s, y)', 'f, x, s, begin s, end s, y, call with 3'],
  ['f(...null, x)', 'f, throws'],
];
for (const [source, order] of ORDERS) assert.strictEqual(seen(source), order, `${source} runs as ${seen(source)}`);

// ---- What is asked ----

// What a program gives whose objects say by which hint they are asked, and whose function gives its receiver: the runs
// of `RunsTell` in crates/witnesses/specs/Told.antt. `concat` of an array spreads x as a hole and a text.
function told(source) {
  const f = new Function('"use strict"; return this;');
  const object = (name) => ({
    f,
    [Symbol.toPrimitive]: (hint) => (hint === 'string' ? `t${name}` : 0x6e),
    [Symbol.isConcatSpreadable]: true,
    length: 2,
    1: name,
  });
  const [x, y] = [object('x'), object('y')];
  return [new Function('f', 'x', 'y', `"use strict"; return ${source};`)(f, x, y), x];
}

const TOLD = [
  // `no_receiver`, `object_as_receiver` and `object_of_a_key`
  ['f()', () => undefined],
  ['x.f()', (x) => x],
  ['x["f"]()', (x) => x],
  // `template_asks_for_text`, `concat_asks_for_text`, `plus_asks_for_number` and `pow_is_power`
  ['`${x}`', () => 'tx'],
  ['String.prototype.concat.call(x, y)', () => 'txty'],
  ['+x', () => 0x6e],
  ['-x', () => -0x6e],
  ['Math.pow(x, y)', () => 0x6e ** 0x6e],
  // `power`, `difference` and `quotient`
  ['x ** y', () => 0x6e ** 0x6e],
  ['x - y', () => 0],
  ['x / y', () => 1],
  // `big_difference`, `big_negative` and `big_text`
  ['3n - 4n', () => -1n],
  ['-(3n)', () => -3n],
  ['`${3n}`', () => '3'],
  // `object_is_spread`
  ['[].concat(x)', () => [, 'x']],
];
for (const [source, wanted] of TOLD) {
  const [given, x] = told(source);
  assert.deepStrictEqual(given, wanted(x), `${source} gives ${String(given)}`);
}

// ---- The file ----

// A line of at most 118 columns, or several, cut before a bracket. All lines here are laid out as the formatter does.
function wrapped(line, indent) {
  const at = line.lastIndexOf(' (', 118);
  if (line.length <= 118 || at <= indent.length) return [line];
  return [line.slice(0, at), ...wrapped(indent + line.slice(at + 1), indent)];
}

// An item's lines: parts that do not fit on one line stand on lines of their own.
function laidOut(indent, front, parts) {
  if (parts.length === 1) return wrapped(indent + front + parts[0], indent);
  const line = `${indent}${front}(${parts.join(', ')})`;
  const apart = parts.flatMap((part) => wrapped(`${indent}  ${part},`, `${indent}      `));
  return line.length <= 118 ? [line] : [`${indent}${front}(`, ...apart, `${indent})`];
}

// A list, each item on a line of its own, or more where it is long.
const rows = (name, items, indent) => [`${indent}${name} =`,
  ...items.flatMap((parts, i) => laidOut(`${indent}    `, i === 0 ? '' : '∷ ', parts)), `${indent}    ∷ []`];

const HEAD = `-- Made by node vectors/meaning.js with Node ${process.version} (V8 ${process.versions.v8}). Do not edit.
--
-- What a JavaScript engine gave: for each definition the inputs, what the engine was asked of them, and what it gave,
-- in the same order. An answer \`throws\` is a TypeError.
use Rattle.std.specs.Prelude.{ℕ, true, false, List, [], ◌∷◌, ◌++◌, ◌*◌, ◌^◌, Some, None, Option, codes}
use Rattle.tree.specs.declared.node.UnaryOperator.{UnaryOperator}
use Rattle.tree.specs.declared.node.UnaryOperator.TheVariants.{Plus, Minus, Void}
use Rattle.tree.specs.declared.node.BinaryOperator.{BinaryOperator}
use Rattle.tree.specs.declared.node.BinaryOperator.TheVariants.{Exponentiation, Subtraction, Division}
use Rattle.meaning.specs.Expression.{Units}
use Rattle.meaning.specs.Number.{Number}
use Rattle.meaning.specs.Value.{Primitive, Value, Numeric}
use Rattle.meaning.specs.Value.Slots.{no_slots, hole, value}
use Rattle.meaning.specs.World.{World, ValueIn, PrimitiveIn, SlotsIn, Result}
`;
const VALUES = `
-- The values of any world, with any object, BigInt and symbol of it.
module _ (w : World) (o : w.Object) (b : w.Big) (y : w.Symbol) where
${NAMES.map(([name, , term]) => `  abbrev pub ${name} : ValueIn w\n  ${name} = ${term}\n`).join('\n')}
  abbrev pub number : (bits : ℕ) → ValueIn w
  number n = Value.primitive (Primitive.number (Number.bits n))

  abbrev pub text : Units → ValueIn w
  text u = Value.primitive (Primitive.text u)

  abbrev pub array : SlotsIn w → ValueIn w
  array xs = Value.array xs
`;

// The lists of a definition.
function written({ name, types, words, inputs, answers }, indent) {
  const signature = (list, type) => `${indent}unfoldable pub ${list} : List ${type}`;
  return [
    '', `${indent}-- ${inputs.length} cases: ${words}`,
    signature(`${name}_inputs`, types[0]), ...rows(`${name}_inputs`, inputs, indent),
    '', signature(`${name}_outputs`, types[1]), ...rows(`${name}_outputs`, answers, indent),
  ];
}
const inWorld = ({ types }) => types[0] !== 'Number';
const text = [HEAD.trimEnd(), ...definitions.filter((d) => !inWorld(d)).flatMap((d) => written(d, '')), VALUES.trimEnd(),
  ...definitions.filter(inWorld).flatMap((d) => written(d, '  '))];
fs.writeFileSync(path.join(__dirname, '..', 'crates', 'meaning', 'specs', 'Engine.antt'), text.join('\n') + '\n');
for (const { name, inputs } of definitions) console.log(`${inputs.length} ${name}`);
console.log(`${ORDERS.length} orders`);
console.log(`${TOLD.length} answers that tell what was asked`);
