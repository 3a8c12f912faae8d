// The worlds in which payoffs are run: names, odd objects, functions and opaque nodes, all of which tell what happens in a
// log; running a source in one; and what can be told apart of the end of a run.
//
// The worlds keep the premises of docs/MEANING.md. What makes a primitive value of an object, and what `concat` asks of
// one, may throw, give anything, and depend on the state, but it neither logs nor changes anything. Names, properties that
// are got, functions, iterators and opaque nodes may do all of that.
'use strict';

// So that no payoff changes what the language has of its own.
for (const own of [Math, Array, Array.prototype, String.prototype, Object.prototype]) Object.freeze(own);

// ---- Names ----

// What is known of each: whether it is read without effects, and of which type its values are. `nowhere` is not declared.
const NAMES = {
  hub: { calm: true, type: 'String' }, half: { calm: true, type: 'String' }, spot: { calm: true, type: 'Number' },
  count: { calm: true, type: 'Number' }, big: { calm: true, type: 'BigInt' }, sym: { calm: true }, fees: { calm: true, type: 'Object' },
  legs: { calm: true, type: 'Object' }, o: { calm: true, type: 'Object' }, odd: { calm: true, type: 'Object' },
  twisted: { calm: true, type: 'Object' }, thrower: { calm: true, type: 'Object' }, sp: { calm: true, type: 'Object' },
  nsp: { calm: true, type: 'Object' }, spt: { calm: true, type: 'Object' }, f: { calm: true, type: 'Object' },
  push: { calm: true, type: 'Object' }, proxied: { calm: true, type: 'Object' }, undefined: { calm: true, type: 'Undefined' },
  desk: { calm: false, type: 'String' }, moving: { calm: false }, bad: { calm: false }, nowhere: { calm: false },
};

// Values that opaque nodes give, with the type of each, if it is known.
const VALUES = {
  one: 'Number', zero: 'Number', minusZero: 'Number', nan: 'Number', count: 'Number', text: 'String', high: 'String', low: 'String',
  countText: 'String', nothing: 'Undefined', null: 'Null', yes: 'Boolean', big: 'BigInt', sym: undefined, fresh: 'Object',
  fees: 'Object', odd: 'Object', twisted: 'Object', thrower: 'Object', sp: 'Object', nsp: 'Object', spt: 'Object', legs: 'Object', o: 'Object', f: 'Object',
};

class World {
  // `marks` says what the opaque node with each mark does.
  constructor(marks) {
    const world = this;
    this.marks = marks;
    this.log = [];
    this.count = 0;
    this.labels = new Map();
    const object = (label, properties, made = {}) => {
      this.labels.set(made, label);
      const all = Object.getOwnPropertyDescriptors(properties);
      return Object.defineProperties(made, all);
    };
    const told = (label, then) => object(label, {}, function (...xs) {
      world.tell(`${label} of ${world.shown(this)} with ${world.shown(xs)}`);
      return then.call(this, ...xs);
    });
    const fees = object('fees', {}, [0.25, , 'fee']);
    const failure = object('failure', {});
    const f = told('f', (x) => { world.count++; return x; });
    const push = told('push', (x) => { fees.push(x === undefined ? world.count++ : x); return world.count; });
    this.values = {
      one: 1, zero: 0, minusZero: -0, nan: NaN, text: 'x`$', high: 'h\ud83d', low: '\ude00l', nothing: undefined, null: null, yes: true,
      big: 10n, sym: Symbol('sym'), hub: 'HUB', half: '\ud83d', spot: 41.5, undefined, fees, f, push,
      get count() { return world.count; },
      get countText() { return `#${world.count}`; },
      get fresh() { return [world.count, , 'y']; },
      // Its primitive value is of another type each time that something was counted.
      odd: object('odd', { [Symbol.toPrimitive]: (hint) => [hint, world.count, '\ud83d', -0, undefined, 5n, null, true][world.count % 8] }),
      // The two old ways, in another order for texts than for numbers.
      twisted: object('twisted', {
        valueOf: () => (world.count % 3 === 2 ? {} : world.count),
        toString: () => { if (world.count % 4 === 3) throw failure; return `t${world.count}`; },
      }),
      thrower: object('thrower', { [Symbol.toPrimitive]: () => { throw failure; }, get [Symbol.isConcatSpreadable]() { throw failure; } }),
      sp: object('sp', { get length() { return world.count % 4; }, 0: 'first', 2: 'third', toString: () => 'sp', [Symbol.isConcatSpreadable]: true }),
      nsp: object('nsp', { get [Symbol.isConcatSpreadable]() { return world.count % 2 === 1; } }, ['kept', ,]),
      spt: object('spt', { length: 2, get 0() { if (world.count % 2 === 1) throw failure; return world.count; }, [Symbol.isConcatSpreadable]: 1, valueOf: () => world.count }),
      legs: object('legs', {
        [Symbol.toPrimitive]: () => 'legs',
        * [Symbol.iterator]() {
          for (const leg of ['peak', world.count]) { world.tell(`leg ${leg}`); yield leg; world.count++; }
          if (world.count % 4 === 3) throw failure;
        },
      }),
      proxied: new Proxy(fees, {}),
      o: object('o', {
        p: 'plain', f,
        get g() { world.tell(`got g of ${world.shown(this)}`); world.count++; return told('g', function () { return this; }); },
        get bad() { world.tell('got bad'); throw failure; },
        concat: told('concat of o', function (...xs) { world.count++; return xs.length % 2 === 0 ? this : `c${xs.length}`; }),
        toString: () => 'o',
      }),
    };
    this.labels.set(this.values.proxied, 'proxied');
    this.names = Object.defineProperties({}, {
      desk: { get: () => { world.tell('read desk'); return `desk${world.count++}`; } },
      moving: { get: () => { world.tell('read moving'); fees.push(world.count++); return fees; } },
      bad: { get: () => { world.tell('read bad'); throw failure; } },
    });
    this.bound = {
      Math: object('bound Math', { pow: told('bound pow', (x) => [x]), max: told('bound max', () => 'max') }),
      Array: object('bound Array', { of: told('bound of', (...xs) => xs.length) }),
    };
    this.failure = failure;
  }

  tell(words) {
    this.log.push(words);
    if (this.log.length > 3000) throw new Error('the log grows and grows');
  }

  name(name) {
    return name in this.names ? this.names[name] : this.values[name];
  }

  // What an opaque node does: its effects, which of its children it runs and how often, and its value.
  opaque(mark, ...children) {
    const { run, effect, value } = this.marks[mark];
    const all = {
      none: [], all: children, first: children.slice(0, 1), reverse: [...children].reverse(), twice: [...children, ...children.slice(0, 1)],
      caught: children,
    }[run];
    const values = all.map((child) => {
      if (run !== 'caught') return child();
      try { return child(); } catch { this.tell(`${mark} caught`); return null; }
    });
    if (effect !== 'none') this.tell(`${mark} of ${this.shown(values)}`);
    if (effect === 'count') this.count++;
    if (effect === 'push') this.values.fees.push(`m${mark}`);
    if (effect === 'throw') throw this.failure;
    if (value === 'child') return values[0];
    return value in VALUES ? this.values[value] : value;
  }

  // What can be told of a value. Objects of the world are named, and others shown, each by its first place.
  shown(value, seen = new Map()) {
    switch (typeof value) {
      case 'string': return JSON.stringify(value);
      case 'number': return Object.is(value, -0) ? '-0' : String(value);
      case 'bigint': return `${value}n`;
      case 'symbol': return value.toString();
      case 'undefined': case 'boolean': return String(value);
    }
    if (value === null) return 'null';
    if (this.labels.has(value)) return `<${this.labels.get(value)}>`;
    if (seen.has(value)) return `<seen ${seen.get(value)}>`;
    seen.set(value, seen.size);
    if (typeof value === 'function') return `<function ${value.name}>`;
    if (Array.isArray(value)) return `[${this.slots(value, seen)}]`;
    if (value instanceof Error) return `<${value.name}>`;
    return `<${Object.prototype.toString.call(value)} ${this.shown(Object.entries(value), seen)}>`;
  }

  slots(array, seen) {
    const all = Array.from({ length: array.length }, (_, k) => (Object.hasOwn(array, k) ? this.shown(array[k], seen) : 'hole'));
    return [...all, ...Object.keys(array).filter((key) => !/^\d+$/.test(key)).map((key) => `${key}: …`)].join(', ');
  }

  // What can be told of the state: the count, and the contents of the arrays and of `o`.
  state() {
    const { fees, nsp, o } = this.values;
    return `${this.count} [${this.slots(fees, new Map())}] [${this.slots(nsp, new Map())}] ${Object.getOwnPropertyNames(o)}`;
  }
}

// ---- Running ----

let current;
for (const name of Object.keys(NAMES)) {
  if (name === 'nowhere' || name === 'undefined') continue;
  Object.defineProperty(globalThis, name, { get: () => current.name(name), configurable: true });
}
globalThis.opaque$ = (mark, ...children) => current.opaque(mark, ...children);

// The source of an opaque node. Those of the world get their children as functions, and run them as they like; the others
// are of the language, and take their first child as a reference where the flag says so.
function opaqueSource(marks) {
  return ({ value: mark }, below) => {
    const { form } = marks[mark];
    const rest = below.slice(1);
    switch (form) {
      case 'world': return `opaque$(${[mark, ...below.map((x) => `() => (${x})`)].join(', ')})`;
      case 'comma': return `(${below.map((x) => `(${x})`).join(', ')})`;
      case 'choice': return `((${below[0]}) ? (${below[1]}) : (${below[2]}))`;
      case 'delete': return `delete (${below[0]})`;
      case 'typeof': return `typeof (${below[0]})`;
      case 'optional': return `(${below[0]})?.(${rest.join(', ')})`;
      case 'tag': return `(${below[0]})\`a${rest.map((x) => `\${${x}}b`).join('')}\``;
    }
  };
}

// Runs the source in a new world. `bound` are names that the payoff does not have from the language. Answers what can be
// told of the run: the log, the end, where a throw is only a throw, and the state; and beside it what was thrown.
function runIn(source, { marks, bound, strict }) {
  current = new World(marks);
  const { log } = current;
  let run;
  try {
    run = new Function(...bound, `${strict ? '"use strict"; ' : ''}return (${source});`);
  } catch (error) {
    return { told: `no program: ${error.message}`, program: false };
  }
  let end;
  let thrown = '';
  try {
    end = `gives ${current.shown(run(...bound.map((name) => current.bound[name])))}`;
  } catch (error) {
    end = 'throws';
    thrown = current.shown(error);
  }
  return { told: [...log, end, current.state()].join('\n'), thrown, program: true };
}

module.exports = { NAMES, VALUES, opaqueSource, runIn };
