// Sessions, written from docs/RULES.md, docs/MEANING.md ("Hosts") and docs/REFUSALS.md apart from the program under
// test: hosts, the three rules with the space that each takes, the cursor, and the sweep.
'use strict';
const { stored, hex, escaped } = require('./shared');
const { KINDS, UNARY, LIMITS, make, textOf } = require('./format');

const DEEPEST = 256; // steps below the root
const kindOf = (n) => KINDS[n.kind][0];
const is = (n, ...kinds) => kinds.includes(kindOf(n));
const NO_EXPRESSION = ['hole', 'spread', 'quasi'];
const LITERALS = ['string', 'number', 'boolean', 'null'];

// ---- Hosts ----

const TYPES = ['Undetermined', 'Undefined', 'Null', 'Number', 'BigInt', 'String', 'Boolean', 'Object'];
const SILENT = { effects: true, type: 'Undetermined', global: false };
const silent = () => SILENT;

// By what a node says of itself; `bound` are names in hexadecimal.
function structural(bound) {
  const isPlain = (n) => is(n, 'hole', ...LITERALS);
  const type = (n) => {
    switch (kindOf(n)) {
      case 'string': case 'template': return 'String';
      case 'number': return 'Number';
      case 'boolean': return 'Boolean';
      case 'null': return 'Null';
      case 'array': return 'Object';
      case 'unary': return UNARY[n.flag] === 'void' ? 'Undefined' : 'Undetermined';
      default: return 'Undetermined';
    }
  };
  const own = ['undefined', 'Math', 'Array'].map((name) => hex(stored(name))).filter((name) => !bound.includes(name));
  return (n) => ({
    effects: !(isPlain(n) || (is(n, 'array') && n.children.every(isPlain))),
    type: type(n),
    global: is(n, 'name') && own.includes(hex(n.texts[0])),
  });
}

// By a row for each loaded node.
function table(rows, loaded) {
  return ({ number }) => {
    if (number >= loaded || number >= rows.length) return SILENT;
    const type = TYPES[rows[number] % 64];
    return type === undefined ? SILENT : { effects: rows[number] >= 128, type, global: rows[number] % 128 >= 64 };
  };
}

// The host that a word names.
function hostOf(word, loaded) {
  const [kind, rest] = word.split('=');
  if (kind === 'silent') return silent;
  return kind === 'table' ? table(Buffer.from(rest, 'hex'), loaded) : structural(rest === undefined ? [] : rest.split(','));
}

// ---- What the rules build ----

// New nodes with the next numbers, and the space that they take.
class Fresh {
  constructor(next) {
    this.next = next;
    this.need = [0, 0, 0]; // nodes, entries, bytes of text
  }

  add(n, { entries = 0, bytes = 0 } = {}) {
    this.need[0] += 1;
    this.need[1] += entries;
    this.need[2] += bytes;
    return { ...n, number: this.next++ };
  }

  string(text) {
    return this.add(make.string(text), { bytes: stored(text).length });
  }

  quasi(text) {
    const [raw, plain] = [stored(escaped(text)), stored(text)];
    return this.add(make.quasi(escaped(text)), { bytes: plain.length + (hex(raw) === hex(plain) ? 0 : raw.length) });
  }

  voidZero() {
    return this.add(make.unary('void', this.add(make.number(0))));
  }

  // The template of a text and arguments, or a string where there is no expression.
  template(base, args) {
    if (args.every((x) => is(x, 'string'))) return this.string([base, ...args.map(unitsOf)].join(''));
    let text = base;
    const parts = [];
    for (const x of args) {
      if (is(x, 'string')) text += unitsOf(x);
      else {
        parts.push(this.quasi(text), x);
        text = '';
      }
    }
    parts.push(this.quasi(text));
    return this.add(make.template(parts), { entries: parts.length });
  }
}

const unitsOf = (n) => textOf(n.texts[0]);
const named = (n, name) => unitsOf(n) === name;
const isStaticConcat = (n) => is(n, 'static') && named(n, 'concat');

// ---- What the rules ask ----

const mayBeObject = (host, x) => ['Object', 'Undetermined'].includes(host(x).type);

function interleave(host, args) {
  if (args.some((x) => is(x, 'spread'))) return false;
  return !args.some((x, i) => mayBeObject(host, x) && args.slice(i + 1).some((y) => host(y).effects));
}

function isShort(calls, args) {
  const strings = args.filter((x) => is(x, 'string')).length;
  return 3 * (args.length - strings) <= 9 * calls + args.length + 2 * strings;
}

// ---- The rules: each gives what a node becomes, or undefined where it is kept ----

function chain(fresh, x, role, host, { templates }) {
  if (role === 'concat object' || !is(x, 'call') || !isStaticConcat(x.children[0])) return undefined;
  const calls = [];
  let [callee] = x.children;
  for (let call = x; ; call = callee.children[0], [callee] = call.children) {
    calls.unshift(call.children.slice(1));
    if (!is(callee.children[0], 'call') || !isStaticConcat(callee.children[0].children[0])) break;
  }
  const [base] = callee.children;
  const args = calls.flat();
  if (calls.length < 2) return undefined;
  const oneCall = () => fresh.add(make.call(callee, args), { entries: args.length });
  if (is(base, 'string')) {
    const together = interleave(host, args);
    if (templates && calls.every((call) => interleave(host, call)) && isShort(together ? 1 : calls.length, args)) {
      return fresh.template(unitsOf(base), args);
    }
    return together ? oneCall() : undefined;
  }
  if (!is(base, 'array')) return undefined;
  // What an argument is can change before `concat` reads it, if one with effects comes in a later call.
  const open = (y) => is(y, 'spread') || (mayBeObject(host, y) && !is(y, 'array'));
  const mixed = calls.some((call, i) => call.some(open) && calls.slice(i + 1).flat().some((y) => host(y).effects));
  return mixed ? undefined : oneCall();
}

function method(fresh, x, role, host, settings) {
  if (!is(x, 'call')) return undefined;
  const [callee, ...args] = x.children;
  let name;
  if (is(callee, 'static')) name = unitsOf(callee);
  if (is(callee, 'computed') && is(callee.children[1], 'string')) name = unitsOf(callee.children[1]);
  const [base] = callee.children;
  if (name === 'concat' && is(base, 'array', 'string') && role === 'concat object') return undefined;
  if (name === 'concat' && is(base, 'array')) return arrayConcat(fresh, callee, base, args);
  if (name === 'concat' && is(base, 'string')) {
    const fits = settings.templates && args.length > 0 && interleave(host, args) && isShort(1, args);
    return fits ? fresh.template(unitsOf(base), args) : undefined;
  }
  if (name === undefined || !is(base, 'name')) return undefined;
  if (name === 'pow' && named(base, 'Math')) {
    if (!settings.power || args.length !== 2 || args.some((y) => is(y, 'spread')) || !host(base).global) return undefined;
    const [a, b] = args;
    const power = host(b).type === 'Number' ? b : fresh.add(make.unary('plus', b));
    return fresh.add(make.binary('**', a, power));
  }
  if (name === 'of' && named(base, 'Array') && host(base).global) return fresh.add(make.array(args));
  return undefined;
}

function arrayConcat(fresh, callee, base, args) {
  if (args.length === 0) return base;
  const end = args.findIndex((y) => !is(y, 'array', ...LITERALS));
  const merged = end < 0 ? args : args.slice(0, end);
  const rest = args.slice(merged.length);
  if (merged.length === 0) return undefined;
  const elements = [...base.children, ...merged.flatMap((y) => (is(y, 'array') ? y.children : [y]))];
  const array = fresh.add(make.array(elements), { entries: elements.length });
  if (rest.length === 0) return array;
  const member = fresh.add({ ...callee, children: [array, ...callee.children.slice(1)] });
  return fresh.add(make.call(member, rest));
}

const numberOf = (n) => { const b = Buffer.alloc(8); b.writeBigUInt64LE(n.value); return b.readDoubleLE(); };

function property(fresh, x, role, host) {
  if (role === 'referred' || !is(x, 'computed')) return undefined;
  const [base, key] = x.children;
  if (!is(base, 'string', 'array') || !is(key, 'number')) return undefined;
  const k = numberOf(key) + 0; // -0 is 0
  if (!Number.isInteger(k) || k < 0 || k > 4294967295 || host(base).effects) return undefined;
  if (is(base, 'string')) {
    const units = unitsOf(base);
    return k < units.length ? fresh.string(units[k]) : fresh.voidZero();
  }
  if (k >= base.children.length || base.children.slice(0, k + 1).some((y) => is(y, 'spread'))) return undefined;
  return is(base.children[k], 'hole') ? fresh.voidZero() : base.children[k];
}

const RULES = { chain, method, property };

// How a node takes its child.
function roleOf(parent, k) {
  if (k > 0) return 'ordinary';
  if (isStaticConcat(parent)) return 'concat object';
  return is(parent, 'call') || (is(parent, 'opaque') && parent.flag === 1) ? 'referred' : 'ordinary';
}

// ---- The session ----

class Refusal {
  constructor(fault, layer, node) {
    Object.assign(this, { fault, layer, node });
  }

  toString() {
    return `refused ${this.fault} layer ${this.layer} node ${this.node}`;
  }
}

class Session {
  // On a loaded tree, whose file has `counts`, in stores with `rooms`.
  constructor(tree, counts, rooms, settings) {
    this.root = tree;
    this.held = [...counts];
    this.most = rooms.map((room, i) => (BigInt(room) < BigInt(LIMITS[i]) ? Number(room) : LIMITS[i]));
    this.settings = settings;
    this.path = []; // the steps: a node and which of its children
    this.rewrites = 0;
  }

  get here() {
    if (this.path.length === 0) return this.root;
    const [parent, k] = this.path[this.path.length - 1];
    return parent.children[k];
  }

  enter(k) {
    const { here } = this;
    if (k >= here.children.length) throw new Refusal(6, 3, here.number);
    if (this.path.length === DEEPEST) throw new Refusal(7, 3, here.number);
    this.path.push([here, k]);
  }

  leave() {
    if (this.path.length === 0) throw new Refusal(8, 3, this.here.number);
    this.path.pop();
  }

  // Whether the rule rewrites the cursor's node.
  attempt(rule, host) {
    const { here } = this;
    if (is(here, ...NO_EXPRESSION)) return false;
    const last = this.path[this.path.length - 1];
    const fresh = new Fresh(this.held[0]);
    const node = RULES[rule](fresh, here, last === undefined ? 'ordinary' : roleOf(...last), host, this.settings);
    if (node === undefined) return false;
    fresh.need.forEach((need, i) => { if (this.held[i] + need > this.most[i]) throw new Refusal(9 + i, 2, here.number); });
    this.held = this.held.map((held, i) => held + fresh.need[i]);
    this.rewrites += 1;
    if (last === undefined) this.root = node;
    else last[0].children[last[1]] = node;
    return true;
  }

  // Answers whether places were too far down.
  visit(host) {
    const many = this.here.children.length;
    let left = this.path.length === DEEPEST && many > 0;
    for (let k = 0; k < many && this.path.length < DEEPEST; k++) {
      this.enter(k);
      left = this.visit(host) || left;
      this.leave();
    }
    for (const rule of ['chain', 'method', 'property']) this.attempt(rule, host);
    return left;
  }

  sweep(host) {
    const before = this.rewrites;
    let rounds = 0;
    let refusal;
    for (let last = -1, left = false; last !== this.rewrites && refusal === undefined; rounds++) {
      last = this.rewrites;
      this.path = [];
      try {
        left = this.visit(host);
        this.left = left;
      } catch (error) {
        if (!(error instanceof Refusal)) throw error;
        refusal = error;
      }
    }
    this.path = [];
    const made = this.rewrites - before;
    return refusal === undefined ? `swept ${made} ${rounds} ${this.left ? 1 : 0}` : `${refusal} after ${made}`;
  }

  // The item that answers a call's word. `loaded` is how many nodes were loaded.
  call(word, loaded) {
    const [name, rest] = word.split(':');
    try {
      if (name === 'enter') this.enter(Number(rest));
      else if (name === 'leave') this.leave();
      else if (name === 'sweep') return this.sweep(hostOf(rest, loaded));
      else return this.attempt(name, hostOf(rest, loaded)) ? 'rewritten' : 'kept';
      return 'ok';
    } catch (error) {
      if (error instanceof Refusal) return error.toString();
      throw error;
    }
  }

  end() {
    return `end ${this.root.number} ${this.rewrites} ${this.held.join(' ')}`;
  }
}

module.exports = { Session };
