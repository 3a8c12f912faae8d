// What `payoff script` has to answer to any line, written from docs/PROTOCOL.md apart from the program under test: what
// a request is, and the answer to it.
'use strict';
const { hex, stored, escaped } = require('./shared');
const { printed, judged, textOf, cookedOf, treeOf } = require('./format');
const { Session } = require('./session');

// ---- What a request is ----
// A line is taken byte by byte, as Latin-1. No request has a byte beyond ASCII, so that such a line is none, whether
// its bytes are UTF-8 or not.

const isHex = (word) => word.length % 2 === 0 && !/[^0-9a-f]/.test(word);
const isNumber = (word) => word !== '' && !/[^0-9]/.test(word) && BigInt(word) < 1n << 64n;
const isSwitch = (word) => word === '0' || word === '1';

// What stands before the first sign and behind it, or the whole word alone.
function parted(word, sign) {
  const at = word.indexOf(sign);
  return at < 0 ? [word] : [word.slice(0, at), word.slice(at + 1)];
}

function isHost(word) {
  const [kind, rest] = parted(word, '=');
  if (rest === undefined) return kind === 'silent' || kind === 'structural';
  return kind === 'structural' ? rest.split(',').every(isHex) : kind === 'table' && isHex(rest);
}

function isCall(word) {
  const [name, rest] = parted(word, ':');
  if (rest === undefined) return name === 'leave' || name === 'tree';
  return name === 'enter' ? isNumber(rest) : ['chain', 'method', 'property', 'sweep'].includes(name) && isHost(rest);
}

// The request that a line is, or undefined.
function requestOf(line) {
  const [name, text, ...rest] = line.split(' ');
  if (text === undefined || !isHex(text)) return undefined;
  const bytes = Buffer.from(text, 'hex');
  if (name === 'escape' || name === 'cook') {
    const [room] = rest;
    if (rest.length > 1 || (room !== undefined && !isNumber(room))) return undefined;
    return { name, bytes, room: room === undefined ? undefined : BigInt(room) };
  }
  if (name !== 'case' || rest.length < 3) return undefined;
  const [rooms, templates, power, ...calls] = rest;
  const sizes = rooms.split(',');
  if (sizes.length !== 3 || !sizes.every(isNumber) || !isSwitch(templates) || !isSwitch(power) || !calls.every(isCall)) return undefined;
  return { name, bytes, rooms: sizes, settings: { templates: templates === '1', power: power === '1' }, calls };
}

// ---- The answer ----

// Loads a file and makes the calls: the items of the answer.
function itemsOf(file, rooms, settings, calls) {
  const { fault, node, sections } = judged(file, rooms);
  if (fault !== undefined) return [`refused ${fault} layer 2 node ${node}`];
  const sizes = [sections.nodes.length, sections.entries.length, sections.text.length];
  const session = new Session(treeOf(sections), sizes, rooms, settings);
  return ['loaded', ...calls.map((call) => (call === 'tree' ? printed(session.root) : session.call(call, sizes[0]))), session.end()];
}

// The bytes that a call makes of a text, or undefined.
function madeOf(name, bytes) {
  if (name === 'cook') {
    const text = cookedOf(bytes);
    return text === undefined ? undefined : Buffer.from(text, 'hex');
  }
  const text = textOf(bytes);
  return text === undefined ? undefined : Buffer.from(stored(escaped(text)));
}

// The answer to a line, which stands without its line feed.
function answerOf(line) {
  const request = requestOf(line.toString('latin1'));
  if (request === undefined) return 'malformed';
  const { name, bytes, room, rooms, settings, calls } = request;
  if (name === 'case') return itemsOf(bytes, rooms, settings, calls).join('; ');
  const made = madeOf(name, bytes);
  if (made === undefined) return 'refused 12 layer 1 node 0';
  return room !== undefined && BigInt(made.length) > room ? 'refused 13 layer 1 node 0' : `ok ${hex(made)}`;
}

module.exports = { itemsOf, answerOf };
