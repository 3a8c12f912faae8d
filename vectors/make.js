// Makes the vectors of template text, units, joining and comparing: node vectors/make.js
//
// Writes crates/vectors/stdin, a command on each line, and crates/vectors/stdout, the answer to each; the same of comparing
// in crates/comparevectors; and some lines of the line protocol in crates/linevectors. The cases among those are taken
// from what files.js wrote, which is run first; the damaged ones are made by damaged.js.
// What a raw text cooks to, the units of a text and what two texts join to are what this JavaScript engine
// makes of them. The random texts come from a fixed start, so that every run writes the same files.
'use strict';
const fs = require('fs');
const path = require('path');
const { stored, hex, cooked, escaped, chance, times } = require('./shared');
const { answerOf } = require('./protocol');
const { startFrom, anyInput } = require('./damaged');

const MALFORMED = 'refused 12 layer 1 node 0';
const OVERFULL = 'refused 13 layer 1 node 0';

// ---- Chance ----

const below = chance(20260101);
const oneOf = (list) => list[below(list.length)];

// ---- The vectors ----

const vectors = [];
const comparisons = [];
const counts = {};
let lines = vectors; // what the next vectors are added to
function vector(kind, command, answer) {
  lines.push([command, answer]);
  const key = `${kind}, ${answer.replace(/^ok .*/, 'ok')}`;
  counts[key] = (counts[key] || 0) + 1;
}

const raws = {}; // by kind
function cookVector(kind, raw) {
  const text = cooked(raw);
  (raws[kind] ||= []).push(raw);
  vector(kind, `cook ${hex(stored(raw))}`, text === undefined ? MALFORMED : `ok ${hex(stored(text))}`);
}

function escapeVector(kind, text) {
  const raw = escaped(text);
  if (cooked(raw) !== text) throw new Error(`the raw text of ${JSON.stringify(text)} does not cook back`);
  vector(kind, `escape ${hex(stored(text))}`, `ok ${hex(stored(raw))}`);
}

// Every raw text of up to three of these characters.
const TROUBLE = [...'\\`${}019xuanr\r\n\u2028\u2029é😀'];
function shortRaws() {
  let last = [''];
  const all = [''];
  for (let length = 1; length <= 3; length++) {
    last = last.flatMap((front) => TROUBLE.map((c) => front + c));
    all.push(...last);
  }
  return all;
}
shortRaws().forEach((raw) => cookVector('cook, short', raw));

// Every ASCII character alone and behind a backslash.
for (let c = 0; c < 128; c++) {
  cookVector('cook, ASCII', String.fromCharCode(c));
  cookVector('cook, ASCII', '\\' + String.fromCharCode(c));
}

// Longer raw texts: mostly escapes and characters that may stand anywhere, now and then what breaks.
const digits = (n) => times(n, () => oneOf([...'0123456789abcdefABCDEF'])).join('');
const four = (unit) => '\\u' + unit.toString(16).padStart(4, '0');
const SOUND = [
  () => oneOf([...'abcxyz {}0189"\'/é߿ऀ中😀\u{10FFFF}\u2028\u2029\uFEFF']),
  () => oneOf(['\r', '\n', '\r\n', '\n\r', '$', '$$', '{', '$ {']),
  () => '\\' + oneOf([...'bfnrtv\'"\\`${}acyzé😀']),
  () => '\\' + oneOf(['\n', '\r', '\r\n', '\u2028', '\u2029', '\n\r']),
  () => '\\0' + oneOf(['', 'a', ' ', '\\\\', '\\x00']),
  () => '\\x' + digits(2),
  () => '\\u' + digits(4),
  () => four(0xd800 + below(0x400)) + four(0xdc00 + below(0x400)),
  () => '\\uD83D\\uDE00',
  () => `\\u{${'0'.repeat(below(9))}${below(0x110000).toString(16)}}`,
  () => `\\u{${'0'.repeat(below(30))}${oneOf(['0', 'a', 'd83d', 'DE00', 'ffff', '10000', '10FFFF'])}}`,
  () => `\\u{D83D}` + oneOf(['\\uDE00', '\\u{DE00}', 'x', '\\\n\\uDE00']),
];
const BROKEN = ['`', '${', '\\', '\\1', '\\7', '\\8', '\\9', '\\00', '\\01', '\\08', '\\x', '\\x1', '\\xg0', '\\x0g',
  '\\u', '\\u1', '\\u12', '\\u123', '\\u12g4', '\\u{', '\\u{}', '\\u{g}', '\\u{12', '\\u{110000}', '\\u{0110000}',
  '\\u{FFFFFFFF}', '\\u{100000000}', '\\u{10000000000000041}', '\\u{0000000000110000}', '\\u{ 41}', '\\u{4_1}'];
function longRaw() {
  const length = 4 + below(30);
  const breaks = below(2) === 0;
  let raw = '';
  while ([...raw].length < length) {
    const next = raw + (breaks && below(6) === 0 ? oneOf(BROKEN) : oneOf(SOUND)());
    if ([...next].length <= 40) raw = next;
    else if (breaks) return [...next].slice(0, 40).join(''); // the cut may break what stands last
  }
  return raw;
}
times(3000, longRaw).forEach((raw) => cookVector('cook, long', raw));

// Each broken form alone, and between sound text.
BROKEN.forEach((raw) => { cookVector('cook, broken', raw); cookVector('cook, broken', `a${raw} b`); });

// Texts of any 16-bit units, with what has to be escaped, lone surrogates and pairs.
const UNITS = [
  () => oneOf([...'\\`$\r\n{}']),
  () => oneOf(['${', '\r\n', '\\u', '\\`', '$${', '\\\r\n']),
  () => oneOf([...'abc 019xunr"\'é中\u2028\u2029\0\x7f\x80\u07ff\u0800\uffff']),
  () => String.fromCharCode(0xd800 + below(0x400)),
  () => String.fromCharCode(0xdc00 + below(0x400)),
  () => String.fromCodePoint(0x10000 + below(0x100000)),
  () => String.fromCharCode(below(0x10000)),
];
const anyText = () => times(below(24), () => oneOf(UNITS)()).join('');
times(1500, anyText).forEach((text) => escapeVector('escape', text));
const EDGES = ['', '\ud7ff\ue000', '\ud800', '\udbff', '\udc00', '\udfff', '\ud800\udc00', '\udbff\udfff', '\udc00\ud800',
  '\ud800\ud800\udc00', '\ud800\udc00\udc00', '\u{10000}\u{10ffff}', '$', '{', '${', '$${', '\\', '\\\\', '`', '\r', '\r\n', '\n'];
EDGES.forEach((text) => escapeVector('escape', text));

// Bytes that are no UTF-8, and no stored text either.
const BAD = ['80', 'bf', 'c0', 'c080', 'c1bf', 'c3', 'c328', 'e0', 'e080', 'e08080', 'e09fbf', 'e282', 'e28228', 'e28282c2',
  'f0', 'f09f98', 'f08080af', 'f08fbfbf', 'f0288080', 'f4908080', 'f5808080', 'f8888080', 'fe', 'ff', '61ff', '6180', 'c3a9a9',
  'eda0bdedb880', '61edafbfedbfbf62', 'eda0bd80', 'eda0'];
// Lone surrogates: stored text, and no UTF-8.
const LONE = ['eda080', 'edafbf', 'edb080', 'edbfbf', '61eda0bd', 'edb880eda0bd'];
const utf8 = new TextDecoder('utf-8', { fatal: true });
for (const bytes of [...BAD, ...LONE]) {
  try {
    utf8.decode(Buffer.from(bytes, 'hex'));
  } catch (error) {
    vector('cook, bytes', `cook ${bytes}`, MALFORMED);
    if (BAD.includes(bytes)) vector('escape, bytes', `escape ${bytes}`, MALFORMED);
    continue;
  }
  throw new Error(`${bytes} is UTF-8`);
}

// Room for the answer: just enough, one byte short, none. A text that is refused is refused at any room.
function limits(command, from, to) {
  const room = (n) => vector('limits', `${command} ${hex(from)} ${n}`, n < to.length ? OVERFULL : `ok ${hex(to)}`);
  [to.length + 1, to.length, to.length - 1, 0].filter((n) => n >= 0).forEach(room);
}
const ROOMS = ['', 'a', '$', '\r', 'é', '\u2028', '😀', '\ud83d', 'a\ude00', '`Q1` $45.10', '\\\r\n', '${a}', 'plain text'];
for (const text of ROOMS) {
  limits('escape', stored(text), stored(escaped(text)));
  limits('cook', stored(escaped(text)), stored(text));
}
const SHRINK = ['\\\r\n', '\r\n\r\n', '\\u{000041}', '\\x41\\x42', '\\uD83D\\uDE00', 'a\\\u2028b', '\\u{1F600}\\0'];
SHRINK.forEach((raw) => limits('cook', stored(raw), stored(cooked(raw))));
vector('limits', 'cook 61 18446744073709551615', 'ok 61');
vector('limits', 'cook 61 0001', 'ok 61');
vector('limits', 'cook  61', 'ok ');
for (const room of [0, 1, 100]) {
  for (const raw of ['`', '\\', 'aaa${', '\\u{110000}', 'é\\1']) vector('limits', `cook ${hex(stored(raw))} ${room}`, MALFORMED);
  for (const bytes of ['ff', '61ff', 'eda0bdedb880']) vector('limits', `escape ${bytes} ${room}`, MALFORMED);
}

// ---- Units and joining ----

// A text's units: how many there are, and those at its ends, behind its end and at two places by chance.
function unitVectors(kind, text) {
  const bytes = hex(stored(text));
  const places = [0, text.length - 1, text.length, text.length + 1, below(text.length + 1), below(text.length + 1)];
  vector(`lawful, ${kind}`, `lawful ${bytes}`, 'yes');
  vector(`units, ${kind}`, `units ${bytes}`, `ok ${text.length}`);
  for (const k of new Set(places.filter((place) => place >= 0))) {
    const unit = text.charCodeAt(k); // NaN behind the end
    vector(`unit, ${kind}`, `unit ${bytes} ${k}`, k < text.length ? `ok ${unit.toString(16).padStart(4, '0')}` : 'none');
  }
}

// Two texts joined. Where the halves of a pair meet, the stored forms one behind the other are no stored text.
function joinVectors(kind, left, right) {
  const [a, b, both] = [left, right, left + right].map((text) => hex(stored(text)));
  vector(`join, ${kind}`, `join ${a} ${b}`, `ok ${both}`);
  for (const bytes of new Set([a, b, both])) vector(`lawful, ${kind}`, `lawful ${bytes}`, 'yes');
  if (a + b !== both) vector(`lawful, ${kind}`, `lawful ${a}${b}`, 'no');
}

// Bytes that are no stored text: every call refuses them, on either side, and whatever the room is.
function badVectors(kind, bad, good) {
  vector(`lawful, ${kind}`, `lawful ${bad}`, 'no');
  vector(`units, ${kind}`, `units ${bad}`, MALFORMED);
  for (const k of [0, 1, 100]) vector(`unit, ${kind}`, `unit ${bad} ${k}`, MALFORMED);
  for (const texts of [`${bad} `, ` ${bad}`, `${bad} ${good}`, `${good} ${bad}`, `${bad} ${bad}`]) {
    for (const room of ['', ' 0', ' 1', ' 1000']) vector(`join, ${kind}`, `join ${texts}${room}`, MALFORMED);
  }
}

const WIDTHS = ['\0', 'a', '\x7f\x80', '\u07ff\u0800', '\uffff\u{10000}', 'é', '中', '😀', '\ud83d', '\ude00', 'a\ud83d', '\ude00a'];
const SHORT = [...new Set([...EDGES, ...WIDTHS])];
SHORT.forEach((text) => unitVectors('short', text));
times(1600, anyText).forEach((text) => unitVectors('any', text));

// Every two of the short texts, and longer ones with these where they meet.
SHORT.forEach((left) => SHORT.forEach((right) => joinVectors('short', left, right)));
const high = () => String.fromCharCode(0xd800 + below(0x400));
const low = () => String.fromCharCode(0xdc00 + below(0x400));
const pair = () => high() + low();
const none = () => '';
const SEAMS = [[high, low], [high, none], [none, low], [low, high], [high, high], [low, low], [pair, low], [high, pair], [none, none]];
function sides() {
  const [end, start] = below(2) === 0 ? [high, low] : oneOf(SEAMS);
  return [anyText() + end(), start() + anyText()];
}
const JOINS = times(1600, sides);
JOINS.forEach(([left, right]) => joinVectors('any', left, right));
times(100, anyText).forEach((text) => { joinVectors('empty side', text, ''); joinVectors('empty side', '', text); });

// Unlawful bytes alone, and between two texts.
LONE.forEach((bytes) => vector('lawful, bytes', `lawful ${bytes}`, 'yes'));
for (const bytes of BAD) {
  badVectors('bytes', bytes, '61');
  times(4, () => badVectors('bytes within', hex(stored(anyText())) + bytes + hex(stored(anyText())), hex(stored(anyText()))));
}

// Room for the joined text, and the greatest numbers.
for (const left of WIDTHS) {
  for (const right of WIDTHS) limits(`join ${hex(stored(left))}`, stored(right), stored(left + right));
}
JOINS.slice(0, 200).forEach(([left, right]) => limits(`join ${hex(stored(left))}`, stored(right), stored(left + right)));
vector('limits', 'join   0', 'ok ');
vector('limits', 'join 61 62 18446744073709551615', 'ok 6162');
vector('limits', 'join 61 62 0002', 'ok 6162');
vector('limits', 'unit 61 18446744073709551615', 'none');
vector('limits', 'unit 61 0000', 'ok 0061');

// Lines that are no command.
const LINES = ['', ' ', 'cook', 'escape', 'cook -', ' cook 61', 'cook 61 ', 'cook 61  1', 'cook   1', 'cook 6', 'cook 616', 'cook 6G',
  'cook 6A', 'cook --', 'cook -1', 'Cook 61', 'cooks 61', 'raw 61', 'escape 61 -1', 'escape 61 +1', 'escape 61 1 1', 'escape 61 0x1',
  'escape 61 18446744073709551616', 'escape\t61', 'cook é', 'cook 61\r', 'lawful', 'lawful 6', 'lawful 6A', 'lawful 61 ', 'lawful 61 1',
  'Lawful 61', 'units', 'units 6', 'units 61 1', 'unit', 'unit 61', 'unit 61 ', 'unit 6 1', 'unit 61 +1', 'unit 61 -1', 'unit 61 1 1',
  'unit 61 18446744073709551616', 'join', 'join 61', 'join 61 6', 'join 6 61', 'join 61 61 ', 'join 61 61 +1', 'join 61 61 1 1',
  'join 61 61 18446744073709551616', 'joins 61 61', ' join 61 61', 'join 61 61\r'];
LINES.forEach((line) => vector('no command', line, 'malformed'));

// ---- Comparing ----

lines = comparisons;

// Whether a raw text cooks to a text.
function cooksVector(kind, raw, text) {
  vector(`cooks, ${kind}`, `cooks ${hex(stored(raw))} ${hex(stored(text))}`, cooked(raw) === text ? 'yes' : 'no');
}

// The text that the raw text cooks to, and three that differ from it in one unit. A malformed raw text cooks to nothing.
const unit = () => String.fromCharCode(oneOf([below(0x10000), below(0x80), 0xd800 + below(0x400), 0xdc00 + below(0x400)]));
function cooksVectors(kind, raw) {
  const text = cooked(raw);
  if (text === undefined) {
    ['', raw].forEach((other) => cooksVector(`${kind}, malformed`, raw, other));
    return;
  }
  const at = below(text.length + 1);
  const [front, here, back] = [text.slice(0, at), text.slice(at, at + 1), text.slice(at + 1)];
  const others = [front + unit() + back, front + unit() + here + back, front + back];
  for (const other of new Set([text, ...others])) cooksVector(kind, raw, other);
}
raws['cook, short'].filter((_, i) => i % 20 === 0).forEach((raw) => cooksVectors('short', raw));
raws['cook, ASCII'].forEach((raw) => cooksVectors('ASCII', raw));
raws['cook, long'].filter((_, i) => i % 9 === 0).forEach((raw) => cooksVectors('long', raw));

// What stands before a broken form is no answer for the whole.
for (const broken of BROKEN) {
  for (const raw of ['', 'a', '\\n', '\\ud83d']) cooksVector('broken', raw + broken, cooked(raw));
}

// Halves of pairs, in a row and with something between. Halves that make a pair are no text in three bytes each.
const HALVES = ['\\ud83d', '\\ude00', '\\u{DE00}', '\\\n', 'a', '\r', '😀'];
const apart = (text) => text.split('').flatMap(stored);
for (const a of HALVES) {
  for (const b of ['', ...HALVES]) {
    for (const c of ['', ...HALVES]) {
      const [raw, text] = [a + b + c, cooked(a + b + c)];
      for (const other of new Set([text, text + '\ude00', text.slice(0, -1)])) cooksVector('halves', raw, other);
      const bytes = hex(apart(text));
      if (bytes !== hex(stored(text))) vector('cooks, halves', `cooks ${hex(stored(raw))} ${bytes}`, 'no');
    }
  }
}

// Bytes that are no text, on either side, and text behind the right one.
for (const bytes of [...BAD, ...LONE]) {
  for (const text of ['', '61', bytes]) vector('cooks, bytes', `cooks ${bytes} ${text}`, 'no');
}
for (const bytes of BAD) {
  for (const raw of ['', 'a', '\\ud83d', '\\ud83d\\ude00']) {
    for (const front of ['', hex(stored(cooked(raw)))]) vector('cooks, bytes', `cooks ${hex(stored(raw))} ${front}${bytes}`, 'no');
  }
}

// Lines that compare nothing.
['cooks', 'cooks 61 6', 'cooks 6 61', 'cooks 61 61 ', 'cooks 61 61 1', 'cooks 61 6A']
  .forEach((line) => vector('no comparison', line, 'malformed'));

// ---- Lines of the line protocol ----

const crates = path.join(__dirname, '..', 'crates');

// Of the requests about texts a sample, and all lines that are no request.
const textLines = vectors.filter(([command]) => !/^(lawful|units|unit|join) /.test(command))
  .filter(([, answer], i) => i % 30 === 0 || answer === 'malformed');

// Of the cases nine with each kind of answer: loaded, each refusal, malformed. Long ones are left out.
function caseLines() {
  const linesOf = (name) => fs.readFileSync(path.join(crates, 'filevectors', name), 'utf8').split('\n');
  const [commands, answers] = [linesOf('stdin'), linesOf('stdout')];
  const kinds = {};
  commands.forEach((command, i) => {
    if (!command.startsWith('case ') || command.length >= 1000) return;
    const [kind] = /^[a-z]+( \d+)?/.exec(answers[i]);
    (kinds[kind] ||= []).push([command, answers[i]]);
  });
  return Object.values(kinds).flatMap((cases) => cases.filter((_, i) => i % Math.ceil(cases.length / 9) === 0));
}

// Damaged lines, as bytes: a few of each sort, of each way to damage it, and with each item of an answer. Long ones are
// left out.
function damagedLines() {
  startFrom(20260505);
  const taken = {};
  const made = [];
  for (const { sort, how, line } of times(20000, anyInput)) {
    for (const one of line.split('\n').filter((part) => part.length < 16000)) {
      const bytes = Buffer.from(one, 'latin1');
      const answer = answerOf(bytes);
      const keys = [`${sort}, ${how}`, ...answer.split('; ').map((item) => (/^(refused \d+|[a-z]+)/.exec(item) || ['a tree'])[0])];
      if (keys.every((key) => taken[key] >= 14)) continue;
      for (const key of keys) taken[key] = (taken[key] || 0) + 1;
      made.push([bytes, answer]);
    }
  }
  const missed = times(13, (_, i) => `refused ${i + 1}`).filter((key) => taken[key] === undefined);
  if (missed.length > 0) throw new Error(`no damaged line is ${missed.join(' or ')}`);
  return made;
}

// The last line of a script, which may lack its line feed.
const LAST = ['escape 24', 'ok 5c24'];

// ---- The files ----

// Each command has a line feed behind it, but for the `last` one.
function write(crate, made, last) {
  const folder = path.join(crates, crate);
  const commands = made.flatMap(([command]) => [Buffer.from(command), Buffer.from('\n')]);
  const all = last === undefined ? made : [...made, last];
  fs.writeFileSync(path.join(folder, 'stdin'), Buffer.concat(last === undefined ? commands : [...commands, Buffer.from(last[0])]));
  fs.writeFileSync(path.join(folder, 'stdout'), all.map(([, answer]) => answer + '\n').join(''));
}
write('vectors', vectors);
write('comparevectors', comparisons);
const damaged = damagedLines();
write('linevectors', [...textLines, ...caseLines(), ...damaged], LAST);
for (const key of Object.keys(counts).sort()) console.log(`${counts[key]} ${key}`);
console.log(`${vectors.length} and ${comparisons.length} in all, ${damaged.length} damaged lines`);
