// Gives damaged input to the program: node vectors/damage.js [--start N] [--lines N] [--files N] PROGRAM WORD..
//
// Makes lines for `payoff script` by chance from a fixed start (damaged.js): damaged files, tables, texts and lines.
// Has PROGRAM answer them all, in batches, and compares each answer with that of protocol.js; it has to end with
// status 0 and to say nothing beside. Then writes damaged files, and has `payoff show` and `payoff shorten` read them,
// and what is no file at all. PROGRAM is usually crates/payoff/out/payoff (./run help builds it); it may have words
// before it, as valgrind has.
//
// Prints how many lines had which answer. Fails where an answer is another, and prints the shortest such line; and
// where some fault was never reached.
'use strict';
const fs = require('fs');
const os = require('os');
const path = require('path');
const { spawnSync } = require('child_process');
const { hex, times } = require('./shared');
const { LIMITS, bytesOf, judged } = require('./format');
const { answerOf, itemsOf } = require('./protocol');
const { startFrom, anyInput, largeInputs, damagedFile, soundParts, anyRow, below, oneOf } = require('./damaged');

const options = { start: 20260505, lines: 250000, files: 4000 };
const command = process.argv.slice(2);
while (command.length > 0 && command[0].startsWith('--')) options[command.shift().slice(2)] = Number(command.shift());
if (command.length === 0) throw new Error('which program?');

const BATCH = 10000;
const MOST_OUTPUT = 1 << 30;

const counts = {};
function count(...words) {
  const key = words.join(', ');
  counts[key] = (counts[key] || 0) + 1;
}

const run = (words, more = {}) => spawnSync(command[0], [...command.slice(1), ...words], { maxBuffer: MOST_OUTPUT, ...more });

// What went wrong: of a line, or of what the program did besides.
const wrong = { lines: [], runs: [] };
function fault(shown, expected, found, kind = 'runs') {
  wrong[kind].push({ shown, expected, found });
}

// ---- Lines ----

// The sort of an item of an answer.
const sortOf = (item) => /^(refused \d+|ok|loaded|malformed|kept|rewritten|swept|end)?/.exec(item)[0] || 'a tree';

// So many lines, or a few more: input may have line feeds in it. The first batch has each long line and large file.
function batch(most, first) {
  const linesOf = ({ sort, how, line }) => line.split('\n').map((one) => ({ sort, how, line: Buffer.from(one, 'latin1') }));
  const lines = first ? largeInputs().flatMap(linesOf) : [];
  while (lines.length < most) lines.push(...linesOf(anyInput()));
  return lines;
}

// The bytes of the lines, of which the last line feed may be missing. An empty line is none without its line feed.
function inputOf(lines, whole) {
  const feed = Buffer.from('\n');
  const bytes = Buffer.concat(lines.flatMap(({ line }) => [line, feed]));
  const ends = whole || lines[lines.length - 1].line.length === 0;
  return ends ? bytes : bytes.subarray(0, bytes.length - 1);
}

function askLines(lines, whole) {
  const input = inputOf(lines, whole);
  const { status, signal, error, stdout, stderr } = run(['script'], { input });
  const answers = stdout.toString('latin1').split('\n');
  const last = answers.pop();
  if (last !== '') fault('the end of the output', 'a line feed', last);
  lines.forEach(({ sort, how, line }, i) => {
    if (i > answers.length) return; // behind the line at which the program stopped
    const expected = answerOf(line);
    const items = expected.split('; ');
    count('lines', sort, sortOf(items[0]));
    count('how', sort, how);
    items.forEach((item) => count('answers', sortOf(item)));
    if (answers[i] !== expected) fault(line.toString('latin1'), expected, i < answers.length ? answers[i] : 'nothing', 'lines');
  });
  if (answers.length !== lines.length) fault('a batch', `${lines.length} answers`, `${answers.length} answers`);
  if (status !== 0 || signal !== null || error !== undefined || stderr.length > 0) fault('the end of a batch', 'status 0 and no message', `${status} ${signal} ${error} ${stderr.toString('latin1').slice(0, 300)}`);
  return input.length;
}

// ---- Files ----

const folder = fs.mkdtempSync(path.join(os.tmpdir(), 'damage-'));
const placed = (name, bytes) => { const file = path.join(folder, name); fs.writeFileSync(file, bytes); return file; };

// What is printed of files on standard output, and what each line has to begin with on standard error.
function expectedOf(files, settings, calls) {
  const shown = [];
  const said = [];
  for (const { file, bytes } of files) {
    const [first, ...items] = itemsOf(bytes, LIMITS, settings, calls);
    count('files', calls.length > 1 ? 'shorten' : 'show', sortOf(first));
    if (first !== 'loaded') said.push(`${file}: ${first}: `);
    else shown.push(calls.length > 1 ? `${file}: ${items[1]}; ${items[0]}; ${items[2]}` : `${file}: ${items[0]}`);
  }
  if (said.length > 0) said.push(`payoff: refused ${said.length} of ${files.length} files`);
  return { shown, said };
}

// Has the program do it, and compares the status, the output, and how each message begins. Where the start ends with a
// space, a sentence has to stand behind it.
function ask(words, { shown, said }, more) {
  const { status, signal, stdout, stderr } = run(words, more);
  const [out, err] = [stdout, stderr].map((bytes) => bytes.toString('latin1').split('\n'));
  const texts = shown.map((line) => Buffer.from(line).toString('latin1'));
  const starts = said.map((line) => Buffer.from(line).toString('latin1'));
  const name = words.slice(0, 6).join(' ');
  if (status !== (said.length > 0 ? 1 : 0) || signal !== null) fault(name, `status ${said.length > 0 ? 1 : 0}`, `${status} ${signal} ${err.join(' ').slice(0, 300)}`);
  if (out.pop() !== '' || err.pop() !== '') fault(name, 'line feeds at the end', `${out.length} and ${err.length} lines`);
  if (out.length !== texts.length) fault(name, `${texts.length} lines`, `${out.length} lines`);
  texts.forEach((line, i) => { if (out[i] !== line) fault(`${name}: ${i}`, line, out[i]); });
  if (err.length !== starts.length) fault(name, `${starts.length} messages`, `${err.length}: ${err.slice(0, 3).join(' / ')}`);
  starts.forEach((start, i) => { if (!(err[i] || '').startsWith(start) || (start.endsWith(' ') && err[i] === start)) fault(`${name}: ${i}`, start, err[i]); });
}

// Damaged files by chance, shown, or shortened by any host.
function askFiles(many) {
  const files = times(many, (_, i) => {
    const bytes = below(5) === 0 ? bytesOf(soundParts()) : below(40) === 0 ? Buffer.alloc(0) : damagedFile().bytes;
    return { file: placed(`${i}.payoff`, bytes), bytes };
  });
  const paths = files.map(({ file }) => file);
  if (below(3) === 0) return ask(['show', ...paths], expectedOf(files, { templates: true, power: true }, ['tree']));
  const rows = Buffer.from(times(below(60), anyRow));
  const table = placed('rows', rows);
  const [host, word] = oneOf([['silent'], ['structural'], ['structural=ff,4d617468,'], [`table=${hex(rows)}`, `table=${table}`], [`table=${hex(rows)}`, `table=${table}`]]);
  const settings = { templates: below(3) > 0, power: below(3) > 0 };
  const switches = [...(settings.templates ? [] : ['--no-templates']), ...(settings.power ? [] : ['--no-power'])];
  return ask(['shorten', '--host', word || host, ...switches, ...paths], expectedOf(files, settings, [`sweep:${host}`, 'tree']));
}

// What is no file, or is none for a payoff. Each is asked of `show` and `shorten`, alone and between two files.
function askOddFiles() {
  const good = { file: placed('good.payoff', bytesOf(soundParts())) };
  good.bytes = fs.readFileSync(good.file);
  const inner = path.join(folder, 'inner');
  fs.mkdirSync(inner);
  fs.symlinkSync('loop', path.join(folder, 'loop'));
  const large = Buffer.alloc(32 + 20 * LIMITS[0] + 4 * LIMITS[1] + LIMITS[2] + 1, 1);
  const odd = [inner, path.join(folder, 'missing'), path.join(folder, 'loop'), `${good.file}/`, '', `${folder}/${'x'.repeat(300)}`, 'x/'.repeat(3000)].map((file) => ({ file }));
  const files = [['empty', Buffer.alloc(0)], ['large', large], ['larger', Buffer.alloc(20000000)]].map(([name, bytes]) => ({ file: placed(name, bytes), bytes }));
  files.push({ file: '/dev/null', bytes: Buffer.alloc(0) });
  for (const one of [...odd, ...files]) {
    const judgement = one.bytes === undefined ? '' : `refused ${judged(one.bytes).fault} layer 2 node ${judged(one.bytes).node}: `;
    const trees = itemsOf(good.bytes, LIMITS, { templates: true, power: true }, ['tree', 'sweep:structural', 'tree']);
    for (const [word, line] of [['show', trees[1]], ['shorten', `${trees[3]}; ${trees[2]}; ${trees[4]}`]]) {
      const said = (n) => [`${one.file}: ${judgement}`, `payoff: refused 1 of ${n} files`];
      count('files', word, judgement === '' ? 'no file' : sortOf(judgement));
      ask([word, one.file], { shown: [], said: said(1) });
      ask([word, good.file, one.file, good.file], { shown: times(2, () => `${good.file}: ${line}`), said: said(3) });
    }
  }
}

// A file that may not be read, by a user who is not root, and a path that is no UTF-8.
function askShut() {
  const shut = placed('shut', bytesOf(soundParts()));
  fs.chmodSync(shut, 0);
  fs.chmodSync(folder, 0o755);
  const nobody = process.getuid() === 0 ? { uid: 65534, gid: 65534 } : {};
  for (const word of ['show', 'shorten']) {
    count('files', word, 'no file');
    ask([word, shut], { shown: [], said: [`${shut}: `, 'payoff: refused 1 of 1 files'] }, nobody);
    const { status, stdout, stderr } = spawnSync('sh', ['-c', 'exec "$@" "$(printf \'/tmp/\\377\')"', 'sh', ...command, word]);
    if (status !== 1 || stdout.length > 0 || !stderr.toString().startsWith('payoff: ')) fault('a path that is no UTF-8', 'status 1', `${status} ${stderr}`);
  }
}

// Words that ask for nothing. Nothing is read, and one message says so.
function askOddWords() {
  const file = path.join(folder, 'good.payoff');
  const hosts = ['', 'silent=', 'Silent', 'structural=6', 'structural=zz', 'structural=AA', 'structural=61;62', 'table', 'table=', `table=${folder}`, `table=${folder}/missing`, 'chain:silent'];
  const words = [['show'], ['shorten'], ['shorten', '--host'], ['shorten', '--host', 'silent'], ['shorten', '--no-power'], ['shorten', '--no-such', file], ['shorten', file, '--'],
    ['label', 'x'], ['script', 'x'], ['help', ''], ['Show', file], [''], ['show\t'], ['--host'], ...hosts.map((host) => ['shorten', '--host', host, file])];
  for (const some of words) {
    count('words', 'refused');
    ask(some, { shown: [], said: ['payoff: '] });
  }
  const shut = fs.openSync(folder, 'r');
  ask(['script'], { shown: [], said: ['payoff: '] }, { stdio: [shut, 'pipe', 'pipe'] }); // standard input is a folder
  fs.closeSync(shut);
  const elsewhere = path.join(folder, 'elsewhere'); // the quote's payoff, which is read where the program runs
  fs.mkdirSync(elsewhere);
  const program = command.map((word) => (fs.existsSync(word) ? path.resolve(word) : word));
  for (const [bytes, start] of [[undefined, 'payoff: quote.payoff: '], [Buffer.alloc(40), 'payoff: refused 1 layer 2 node 0: ']]) {
    if (bytes !== undefined) fs.writeFileSync(path.join(elsewhere, 'quote.payoff'), bytes);
    const { status, stdout, stderr } = spawnSync(program[0], program.slice(1), { cwd: elsewhere });
    if (status !== 1 || stdout.length > 0 || !stderr.toString().startsWith(start)) fault('no word', start, `${status} ${stderr}`);
  }
}

// ---- A run ----

startFrom(options.start);
let asked = 0;
let bytes = 0;
for (let number = 0; asked < options.lines; number++) {
  const lines = batch(Math.min(BATCH, options.lines - asked), number === 0);
  bytes += askLines(lines, number % 2 === 0);
  asked += lines.length;
}
for (let left = options.files; left > 0; left -= 40) askFiles(Math.min(40, left));
if (options.files > 0) {
  askOddFiles();
  askShut();
  askOddWords();
}
fs.rmSync(folder, { recursive: true, force: true });
for (const key of Object.keys(counts).sort()) console.log(`${String(counts[key]).padStart(8)} ${key}`);
console.log(`${asked} lines of ${bytes} bytes, ${options.files} files, start ${options.start}`);
const missed = times(13, (_, i) => i + 1).filter((n) => counts[`answers, refused ${n}`] === undefined);
if (missed.length > 0 && options.lines > 0) fault('all lines', 'each fault', `none of ${missed.join(', ')}`);
const shortest = wrong.lines.sort((a, b) => a.shown.length - b.shown.length).slice(0, 1);
for (const { shown, expected, found } of [...wrong.runs.slice(0, 5), ...shortest]) {
  console.log(`wrong: ${JSON.stringify(shown)}\n  has to give ${expected}\n  and gives   ${found}`);
}
if (wrong.lines.length + wrong.runs.length > 0) {
  console.log(`${wrong.lines.length} lines, of which the last one above is the shortest, and ${wrong.runs.length} runs are wrong`);
  process.exit(1);
}
