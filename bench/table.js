// Prints what was measured, and the verdict: node bench/table.js, behind bench/run, which leaves out/times.txt and
// out/counts.txt. Fails where the verdict is no.
'use strict';
const fs = require('fs');
const path = require('path');

const MOST = 1.5; // how much the library may take, where plain Rust takes 1
const GROWTH = 1.25; // how much more a node may take in a large payoff than in one of 100 nodes
const read = (file) => fs.readFileSync(path.join(__dirname, 'out', file), 'utf8').trim().split('\n').map((line) => line.split(' '));

const sets = new Map();
const setOf = (name) => {
  if (!sets.has(name)) sets.set(name, { name, instructions: {}, time: {} });
  return sets.get(name);
};
const totals = new Map();
for (const [, name, who, what, repeats, total] of read('counts.txt')) {
  const key = `${name} ${who} ${what}`;
  totals.set(key, { ...totals.get(key), [repeats]: Number(total) });
}
for (const [key, total] of totals) {
  const [name, who, what] = key.split(' ');
  setOf(name).instructions[`${who} ${what}`] = (total[3] - total[1]) / 2;
}
for (const [word, name, ...rest] of read('times.txt')) {
  if (word === 'time') setOf(name).time[`${rest[0]} ${rest[1]}`] = Number(rest[2]);
  else Object.assign(setOf(name), { payoffs: Number(rest[0]), nodes: Number(rest[1]), bytes: Number(rest[2]) });
}
for (const { instructions, time } of sets.values()) {
  for (const of of [instructions, time]) {
    for (const who of ['library', 'plain']) of[`${who} sweep`] = of[`${who} both`] - of[`${who} load`];
  }
}

// What a sweep takes of a small part is lost in the noise of times; then there is no ratio.
const ratio = (of, what) => {
  const [library, plain] = ['library', 'plain'].map((who) => of[`${who} ${what}`]);
  return library > 0 && plain > of['plain both'] / 50 ? library / plain : NaN;
};
const shown = (x, digits = 2) => (Number.isFinite(x) ? x.toFixed(digits) : '-');
const isText = (name) => name.startsWith('text-');
const row = (cells, widths) => cells.map((cell, i) => (i === 0 ? String(cell).padEnd(widths[i]) : String(cell).padStart(widths[i]))).join('  ');

const HEAD = ['set', 'payoffs', 'nodes', 'load', 'plain', 'ratio', 'sweep', 'plain', 'ratio', 'both', 'plain', 'ratio', 'time load', 'sweep', 'both'];
function table(title, names, unit) {
  if (names.length === 0) return;
  console.log(`\n${title}`);
  const rows = names.map((name) => {
    const set = sets.get(name);
    const per = unit === 'byte' ? set.bytes : set.nodes;
    const cells = ['load', 'sweep', 'both'].flatMap((what) => [
      shown(set.instructions[`library ${what}`] / per, 1), shown(set.instructions[`plain ${what}`] / per, 1), shown(ratio(set.instructions, what))]);
    return [name, set.payoffs, set.nodes, ...cells, ...['load', 'sweep', 'both'].map((what) => shown(ratio(set.time, what)))];
  });
  const widths = HEAD.map((word, i) => Math.max(word.length, ...rows.map((cells) => String(cells[i]).length)));
  for (const cells of [HEAD, ...rows]) console.log(row(cells, widths));
}

// ---- The tables ----

const sizeOf = (name) => Number(name.match(/\d+$/));
const familyOf = (name) => name.replace(/-\d+$/, '');
const inOrder = [...sets.keys()].sort((a, b) => familyOf(a).localeCompare(familyOf(b)) || sizeOf(a) - sizeOf(b));
const scaling = inOrder.filter((name) => /^(mixed|kept)-/.test(name));
const texts = inOrder.filter(isText);
const worst = inOrder.filter((name) => name !== 'payoffs' && !scaling.includes(name) && !isText(name));

console.log('Instructions, of the library and of plain Rust, and the ratio of the two; and the ratio of their times.');
table('The payoffs, per node', ['payoffs'], 'node');
table('How it scales, per node', scaling, 'node');
table('The worst shapes, per node', worst, 'node');
table('Long texts, per byte of the file', texts, 'byte');

const all = sets.get('payoffs');
const each = (of, what, per, digits) => `${shown(of[`library ${what}`] / per, digits)} and ${shown(of[`plain ${what}`] / per, digits)}`;
console.log(`\nA payoff takes ${each(all.time, 'both', all.payoffs * 1000)} microseconds, of which loading ${each(all.time, 'load', all.payoffs * 1000)}; its file is copied in ${shown(all.time['copy file'] / all.payoffs / 1000)}.`);
console.log(`It takes ${each(all.instructions, 'both', all.payoffs, 0)} instructions, of which loading ${each(all.instructions, 'load', all.payoffs, 0)}; copying takes ${shown(all.instructions['copy file'] / all.payoffs, 0)}.`);

// ---- The verdict ----

let holds = true;
console.log('');
for (const what of ['load', 'sweep', 'both']) {
  const found = ratio(all.instructions, what);
  const fine = found <= MOST;
  if (what === 'both') holds = holds && fine;
  console.log(`${fine ? 'yes' : 'NO '}  ${what}: the library takes ${shown(found)} times the instructions of plain Rust, ${shown(ratio(all.time, what))} times the time`);
}
const counted = inOrder.filter((name) => Number.isFinite(ratio(sets.get(name).instructions, 'both')));
const above = counted.filter((name) => ratio(sets.get(name).instructions, 'both') > MOST);
console.log(`${above.length} of ${counted.length} sets are above ${MOST} times: ${[...new Set(above.map(familyOf))].join(', ') || 'none'}`);

// A family is linear where no size takes more for a node (for a byte, of texts) than the second size does.
for (const who of ['library', 'plain']) {
  const bent = [];
  for (const family of new Set(counted.filter((name) => name !== 'payoffs').map(familyOf))) {
    const members = counted.filter((name) => familyOf(name) === family);
    for (const what of ['load', 'both']) {
      const costs = members.map((name) => sets.get(name).instructions[`${who} ${what}`] / (isText(name) ? sets.get(name).bytes : sets.get(name).nodes));
      const [first, last] = [costs[Math.min(1, costs.length - 2)], costs[costs.length - 1]];
      if (!(last <= GROWTH * first)) bent.push(`${family} ${what} (${costs.map((cost) => shown(cost, 1)).join(' ')})`);
    }
  }
  if (who === 'library') holds = holds && bent.length === 0;
  console.log(`${bent.length === 0 ? 'yes' : 'NO '}  ${who}: the cost is linear${bent.length === 0 ? '' : `, but of ${bent.join(', ')}`}`);
}
console.log(holds ? 'holds' : 'does not hold');
process.exitCode = holds ? 0 : 1;
