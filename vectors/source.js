// Payoffs as JavaScript: the source of a tree, and the tree of a printed form (docs/FORMAT.md, "The printed form").
'use strict';
const { KINDS, UNARY, BINARY, make, textOf } = require('./format');

// ---- The tree of a printed form ----

function treeOfForm(form) {
  const words = form.match(/[()[\]]|[^ ()[\]]+/g);
  let at = 0;
  const until = (end, read) => {
    const all = [];
    while (words[at] !== end) all.push(read());
    at++;
    return all;
  };
  const bytes = (hexadecimal) => [...Buffer.from(hexadecimal, 'hex')];
  const withText = (n, hexadecimal) => ({ ...n, texts: [bytes(hexadecimal)] });
  const quasi = () => {
    const texts = words[at++].split(':').map(bytes);
    return { ...make.null(), kind: 13, texts };
  };
  const parenthesized = () => {
    const word = words[at++];
    if (word === '...') return make.spread(until(')', expression)[0]);
    if (word === 'call') { const [f, ...xs] = until(')', expression); return make.call(f, xs); }
    if (word === 'at') return make.at(...until(')', expression));
    if (word === '.') {
      const object = expression();
      const name = words[at++];
      if (name === ')') return withText(make.dot(object, ''), ''); // a member with an empty name
      at++;
      return withText(make.dot(object, ''), name);
    }
    if (word === 'template') {
      let k = 0;
      return make.template(until(')', () => (k++ % 2 === 0 ? quasi() : expression())));
    }
    if (word === 'opaque') {
      const [mark, flag] = [Number(words[at++]), Number(words[at++])];
      return make.opaque(until(')', expression), mark, flag);
    }
    const xs = until(')', expression);
    if (UNARY.includes(word)) return make.unary(word, xs[0]);
    if (BINARY.includes(word)) return make.binary(word, ...xs);
    throw new Error(`no printed form: ${word}`);
  };
  function expression() {
    const word = words[at++];
    if (word === '(') return parenthesized();
    if (word === '[') return make.array(until(']', expression));
    if (word === 'null') return make.null();
    if (word === 'hole') return make.hole();
    if (word === 'true' || word === 'false') return make.boolean(word === 'true');
    const [sort, value] = word.split(':');
    if (sort === 's') return withText(make.string(''), value);
    if (sort === 'id') return withText(make.name(''), value);
    if (sort === 'n') return make.bits(BigInt(`0x${value}`));
    throw new Error(`no printed form: ${word}`);
  }
  const tree = expression();
  if (at !== words.length) throw new Error(`more than a printed form: ${form}`);
  return tree;
}

// ---- The source of a tree ----

const numberOf = (bits) => { const b = Buffer.alloc(8); b.writeBigUInt64LE(bits); return b.readDoubleLE(); };

// The source, with brackets around every operand. A member in brackets is still a reference. `opaqueSource` gives the
// source of an opaque node, from its node and the sources of its children.
function sourceOf(n, opaqueSource) {
  const below = n.children.map((child) => sourceOf(child, opaqueSource));
  const text = (k = 0) => textOf(n.texts[k]);
  switch (KINDS[n.kind][0]) {
    case 'string': return JSON.stringify(text());
    case 'number': { const x = numberOf(n.value); return Object.is(x, -0) ? '-0' : String(x); }
    case 'boolean': return n.flag === 1 ? 'true' : 'false';
    case 'null': return 'null';
    case 'name': return text();
    case 'hole': return '';
    case 'spread': return `...(${below[0]})`;
    case 'array': return `[${below.map((x) => `${x},`).join(' ')}]`; // a comma behind each, so that holes count
    case 'static': return `(${below[0]}).${text()}`;
    case 'computed': return `(${below[0]})[${below[1]}]`;
    case 'call': return `(${below[0]})(${below.slice(1).join(', ')})`;
    case 'template': return `\`${below.map((x, k) => (k % 2 === 0 ? x : `\${${x}}`)).join('')}\``;
    case 'quasi': return text();
    case 'unary': return `${{ plus: '+', minus: '-', void: 'void ' }[UNARY[n.flag]]}(${below[0]})`;
    case 'binary': return `(${below[0]}) ${BINARY[n.flag]} (${below[1]})`;
    case 'opaque': return opaqueSource(n, below);
  }
}

module.exports = { treeOfForm, sourceOf, numberOf };
