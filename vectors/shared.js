// What the makers of vectors share: the stored form of texts, the engine's cooking, and chance from a fixed start.
'use strict';

// The stored form of a text: UTF-8, and a lone surrogate in three bytes as if it were a character.
function stored(text) {
  const bytes = [];
  for (const character of text) { // by code points: a pair is one, a lone surrogate is itself
    const c = character.codePointAt(0);
    if (c < 0x80) bytes.push(c);
    else if (c < 0x800) bytes.push(0xc0 | c >> 6, 0x80 | c & 63);
    else if (c < 0x10000) bytes.push(0xe0 | c >> 12, 0x80 | c >> 6 & 63, 0x80 | c & 63);
    else bytes.push(0xf0 | c >> 18, 0x80 | c >> 12 & 63, 0x80 | c >> 6 & 63, 0x80 | c & 63);
  }
  return bytes;
}

const hex = (bytes) => Buffer.from(bytes).toString('hex');

// The text that the raw text cooks to, or undefined where the engine refuses it as one whole template.
function cooked(raw) {
  const calls = [];
  const tag = (strings) => { calls.push(strings); };
  try {
    new Function('tag', 'tag`' + raw + '`')(tag);
  } catch (error) {
    return undefined; // not a program, or what followed the template failed
  }
  // The template is the whole raw text if its own raw text is; a program reads CR and CR LF as LF.
  const whole = calls.length === 1 && calls[0].length === 1 && calls[0].raw[0] === raw.replace(/\r\n?/g, '\n');
  return whole ? calls[0][0] : undefined; // undefined also where an escape has no value
}

// The raw text of a text, written apart from the program under test. With the flag u a surrogate that is
// half of a pair does not match.
function escaped(text) {
  return text.replace(/[\\`$\r\uD800-\uDFFF]/gu, (c) => {
    if (c === '\r') return '\\r';
    return c < '\uD800' ? '\\' + c : '\\u' + c.charCodeAt(0).toString(16);
  });
}

// Numbers below n by chance, always the same from the same start (mulberry32).
function chance(start) {
  let state = start;
  return (n) => {
    state = state + 0x6d2b79f5 | 0;
    let t = Math.imul(state ^ state >>> 15, 1 | state);
    t = t + Math.imul(t ^ t >>> 7, 61 | t) ^ t;
    return ((t ^ t >>> 14) >>> 0) % n;
  };
}

const times = (n, make) => Array.from({ length: n }, make);

module.exports = { stored, hex, cooked, escaped, chance, times };
