// mark.js - the note of this morning in the program's own sectors of a volume file (docs/COUNTER.md, 3), and SHA-256.

const SECTOR = 512, SIGNATURE = "BulgeDay", VERSION = 0x00010000;

// The round constants are the first 32 bits of the fractional parts of the cube roots of the first 64 primes, the first state those of the square roots of
// the first 8. They are worked out here, with whole numbers.
const primes = (() => {
  const found = [];
  for (let n = 2; found.length < 64; n++) if (found.every((p) => n % p !== 0)) found.push(n);
  return found.map(BigInt);
})();

// The whole part of the root of a number, of degree 2 or 3.
function root(number, degree) {
  let low = 0n, high = 1n << 64n;
  while (low < high) {
    const middle = (low + high + 1n) / 2n;
    if (middle ** degree <= number) low = middle; else high = middle - 1n;
  }
  return low;
}
const fraction = (prime, degree) => Number(BigInt.asUintN(32, root(prime << (32n * degree), degree)));
const ROUNDS = Int32Array.from(primes, (p) => fraction(p, 3n));
const FIRST = Int32Array.from(primes.slice(0, 8), (p) => fraction(p, 2n));

function sha256(bytes) {
  const state = FIRST.slice(), words = new Int32Array(64), whole = bytes.length - (bytes.length % 64);
  for (let at = 0; at < whole; at += 64) round(state, words, bytes, at);
  const rest = new Uint8Array(bytes.length - whole < 56 ? 64 : 128);
  rest.set(bytes.subarray(whole));
  rest[bytes.length - whole] = 0x80;
  new DataView(rest.buffer).setBigUint64(rest.length - 8, BigInt(bytes.length) * 8n);
  for (let at = 0; at < rest.length; at += 64) round(state, words, rest, at);
  const hash = new Uint8Array(32), view = new DataView(hash.buffer);
  state.forEach((word, i) => view.setInt32(4 * i, word));
  return hash;
}

function round(state, words, bytes, at) {
  for (let i = 0; i < 16; i++, at += 4) words[i] = (bytes[at] << 24) | (bytes[at + 1] << 16) | (bytes[at + 2] << 8) | bytes[at + 3];
  for (let i = 16; i < 64; i++) {
    const x = words[i - 15], y = words[i - 2];
    const s0 = ((x >>> 7) | (x << 25)) ^ ((x >>> 18) | (x << 14)) ^ (x >>> 3), s1 = ((y >>> 17) | (y << 15)) ^ ((y >>> 19) | (y << 13)) ^ (y >>> 10);
    words[i] = (words[i - 16] + s0 + words[i - 7] + s1) | 0;
  }
  let a = state[0], b = state[1], c = state[2], d = state[3], e = state[4], f = state[5], g = state[6], h = state[7];
  for (let i = 0; i < 64; i++) {
    const s1 = ((e >>> 6) | (e << 26)) ^ ((e >>> 11) | (e << 21)) ^ ((e >>> 25) | (e << 7));
    const one = (h + s1 + ((e & f) ^ (~e & g)) + ROUNDS[i] + words[i]) | 0;
    const s0 = ((a >>> 2) | (a << 30)) ^ ((a >>> 13) | (a << 19)) ^ ((a >>> 22) | (a << 10));
    const two = (s0 + ((a & b) ^ (a & c) ^ (b & c))) | 0;
    h = g; g = f; f = e; e = (d + one) | 0; d = c; c = b; b = a; a = (one + two) | 0;
  }
  state[0] += a; state[1] += b; state[2] += c; state[3] += d; state[4] += e; state[5] += f; state[6] += g; state[7] += h;
}

const hex = (bytes) => Array.from(bytes, (byte) => byte.toString(16).padStart(2, "0")).join("");

// The first of the own sectors that holds a mark: { at, mark, changes, time, hash }, or null.
function find(own) {
  for (let at = 0; at + SECTOR <= own.length; at += SECTOR) {
    const view = new DataView(own.buffer, own.byteOffset + at, SECTOR);
    if (![...SIGNATURE].every((letter, i) => view.getUint8(i) === letter.charCodeAt(0)) || view.getUint32(8) !== VERSION) continue;
    return { at, mark: view.getUint32(12), changes: view.getUint32(16), time: view.getBigUint64(24), hash: own.slice(at + 32, at + 64) };
  }
  return null;
}

module.exports = { sha256, hex, find, SECTOR };
