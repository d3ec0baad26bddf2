// node module.js BULGEFS.wasm NAMES: the released WebAssembly module has every call that NAMES lists, and makes a volume, a file and its bytes.
// A structure comes back through a pointer that is the first argument; the UUID goes in by its address.
const fs = require("fs");
const assert = require("assert");
const [file, names] = process.argv.slice(2);
const { memory, __heap_base, ...calls } = new WebAssembly.Instance(new WebAssembly.Module(fs.readFileSync(file))).exports;
for (const name of fs.readFileSync(names, "utf8").split("\n").filter(Boolean)) assert(name in calls, `${name} is not exported`);

let free = __heap_base.value;
memory.grow(4);
const bytes = (n) => { const at = free; free += (n + 15) & ~15; return at; };
const text = (s) => { const at = bytes(s.length); new Uint8Array(memory.buffer).set(Buffer.from(s), at); return [at, s.length]; };
const numbers = (at, n) => Array.from(new Uint32Array(memory.buffer, at, n));

const image = [bytes(64 * 512), 64 * 512], journal = [bytes(65536), 65536], label = [bytes(128), 128], uuid = bytes(16), answer = bytes(64);
const path = text("/SN4471"), data = text("baud=9600"), buffer = [bytes(64), 64];
assert.strictEqual(calls.bulgefs_format(...image, 2, 0n, uuid, ...label), 0);
assert.strictEqual(calls.bulgefs_journal_start(...journal), 0);
calls.bulgefs_create(answer, ...image, ...journal, ...path, 0x60, 0, 0, 0, 0, 1n);
assert.deepStrictEqual(numbers(answer, 3), [0, 1, 520]);
calls.bulgefs_write(answer, ...image, ...journal, ...path, 0n, ...data, 2n);
assert.deepStrictEqual(numbers(answer, 2), [0, 2068]);
calls.bulgefs_read(answer, ...image, ...path, 0n, ...buffer);
assert.deepStrictEqual(numbers(answer, 2), [0, 9]);
assert.strictEqual(Buffer.from(new Uint8Array(memory.buffer, buffer[0], 9)).toString(), "baud=9600");
calls.bulgefs_undo(answer, ...image, ...journal);
assert.deepStrictEqual(numbers(answer, 2), [0, 2068]);
assert.strictEqual(calls.bulgefs_check(...image), 0);
