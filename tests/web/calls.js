// node calls.js BULGEFS.wasm DECLARED NATIVE TEXTS [CALLS] [SEED]: bulgefs.js against the native archive.
//
// A walk of pseudo-random calls of every method, on sound and damaged volumes. Each call goes to the program NATIVE too (native.awk), with the bytes that
// the volume had before it; answers and all buffers must be the same. DECLARED is what ports/declared.awk says of the header, TEXTS its words for numbers.
const fs = require("fs"), path = require("path"), assert = require("assert");
const { spawnSync } = require("child_process");
const Bulgefs = require("../../web/bulgefs.js");
const { judge, finish, random } = require("./judge.js");

const [wasm, declaredFile, native, texts, length = "16000", seed = "1"] = process.argv.slice(2);
const declared = readDeclared(fs.readFileSync(declaredFile, "utf8"));
const PARTS = ["image", "journal", "own", "file"], BATCH = 300;
const chance = random(+seed), { below, oneIn, pick, bytes } = chance;

// The calls in the header's order: name, fields of the answer, and of each parameter its kind and whether it may be changed.
function readDeclared(text) {
  const lines = text.split("\n").map((line) => line.split("\t")), fields = new Map();
  for (const [kind, name, ...rest] of lines) if (kind === "struct") fields.set(name, rest.filter((_, i) => i % 2 === 1).map(Bulgefs.method));
  const calls = lines.filter(([kind]) => kind === "call").map(([, name, answer, ...rest]) => {
    const parameters = [];
    for (let i = 0; i < rest.length; i += 2) {
      const run = /^(const )?uint(8|32)_t \*$/.test(rest[i]);
      parameters.push({ run, changed: run && !rest[i].startsWith("const "), position: rest[i] === "uint64_t *", uuid: rest[i] === "bulgefs_uuid", name: rest[i + 1] });
      if (run) i += 2;
    }
    return { name: name.replace(/^bulgefs_/, ""), fields: fields.get(answer), parameters };
  });
  return new Map(calls.map((call, index) => [call.name, { ...call, index }]));
}

// ---- what the native program is told, and what it must answer ----

const number4 = (value) => { const b = Buffer.alloc(4); b.writeUInt32LE(value); return b; };
const number8 = (value) => { const b = Buffer.alloc(8); b.writeBigUInt64LE(BigInt(value)); return b; };
const raw = (value) => (typeof value === "string" ? Buffer.from(value) : Buffer.from(value.buffer, value.byteOffset, value.byteLength));

class Recorder {
  asked = []; wanted = []; ends = []; seen = new Map();

  // Makes the call, and writes down what it was given and what it left. The parts are those of the volume unless the test lends others.
  make(volume, name, ...given) {
    const call = declared.get(name), form = Bulgefs.calls[name].split(" ").slice(1), before = [number4(call.index)];
    let next = 0;
    const values = call.parameters.map((parameter, i) => (PARTS.includes(form[i]) ? form[i] : given[next++]));
    call.parameters.forEach((parameter, i) => {
      const value = PARTS.includes(form[i]) ? volume[form[i]] : values[i];
      if (parameter.run) before.push(number4(raw(value).length), Buffer.from(raw(value)));
      else if (parameter.uuid || parameter.position) before.push(Buffer.from(raw(value)));
      else before.push(number8(value));
    });
    const answer = volume[Bulgefs.method(name)](...given);
    assert.deepStrictEqual(typeof answer === "object" ? Object.keys(answer) : undefined, call.fields, name);
    const fields = call.fields ? Object.values(answer) : [answer], after = fields.map(number8);
    call.parameters.forEach((parameter, i) => {
      if (parameter.changed || parameter.position) after.push(Buffer.from(raw(PARTS.includes(form[i]) ? volume[form[i]] : values[i])));
    });
    this.asked.push(Buffer.concat(before));
    this.wanted.push({ name, bytes: Buffer.concat(after) });
    this.count(name, answer);
    if (this.asked.length >= BATCH) this.compare();
    return answer;
  }

  // A part of length 0 and a size of 0 count as refusals; the version has none.
  count(name, answer) {
    const number = typeof answer === "bigint" ? (answer === 0n) : typeof answer === "number" ? (name === "version" ? 0 : answer) : answer.number ?? (answer.length === 0);
    const seen = this.seen.get(name) ?? new Map();
    seen.set(Number(number), (seen.get(Number(number)) ?? 0) + 1);
    this.seen.set(name, seen);
  }

  compare() {
    if (this.asked.length === 0) return;
    const { stdout, status, error } = spawnSync(native, { input: Buffer.concat(this.asked), maxBuffer: 1 << 30 });
    assert.ifError(error);
    let at = 0;
    for (const { name, bytes } of this.wanted) {
      assert(bytes.equals(stdout.subarray(at, at + bytes.length)), `${name} differs from the native archive`);
      at += bytes.length;
    }
    assert.strictEqual(at, stdout.length);
    assert.strictEqual(status, 0);
    this.asked = [];
    this.wanted = [];
  }
}

// ---- the walk ----

const names = ["f0", "f0", "f0", "f1", "SN4471", "d0"];
const folder = () => (oneIn(5) ? "/" + pick(["d0", "d1", "d0/d0", "f0"]) : "");
function filePath() {
  if (oneIn(30)) return pick(["", "/", "f0", "/f0/", "//f0", "/" + "n".repeat(81), "/a/b/c/d/e/f/g/h/i/j", bytes(20), "/f\0"]);
  return folder() + "/" + (oneIn(20) ? pick(["é", "x".repeat(80), "\u202e", "<b>"]) : pick(names));
}
const folderPath = () => (oneIn(20) ? filePath() : folder() + "/" + pick(["d0", "d1"]));
const time = () => pick([0n, 1n, 1700000000000n, 0xffffffffffffffffn, BigInt(chance.next())]);
const data = (most) => bytes(oneIn(10) ? most + below(3) : below(oneIn(3) ? most : 60));
const byte = () => below(256);

function list() {
  const items = Array.from({ length: below(4) }, () => {
    const name = raw(filePath()), body = bytes(below(80)), item = Buffer.alloc(18 + name.length + body.length);
    item.writeUInt32BE(item.length, 0); item.writeBigUInt64BE(time(), 4); item.writeUInt32BE(oneIn(4) ? below(50) : 0, 12); item.writeUInt16BE(name.length, 16);
    item.set(name, 18); item.set(body, 18 + name.length);
    return item;
  });
  const all = Buffer.concat([Buffer.alloc(5), ...items]);
  all[0] = 1;
  all.writeUInt32BE(all.length, 1);
  if (oneIn(8)) all[below(Math.min(all.length, 9))] ^= 1;
  return new Uint8Array(all);
}

const STEPS = [
  [9, (v, r) => r.make(v, "create", filePath(), oneIn(20) ? byte() : 0x60 + below(64), byte(), byte(), byte(), oneIn(15) ? 1 : 0, time())],
  [8, (v, r) => r.make(v, "write", filePath(), oneIn(3) ? below(700) : 0, data(4096), time())],
  [4, (v, r) => r.make(v, "append", filePath(), data(4096), time())],
  [3, (v, r) => r.make(v, "shorten", filePath(), below(oneIn(2) ? 9 : 900), time())],
  [3, (v, r) => r.make(v, "replace", filePath(), data(4096), time())],
  [3, (v, r) => r.make(v, "write_list", list())],
  [4, (v, r) => r.make(v, "delete", filePath())],
  [4, (v, r) => r.make(v, "move", filePath(), filePath())],
  [5, (v, r) => r.make(v, "create_directory", folderPath(), oneIn(20) ? byte() : 0x20 + below(64), byte(), byte(), byte(), oneIn(15) ? 1 : 0, oneIn(15) ? below(70) : 1 + below(2), time())],
  [3, (v, r) => r.make(v, "delete_directory", folderPath())],
  [3, (v, r) => r.make(v, "set_attributes", filePath(), bytes(oneIn(8) ? below(5000) : 512 * below(4)))],
  [2, (v, r) => r.make(v, "clear_attributes", filePath())],
  [2, (v, r) => r.make(v, "clear_flags", filePath())],
  [3, (v, r) => r.make(v, "read_attributes", filePath(), bytes(below(1600)))],
  [5, (v, r) => r.make(v, "put_settings", pick(["SN4471", "SN4472", "SN-1", "d0", ""]), data(200), time())],
  [5, (v, r) => r.make(v, "put_settings_in", pick(["/", "/d0", "/d1", "d0", ""]), pick(["SN4471", "SN4472"]), data(200), time())],
  [3, (v, r) => r.make(v, "get_settings", pick(["SN4471", "SN4472", "f0"]), below(6), bytes(oneIn(9) ? 199 : 200 + below(9)))],
  [3, (v, r) => r.make(v, "get_settings_in", pick(["/", "/d0"]), pick(["SN4471", "SN4472"]), below(6), bytes(200))],
  [2, (v, r) => r.make(v, "get_latest_settings", pick(["SN4471", "SN4472", "f0"]), bytes(200))],
  [2, (v, r) => r.make(v, "get_latest_settings_in", pick(["/", "/d0"]), pick(["SN4471", "SN4472"]), bytes(200))],
  [5, (v, r) => r.make(v, "undo")],
  [3, (v, r) => { const j = r.make(v, "journal_info"); if (j.number === 0 && oneIn(2)) v.mark = j.used; }],
  [2, (v, r) => r.make(v, "undo_to", oneIn(4) ? below(3000) : v.mark ?? 5)],
  [1, (v, r) => r.make(v, "journal_start")],
  [1, (v, r) => r.make(v, "version")],
  [2, (v, r) => r.make(v, "check")],
  [2, (v, r) => r.make(v, "plain_check")],
  [3, (v, r) => r.make(v, "lookup", filePath())],
  [4, (v, r) => r.make(v, "read", filePath(), pick([0, 0n, below(900), 0xffffffffffffffffn]), bytes(below(1500)))],
  [4, (v, r) => r.make(v, "read_next", filePath(), BigUint64Array.of(pick([0n, 5n, BigInt(below(900)), 1n << 63n])), bytes(below(800)))],
  [3, (v, r) => r.make(v, "look_in_place", filePath(), pick([0, 1, 2n, 1n << 40n]))],
  [2, (v, r) => r.make(v, "info", bytes(below(160)))],
  [4, (v, r) => r.make(v, "entry", oneIn(2) ? "/" : folderPath(), oneIn(9) ? chance.next() : below(9), bytes(below(90)))],
  [3, (v, r) => { const t = new Uint32Array(v.image.length / 512 + (oneIn(4) ? 1 : 0)); r.make(v, "load_table", t); if (oneIn(3)) r.make(v, "store_table", t); }],
  [2, (v, r) => spoiled(v, () => r.make(v, "salvage", bytes(oneIn(9) ? below(9) : 256)))],
  [2, (v, r) => { if (declared.has("salvage_tree")) spoiled(v, () => r.make(v, "salvage_tree", bytes(oneIn(9) ? 9 : v.image.length / 128))); }],
  [3, (v, r) => spoiled(v, () => r.make(v, pick(["check", "plain_check"])))],
  [3, (v, r) => spoiled(v, () => pick(STEPS)[1](v, r))],
  [1, (v, r) => { const image = v.image.slice(), journal = v.journal.slice(); format(v, r); if (oneIn(2)) { v.image.set(image); v.journal.set(journal); } }],
  [9, (v, r) => fileStep(v, r)],
];

const format = (v, r) => r.make(v, "format", oneIn(5) ? below(70) : 1 + below(2), time(), bytes(16), oneIn(9) ? bytes(127) : bytes(128));

// A call on a volume with some bytes damaged, which are then put back.
function spoiled(v, call) {
  const image = v.image.slice(), journal = v.journal.slice();
  for (let times = 1 + below(3); times > 0; times--) {
    const part = oneIn(5) ? v.journal : v.image;
    part[below(oneIn(2) ? Math.min(part.length, 2100) : part.length)] = pick([0, 1, 2, 255, below(256)]);
  }
  call();
  v.image.set(image);
  v.journal.set(journal);
}

function fileStep(v, r) {
  const sectors = [v.image, v.journal, v.own].map((part) => Math.floor(part.length / 512));
  if (!v.begun || oneIn(9)) {
    r.make(v, "file_size", ...(oneIn(3) ? [below(3), 1, 0] : sectors));
    v.begun = r.make(v, "file_begin", ...(oneIn(9) ? [sectors[0] + 1, sectors[1], sectors[2]] : sectors)) === 0 || v.begun;
  }
  if (oneIn(12)) v.file[below(oneIn(2) ? 1100 : v.file.length)] ^= 1 << below(8);
  if (v.own.length > 0) v.own[below(v.own.length)] ^= 255;
  switch (below(6)) {
    case 0: r.make(v, "file_check"); break;
    case 1: r.make(v, "file_parts"); break;
    case 2: r.make(v, "file_home", below(oneIn(2) ? 3 : 90)); break;
    case 3: r.make(v, "file_commit"); break;
    case 4: r.make(v, "file_recover"); break;
    default: r.make(v, "file_prepare");
  }
}

async function walk(library, calls) {
  const recorder = new Recorder(), weights = STEPS.flatMap((step) => Array(step[0]).fill(step[1]));
  recorder.make(await library.volume({ journal: 4 }), "journal_start");
  let made = 0;
  while (made < calls) {
    const n = oneIn(12) ? below(4) : oneIn(40) ? 4200 : 3 + below(28), m = 1 + below(24), x = below(3);
    const lengths = { image: 512 * n, journal: 512 * m, own: 512 * x, file: 512 * (2 + 2 * (n + m + x) + Math.floor((n + m + x + 128) / 128)) };
    if (oneIn(6)) lengths[pick(PARTS)] = below(oneIn(2) ? 9 : 600);
    if (n > 100) lengths.file = 0;
    const volume = await library.volume(lengths), turns = n > 100 ? 12 : 60 + below(60);
    for (const part of PARTS) volume[part].set(bytes(Math.min(volume[part].length, 3000)));
    for (let tries = 0; tries < 9 && format(volume, recorder) !== 0; tries++);
    recorder.make(volume, "journal_start");
    for (let turn = 0; turn < turns; turn++, made++) pick(weights)(volume, recorder);
    recorder.compare();
  }
  return recorder.seen;
}

// ---- the tests ----

async function main() {
  const library = await Bulgefs.load(fs.readFileSync(wasm));
  let seen = new Map();

  await judge("every call of the header has a method, and no other", () => {
    const later = ["salvage_tree"];
    for (const name of declared.keys()) assert(name in Bulgefs.calls, `${name} has no method`);
    for (const name of Object.keys(Bulgefs.calls)) assert(declared.has(name) || later.includes(name), `${name} is no call of the header`);
    for (const name of declared.keys()) assert(library.has(Bulgefs.method(name)), `${name} is not exported`);
    assert(!library.has("noSuchCall"));
  });
  await judge("the walk: answers and bytes are those of the native archive", async () => { seen = await walk(library, +length); });
  for (const name of declared.keys()) {
    await judge(`${name} was accepted and refused in the walk`, () => {
      const numbers = [...(seen.get(name)?.keys() ?? [])];
      assert(numbers.includes(0), "never accepted");
      assert(name === "version" || numbers.some((number) => number !== 0), "never refused");
    });
  }
  await judge("words are those of the header", () => {
    for (const line of fs.readFileSync(texts, "utf8").trim().split("\n")) {
      const [kind, number, words] = line.split("\t");
      assert.strictEqual(Bulgefs[kind](+number), words);
    }
  });
  await judge("the declarations have every method, with its parameters", () => {
    const types = fs.readFileSync(path.join(__dirname, "../../web/bulgefs.d.ts"), "utf8");
    for (const [name, form] of Object.entries(Bulgefs.calls)) {
      const found = types.match(new RegExp(`^  ${Bulgefs.method(name)}\\((.*)\\): `, "m"));
      assert(found, `${name} is not declared`);
      const wanted = form.split(" ").slice(1).filter((kind) => !PARTS.includes(kind)).length;
      assert.strictEqual(found[1] === "" ? 0 : found[1].split(", ").length, wanted, name);
    }
  });
  await judge("what is no argument is thrown, and nothing changes", async () => {
    const volume = await library.volume({ image: 16 * 512, journal: 4096 });
    volume.format(1, 0, new Uint8Array(16), new Uint8Array(128));
    volume.journalStart();
    const before = Buffer.from(volume.image);
    for (const call of [() => volume.create("/a", 256, 0, 0, 0, 0, 0), () => volume.create("/a", 0x60, 0, 0, 0, 0), () => volume.lookup(5), () => volume.lookup("/a", 1),
      () => volume.write("/a", -1, "x", 0), () => volume.write("/a", 1.5, "x", 0), () => volume.write("/a", 1n << 64n, "x", 0), () => volume.read("/a", 0, "x"),
      () => volume.readNext("/a", 0n, new Uint8Array(1)), () => volume.format(1, 0, new Uint8Array(15), ""), () => volume.loadTable(new Uint8Array(64)), () => volume.undoTo("5")]) {
      assert.throws(call, TypeError);
    }
    await assert.rejects(library.volume({ image: 1.5 }), TypeError);
    assert(before.equals(Buffer.from(volume.image)));
    assert.strictEqual(volume.check(), 0);
  });
  await judge("nothing that was lent is kept", async () => {
    const volume = await library.volume({ image: 16 * 512, journal: 4096 }), secret = "a secret path that is long enough to be found";
    volume.format(1, 0, new Uint8Array(16), new Uint8Array(128));
    volume.lookup("/" + secret);
    volume.read("/" + secret, 0, Buffer.from(secret.repeat(3000)));
    assert(!Buffer.from(volume.image.buffer).includes(secret));
  });
  await judge("each volume has a memory of its own", async () => {
    const [a, b] = [await library.volume({ image: 1536 }), await library.volume({ image: 1536 })];
    a.image.fill(7);
    assert(b.image.every((byte) => byte === 0) && a.image.buffer !== b.image.buffer);
  });
  await judge("the largest volume and volume file", async () => {
    const volume = await library.volume({ image: 65536 * 512, journal: 1 << 20 });
    assert.strictEqual(volume.format(64, 0, new Uint8Array(16), new Uint8Array(128)), 0);
    volume.journalStart();
    assert.strictEqual(volume.create("/SN4471", 0x60, 0, 0, 0, 0, 1n).number, 0);
    assert.strictEqual(volume.check(), 0);
    assert.strictEqual(volume.fileSize(65536, 131072, 128), 202246144n);
  });
  const total = [...seen.values()].reduce((sum, numbers) => sum + [...numbers.values()].reduce((a, b) => a + b, 0), 0);
  console.log(`the walk made ${total} calls`);
  finish();
}
main();
