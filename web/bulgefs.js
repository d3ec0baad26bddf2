// bulgefs.js - the calls of include/bulgefs.h over bulgefs.wasm, for browsers and node.
//
//   const library = await Bulgefs.load(bytes of bulgefs.wasm);
//   const volume = await library.volume({ image: 64 * 512, journal: 65536 });
//   volume.format(2, 0n, new Uint8Array(16), new Uint8Array(128));
//   volume.journalStart();
//   volume.create("/SN4471", 0x60, 0, 0, 0, 0, 1n);              // { number: 0, slot: 1, record: 520 }
//   volume.lookup("/SN4472");                                     // { number: 10, slot: 0, size: 0, blocks: 0 }
//   Bulgefs.text(10);                                             // "not found"
//
// A volume has one WebAssembly memory, which holds its image, its journal, the program's own bytes and the bytes of its volume file, each of the length
// that was asked for. `volume.image` and the others are views of that memory. Ask for a view anew after a call: a call that is lent more than any before it
// makes the memory grow, and a view of before is then empty.
//
// A method is the call of the same name. The four parts above are lent by the volume itself; the other arguments follow in the header's order, without
// their lengths. A path, serial number or data is a string, which is lent as UTF-8, or a Uint8Array. A buffer is a Uint8Array, or a Uint32Array for the
// table; it is copied in before the call and back after it. A number of 64 bits is a BigInt, or a whole number. The answer is the number, or an object
// with the structure's fields. A refusal is an answer. What is no argument at all, as a length of 1.5, is thrown as TypeError.
//
// Nothing is kept between calls: what was lent to a call is zeroed in the memory after it.
(function () {
"use strict";

// The structures: fields in the header's order, of 4 bytes where nothing else is said.
const STRUCTURES = {
  found: "number slot size blocks",
  filled: "number count",
  part: "start length",
  volume: "number blocks used free rootBlocks",
  slot: "number slot type:1 user:1 group:1 permissions:1 flags created:8 modified:8 first size blocks attributeBlock attributeSize",
  created: "number slot record",
  changed: "number record",
  listed: "number done",
  journal: "number used records last",
  put: "number revision record",
  got: "number revision length",
  salvaged: "number dropped freed",
  filePlaces: "number waits imageStart imageLength journalStart journalLength ownStart ownLength",
  filePrepared: "number sectors numbersStart numbersLength sectorsStart sectorsLength",
  fileRecovered: "number waited sectors",
};

// The calls: what each answers, and what it takes. `image`, `journal`, `own` and `file` are the volume's parts; `in` is lent, `out` is lent and comes back.
const CALLS = {
  version: "u32",
  check: "u32 image",
  plain_check: "u32 image",
  format: "u32 image u32 u64 uuid in",
  lookup: "found image in",
  read: "filled image in u64 out",
  read_next: "filled image in position out",
  look_in_place: "part image in u64",
  info: "volume image out",
  entry: "slot image in u32 out",
  journal_start: "u32 journal",
  create: "created image journal in u8 u8 u8 u8 u32 u64",
  write: "changed image journal in u64 in u64",
  shorten: "changed image journal in u64 u64",
  replace: "changed image journal in in u64",
  append: "changed image journal in in u64",
  write_list: "listed image journal in",
  delete: "changed image journal in",
  create_directory: "created image journal in u8 u8 u8 u8 u32 u32 u64",
  delete_directory: "changed image journal in",
  set_attributes: "changed image journal in in",
  read_attributes: "filled image in out",
  clear_attributes: "changed image journal in",
  clear_flags: "changed image journal in",
  move: "created image journal in in",
  put_settings: "put image journal in in u64",
  get_settings: "got image in u32 out",
  get_latest_settings: "got image in out",
  put_settings_in: "put image journal in in in u64",
  get_settings_in: "got image in in u32 out",
  get_latest_settings_in: "got image in in out",
  undo: "changed image journal",
  journal_info: "journal image journal",
  undo_to: "listed image journal u32",
  load_table: "u32 image numbersOut",
  store_table: "u32 image numbers",
  salvage: "u32 image out",
  salvage_tree: "salvaged image out",
  file_size: "u64 u32 u32 u32",
  file_begin: "u32 file u32 u32 u32",
  file_check: "u32 file",
  file_parts: "filePlaces file",
  file_prepare: "filePrepared file image journal own",
  file_commit: "u32 file",
  file_recover: "fileRecovered file",
  file_home: "part file u32",
};

// Words for a number, and for a number of a volume file, by number.
const WORDS = [
  "accepted", "image has a bad length", "image has no signature or another version", "image has bad block numbers in its header",
  "a directory is damaged", "a directory slot is damaged", "a chain or the table is damaged", "counts of used and free blocks are wrong",
  "journal is not well formed", "bad path, type or amount", "not found", "name is taken", "offset is past the file's end",
  "no free slot in the directory", "not enough free blocks", "journal is full", "nothing to undo", "too many directories in the path",
  "directory is not empty", "list of writes is not of the form", "too many blocks of attributes", "not one number for each block",
  "bad serial number, amount or buffer for settings", "no such revision", "file is not one of settings", "revision numbers are used up",
  "system flags are not zero", "no such mark in the journal",
];
const FILE_WORDS = [
  "accepted", "volume file is too short", "volume file has no header, or bad sizes", "volume file has a bad length",
  "log of the volume file has a bad count", "log of the volume file has a bad address", "volume file must be recovered first",
  "image does not fit the volume file", "journal does not fit the volume file", "own bytes do not fit the volume file",
];

const PAGE = 65536, ANSWER_SIZE = 64, PARTS = ["image", "journal", "own", "file"];
const LIMITS = { u8: 0xff, u32: 0xffffffff };
const COMES_BACK = new Set(["out", "numbersOut", "position"]);
const align = (n) => Math.ceil(n / 16) * 16;
const camel = (name) => name.replace(/_([a-z])/g, (_, letter) => letter.toUpperCase());

// The places of a structure's fields, each at a multiple of its bytes.
function layout(fields) {
  let at = 0;
  return fields.split(" ").map((field) => {
    const [name, size = "4"] = field.split(":");
    at = Math.ceil(at / size) * size;
    const place = { name, size: +size, at };
    at += +size;
    return place;
  });
}
const LAYOUTS = Object.fromEntries(Object.entries(STRUCTURES).map(([name, fields]) => [name, layout(fields)]));

function whole(value, most, what) {
  if (!Number.isInteger(value) || value < 0 || value > most) throw new TypeError(`${what}: ${value} is no whole number from 0 to ${most}`);
  return value;
}

function wide(value, what) {
  const number = typeof value === "bigint" ? value : BigInt(whole(value, Number.MAX_SAFE_INTEGER, what));
  if (BigInt.asUintN(64, number) !== number) throw new TypeError(`${what}: ${number} is no number of 64 bits`);
  return number;
}

const encoder = new TextEncoder();
const raw = (view) => new Uint8Array(view.buffer, view.byteOffset, view.byteLength);

// The bytes of an argument, by what the call takes.
function bytesOf(kind, value, what) {
  if (kind === "in" && typeof value === "string") return encoder.encode(value);
  if (kind === "position" && value instanceof BigUint64Array && value.length === 1) return raw(value);
  if (kind.startsWith("numbers") && value instanceof Uint32Array) return raw(value);
  if (value instanceof Uint8Array && (kind === "in" || kind === "out" || (kind === "uuid" && value.length === 16))) return value;
  throw new TypeError(`${what}: this is not what the call takes`);
}

class Volume {
  #exports;
  #parts = {};
  #answer;
  #room;

  constructor(exports, lengths) {
    this.#exports = exports;
    this.#answer = align(exports.__heap_base.value);
    let at = this.#answer + ANSWER_SIZE;
    for (const part of PARTS) {
      const length = whole(lengths[part] ?? 0, 0x7fffffff, part);
      this.#parts[part] = { at, length };
      at = align(at + length);
    }
    this.#room = at;
    this.#reach(at);
  }

  #reach(end) {
    const more = Math.ceil((end - this.#exports.memory.buffer.byteLength) / PAGE);
    if (more > 0) this.#exports.memory.grow(more);
  }

  #view(at, length) { return new Uint8Array(this.#exports.memory.buffer, at, length); }
  #part(name) { return this.#view(this.#parts[name].at, this.#parts[name].length); }
  get image() { return this.#part("image"); }
  get journal() { return this.#part("journal"); }
  get own() { return this.#part("own"); }
  get file() { return this.#part("file"); }

  // What goes to the call for each argument, and which bytes lie where in the room behind the parts.
  #lend(name, takes, given) {
    const words = [], lent = [];
    let at = this.#room, next = 0;
    for (const kind of takes) {
      if (kind in this.#parts) { words.push(this.#parts[kind].at, this.#parts[kind].length); continue; }
      const value = given[next], what = `${name}, argument ${++next}`;
      if (kind === "u64") { words.push(wide(value, what)); continue; }
      if (kind in LIMITS) { words.push(whole(value, LIMITS[kind], what)); continue; }
      const bytes = bytesOf(kind, value, what);
      lent.push({ bytes, at, back: COMES_BACK.has(kind) });
      words.push(at);
      if (kind.startsWith("numbers")) words.push(bytes.length / 4);
      else if (kind !== "uuid" && kind !== "position") words.push(bytes.length);
      at = align(at + bytes.length);
    }
    if (next !== given.length) throw new TypeError(`${name} takes ${next} arguments, not ${given.length}`);
    return { words, lent, end: at };
  }

  #structure(fields) {
    const view = new DataView(this.#exports.memory.buffer, this.#answer, ANSWER_SIZE), answer = {};
    for (const { name, size, at } of fields) {
      answer[name] = size === 8 ? view.getBigUint64(at, true) : size === 4 ? view.getUint32(at, true) : view.getUint8(at);
    }
    return answer;
  }

  static make(volume, name, answers, takes, given) {
    const call = volume.#exports["bulgefs_" + name];
    if (!call) throw new TypeError(`this bulgefs.wasm has no bulgefs_${name}`);
    const { words, lent, end } = volume.#lend(name, takes, given);
    volume.#reach(end);
    for (const one of lent) volume.#view(one.at, one.bytes.length).set(one.bytes);
    const fields = LAYOUTS[answers];
    const number = fields ? call(volume.#answer, ...words) : call(...words);
    for (const one of lent) if (one.back) one.bytes.set(volume.#view(one.at, one.bytes.length));
    volume.#view(volume.#room, end - volume.#room).fill(0);
    if (fields) return volume.#structure(fields);
    return answers === "u64" ? BigInt.asUintN(64, number) : number >>> 0;
  }
}

for (const [name, form] of Object.entries(CALLS)) {
  const [answers, ...takes] = form.split(" ");
  Volume.prototype[camel(name)] = function (...given) { return Volume.make(this, name, answers, takes, given); };
}

class Library {
  #module;
  constructor(module) { this.#module = module; }

  // Whether the module has a call, by the name of its method.
  has(method) {
    return WebAssembly.Module.exports(this.#module).some(({ name }) => name.startsWith("bulgefs_") && camel(name.slice(8)) === method);
  }

  // A volume of these lengths, all bytes zero.
  async volume(lengths = {}) {
    return new Volume((await WebAssembly.instantiate(this.#module)).exports, lengths);
  }
}

const Bulgefs = {
  load: async (wasm) => new Library(await WebAssembly.compile(wasm)),
  text: (number) => WORDS[number] ?? "no such number",
  fileText: (number) => FILE_WORDS[number] ?? "no number of a volume file",
  calls: CALLS,
  method: camel,
};
if (typeof module === "object" && module.exports) module.exports = Bulgefs;
else globalThis.Bulgefs = Bulgefs;
})();
