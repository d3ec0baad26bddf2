// Volumes for the tests, made by bulgefs.js.
const assert = require("assert");
const Counter = require("../../web/counter.js");
const Mark = require("../../web/mark.js");

const ok = (answer) => assert.strictEqual(typeof answer === "number" ? answer : answer.number, 0);
const MORNING = 1763359200000n; // 17 November 2025, 06:00 UTC
const MINUTE = 60000n;

async function fresh(library, blocks, journal, rootBlocks, name) {
  const volume = await library.volume({ image: 512 * blocks, journal }), label = new Uint8Array(128), uuid = new Uint8Array(16).fill(7);
  label.set(Buffer.from(name));
  ok(volume.format(rootBlocks, MORNING, uuid, label));
  ok(volume.journalStart());
  return volume;
}

// The note of this morning as examples/morning.c writes it.
function note(volume, time = MORNING) {
  const sector = Buffer.alloc(512), { number, used, records } = volume.journalInfo();
  ok(number);
  sector.write("BulgeDay");
  sector.writeUInt32BE(0x00010000, 8);
  sector.writeUInt32BE(used, 12);
  sector.writeUInt32BE(records, 16);
  sector.writeBigUInt64BE(time, 24);
  sector.set(Mark.sha256(volume.image), 32);
  return new Uint8Array(sector);
}

const file = (library, volume, own = new Uint8Array(0)) => Counter.makeFile(library, volume.image, volume.journal, own);

// 900 boxes in nine venues, as the README has them; this morning is noted, then some boxes change.
const VENUES = ["arena", "chapel", "harbour", "museum", "opera", "park", "stage", "studio", "town hall"];
async function fleet(library, changes = 60) {
  const volume = await fresh(library, 2600, 6 << 20, 3, "autumn tour");
  VENUES.forEach((venue, v) => {
    ok(volume.createDirectory("/" + venue, 0x20, 0, 0, 0, 0, 26, MORNING));
    for (let i = 0; i < 100; i++) ok(volume.putSettingsIn("/" + venue, `SN${1000 + 100 * v + i}`, `baud=9600 parity=none gain=${i}`, MORNING));
  });
  ok(volume.putSettingsIn("/stage", "SN1642", "baud=9600 parity=even gain=42", MORNING + MINUTE));
  const own = note(volume);
  for (let i = 0; i < changes; i++) {
    const box = (37 * i) % 900;
    ok(volume.putSettingsIn("/" + VENUES[Math.floor(box / 100)], `SN${1000 + box}`, `baud=${i % 2 ? 300 : 19200} parity=none gain=${box % 100}`, MORNING + MINUTE * BigInt(120 + i)));
  }
  return { volume, own, bytes: await file(library, volume, own) };
}

// Names and contents that try to be something else than text, in the root and in a folder of such a name.
const HOSTILE = ["<img src=x onerror=alert(1)>", "<svg onload=alert(2)>", "\u202Egnp.exe", "a\x1b[31mred\x07", "new\nline", "\u2066x\u2069", "&lt;b&gt;", "'\"`${1}", "..", "C:\\x", "\u00e9t\u00e9",
  "<!--", "javascript:alert(3)", "\ufeffbom", "__proto__", "constructor"];
async function hostile(library) {
  const volume = await fresh(library, 128, 1 << 17, 8, "<b>bold\u202E</b>");
  ok(volume.createDirectory("/<i>venue", 0x20, 0, 0, 0, 0, 8, MORNING));
  const names = [...HOSTILE.map((name) => Buffer.from(name)), Buffer.from([0xff, 0xfe, 0x80, 0x41])];
  for (const name of names) {
    for (const folder of ["/", "/<i>venue/"]) {
      const path = new Uint8Array(Buffer.concat([Buffer.from(folder), name]));
      ok(volume.create(path, 0x60, 0, 0, 0, 0, MORNING));
      ok(volume.write(path, 0, Buffer.concat([name, Buffer.from("</script><script>alert(4)</script>")]), MORNING));
    }
  }
  return { volume, names, bytes: await file(library, volume, note(volume)) };
}

// A small volume whose root holds files only, with the table half written.
async function damaged(library) {
  const volume = await fresh(library, 32, 1 << 15, 2, "laptop");
  for (const [name, text] of [["SN2001", "baud=9600"], ["SN2002", "baud=19200"], ["SN2003", "x".repeat(700)]]) {
    ok(volume.create("/" + name, 0x60, 0, 0, 0, 0, MORNING));
    ok(volume.write("/" + name, 0, text, MORNING));
  }
  const first = volume.lookInPlace("/SN2003", 0).start / 512, own = note(volume);
  new DataView(volume.image.buffer, volume.image.byteOffset).setUint32(512 + 4 * first, 60000);
  return { volume, image: volume.image.slice(), bytes: await file(library, volume, own) };
}

// The largest image, 32 MiB, with a file of 1 MB among others.
async function largest(library) {
  const volume = await fresh(library, 65536, 2 << 20, 64, "archive"), piece = new Uint8Array(4096).fill(65);
  for (let i = 0; i < 200; i++) {
    ok(volume.create(`/SN${5000 + i}`, 0x60, 0, 0, 0, 0, MORNING));
    ok(volume.write(`/SN${5000 + i}`, 0, `baud=${i}`, MORNING));
  }
  ok(volume.journalStart());
  ok(volume.create("/log", 0x60, 0, 0, 0, 0, MORNING));
  for (let i = 0; i < 40; i++) ok(volume.append("/log", piece, MORNING));
  return { volume, image: volume.image.slice() };
}

module.exports = { fresh, note, file, fleet, hostile, damaged, largest, HOSTILE, VENUES, MORNING, MINUTE, ok };
