// node logic.js BULGEFS.wasm FOLDER: what the page reads in plain JavaScript, against the library; and what it does with a volume. FOLDER holds what `run`
// made with the tool and examples/morning.c: van.volume, before.img, and morning.volume, a copy of van.volume as it was this morning.
const fs = require("fs"), path = require("path"), crypto = require("crypto"), assert = require("assert");
const Bulgefs = require("../../web/bulgefs.js"), Tree = require("../../web/tree.js"), Mark = require("../../web/mark.js"), Words = require("../../web/words.js"), Counter = require("../../web/counter.js");
const Make = require("./make.js");
const { judge, finish, random } = require("./judge.js");

const [wasm, folder] = process.argv.slice(2), file = (name) => new Uint8Array(fs.readFileSync(path.join(folder, name)));
const chance = random(3), { below, oneIn, pick, bytes } = chance;

// A random change by the library; refusals are as good.
function change(volume, turn) {
  const time = oneIn(3) ? 5n : BigInt(turn), folderOf = () => pick(["", "", "/d0", "/d1", "/d0/d0"]), one = () => folderOf() + "/" + pick(["f0", "f1", "f2", "SN1", "SN2"]);
  const made = [
    () => volume.create(one(), 0x60, below(3), 0, 0, 0, time), () => volume.write(one(), below(3), bytes(below(900)), time), () => volume.write(one(), 0, "same", 5n),
    () => volume.replace(one(), bytes(below(5000) % 4097), time), () => volume.append(one(), bytes(below(1500)), time), () => volume.shorten(one(), below(100), time),
    () => volume.delete(one()), () => volume.move(one(), one()), () => volume.move(one(), one()), () => volume.createDirectory(pick(["/d0", "/d1", "/d0/d0"]), 0x20, 0, 0, 0, 0, 1 + below(3), time),
    () => volume.deleteDirectory(pick(["/d0", "/d1", "/d0/d0"])), () => volume.setAttributes(one(), bytes(512 * (1 + below(3)))), () => volume.setAttributes("/f0", bytes(512)), () => volume.clearAttributes(one()),
    () => volume.clearFlags(one()), () => volume.putSettingsIn(folderOf() || "/", pick(["SN1", "SN2"]), bytes(below(60)), time),
  ];
  return pick(made)().number;
}

async function randomVolume(library, turns) {
  const volume = await Make.fresh(library, pick([40, 130, 300]), 1 << 18, 1 + below(3), "random");
  for (let turn = 0; turn < turns; turn++) change(volume, turn);
  return volume;
}

// The tree as the library tells it.
function told(volume, folder = "/") {
  const found = [], name = new Uint8Array(80);
  for (let entry = volume.entry(Tree.toBytes(folder), 1, name); entry.slot !== 0; entry = volume.entry(Tree.toBytes(folder), entry.slot + 1, name)) {
    const end = name.indexOf(0), { number, ...fields } = entry, own = Tree.toPath(end < 0 ? name : name.subarray(0, end)), full = (folder === "/" ? "" : folder) + "/" + own;
    assert.strictEqual(number, 0);
    found.push({ ...fields, name: own, path: full });
    if (Tree.isFolder(fields)) found.push(...told(volume, full));
  }
  return found;
}

const sorted = (list) => [...list].sort();
const shape = ({ path: at, before, after, from }) => `${from ?? ""} ${at} ${before ? 1 : 0}${after ? 1 : 0}`;

async function readsTree(library) {
  for (let round = 0; round < 12; round++) {
    const volume = await randomVolume(library, 80);
    assert.strictEqual(volume.check(), 0);
    const entries = Tree.scan(Tree.lookAt(volume.image)).entries, wanted = told(volume);
    assert.deepStrictEqual(entries, entries.map((entry) => ({ ...entry, ...wanted.find((one) => one.path === entry.path) })));
    assert.deepStrictEqual(entries.map((entry) => entry.path), wanted.map((entry) => entry.path));
    for (const entry of entries.filter(Tree.isFile)) {
      const content = new Uint8Array(entry.size);
      volume.read(Tree.toBytes(entry.path), 0, content);
      assert(Tree.equal(Tree.content(Tree.lookAt(volume.image), entry.first, entry.size), content));
      const past = Tree.revisions(content), latest = volume.getLatestSettingsIn(Tree.toBytes(Tree.parentOf(entry.path)), entry.name, new Uint8Array(200));
      assert.strictEqual(past === null, latest.number !== 0, entry.path);
      if (past) assert.strictEqual(past[past.length - 1].number, latest.revision);
    }
  }
}

// A folder with files, which are deleted, and then the folder too.
async function folderThatCameAndWent(library) {
  const volume = await Make.fresh(library, 60, 1 << 16, 1, "gone");
  Make.ok(volume.createDirectory("/a", 0x20, 0, 0, 0, 0, 2, 1n));
  Make.ok(volume.createDirectory("/a/b", 0x20, 0, 0, 0, 0, 1, 1n));
  Make.ok(volume.putSettingsIn("/a/b", "SN1", "x=1", 2n));
  Make.ok(volume.create("/a/f", 0x60, 0, 0, 0, 0, 3n));
  Make.ok(volume.delete("/a/b/SN1"));
  Make.ok(volume.deleteDirectory("/a/b"));
  Make.ok(volume.delete("/a/f"));
  Make.ok(volume.deleteDirectory("/a"));
  return volume;
}

// A folder at the ninth level: that of /b, hung by hand into the eighth.
async function ninthLevel(library) {
  const volume = await Make.fresh(library, 60, 1 << 16, 1, "deep");
  for (let level = 1; level <= 8; level++) Make.ok(volume.createDirectory("/a".repeat(level), 0x20, 0, 0, 0, 0, 1, 1n));
  Make.ok(volume.createDirectory("/b", 0x20, 0, 0, 0, 0, 1, 1n));
  const image = volume.image, { entries } = Tree.scan(Tree.lookAt(image)), [deepest, b] = ["/a".repeat(8), "/b"].map((path) => entries.find((entry) => entry.path === path)), root = 512 * 2;
  image.copyWithin(512 * deepest.first + 128, root + 128 * b.slot, root + 128 * b.slot + 128);
  image.fill(0, root + 128 * b.slot, root + 128 * b.slot + 128);
  new DataView(image.buffer, image.byteOffset).setUint32(512 * b.first + 8, deepest.first);
  return volume;
}

// Each step of the history is what the library's undo of that record changes, by path.
async function readsHistory(library) {
  let seen = 0, moves = 0, empty = 0;
  for (let round = 0; round < 12; round++) {
    const volume = round === 0 ? await folderThatCameAndWent(library) : await randomVolume(library, 110), copy = await library.volume({ image: volume.image.length, journal: volume.journal.length });
    copy.image.set(volume.image);
    copy.journal.set(volume.journal);
    const info = volume.journalInfo();
    assert.strictEqual(Tree.records(volume.journal).length, info.records);
    for (const { start, changes } of Tree.history(volume.image, volume.journal)) {
      const after = copy.image.slice();
      Make.ok(copy.undo());
      assert.strictEqual(copy.journalInfo().used, start);
      const found = Tree.differences(Tree.lookAt(copy.image), Tree.lookAt(after));
      const move = changes.find((one) => one.from);
      if (move) {
        moves++;
        assert.deepStrictEqual(sorted(found.map(shape)), sorted([` ${move.from} 10`, ` ${move.path} 01`]));
      } else {
        assert.deepStrictEqual(sorted(changes.map(shape)), sorted(found.map(shape)));
        for (const one of changes) {
          const same = found.find((other) => other.path === one.path);
          assert.deepStrictEqual(sorted(one.parts), sorted(same.parts), one.path);
          assert.deepStrictEqual([one.contentBefore, one.contentAfter], [same.contentBefore, same.contentAfter]);
        }
      }
      seen++;
      empty += changes.length === 0;
    }
    assert.strictEqual(copy.journalInfo().records, 0);
  }
  assert(seen > 120 && moves > 2, `${seen} steps, ${moves} moves, ${empty} without a difference`);
}

// The first fault has the number that the library gives, on damage at random.
async function findsFaults(library) {
  const seen = new Map();
  for (let round = 0; round < 6; round++) {
    const volume = await randomVolume(library, 60), image = volume.image.slice();
    for (let time = 0; time < 250; time++) {
      volume.image.set(image);
      const at = oneIn(2) ? 1024 + below(Math.min(image.length - 1024, 8192)) : 512 + below(1200);
      volume.image[at] = pick([0, 1, 2, 3, 0x20, 0x60, 0xff, below(256)]);
      if (oneIn(3)) volume.image.copyWithin(1536, 1536 + 128 * below(8), 1536 + 128 * below(8) + 128);
      const number = volume.check(), fault = Tree.firstFault(volume.image);
      seen.set(number, (seen.get(number) ?? 0) + 1);
      assert.strictEqual(fault?.number ?? 0, number === 4 || number === 5 ? number : 0, `check ${number}`);
      if (number === 6) Tree.brokenChains(volume.image);
    }
  }
  const deep = await ninthLevel(library);
  assert.deepStrictEqual([deep.check(), Tree.firstFault(deep.image)], [4, { number: 4, path: "/a".repeat(8) + "/b" }]);
  for (const number of [0, 4, 5, 6]) assert(seen.get(number) > 0, `${number} was never given`);
}

// Any bytes at all: what the page reads by itself ends, and stays within them.
async function readsAnything(library) {
  for (let time = 0; time < 150; time++) {
    const volume = await randomVolume(library, 25), image = volume.image.slice(), journal = volume.journal.slice();
    for (let k = below(60); k >= 0; k--) image[below(image.length)] = pick([0, 1, 255, below(256)]);
    for (let k = below(9); k >= 0; k--) journal[below(oneIn(2) ? 600 : journal.length)] = below(256);
    const cut = oneIn(4) ? image.subarray(0, 512 * (3 + below(10))) : image;
    Tree.scan(Tree.lookAt(cut));
    Tree.firstFault(cut);
    Tree.brokenChains(cut);
    for (const step of Tree.history(cut, journal)) assert(step.start >= 5);
    Tree.differences(Tree.lookAt(cut), Tree.lookAt(image));
    Mark.find(bytes(below(1200)));
  }
}

async function van(library) {
  const counter = await Counter.open(library, [{ name: "van.volume", bytes: file("van.volume") }]);
  assert(counter.sound && counter.hasMorning);
  assert.strictEqual(counter.label(), "van 3");
  assert.strictEqual(counter.answer(), null);
  const [step, ...others] = counter.changes();
  assert.strictEqual(others.length, 0);
  assert.strictEqual(`${Words.place(step.changes[0].path)}: ${Words.describe(step.changes[0])}`, "SN4471: contents changed");
  const tried = await counter.preview(counter.start);
  assert.deepStrictEqual(tried.differences.map((one) => [one.path, Buffer.from(one.contentBefore).toString(), Buffer.from(one.contentAfter).toString()]), [["/SN4471", "baud=300", "baud=9600"]]);
  const { number, done, answer } = await counter.back(counter.start), then = crypto.createHash("sha256").update(file("before.img")).digest("hex");
  assert.deepStrictEqual([number, done, answer], [0, 1, { then, now: then, equal: true }]);
  assert(Tree.equal(counter.volume.image, file("before.img")));
  fs.writeFileSync(path.join(folder, "saved.volume"), await counter.bytes());
}

async function main() {
  const library = await Bulgefs.load(fs.readFileSync(wasm));

  await judge("SHA-256", () => {
    for (const length of [0, 1, 55, 56, 63, 64, 65, 119, 120, 512, 5000]) {
      const some = crypto.randomBytes(length);
      assert.strictEqual(Mark.hex(Mark.sha256(some)), crypto.createHash("sha256").update(some).digest("hex"));
    }
  });
  await judge("the tree, as the library tells it", () => readsTree(library));
  await judge("each change of a journal, as the library takes it back", () => readsHistory(library));
  await judge("where a volume is damaged", () => findsFaults(library));
  await judge("any bytes", () => readsAnything(library));
  await judge("the note that the C program writes", async () => {
    const counter = await Counter.open(library, [{ name: "m", bytes: file("morning.volume") }]), own = counter.volume.own, { at, mark, changes, time, hash } = Mark.find(own);
    assert.deepStrictEqual([mark, changes, time, Mark.hex(hash)], [counter.journal.used, counter.journal.records, 1700000000000n, crypto.createHash("sha256").update(file("before.img")).digest("hex")]);
    assert(counter.answer().equal);
    assert.strictEqual(at, own.length - Mark.SECTOR);
    assert(Tree.equal(Make.note(counter.volume, 1700000000000n), own.slice(at)));
  });
  await judge("the README's van: back, and the hash is equal", () => van(library));
  await judge("what was saved opens, and is as it was this morning", async () => {
    const counter = await Counter.open(library, [{ name: "s", bytes: file("saved.volume") }]);
    assert(counter.answer().equal && !counter.changed);
  });
  await judge("a save that was cut is completed", async () => {
    const made = await library.volume({ file: file("van.volume").length });
    made.file.set(file("van.volume"));
    const parts = made.fileParts(), part = (name) => made.file.slice(parts[name + "Start"], parts[name + "Start"] + parts[name + "Length"]);
    const cut = await library.volume({ file: made.file.length, image: parts.imageLength, journal: parts.journalLength, own: parts.ownLength });
    cut.file.set(made.file);
    for (const name of ["image", "journal", "own"]) cut[name].set(part(name));
    Make.ok(cut.undo());
    Make.ok(cut.filePrepare());
    Make.ok(cut.fileCommit());
    const counter = await Counter.open(library, [{ name: "c", bytes: cut.file.slice() }]);
    assert(counter.waited && counter.changed && counter.answer().equal);
  });
  await judge("put, and the ways back", async () => {
    const { bytes: all } = await Make.fleet(library, 5), counter = await Counter.open(library, [{ name: "f", bytes: all }]), before = counter.volume.image.slice();
    assert.strictEqual(counter.put("/stage/SN1642", Buffer.from("baud=1"), Make.MORNING + 9n * Make.MINUTE), 0);
    assert.deepStrictEqual(counter.past("/stage/SN1642").map(({ revision, bytes: data }) => [revision, Buffer.from(data).toString()]),
      [[3, "baud=1"], [2, "baud=9600 parity=even gain=42"], [1, "baud=9600 parity=none gain=42"]]);
    assert.strictEqual(counter.put("/stage/SN1642", Buffer.alloc(201), 1n), 22);
    const [last] = counter.changes();
    assert.deepStrictEqual([Words.describe(last.changes[0]), last.changes[0].path], ["settings changed", "/stage/SN1642"]);
    assert.strictEqual((await counter.back(last.start)).done, 1);
    assert(Tree.equal(counter.volume.image, before));
    assert.strictEqual((await counter.back(counter.start)).answer.equal, true);
    assert.strictEqual((await counter.back(7)).number, 27);
  });
  await judge("a journal of another volume is not taken back", async () => {
    const one = await Make.fresh(library, 64, 4096 * 8, 2, "one"), other = await Make.fresh(library, 64, 4096 * 8, 2, "other");
    for (let i = 0; i < 6; i++) { Make.ok(one.create(`/a${i}`, 0x60, 0, 0, 0, 0, 1n)); Make.ok(one.write(`/a${i}`, 0, "one", 1n)); }
    Make.ok(other.create("/b", 0x60, 0, 0, 0, 0, 1n));
    const counter = await Counter.open(library, [{ name: "b.img", bytes: other.image.slice() }, { name: "b.journal", bytes: one.journal.slice() }]), before = counter.volume.image.slice();
    const { number, words } = await counter.back(5);
    assert.strictEqual(number, 8);
    assert.match(words, /does not belong to this volume/);
    assert(Tree.equal(counter.volume.image, before));
  });
  await judge("a pair is saved as a volume file", async () => {
    const volume = await Make.fresh(library, 40, 5001, 2, "pair");
    Make.ok(volume.putSettings("SN1", "a=1", 1n));
    const counter = await Counter.open(library, [{ name: "p.journal", bytes: volume.journal.slice() }, { name: "p.img", bytes: volume.image.slice() }]);
    const again = await Counter.open(library, [{ name: "p.volume", bytes: await counter.bytes() }]);
    assert(Tree.equal(again.volume.image, volume.image) && again.journal.records === 1 && again.kind === "file");
    assert(Tree.equal(again.volume.journal.subarray(0, 5001), volume.journal));
  });
  await judge("wrong files are refused in words", async () => {
    for (const [some, words] of [[new Uint8Array(0), /empty/], [crypto.randomBytes(5000), /not a settings volume/], [file("van.volume").slice(0, 5000), /cut off/], [Buffer.from("BulgeVol"), /too short/]]) {
      await assert.rejects(Counter.open(library, [{ name: "w", bytes: new Uint8Array(some) }]), (error) => error instanceof Counter.Trouble && words.test(error.message));
    }
    await assert.rejects(Counter.open(library, [{ name: "a", bytes: file("van.volume") }, { name: "b", bytes: file("before.img") }, { name: "c", bytes: file("before.img") }]), Counter.Trouble);
  });
  await judge("a damaged volume: where, and what is rescued", async () => {
    const { image, bytes: all, volume } = await Make.damaged(library);
    for (const [name, some] of [["d.img", image], ["d.volume", all]]) {
      const counter = await Counter.open(library, [{ name, bytes: some }]);
      assert.deepStrictEqual([counter.number, counter.where()], [6, ["/SN2003"]]);
      const rescued = await counter.rescue();
      assert.deepStrictEqual([rescued.number, rescued.lost, rescued.mended], [0, [{ path: "/SN2003", code: 2 }], []]);
      assert.deepStrictEqual(rescued.counter.entries.map((entry) => entry.path), ["/SN2001", "/SN2002"]);
      assert.strictEqual(Buffer.from(rescued.counter.read("/SN2002")).toString(), "baud=19200");
      assert(Tree.equal(counter.volume.image, volume.image), "the opened one changed");
      const again = await Counter.open(library, [{ name, bytes: await rescued.file() }]);
      assert(again.sound && again.entries.length === 2);
      assert.strictEqual(Mark.find(again.volume.own), null, "the note of a volume that is no more");
    }
    assert(Mark.find((await Counter.open(library, [{ name: "d", bytes: all }])).volume.own));
  });
  await judge("a damaged volume with folders", async () => {
    const { volume, own } = await Make.fleet(library, 1), stage = volume.image.slice(), at = Tree.scan(Tree.lookAt(stage)).entries.find((entry) => entry.path === "/stage");
    stage[at.first * 512] = 9;
    const counter = await Counter.open(library, [{ name: "f", bytes: await Counter.makeFile(library, stage, volume.journal, own) }]);
    assert.deepStrictEqual([counter.number, counter.where()], [4, ["/stage"]]);
    const rescued = await counter.rescue();
    if (!library.has("salvageTree")) assert.deepStrictEqual([rescued.number, /folders/.test(rescued.words)], [5, true]);
    else assert(rescued.number === 0 && rescued.counter.entries.length === 909 && (await Counter.open(library, [{ name: "r", bytes: await rescued.file() }])).sound);
  });
  await judge("names can do nothing but be read", () => {
    assert.strictEqual(Words.show("a\x1b\x07"), "a\\x1b\\x07");
    assert.strictEqual(Words.show(Tree.toPath(Buffer.from("\u202Egnp"))), "\\xe2\\x80\\xaegnp");
    assert.strictEqual(Words.show(Tree.toPath(Buffer.from("\u00e9t\u00e9"))), "\u00e9t\u00e9");
    assert.strictEqual(Words.show("\xff\\"), "\\xff\\\\");
    for (const name of Make.HOSTILE) {
      const shown = Words.show("/" + Tree.toPath(Buffer.from(name))), handed = Words.download("/" + Tree.toPath(Buffer.from(name)), true);
      assert(!/[\p{C}\p{Zl}\p{Zp}]/u.test(shown), shown);
      assert.match(handed, /^[A-Za-z0-9_-][A-Za-z0-9._-]*\.txt$/);
    }
  });
  await judge("times that no clock has given are not shown", () => {
    assert.deepStrictEqual([Words.when(0n), Words.when(5n), Words.when(0xffffffffffffffffn)], ["", "", ""]);
    assert.match(Words.when(1700000000000n), /2023/);
  });
  await judge("every refusal has words for people", () => {
    for (const number of [1, 2, 3, 4, 5, 6, 7, 8, 9, 10, 11, 13, 14, 15, 16, 17, 22, 23, 24, 25, 27]) assert(!/number \d/.test(Words.refusal(number)));
    for (const number of [1, 2, 3, 4, 5]) assert(!/number \d/.test(Words.fileRefusal(number)));
  });
  finish();
}
main();
