// counter.js - what the page does with a volume, without the page: open, look, take back, change, save, rescue.
const Tree = require("./tree.js");
const Mark = require("./mark.js");
const Words = require("./words.js");

const HOME = 1024, BLOCK = 512, MAX_SETTINGS = 200, MAX_NOTE = 4096;
const starts = (bytes, signature) => [...signature].every((letter, i) => bytes[i] === letter.charCodeAt(0));
const padded = (length) => Math.ceil(length / BLOCK) * BLOCK;

// Why a file cannot be opened, in words.
class Trouble extends Error {}

// Opens what was chosen: a volume file, an image, or an image and its journal. `files` are { name, bytes }.
async function open(library, files) {
  if (files.length === 1) {
    const [{ name, bytes }] = files;
    if (starts(bytes, "BulgeVol")) return openFile(library, name, bytes);
    if (starts(bytes, "BulgeFS!")) return openParts(library, "image", name, bytes, new Uint8Array(0));
    throw new Trouble(bytes.length === 0 ? "The file is empty." : "This is not a settings volume. Nothing was opened.");
  }
  const image = files.find(({ bytes }) => starts(bytes, "BulgeFS!")), journal = files.find((file) => file !== image);
  if (files.length !== 2 || !image) throw new Trouble("Open one volume file, or one image together with its journal. Nothing was opened.");
  return openParts(library, "pair", image.name, image.bytes, journal.bytes);
}

async function openFile(library, name, bytes) {
  const found = await library.volume({ file: bytes.length });
  found.file.set(bytes);
  const recovered = found.fileRecover();
  if (recovered.number !== 0) throw new Trouble(`This volume file cannot be opened. ${Words.fileRefusal(recovered.number)}`);
  const parts = found.fileParts();
  const volume = await library.volume({ image: parts.imageLength, journal: parts.journalLength, own: parts.ownLength, file: bytes.length });
  volume.file.set(found.file);
  for (const part of ["image", "journal", "own"]) volume[part].set(found.file.subarray(parts[part + "Start"], parts[part + "Start"] + parts[part + "Length"]));
  return new Counter(library, "file", name, volume, recovered.waited === 1);
}

// A journal gets zeros behind it up to a whole sector, so that the pair can be saved as a volume file.
async function openParts(library, kind, name, image, journal) {
  const volume = await library.volume({ image: image.length, journal: padded(journal.length) });
  volume.image.set(image);
  volume.journal.set(journal);
  return new Counter(library, kind, name, volume, false);
}

class Counter {
  #library;
  constructor(library, kind, name, volume, waited) {
    this.#library = library;
    this.kind = kind;
    this.name = name;
    this.volume = volume;
    this.waited = waited; // the last save was cut, and has been completed in memory
    this.changed = waited; // what stands here is not what the file holds
    this.look();
  }

  // Reads the state anew, after a change too.
  look() {
    this.number = this.volume.check();
    this.sound = this.number === 0;
    this.entries = this.sound ? Tree.scan(Tree.lookAt(this.volume.image)).entries : [];
    this.journal = this.volume.journal.length > 0 && this.sound ? this.volume.journalInfo() : { number: this.sound ? 16 : this.number, used: 0, records: 0, last: 0 };
    this.undoable = this.journal.number === 0;
    this.morning = this.#morning();
  }

  // The note of this morning, if it fits the journal.
  #morning() {
    const note = Mark.find(this.volume.own);
    if (!note || !this.undoable) return null;
    const fits = note.mark === this.journal.used || Tree.records(this.volume.journal).some(({ start }) => start === note.mark);
    return { ...note, fits };
  }

  // The earliest moment that Back can reach by one press: this morning, or where the journal began.
  get start() { return this.morning?.fits ? this.morning.mark : Tree.FIRST_MARK; }
  get hasMorning() { return Boolean(this.morning?.fits); }

  label() {
    const labels = new Uint8Array(144);
    this.volume.info(labels);
    const name = labels.subarray(16), end = name.indexOf(0);
    return Words.visible(end < 0 ? name : name.subarray(0, end));
  }

  // The changes since a mark, newest first, one at a time.
  *changes(mark = this.start) {
    if (!this.undoable) return;
    for (const step of Tree.history(this.volume.image, this.volume.journal)) {
      if (step.start < mark) return;
      yield step;
    }
  }

  // What going back to a mark would do, tried on a copy.
  async preview(mark) {
    const copy = await this.#library.volume({ image: this.volume.image.length, journal: this.volume.journal.length });
    copy.image.set(this.volume.image);
    copy.journal.set(this.volume.journal);
    const { number, done } = copy.undoTo(mark);
    if (number !== 0) return { number, words: Words.refusal(number) };
    if (copy.check() !== 0 || !this.#sameVolume(copy)) return { number: 8, words: "The list of changes does not belong to this volume. Going back would damage it, so it is not done." };
    return { number, done, copy, differences: Tree.differences(Tree.lookAt(this.volume.image), Tree.lookAt(copy.image)) };
  }

  // Whether another state has the same identity, name and sizes: no change and no undo of this volume's own journal alters them.
  #sameVolume(other) {
    const labels = [this.volume, other].map((volume) => {
      const bytes = new Uint8Array(144), { blocks, rootBlocks } = volume.info(bytes);
      return `${blocks} ${rootBlocks} ${bytes}`;
    });
    return labels[0] === labels[1];
  }

  // Takes everything since a mark back, after a trial on a copy.
  async back(mark) {
    const tried = await this.preview(mark);
    if (tried.number !== 0) return tried;
    const { number, done } = this.volume.undoTo(mark);
    this.changed = this.changed || done > 0;
    this.look();
    return { number, done, answer: this.answer() };
  }

  // "Is it as it was this morning?": { then, now, equal }, or null where no note was kept or changes still stand.
  answer() {
    if (!this.hasMorning || this.journal.used !== this.morning.mark) return null;
    const now = Mark.sha256(this.volume.image);
    return { then: Mark.hex(this.morning.hash), now: Mark.hex(now), equal: Tree.equal(now, this.morning.hash) };
  }

  // A file's bytes, and those beside it, as the library reads them.
  read(path, volume = this.volume) {
    const { number, size } = volume.lookup(Tree.toBytes(path));
    if (number !== 0) return null;
    const bytes = new Uint8Array(size);
    volume.read(Tree.toBytes(path), 0, bytes);
    return bytes;
  }
  note(path) {
    const bytes = new Uint8Array(MAX_NOTE), { count } = this.volume.readAttributes(Tree.toBytes(path), bytes);
    let end = count;
    while (end > 0 && bytes[end - 1] === 0) end--;
    return bytes.subarray(0, end);
  }

  // The settings of a box, the latest first, as the library gives them: [{ revision, bytes }]; a file of another form has one, with revision 0.
  past(path, volume = this.volume) {
    const folder = Tree.toBytes(Tree.parentOf(path)), serial = Tree.toBytes(Tree.nameOf(path)), buffer = new Uint8Array(MAX_SETTINGS), found = [];
    let got = volume.getLatestSettingsIn(folder, serial, buffer);
    while (got.number === 0) {
      found.push({ revision: got.revision, bytes: buffer.slice(0, got.length) });
      got = volume.getSettingsIn(folder, serial, got.revision - 1, buffer);
    }
    if (found.length > 0) return found;
    const bytes = this.read(path, volume);
    return bytes ? [{ revision: 0, bytes }] : [];
  }

  // Puts new settings, or other bytes into a file of another form.
  put(path, bytes, time) {
    const settings = this.past(path)[0]?.revision > 0;
    const { number } = settings ? this.volume.putSettingsIn(Tree.toBytes(Tree.parentOf(path)), Tree.toBytes(Tree.nameOf(path)), bytes, time) : this.volume.replace(Tree.toBytes(path), bytes, time);
    if (number === 0) this.changed = true;
    this.look();
    return number;
  }

  // The bytes of a file to save: of a volume file the same file with the new parts, of a pair a new volume file, of an image the image.
  async bytes() {
    if (this.kind === "image") return this.volume.image.slice();
    if (this.kind === "pair") return makeFile(this.#library, this.volume.image, this.volume.journal, new Uint8Array(0));
    const number = this.volume.filePrepare().number || this.volume.fileCommit() || this.volume.fileRecover().number;
    if (number !== 0) throw new Trouble(Words.fileRefusal(number));
    return this.volume.file.slice();
  }

  // Where a damaged volume is damaged: paths, as far as they can be told.
  where() {
    if (this.sound || this.number < 4 || this.number > 6) return [];
    const fault = Tree.firstFault(this.volume.image);
    if (this.number === 6 && !fault) return Tree.brokenChains(this.volume.image);
    return fault?.number === this.number ? [fault.path] : [];
  }

  // Makes a sound copy of what is whole. The file that was opened stays as it is.
  async rescue() {
    const copy = await this.#library.volume({ image: this.volume.image.length, journal: Math.max(this.volume.journal.length, BLOCK) });
    copy.image.set(this.volume.image);
    const whole = this.#library.has("salvageTree"), report = new Uint8Array(whole ? this.volume.image.length / 128 : 256);
    const { number } = whole ? copy.salvageTree(report) : { number: copy.salvage(report) };
    if (number !== 0 || copy.journalStart() !== 0) return { number, words: number === 5 ? "It has folders, and this page can only rescue volumes without folders." : Words.refusal(number) };
    const saved = new Counter(this.#library, "pair", this.name, copy, false);
    return { number, counter: saved, ...tell(this.volume.image, copy.image, report, whole), file: () => this.#rescued(copy) };
  }

  async #rescued(copy) {
    if (this.kind === "image") return copy.image.slice();
    const own = this.volume.own.slice(), note = Mark.find(own);
    if (note) own.fill(0, note.at, note.at + Mark.SECTOR);
    return makeFile(this.#library, copy.image, copy.journal, own);
  }
}

// What a rescue did, by path: what is lost, and what was kept in part. Names are those that the damaged image has.
function tell(damaged, rescued, report, whole) {
  const image = Tree.lookAt(rescued), old = Tree.lookAt(damaged), lost = [], mended = [];
  for (const folder of Tree.scan(image).folders) {
    if (!whole && folder.path !== "/") continue;
    folder.blocks.forEach((block, index) => {
      for (let i = 0; i < 4; i++) {
        const slot = 4 * index + i, code = report[whole ? 4 * block + i : slot];
        if (slot === 0 || slot === 4 * folder.blocks.length - 1 || code === 0) continue;
        const name = Tree.entryAt(code === 1 || code === 2 ? old : image, block * BLOCK + i * 128).name;
        (code === 1 || code === 2 ? lost : mended).push({ path: (folder.path === "/" ? "" : folder.path) + "/" + name, code });
      }
    });
  }
  return { lost, mended };
}

async function makeFile(library, image, journal, own) {
  const sectors = [image, journal, own].map((part) => part.length / BLOCK), size = (await library.volume()).fileSize(...sectors);
  if (size === 0n) throw new Trouble("The volume has no size that a volume file can have.");
  const made = await library.volume({ file: Number(size) });
  made.file.set(image, HOME);
  made.file.set(journal, HOME + image.length);
  made.file.set(own, HOME + image.length + journal.length);
  const number = made.fileBegin(...sectors);
  if (number !== 0) throw new Trouble(Words.fileRefusal(number));
  return made.file.slice();
}

module.exports = { open, makeFile, Trouble, MAX_SETTINGS };
