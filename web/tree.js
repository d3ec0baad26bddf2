// tree.js - what stands in a sound image and in its journal, read in plain JavaScript.
//
// Each call of the library checks the whole image first, so a list of 900 boxes asked of it would take as many checks. This file reads the list at once,
// after the library has said that the image is sound, and finds out which paths each record of the journal changed. It decides nothing: what is changed and
// taken back, the library does. Every walk ends on any bytes.
//
// A path or a name is a string with one character for each byte.

const BLOCK = 512, SLOT = 128, SELF = 1, FREE = 0, LEVELS = 8, FIRST_MARK = 5, SAVED = 516, SMALL = 4096;

const viewOf = (bytes) => new DataView(bytes.buffer, bytes.byteOffset, bytes.byteLength);
const isFile = (entry) => entry.type >= 0x60 && entry.type <= 0x9f;
const isFolder = (entry) => entry.type >= 0x20 && entry.type <= 0x5f;
const toBytes = (path) => Uint8Array.from(path, (c) => c.charCodeAt(0));
const toPath = (bytes) => { let path = ""; for (const byte of bytes) path += String.fromCharCode(byte); return path; };
const parentOf = (path) => path.slice(0, path.lastIndexOf("/")) || "/";
const nameOf = (path) => path.slice(path.lastIndexOf("/") + 1);
const join = (folder, name) => (folder === "/" ? "" : folder) + "/" + name;

function equal(a, b) {
  if (a.length !== b.length) return false;
  for (let i = 0; i < a.length; i++) if (a[i] !== b[i]) return false;
  return true;
}

// An image with its numbers. The bytes may change under it.
function lookAt(bytes) {
  const blocks = Math.floor(bytes.length / BLOCK);
  return { bytes, view: viewOf(bytes), blocks, table: Math.ceil(blocks / 128) };
}

// The blocks of a chain, by count; fewer where it leaves the volume, and never more than the volume has.
function chain(image, first, count) {
  const found = [], most = Math.min(count, image.blocks);
  for (let block = first; found.length < most && block > image.table && block < image.blocks; block = image.view.getUint32(BLOCK + 4 * block)) found.push(block);
  return found;
}

function content(image, first, size) {
  const bytes = new Uint8Array(size);
  let at = 0;
  for (const block of chain(image, first, Math.ceil(size / BLOCK))) {
    bytes.set(image.bytes.subarray(block * BLOCK, block * BLOCK + Math.min(BLOCK, size - at)), at);
    at += BLOCK;
  }
  return bytes;
}

function entryAt(image, offset) {
  const { bytes, view } = image, field = bytes.subarray(offset + 48, offset + SLOT), end = field.indexOf(0);
  return {
    type: bytes[offset], user: bytes[offset + 1], group: bytes[offset + 2], permissions: bytes[offset + 3],
    first: view.getUint32(offset + 4), size: view.getUint32(offset + 8), blocks: view.getUint32(offset + 12),
    created: view.getBigUint64(offset + 16), modified: view.getBigUint64(offset + 24),
    attributeBlock: view.getUint32(offset + 32), attributeSize: view.getUint32(offset + 36), flags: view.getUint32(offset + 40),
    name: toPath(end < 0 ? field : field.subarray(0, end)),
  };
}

// The entries in one block of a folder, with their slots; the self entry and the end are none.
function* entriesIn(image, folder, block, index) {
  for (let i = 0; i < 4; i++) {
    const slot = 4 * index + i;
    if (slot === 0 || slot === 4 * folder.blocks.length - 1) continue;
    const entry = entryAt(image, block * BLOCK + i * SLOT);
    if (entry.type === FREE) continue;
    entry.slot = slot;
    entry.path = join(folder.path, entry.name);
    yield entry;
  }
}

const rootOf = (image) => {
  const first = image.table + 1;
  return { path: "/", first, blocks: chain(image, first, Math.min(64, image.view.getUint32(first * BLOCK + 12))) };
};
const folderOf = (image, entry) => ({ path: entry.path, first: entry.first, blocks: chain(image, entry.first, Math.min(64, entry.blocks)) });

// The whole tree: every entry, a folder before what is in it, and every folder. No block is gone through twice.
function scan(image) {
  const entries = [], folders = [], seen = new Set();
  const visit = (folder, level) => {
    folders.push(folder);
    folder.blocks.forEach((block, index) => {
      if (seen.has(block)) return;
      seen.add(block);
      for (const entry of entriesIn(image, folder, block, index)) {
        entries.push(entry);
        if (isFolder(entry) && level < LEVELS) visit(folderOf(image, entry), level + 1);
      }
    });
  };
  visit(rootOf(image), 0);
  return { entries, folders };
}

// ---- settings with a past (docs/FORMAT.md, 14.1) ----

// The revisions of a file's bytes, the oldest first, or null where they are not of the form.
function revisions(bytes) {
  const found = [];
  if (bytes.length < 5 || bytes[0] !== 1) return null;
  const view = viewOf(bytes), length = view.getUint32(1);
  if (length > bytes.length || length < 5) return null;
  let at = 5;
  while (at < length) {
    const size = bytes[at];
    if (size > 200 || at + 5 + size > length || found.length === 16) return null;
    const number = view.getUint32(at + 1), last = found[found.length - 1];
    if (last ? number !== last.number + 1 : number === 0) return null;
    found.push({ number, data: bytes.slice(at + 5, at + 5 + size) });
    at += 5 + size;
  }
  if (found.length === 0 || bytes.subarray(length).some((byte) => byte !== 0)) return null;
  return found;
}

// ---- two images ----

const FIELDS = { bytes: ["size"], attributes: ["attributeSize"], times: ["created", "modified"], owner: ["user", "group", "permissions"], flags: ["flags"], type: ["type"] };

// Which parts differ between an entry in one image and an entry in another.
function parts(imageA, a, imageB, b) {
  const found = Object.keys(FIELDS).filter((part) => FIELDS[part].some((field) => a[field] !== b[field]));
  if (!isFile(a) || !isFile(b)) return found;
  const differs = (first, size, count) => !sameBlocks(imageA, a[first], imageB, b[first], a[size] * count);
  if (!found.includes("bytes") && differs("first", "size", 1)) found.unshift("bytes");
  if (!found.includes("attributes") && differs("attributeBlock", "attributeSize", BLOCK)) found.push("attributes");
  return found;
}

function sameBlocks(imageA, firstA, imageB, firstB, size) {
  const count = Math.ceil(size / BLOCK), a = chain(imageA, firstA, count), b = chain(imageB, firstB, count);
  if (a.length !== b.length) return false;
  return a.every((block, i) => {
    const length = Math.min(BLOCK, size - i * BLOCK);
    return equal(imageA.bytes.subarray(block * BLOCK, block * BLOCK + length), imageB.bytes.subarray(b[i] * BLOCK, b[i] * BLOCK + length));
  });
}

// Which paths differ between two sound images, by path: what was before and what is after, either of which may be missing.
function differences(before, after) {
  const old = new Map(scan(before).entries.map((entry) => [entry.path, entry])), found = [];
  for (const entry of scan(after).entries) {
    const was = old.get(entry.path);
    if (was && isFolder(was) === isFolder(entry)) {
      old.delete(entry.path);
      const changed = parts(before, was, after, entry);
      if (changed.length > 0) found.push({ path: entry.path, before: was, after: entry, parts: changed });
    } else found.push({ path: entry.path, before: null, after: entry, parts: [] });
  }
  for (const [path, entry] of old) found.push({ path, before: entry, after: null, parts: [] });
  for (const one of found) addContent(one, before, after);
  return found.sort((a, b) => (a.path < b.path ? -1 : a.path > b.path ? 1 : a.before ? -1 : 1));
}

const smallContent = (image, entry) => (entry && isFile(entry) && entry.size <= SMALL ? content(image, entry.first, entry.size) : null);
function addContent(one, before, after) {
  one.contentBefore = smallContent(before, one.before);
  one.contentAfter = smallContent(after, one.after);
}

// ---- the journal (docs/FORMAT.md, 10) ----

// The records of a journal that the library calls well formed, the oldest first: where each begins, its length and its blocks.
function records(journal) {
  const found = [];
  if (journal.length < FIRST_MARK) return found;
  const view = viewOf(journal), used = Math.min(view.getUint32(1), journal.length);
  for (let at = FIRST_MARK; at + 4 <= used;) {
    const length = view.getUint32(at), count = (length - 4) / SAVED;
    if (count < 1 || !Number.isInteger(count) || at + length > used) break;
    found.push({ start: at, length, count });
    at += length;
  }
  return found;
}

// Goes back through the records, the newest first, on a copy of the image, and gives for each which paths it changed:
// { start, changes: [{ path, before, after, parts, contentBefore, contentAfter, from }] }. A record that changed no path gives none.
function* history(bytes, journal) {
  const image = lookAt(bytes.slice()), owner = new Map();
  const add = (folder) => folder.blocks.forEach((block, index) => owner.set(block, { folder, block, index }));
  scan(image).folders.forEach(add);
  for (const record of records(journal).reverse()) {
    const saved = savedBlocks(journal, record).filter(({ block }) => block < image.blocks);
    const places = saved.map(({ block }) => owner.get(block)).filter(Boolean);
    const after = snapshot(image, places);
    const written = new Set(saved.filter(({ block, old }) => !equal(old, image.bytes.subarray(block * BLOCK, block * BLOCK + BLOCK))).map(({ block }) => block));
    for (const { block, old } of saved) image.bytes.set(old, block * BLOCK);
    const before = snapshot(image, places);
    const changes = changesOf(before, after, written);
    for (const { path, before: was, after: is } of changes) {
      if (is && isFolder(is) && !was) for (const [block, place] of owner) if (place.folder.path === path || place.folder.path.startsWith(path + "/")) owner.delete(block);
      if (was && isFolder(was) && !is) add(folderOf(image, was));
    }
    yield { start: record.start, changes };
  }
}

function savedBlocks(journal, record) {
  const view = viewOf(journal), found = [];
  for (let at = record.start + 4; at < record.start + record.length; at += SAVED) found.push({ block: view.getUint32(at), old: journal.subarray(at + 4, at + SAVED) });
  return found;
}

// The entries of some blocks of folders, by path, with their small contents and all their blocks.
function snapshot(image, places) {
  const found = new Map();
  for (const { folder, block, index } of places) {
    for (const entry of entriesIn(image, folder, block, index)) {
      found.set(entry.path, {
        entry, content: smallContent(image, entry),
        blocks: isFile(entry) ? chain(image, entry.first, entry.blocks) : [], attributes: isFile(entry) ? chain(image, entry.attributeBlock, Math.min(8, entry.attributeSize)) : [],
      });
    }
  }
  return found;
}

function changesOf(before, after, written) {
  const found = [];
  for (const [path, is] of after) {
    const was = before.get(path);
    const changed = was ? changedParts(was, is, written) : [];
    if (!was || changed.length > 0) found.push({ path, before: was?.entry ?? null, after: is.entry, parts: changed, contentBefore: was?.content ?? null, contentAfter: is.content });
  }
  for (const [path, was] of before) {
    if (!after.has(path)) found.push({ path, before: was.entry, after: null, parts: [], contentBefore: was.content, contentAfter: null });
  }
  return joinMove(found);
}

// Within one record, on one image: a file's blocks changed if one of them was written, or they are others.
function changedParts(was, is, written) {
  const found = Object.keys(FIELDS).filter((part) => FIELDS[part].some((field) => was.entry[field] !== is.entry[field]));
  const touched = (blocks) => blocks.some((block) => written.has(block));
  const others = (a, b) => a.length !== b.length || a.some((block, i) => block !== b[i]);
  const newBytes = was.content && is.content ? !equal(was.content, is.content) : others(was.blocks, is.blocks) || touched(is.blocks);
  if (!found.includes("bytes") && newBytes) found.unshift("bytes");
  if (!found.includes("attributes") && (others(was.attributes, is.attributes) || touched(is.attributes))) found.push("attributes");
  return found;
}

// A file that went and one that came, with all the same but the name, is a move.
function joinMove(found) {
  const gone = found.filter((one) => !one.after), come = found.filter((one) => !one.before);
  if (found.length !== 2 || gone.length !== 1 || come.length !== 1) return found;
  const a = gone[0].before, b = come[0].after;
  const same = ["type", "first", "size", "blocks", "created", "modified", "attributeBlock", "attributeSize", "flags", "user", "group", "permissions"].every((field) => a[field] === b[field]);
  return same && isFile(a) ? [{ ...come[0], before: a, from: gone[0].path, parts: [], contentBefore: gone[0].contentBefore }] : found;
}

// ---- a damaged image ----

// Where the check's stages 4 and 5 first fail, in its order (docs/FORMAT.md, 4.1): { number, path }, or null where they do not.
function firstFault(bytes) {
  const image = lookAt(bytes), { view, blocks, table } = image, claimed = new Set();
  const right = (chained, count) => chained.length === count && new Set(chained).size === count && view.getUint32(BLOCK + 4 * chained[count - 1]) === 1;
  const formed = (folder, entry, parent, level) => {
    const at = folder.first * BLOCK;
    if (level > LEVELS || folder.first <= table || folder.first >= blocks) return false;
    const count = view.getUint32(at + 12);
    if (count < 1 || count > 64) return false;
    folder.blocks = chain(image, folder.first, count);
    if (!right(folder.blocks, count) || bytes[at] !== SELF || view.getUint32(at + 4) !== folder.first || view.getUint32(at + 8) !== parent) return false;
    if (entry && (entry.blocks !== count || !equal(bytes.subarray(at + 48, at + SLOT), bytes.subarray(entry.offset + 48, entry.offset + SLOT)))) return false;
    return !folder.blocks.some((block) => claimed.has(block));
  };
  const goodSlot = (entry, names) => {
    const field = bytes.subarray(entry.offset + 48, entry.offset + SLOT), name = entry.name;
    if (!isFile(entry) && !isFolder(entry)) return false;
    if (name === "" || name.includes("/") || names.has(name) || field.subarray(name.length).some((byte) => byte !== 0)) return false;
    const none = entry.attributeBlock === 0 && entry.attributeSize === 0;
    if (isFolder(entry)) return entry.size === 0 && none;
    const attributes = none || (entry.attributeBlock !== 0 && entry.attributeSize >= 1 && entry.attributeSize <= 8);
    return attributes && entry.blocks === Math.ceil(entry.size / BLOCK) && (entry.first === 0) === (entry.size === 0);
  };
  const visit = (folder, entry, parent, level) => {
    if (!formed(folder, entry, parent, level)) return { number: 4, path: folder.path };
    folder.blocks.forEach((block) => claimed.add(block));
    const last = folder.blocks[folder.blocks.length - 1];
    if (bytes[last * BLOCK + 3 * SLOT] !== 0xff) return { number: 5, path: folder.path };
    const names = new Set();
    for (let slot = 1; slot < 4 * folder.blocks.length - 1; slot++) {
      const offset = folder.blocks[slot >> 2] * BLOCK + (slot & 3) * SLOT, child = entryAt(image, offset);
      if (child.type === FREE) continue;
      child.offset = offset;
      child.path = join(folder.path, child.name);
      if (!goodSlot(child, names)) return { number: 5, path: child.path };
      names.add(child.name);
      const fault = isFolder(child) ? visit({ path: child.path, first: child.first, blocks: [] }, child, folder.first, level + 1) : null;
      if (fault) return fault;
    }
    return null;
  };
  return visit({ path: "/", first: table + 1, blocks: [] }, null, table + 1, 0);
}

// Of an image whose tree is in order: the files whose chains lead outside the volume, do not end, or hold a block that another has.
function brokenChains(bytes) {
  const image = lookAt(bytes), { entries, folders } = scan(image), holder = new Map(), broken = new Set();
  const files = new Set(entries.filter(isFile).map((entry) => entry.path));
  for (const folder of folders) for (const block of folder.blocks) holder.set(block, folder.path);
  for (const entry of entries.filter(isFile)) {
    for (const [first, count] of [[entry.first, entry.blocks], [entry.attributeBlock, entry.attributeSize]]) {
      if (count === 0) continue;
      const chained = chain(image, first, count);
      if (chained.length < count || image.view.getUint32(BLOCK + 4 * chained[count - 1]) !== 1) broken.add(entry.path);
      for (const block of chained) {
        if (holder.has(block)) broken.add(entry.path);
        if (files.has(holder.get(block))) broken.add(holder.get(block));
        holder.set(block, entry.path);
      }
    }
  }
  return [...broken];
}

module.exports = { lookAt, scan, entryAt, content, revisions, differences, records, history, firstFault, brokenChains, isFile, isFolder, toBytes, toPath, parentOf, nameOf, equal, BLOCK, FIRST_MARK };
