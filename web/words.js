// words.js - what the page says, for people: names, times, refusals and changes.
const Tree = require("./tree.js");

const REFUSALS = {
  1: "Its length is not that of a volume. It may have been cut off while it was copied.",
  2: "It is not a settings volume, or a newer version wrote it.",
  3: "Its first page does not fit its length. It may have been cut off while it was copied.",
  4: "A folder is damaged.",
  5: "An entry in a folder is damaged.",
  6: "The list of which file has which part of the volume is damaged.",
  7: "The count of used space is wrong.",
  8: "The list of changes is damaged, or it belongs to another volume.",
  9: "This name cannot be used, or there is too much text. A file takes at most 4,096 bytes at once.",
  10: "It is not there any more.",
  11: "There is already something with this name.",
  12: "The place is behind the end of the file.",
  13: "The folder is full.",
  14: "The volume is full.",
  15: "There is no room left to remember another change. Nothing was changed. Take changes back, or ask for a longer list of changes.",
  16: "There is nothing to take back.",
  17: "There are too many folders in each other.",
  18: "The folder is not empty.",
  22: "Settings have at most 200 bytes.",
  23: "These settings are not kept any more.",
  24: "This file does not hold settings with a past.",
  25: "This box has used up its numbers for settings.",
  27: "The note of this morning does not fit the list of changes.",
};
const FILE_REFUSALS = {
  1: "The file is too short. It may have been cut off while it was copied.",
  2: "The first page of the file is damaged, or a newer version wrote it.",
  3: "The file does not have the length that its first page says. It may have been cut off while it was copied.",
  4: "The part of the file that holds an unfinished save is damaged.",
  5: "The part of the file that holds an unfinished save is damaged.",
};
const refusal = (number) => REFUSALS[number] ?? `The library refused this with the number ${number}.`;
const fileRefusal = (number) => FILE_REFUSALS[number] ?? `The library refused the file with the number ${number}.`;

const count = (n, one, many) => `${n.toLocaleString("en")} ${n === 1 ? one : many}`;

// One character of UTF-8 from a place on: its code and its bytes, or null.
const decoder = new TextDecoder("utf-8", { fatal: true, ignoreBOM: true });
function characterAt(bytes, at) {
  const first = bytes[at], size = first < 0x80 ? 1 : first < 0xe0 ? 2 : first < 0xf0 ? 3 : 4;
  try {
    return { text: decoder.decode(bytes.subarray(at, at + size)), size };
  } catch {
    return null;
  }
}

// Bytes as text that can do nothing but be read: what is no UTF-8, controls the terminal, the direction or the line, or cannot be seen, becomes \xNN.
// Line ends and tabs stay where `lines` is set.
const UNSEEN = /[\p{C}\p{Zl}\p{Zp}]/u, PLAIN = (byte) => byte >= 0x20 && byte < 0x7f && byte !== 0x5c;
function visible(bytes, lines = false) {
  if (bytes.every(PLAIN)) return Tree.toPath(bytes);
  let text = "";
  for (let at = 0; at < bytes.length;) {
    const one = characterAt(bytes, at), size = one?.size ?? 1;
    if (one && lines && (one.text === "\n" || one.text === "\t")) text += one.text;
    else if (one && one.text === "\\") text += "\\\\";
    else if (one && !UNSEEN.test(one.text)) text += one.text;
    else for (const byte of bytes.subarray(at, at + size)) text += "\\x" + byte.toString(16).padStart(2, "0");
    at += size;
  }
  return text;
}

const show = (path) => visible(Tree.toBytes(path));
const showName = (path) => show(Tree.nameOf(path));
// The venue of a path: the folders above it.
const venue = (folder) => (folder === "/" ? "Not in a folder" : show(folder.slice(1)).replaceAll("/", " / "));
// A box by name, and its folder if it has one: "SN4471 in stage".
const place = (path) => showName(path) + (Tree.parentOf(path) === "/" ? "" : " in " + venue(Tree.parentOf(path)));

// Whether bytes are text that people can read.
function isText(bytes) {
  let text;
  try { text = decoder.decode(bytes); } catch { return false; }
  return !/[^\P{C}\n\r\t]/u.test(text);
}

// A time in milliseconds since 1970, or nothing where no clock has given it.
const EARLIEST = 946684800000n, LATEST = 4102444800000n;
function when(time) {
  if (time < EARLIEST || time > LATEST) return "";
  return new Date(Number(time)).toLocaleString("en-GB", { day: "numeric", month: "short", year: "numeric", hour: "2-digit", minute: "2-digit" });
}

// The settings that a content holds: of a file of settings the latest, of another one all of it.
function settingsOf(content) {
  if (!content) return null;
  const past = Tree.revisions(content);
  return past ? { revision: past[past.length - 1].number, bytes: past[past.length - 1].data } : { revision: 0, bytes: content };
}

// What a change did, in words. `tense` is "did" of a change that stands, "will" of one that going back makes.
const WORDS = {
  did: { madeFolder: "folder made", goneFolder: "folder removed", made: "added", gone: "deleted", moved: "moved", put: "settings changed", bytes: "contents changed",
    attributes: "attached note changed", flags: "old port number cleared", times: "saved again, nothing changed", other: "entry changed" },
  will: { madeFolder: "folder comes back", goneFolder: "folder goes away", made: "comes back", gone: "goes away", moved: "goes back", put: "settings go back", bytes: "contents go back",
    attributes: "attached note goes back", flags: "old port number comes back", times: "its time goes back", other: "its entry goes back" },
};
function kindOf(change) {
  const { before, after, parts } = change, folder = Tree.isFolder(after ?? before);
  if (change.from) return "moved";
  if (!before) return folder ? "madeFolder" : "made";
  if (!after) return folder ? "goneFolder" : "gone";
  if (parts.includes("bytes")) return change.contentAfter && Tree.revisions(change.contentAfter) ? "put" : "bytes";
  for (const part of ["attributes", "flags"]) if (parts.includes(part)) return part;
  return parts.every((part) => part === "times") ? "times" : "other";
}
function describe(change, tense = "did") {
  const words = WORDS[tense][kindOf(change)];
  return change.from ? `${words} from ${place(change.from)}` : words;
}

// A name for a file that is handed out: letters, digits, dots and dashes, and an ending that opens as text or not at all.
function download(path, text) {
  const name = Array.from(Tree.nameOf(path), (c) => (/[A-Za-z0-9._-]/.test(c) ? c : "_")).join("").replace(/^\.+/, "_") || "file";
  return name + (text ? (name.toLowerCase().endsWith(".txt") ? "" : ".txt") : ".bin");
}

module.exports = { refusal, fileRefusal, count, visible, show, showName, venue, place, isText, when, settingsOf, kindOf, describe, download };
