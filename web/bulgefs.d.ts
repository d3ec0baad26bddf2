// Types of bulgefs.js. include/bulgefs.h says what each call does and refuses; bulgefs.js says how arguments are lent.

/** In a browser, where bulgefs.js is a script of the page. */
export as namespace Bulgefs;

/** Bytes that a call only looks at: a string is lent as UTF-8. */
type Lent = string | Uint8Array;
/** A number of 64 bits: a BigInt, or a whole number up to 2^53 - 1. */
type Wide = bigint | number;

export interface Found { number: number; slot: number; size: number; blocks: number }
export interface Filled { number: number; count: number }
export interface Part { start: number; length: number }
export interface VolumeNumbers { number: number; blocks: number; used: number; free: number; rootBlocks: number }
export interface Slot {
  number: number; slot: number;
  type: number; user: number; group: number; permissions: number;
  flags: number; created: bigint; modified: bigint;
  first: number; size: number; blocks: number; attributeBlock: number; attributeSize: number;
}
export interface Created { number: number; slot: number; record: number }
export interface Changed { number: number; record: number }
export interface Listed { number: number; done: number }
export interface Journal { number: number; used: number; records: number; last: number }
export interface Put { number: number; revision: number; record: number }
export interface Got { number: number; revision: number; length: number }
export interface Salvaged { number: number; dropped: number; freed: number }
export interface FilePlaces {
  number: number; waits: number;
  imageStart: number; imageLength: number; journalStart: number; journalLength: number; ownStart: number; ownLength: number;
}
export interface FilePrepared {
  number: number; sectors: number;
  numbersStart: number; numbersLength: number; sectorsStart: number; sectorsLength: number;
}
export interface FileRecovered { number: number; waited: number; sectors: number }

/** The lengths of a volume's parts, in bytes; 0 where none is said. */
export interface Lengths { image?: number; journal?: number; own?: number; file?: number }

export interface Volume {
  /** Views of the volume's one memory. Ask for them anew after a call. */
  readonly image: Uint8Array;
  readonly journal: Uint8Array;
  readonly own: Uint8Array;
  readonly file: Uint8Array;

  version(): number;
  check(): number;
  plainCheck(): number;
  format(rootBlocks: number, time: Wide, uuid: Uint8Array, volumeName: Lent): number;
  lookup(path: Lent): Found;
  read(path: Lent, offset: Wide, buffer: Uint8Array): Filled;
  readNext(path: Lent, position: BigUint64Array, buffer: Uint8Array): Filled;
  lookInPlace(path: Lent, index: Wide): Part;
  info(labels: Uint8Array): VolumeNumbers;
  entry(path: Lent, slot: number, name: Uint8Array): Slot;
  journalStart(): number;
  create(path: Lent, type: number, user: number, group: number, permissions: number, flags: number, time: Wide): Created;
  write(path: Lent, offset: Wide, data: Lent, time: Wide): Changed;
  shorten(path: Lent, size: Wide, time: Wide): Changed;
  replace(path: Lent, data: Lent, time: Wide): Changed;
  append(path: Lent, piece: Lent, time: Wide): Changed;
  writeList(list: Lent): Listed;
  delete(path: Lent): Changed;
  createDirectory(path: Lent, type: number, user: number, group: number, permissions: number, flags: number, blocks: number, time: Wide): Created;
  deleteDirectory(path: Lent): Changed;
  setAttributes(path: Lent, data: Lent): Changed;
  readAttributes(path: Lent, buffer: Uint8Array): Filled;
  clearAttributes(path: Lent): Changed;
  clearFlags(path: Lent): Changed;
  move(path: Lent, to: Lent): Created;
  putSettings(serial: Lent, data: Lent, time: Wide): Put;
  getSettings(serial: Lent, revision: number, buffer: Uint8Array): Got;
  getLatestSettings(serial: Lent, buffer: Uint8Array): Got;
  putSettingsIn(directory: Lent, serial: Lent, data: Lent, time: Wide): Put;
  getSettingsIn(directory: Lent, serial: Lent, revision: number, buffer: Uint8Array): Got;
  getLatestSettingsIn(directory: Lent, serial: Lent, buffer: Uint8Array): Got;
  undo(): Changed;
  journalInfo(): Journal;
  undoTo(mark: number): Listed;
  loadTable(entries: Uint32Array): number;
  storeTable(entries: Uint32Array): number;
  salvage(report: Uint8Array): number;
  /** Only where the module has it: Library.has("salvageTree"). */
  salvageTree(report: Uint8Array): Salvaged;
  fileSize(imageSectors: number, journalSectors: number, ownSectors: number): bigint;
  fileBegin(imageSectors: number, journalSectors: number, ownSectors: number): number;
  fileCheck(): number;
  fileParts(): FilePlaces;
  filePrepare(): FilePrepared;
  fileCommit(): number;
  fileRecover(): FileRecovered;
  fileHome(index: number): Part;
}

export interface Library {
  /** Whether the module has a call, by the name of its method. */
  has(method: string): boolean;
  /** A volume with a memory of its own, all bytes zero. */
  volume(lengths?: Lengths): Promise<Volume>;
}

/** Compiles bulgefs.wasm. */
export function load(wasm: BufferSource): Promise<Library>;
/** Words for a number, and for a number of a volume file. */
export function text(number: number): string;
export function fileText(number: number): string;
/** The calls: name in the header, and what each answers and takes. */
export const calls: Record<string, string>;
/** The name of a call's method. */
export function method(call: string): string;
