// page.js - the page: what is seen and pressed. Everything that comes out of a volume is set as text.
const Tree = require("./tree.js");
const Mark = require("./mark.js");
const Words = require("./words.js");
const Counter = require("./counter.js");

const SHOWN = 50, ROWS = 3000, TOKENS = 400;
const at = (id) => document.getElementById(id);

// What is open: the counter, the handle to save in place, the hash of the file as it was opened, and what a rescue told.
let library = null, counter = null, handle = null, opened = null, rescued = null, then = null, chosen = null, steps = null, sinceStart = false;

// An element with a class, and texts or elements in it.
function make(name, className, ...children) {
  const element = document.createElement(name);
  if (className) element.className = className;
  element.append(...children);
  return element;
}
// A name from the volume, kept apart from the direction of the words around it.
const named = (text) => make("bdi", "", text);
const button = (words, press, className = "") => {
  const element = make("button", className, words);
  element.type = "button";
  element.addEventListener("click", press);
  return element;
};
function say(words) { at("trouble").textContent = ""; at("say").textContent = words; }
function complain(words) { at("say").textContent = ""; at("trouble").textContent = words; }

// Runs what a press asks for; whatever goes wrong is said.
const pressed = (work) => async (event) => {
  try {
    await work(event);
  } catch (error) {
    if (error?.name === "AbortError") return;
    complain(error instanceof Counter.Trouble ? error.message : `This did not work: ${error?.message ?? error}`);
  }
};

// ---- open ----

async function choose() {
  if (!window.showOpenFilePicker) return at("input").click();
  const handles = await window.showOpenFilePicker({ multiple: true });
  return take(await Promise.all(handles.map((one) => one.getFile())), handles.length === 1 ? handles[0] : null);
}

async function dropped(event) {
  event.preventDefault();
  document.body.classList.remove("dropping");
  const items = [...event.dataTransfer.items].filter((item) => item.kind === "file"), files = [...event.dataTransfer.files];
  const asked = items.length === 1 && items[0].getAsFileSystemHandle ? items[0].getAsFileSystemHandle() : null;
  const found = asked ? await asked.catch(() => null) : null;
  await take(files, found?.kind === "file" ? found : null);
}

async function take(files, from) {
  if (files.length === 0) return;
  if (counter?.changed && !confirm("What was changed here has not been saved. Open another file all the same?")) return;
  const read = await Promise.all(files.map(async (file) => ({ name: file.name, bytes: new Uint8Array(await file.arrayBuffer()) })));
  const next = await Counter.open(library, read);
  counter = next;
  handle = from;
  opened = handle ? Mark.sha256(read[0].bytes) : null;
  rescued = null;
  sinceStart = false;
  show();
  say(`${files[0].name} is open.`);
  at("answer-title").focus();
}

// ---- show ----

function show() {
  chosen = counter.entries.some((entry) => entry.path === chosen) ? chosen : null;
  then = null;
  at("welcome").hidden = true;
  at("open").hidden = false;
  at("file").replaceChildren(named(Words.visible(new TextEncoder().encode(counter.name))));
  at("save").hidden = !counter.changed || Boolean(rescued);
  at("save").textContent = handle && counter.kind === "file" ? "Save" : "Save as a download";
  at("copy").hidden = !(handle && counter.kind === "file" && counter.changed);
  showAnswer();
  showBoxes();
  showBox();
  restartChanges();
}

function showAnswer() {
  for (const id of ["verdict", "reply", "why", "facts", "do"]) at(id).replaceChildren();
  at("answer").hidden = false;
  at("hashes").hidden = true;
  at("reply").className = "reply";
  if (!counter.sound) return showDamaged();
  const label = counter.label(), files = counter.entries.filter(Tree.isFile).length, folders = counter.entries.length - files;
  at("answer-title").textContent = rescued ? "A rescued copy" : "Is it as it was this morning?";
  at("verdict").append(make("span", "tag good", "Sound"), " ", label ? named(label) : "", label ? ", " : "",
    Words.count(files, "box", "boxes"), folders > 0 ? ` in ${Words.count(folders, "folder", "folders")}` : "");
  if (counter.waited) fact("The last save had been cut off. It was whole in the file, and has been completed here. Save to complete it in the file too.");
  if (rescued) return showRescued();
  if (!counter.undoable) return showWithoutJournal();
  return counter.hasMorning ? showMorning() : showBeginning();
}

const fact = (...words) => at("facts").append(make("li", "", ...words));
function reply(kind, words, why) {
  at("reply").classList.add(kind);
  at("reply").textContent = words;
  at("why").textContent = why;
}
const sinceMark = () => Tree.records(counter.volume.journal).filter(({ start }) => start >= counter.start).length;

function showMorning() {
  const day = Words.when(counter.morning.time), answer = counter.answer();
  if (!answer) {
    reply("note", `No: ${Words.count(sinceMark(), "change", "changes")} since this morning.`, day ? `This morning was noted on ${day}.` : "");
    at("do").append(button("Back to this morning", pressed(() => ask(counter.start)), "strong large"));
    return;
  }
  at("hashes").hidden = false;
  at("then").textContent = answer.then;
  at("now").textContent = answer.now;
  if (answer.equal) reply("good", "As it was: yes, byte for byte.", `The volume has the fingerprint that was noted this morning${day ? `, on ${day}` : ""}.`);
  else reply("bad", "As it was: no.", "No change stands, but the fingerprint is another one. The note is that of another volume, or the volume was changed without its list of changes.");
}

function showBeginning() {
  if (counter.morning) fact("A note of this morning is there, but it does not fit the list of changes. Changes that stood this morning have been taken back since.");
  else fact("No note of this morning was kept in this file, so there is no fingerprint to compare.");
  if (counter.journal.records === 0) return reply("note", "No change stands.", "The volume is as it was when its list of changes began, byte for byte.");
  reply("note", `${Words.count(counter.journal.records, "change", "changes")} can be taken back.`, "They were made since the list of changes began.");
  at("do").append(button("Back to the beginning", pressed(() => ask(Tree.FIRST_MARK)), "strong large"));
  return null;
}

function showWithoutJournal() {
  if (counter.kind === "image") return reply("note", "Nothing can be taken back.", "This file came without its list of changes. Open both together: the image, and the file whose name ends in .journal.");
  return reply("bad", "Nothing can be taken back.", Words.refusal(counter.journal.number));
}

function showDamaged() {
  at("answer-title").textContent = "This volume is damaged";
  at("verdict").append(make("span", "tag bad", "Not sound"));
  reply("bad", Words.refusal(counter.number), "The file was opened to look, and has not been changed. Nothing can be taken back in a damaged volume.");
  for (const path of counter.where().slice(0, 20)) fact(path === "/" ? "Damaged: the top folder" : "Damaged: ", path === "/" ? "" : named(Words.place(path)));
  at("do").append(button("Rescue what is whole", pressed(rescue), "strong large"));
}

// ---- rescue ----

async function rescue() {
  const found = await counter.rescue();
  if (found.number !== 0) {
    complain(`Nothing can be rescued. ${found.words} Keep the file, and take a copy of an earlier day.`);
    return;
  }
  rescued = found;
  counter = found.counter;
  handle = null;
  show();
  say("The rescued copy is shown. The file that you opened was not changed.");
  at("answer-title").focus();
}

const LOST = { 1: "lost, its entry was damaged", 2: "lost, its contents could not be followed" };
const MENDED = { 3: "kept, its end was mended", 4: "kept, but its attached note is lost", 6: "found again, without its place" };
function showRescued() {
  const { lost, mended } = rescued;
  reply(lost.length === 0 ? "good" : "note", lost.length === 0 ? "Everything was rescued." : `${Words.count(lost.length, "box or folder is", "boxes or folders are")} lost.`,
    "This is a copy. The file that you opened was not changed. Take files out one by one, or save the copy.");
  for (const { path, code } of [...lost, ...mended].slice(0, 200)) fact(named(Words.place(path)), ": ", LOST[code] ?? MENDED[code] ?? "mended");
  at("do").append(button("Save the rescued copy", pressed(async () => hand(await rescued.file(), rescuedName(counter.name))), "strong"));
}
const rescuedName = (name) => name.replace(/(\.[A-Za-z0-9]{1,8})?$/, "-rescued$1");

// ---- boxes ----

let boxes = [];
function showBoxes() {
  boxes = counter.entries.filter(Tree.isFile).map(({ path }) => {
    const folder = Tree.parentOf(path), name = Words.showName(path);
    return { path, folder, name, words: `${name}\n${Words.venue(folder)}`.toLowerCase() };
  }).sort((a, b) => (a.name < b.name ? -1 : 1));
  at("boxes").hidden = !counter.sound || boxes.length === 0;
  showMatches();
}

function showMatches() {
  const wanted = at("search").value.trim().toLowerCase(), found = boxes.filter(({ words }) => words.includes(wanted));
  const groups = new Map();
  for (const one of found.slice(0, ROWS)) {
    if (!groups.has(one.folder)) groups.set(one.folder, []);
    groups.get(one.folder).push(one);
  }
  at("matches").textContent = (wanted ? `${found.length.toLocaleString("en")} of ` : "") + Words.count(boxes.length, "box", "boxes")
    + (found.length > ROWS ? `, the first ${ROWS.toLocaleString("en")} are shown` : "");
  at("list").replaceChildren(...[...groups].sort(([a], [b]) => (a < b ? -1 : 1)).map(([folder, ones]) => group(folder, ones)));
}

function group(folder, ones) {
  const list = make("ul", "", ...ones.map(row));
  return make("section", "", make("h3", "", named(Words.venue(folder)), ` (${ones.length})`), list);
}

function row({ path, name }) {
  const press = make("button", "", named(name));
  press.type = "button";
  if (path === chosen) press.setAttribute("aria-current", "true");
  press.dataset.path = path;
  return make("li", "", press);
}

// The arrow keys go from box to box.
function moveInList(event) {
  const step = { ArrowDown: 1, ArrowUp: -1 }[event.key], all = [...at("list").querySelectorAll("button")];
  if (!step || all.length === 0) return;
  event.preventDefault();
  const from = all.indexOf(document.activeElement), to = from < 0 ? (step > 0 ? 0 : all.length - 1) : Math.min(Math.max(from + step, 0), all.length - 1);
  all[to].focus();
}

// ---- one box ----

async function pick(path) {
  chosen = path;
  for (const press of at("list").querySelectorAll("button")) {
    if (press.dataset.path === path) press.setAttribute("aria-current", "true");
    else press.removeAttribute("aria-current");
  }
  await showBox();
  at("box-title").focus();
  at("box").scrollIntoView({ block: matchMedia("(max-width: 46rem)").matches ? "start" : "nearest" });
}

// The volume as it was at the start, on a copy, for comparing.
async function atStart() {
  if (!then && counter.undoable && counter.journal.used !== counter.start) then = await counter.preview(counter.start);
  return then?.number === 0 ? then.copy : null;
}

// What a box can be compared with: this morning, and its earlier settings.
async function pastOf(path) {
  const now = counter.past(path), start = await atStart(), found = [];
  if (start) {
    const was = counter.past(path, start)[0];
    found.push({ words: counter.hasMorning ? "This morning" : "At the beginning", bytes: was?.bytes ?? null });
  }
  for (const { revision, bytes } of now.slice(1)) found.push({ words: `Earlier settings, number ${revision}`, bytes });
  return { now: now[0] ?? { revision: 0, bytes: new Uint8Array(0) }, found };
}

async function showBox() {
  const section = at("box"), path = chosen;
  section.hidden = !path;
  if (!path) return;
  const { now, found } = await pastOf(path);
  if (path !== chosen) return;
  const entry = counter.entries.find((one) => one.path === path), title = make("h2", "", named(Words.showName(path)));
  title.id = "box-title";
  title.tabIndex = -1;
  const when = Words.when(entry.modified), folder = Tree.parentOf(path);
  const about = make("p", "pale", folder === "/" ? "" : named(Words.venue(folder)), folder === "/" || !when ? "" : ", ", when ? `last saved ${when}` : "");
  const room = make("div", "");
  room.hidden = true;
  section.replaceChildren(title, about, sides(now, found), ...noteOf(path, entry), actions(path, now), room);
}

const nowWords = ({ revision }) => (revision > 0 ? `Now, settings number ${revision}` : "Now");

// Now on the left, and on the right what was chosen to compare with.
function sides(now, found) {
  const left = make("div", "", make("h3", "", nowWords(now))), two = make("div", "two", left);
  if (found.length === 0) {
    left.append(textOf(now.bytes, null));
    return make("div", "", two, make("p", "pale", "There is nothing earlier to compare with."));
  }
  const select = make("select", "", ...found.map(({ words }, i) => { const option = make("option", "", words); option.value = i; return option; })), right = make("div", "");
  select.setAttribute("aria-label", "Compare with");
  const fill = () => {
    const was = found[+select.value].bytes;
    left.replaceChildren(make("h3", "", nowWords(now)), textOf(now.bytes, was));
    right.replaceChildren(make("h3", "", found[+select.value].words), textOf(was, now.bytes));
  };
  const first = found.findIndex(({ bytes }) => !bytes || !Tree.equal(bytes, now.bytes));
  select.value = String(Math.max(first, 0));
  select.addEventListener("change", fill);
  fill();
  two.append(right);
  const label = make("label", "", "Compare with");
  select.id = "compare";
  label.htmlFor = "compare";
  return make("div", "", label, select, two);
}

// Bytes as text, with the words marked that the other side does not have. Bytes that are no text are shown as numbers.
function textOf(bytes, other) {
  if (!bytes) return make("p", "text empty", "It was not there.");
  if (bytes.length === 0) return make("p", "text empty", "Nothing is in it.");
  if (!Words.isText(bytes)) {
    const shown = Array.from(bytes.subarray(0, 256), (byte) => byte.toString(16).padStart(2, "0")).join(" ");
    return make("div", "", make("p", "pale", `Not text, ${Words.count(bytes.length, "byte", "bytes")}`), make("p", "text", shown + (bytes.length > 256 ? " ..." : "")));
  }
  const text = make("p", "text"), mine = tokens(bytes), theirs = other && Words.isText(other) ? tokens(other) : null;
  const kept = theirs ? common(mine, theirs) : null;
  mine.forEach((token, i) => text.append(kept && !kept.has(i) && token.trim() ? make("mark", "", token) : token));
  return text;
}

const tokens = (bytes) => Words.visible(bytes, true).slice(0, 20000).match(/\s+|[^\s]+/g) ?? [];

// Which of a's tokens stand in the longest common run of both; all of them where there are too many to compare.
function common(a, b) {
  if (a.length > TOKENS || b.length > TOKENS) return new Set(a.keys());
  const table = Array.from({ length: a.length + 1 }, () => new Uint16Array(b.length + 1));
  for (let i = a.length - 1; i >= 0; i--) for (let j = b.length - 1; j >= 0; j--) table[i][j] = a[i] === b[j] ? table[i + 1][j + 1] + 1 : Math.max(table[i + 1][j], table[i][j + 1]);
  const kept = new Set();
  for (let i = 0, j = 0; i < a.length && j < b.length;) {
    if (a[i] === b[j]) { kept.add(i); i++; j++; } else if (table[i + 1][j] >= table[i][j + 1]) i++; else j++;
  }
  return kept;
}

function noteOf(path, entry) {
  if (entry.attributeSize === 0) return [];
  return [make("h3", "", "Attached note"), textOf(counter.note(path), null)];
}

function actions(path, now) {
  const line = make("p", "buttons", button("Take this file out", pressed(() => hand(counter.read(path), Words.download(path, Words.isText(counter.read(path)))))));
  if (!rescued && counter.undoable && Words.isText(now.bytes) && now.bytes.length <= 4096) line.append(button("Change settings", pressed(() => edit(path, now))));
  line.append(button("Close", pressed(close)));
  return line;
}

function close() {
  const press = [...at("list").querySelectorAll("button")].find((one) => one.dataset.path === chosen);
  chosen = null;
  at("box").hidden = true;
  (press ?? at("search")).focus();
}

function edit(path, now) {
  const area = make("textarea", ""), label = make("label", "", "New settings"), form = make("form", "", label, area), words = make("p", "pale");
  area.id = "edit";
  area.rows = 4;
  area.spellcheck = false;
  area.value = new TextDecoder().decode(now.bytes);
  label.htmlFor = "edit";
  const most = now.revision > 0 ? Counter.MAX_SETTINGS : 4096;
  const size = () => { words.textContent = `${new TextEncoder().encode(area.value).length} of ${most.toLocaleString("en")} bytes`; };
  area.addEventListener("input", size);
  size();
  const put = make("button", "strong", "Put these settings");
  put.type = "submit";
  form.append(words, make("p", "buttons", put, button("Cancel", pressed(() => showBox().then(() => at("box-title").focus())))));
  form.addEventListener("submit", pressed((event) => { event.preventDefault(); return store(path, new TextEncoder().encode(area.value)); }));
  at("box").lastElementChild.replaceWith(form);
  area.focus();
}

async function store(path, bytes) {
  const number = counter.put(path, bytes, BigInt(Date.now()));
  if (number !== 0) {
    complain(`${Words.showName(path)} was not changed. ${Words.refusal(number)}`);
    return;
  }
  show();
  say(`${Words.showName(path)} has new settings. Save to keep them.`);
}

// ---- changes ----

function restartChanges() {
  const section = at("changes"), earlier = counter.hasMorning && counter.start > Tree.FIRST_MARK;
  const mark = sinceStart ? Tree.FIRST_MARK : counter.start, records = counter.undoable ? Tree.records(counter.volume.journal).filter(({ start }) => start >= mark).length : 0;
  section.hidden = Boolean(rescued) || !counter.undoable || (records === 0 && !earlier);
  at("changes-title").textContent = counter.hasMorning && !sinceStart ? "What changed since this morning" : "What changed, newest first";
  at("earlier").hidden = !earlier || sinceStart;
  at("steps").replaceChildren();
  steps = { changes: counter.changes(mark), left: records };
  if (!section.hidden) moreChanges();
}

function moreChanges() {
  for (let i = 0; i < SHOWN; i++) {
    const { value, done } = steps.changes.next();
    if (done) { steps.left = 0; break; }
    steps.left--;
    at("steps").append(step(value));
  }
  if (at("steps").childElementCount === 0) at("steps").append(make("li", "pale", "Nothing has changed."));
  at("more").hidden = steps.left <= 0;
  at("more").textContent = `Show more (${Math.max(steps.left, 0).toLocaleString("en")} left)`;
}

// One change in words: which box, what became of it, when, and the way back to before it.
function step({ start, changes }) {
  const item = make("li", "");
  if (changes.length === 0) item.append(make("p", "line", "A change that changed nothing"));
  for (const change of changes) item.append(line(change, "did", Words.when((change.after ?? change.before).modified)), ...beforeAndAfter(change, "Before", "After"));
  const back = button("Back to before this", pressed(() => ask(start)), "small");
  back.setAttribute("aria-label", `Back to before this: ${changes.map((change) => `${Words.place(change.path)} ${Words.describe(change)}`).join(", ") || "a change that changed nothing"}`);
  item.append(make("p", "", back));
  return item;
}

function line(change, tense, when) {
  const words = make("p", "line", make("span", "", make("b", "", named(Words.place(change.path))), ": ", Words.describe(change, tense)));
  if (when && change.after) words.append(make("span", "pale", when));
  return words;
}

function beforeAndAfter(change, first, second) {
  const before = Words.settingsOf(change.contentBefore), after = Words.settingsOf(change.contentAfter);
  if (!change.before || !change.after || !change.parts.includes("bytes") || !before || !after) return [];
  return [make("div", "two", make("div", "", make("h3", "", first), textOf(before.bytes, after.bytes)), make("div", "", make("h3", "", second), textOf(after.bytes, before.bytes)))];
}

// ---- back ----

let asked = null;
async function ask(mark) {
  const tried = await counter.preview(mark), morning = counter.hasMorning && mark === counter.start;
  if (tried.number !== 0) {
    complain(`Going back is not possible. ${tried.words}`);
    return;
  }
  asked = mark;
  at("confirm-title").textContent = morning ? "Back to this morning" : mark === Tree.FIRST_MARK ? "Back to the beginning" : "Back to before this change";
  const differ = tried.differences;
  at("confirm-words").textContent = `${Words.count(tried.done, "change is", "changes are")} taken back. ${differ.length === 0 ? "No box will look different." : `This will change ${Words.count(differ.length, "box or folder", "boxes or folders")}:`}`;
  at("confirm-list").replaceChildren(...differ.slice(0, 200).map((change) => make("li", "", line(change, "will", ""), ...beforeAndAfter(change, "Is", "Will be"))));
  if (differ.length > 200) at("confirm-list").append(make("li", "pale", `and ${Words.count(differ.length - 200, "more", "more")}`));
  at("confirm").showModal();
}

async function goBack() {
  at("confirm").close();
  const { number, done, words, answer } = await counter.back(asked);
  if (number !== 0) {
    complain(`Nothing was taken back. ${words ?? Words.refusal(number)}`);
    return;
  }
  show();
  say(`${Words.count(done, "change was", "changes were")} taken back.${answer?.equal ? " As it was: yes, byte for byte." : ""} Save to keep it.`);
  at("answer-title").focus();
}

// ---- save ----

// Hands bytes out as a download.
function hand(bytes, name) {
  const link = make("a", ""), url = URL.createObjectURL(new Blob([bytes], { type: "application/octet-stream" }));
  link.href = url;
  link.download = name;
  link.click();
  setTimeout(() => URL.revokeObjectURL(url), 60000);
}

const volumeName = (name) => (counter.kind === "pair" ? name.replace(/(\.[A-Za-z0-9]{1,8})?$/, ".volume") : name);

async function save() {
  const bytes = await counter.bytes();
  if (!handle || counter.kind !== "file") {
    hand(bytes, volumeName(counter.name));
    counter.changed = false;
    show();
    say("The file was handed out as a download. Put it in the place of the old one.");
    return;
  }
  await saveInPlace(bytes);
  counter.changed = false;
  show();
  say("Saved, and read back: the file holds just this.");
}

// The browser writes a second file and puts it in the place of the first when it is whole. Nobody can lock the file from here, so it is compared before.
async function saveInPlace(bytes) {
  if (handle.requestPermission && (await handle.requestPermission({ mode: "readwrite" })) !== "granted") throw new Counter.Trouble("The browser may not write this file. Nothing was saved. Save a copy instead.");
  const onDisk = async () => Mark.sha256(new Uint8Array(await (await handle.getFile()).arrayBuffer()));
  if (!Tree.equal(await onDisk(), opened)) throw new Counter.Trouble("Another program has changed the file since it was opened. Nothing was saved. Open it again, or save a copy.");
  const stream = await handle.createWritable();
  try {
    await stream.write(bytes);
    await stream.close();
  } catch (error) {
    await stream.abort?.().catch(() => null);
    throw new Counter.Trouble(`The file could not be written (${error.message}). It is as it was.`);
  }
  const wanted = Mark.sha256(bytes);
  if (!Tree.equal(await onDisk(), wanted)) throw new Counter.Trouble("The file does not hold what was written. Save a copy to another place.");
  opened = wanted;
}

async function saveCopy() {
  hand(await counter.bytes(), counter.name);
  say("A copy was handed out as a download. The file that you opened was not changed.");
}

// ---- the start ----

function listen() {
  at("open").addEventListener("click", pressed(choose));
  at("open-first").addEventListener("click", pressed(choose));
  at("input").addEventListener("change", pressed(async (event) => { const files = [...event.target.files]; event.target.value = ""; await take(files, null); }));
  at("save").addEventListener("click", pressed(save));
  at("copy").addEventListener("click", pressed(saveCopy));
  at("search").addEventListener("input", showMatches);
  at("boxes").addEventListener("keydown", moveInList);
  at("list").addEventListener("click", pressed(async (event) => { const press = event.target.closest("button"); if (press) await pick(press.dataset.path); }));
  at("more").addEventListener("click", pressed(moreChanges));
  at("earlier").addEventListener("click", pressed(() => { sinceStart = true; restartChanges(); }));
  at("go").addEventListener("click", pressed(goBack));
  at("stay").addEventListener("click", () => at("confirm").close());
  document.addEventListener("dragover", (event) => { event.preventDefault(); document.body.classList.add("dropping"); });
  document.addEventListener("dragleave", () => document.body.classList.remove("dropping"));
  document.addEventListener("drop", pressed(dropped));
  window.addEventListener("beforeunload", (event) => { if (counter?.changed) event.preventDefault(); });
}

pressed(async () => {
  library = await Bulgefs.load(Uint8Array.from(atob(WASM), (c) => c.charCodeAt(0)));
  listen();
  document.documentElement.dataset.ready = "yes";
})();
