// node browser.js CHROMIUM COUNTER.html BULGEFS.wasm FOLDER [PICTURES]: the page in a real browser, opened from a file, without a network.
// FOLDER holds van.volume and before.img, as for logic.js. With a folder for pictures it leaves what the page looks like there.
const fs = require("fs"), path = require("path"), crypto = require("crypto"), assert = require("assert"), http = require("http"), { pathToFileURL } = require("url");
const Bulgefs = require("../../web/bulgefs.js"), Counter = require("../../web/counter.js");
const Make = require("./make.js");
const { Browser } = require("./chromium.js");
const { judge, finish } = require("./judge.js");

const [program, html, wasm, folder, pictures] = process.argv.slice(2);
const NO_PICKER = "delete window.showOpenFilePicker; window.showOpenFilePicker = undefined;";
const sha256 = (bytes) => crypto.createHash("sha256").update(bytes).digest("hex");
const inFolder = (name) => path.join(folder, name);
const write = (name, bytes) => { fs.writeFileSync(inFolder(name), bytes); return inFolder(name); };

// A page with a file open in it; afterwards nothing was fetched but the page, and nothing was complained about.
async function visit(browser, files, test, before = NO_PICKER) {
  const page = await browser.page();
  await page.look();
  await page.open(pathToFileURL(html).href, before);
  if (files.length > 0) await page.choose(...files);
  await test(page);
  assert.deepStrictEqual(page.fetched.filter((url) => !url.startsWith("blob:")), [pathToFileURL(html).href], "fetched");
  assert.deepStrictEqual(page.complaints, [], "complaints");
  await page.close();
}
const picture = async (page, name, how) => { if (pictures) await page.picture(path.join(pictures, `${name}.png`), how); };

// The two sides of a box as they are shown.
const sides = (page) => page.run("[...document.querySelectorAll('#box .two > div')].map((side) => side.innerText.split(/\\n+/))");
const values = (page, selector) => page.run(`[...document.querySelectorAll(${JSON.stringify(selector)})].map((one) => one.textContent)`);

async function van(browser) {
  await visit(browser, [inFolder("van.volume")], async (page) => {
    assert.match(await page.text("verdict"), /^Sound van 3, 1 box$/);
    assert.strictEqual(await page.text("reply"), "No: 1 change since this morning.");
    assert.deepStrictEqual(await values(page, "#steps .line span:first-child"), ["SN4471: contents changed"]);
    assert.deepStrictEqual(await values(page, "#steps .text"), ["baud=9600", "baud=300"]);
    await picture(page, "van");
    await page.press("Back to this morning");
    await page.until("document.getElementById('confirm').open");
    assert.match(await page.text("confirm-words"), /^1 change is taken back. This will change 1 box or folder:$/);
    assert.deepStrictEqual(await values(page, "#confirm-list .text"), ["baud=300", "baud=9600"]);
    await picture(page, "van-confirm");
    await page.press("Go back");
    await page.until("document.getElementById('reply').innerText.startsWith('As it was')");
    const wanted = sha256(fs.readFileSync(inFolder("before.img")));
    assert.strictEqual(await page.text("reply"), "As it was: yes, byte for byte.");
    assert.deepStrictEqual([await page.text("then"), await page.text("now")], [wanted, wanted]);
    assert.match(await page.text("say"), /yes, byte for byte/);
    await picture(page, "van-back");
    await page.press("Save as a download");
    const library = await Bulgefs.load(fs.readFileSync(wasm)), saved = await Counter.open(library, [{ name: "s", bytes: await page.downloaded("van.volume") }]);
    assert(saved.answer().equal && Buffer.from(saved.volume.image).equals(fs.readFileSync(inFolder("before.img"))));
  });
}

// The longest time that the page kept the browser from doing anything else, in milliseconds.
const LONGEST = "window.longest = 0; new PerformanceObserver((list) => { for (const one of list.getEntries()) window.longest = Math.max(window.longest, one.duration); }).observe({ type: 'longtask', buffered: true });";

async function fleet(browser, file) {
  await visit(browser, [file], async (page) => {
    console.log(`900 boxes: opened with ${Math.round(await page.run("window.longest"))} ms in one piece at most`);
    assert((await page.run("window.longest")) < 30000);
    assert.match(await page.text("verdict"), /^Sound autumn tour, 900 boxes in 9 folders$/);
    assert.strictEqual(await page.text("reply"), "No: 60 changes since this morning.");
    assert.strictEqual(await page.run("document.querySelectorAll('#list button').length"), 900);
    assert.deepStrictEqual(await page.run("[...document.querySelectorAll('#list h3')].map((h) => h.textContent)"), Make.VENUES.map((venue) => `${venue} (100)`));
    assert.strictEqual(await page.run("document.querySelectorAll('#steps > li').length"), 50);
    await page.press("Show more (10 left)");
    await page.until("document.querySelectorAll('#steps > li').length === 60");
    const order = await values(page, "#steps .line .pale");
    assert(order.every((time, i) => i === 0 || Date.parse(time) <= Date.parse(order[i - 1])), "newest first");
    await picture(page, "fleet");
    await picture(page, "fleet-dark", { dark: true });
    await picture(page, "fleet-phone", { width: 390, height: 844, mobile: true });
    await page.look();
    await search(page);
    await put(page);
    await backBySteps(page);
  }, NO_PICKER + LONGEST);
}

async function search(page) {
  await page.run("document.getElementById('search').focus()");
  const took = await page.run("(() => { const t = performance.now(); for (const v of ['s', 'sn16', '']) { const s = document.getElementById('search'); s.value = v; s.dispatchEvent(new Event('input')); document.body.offsetHeight; } return performance.now() - t; })()");
  console.log(`900 boxes: a search in ${Math.round(took / 3)} ms`);
  assert(took < 30000);
  await page.type("sn1642");
  await page.until("document.querySelectorAll('#list button').length === 1");
  assert.strictEqual(await page.text("matches"), "1 of 900 boxes");
  assert.deepStrictEqual(await values(page, "#list h3"), ["stage (1)"]);
  await page.key("ArrowDown");
  assert.strictEqual(await page.run("document.activeElement.innerText"), "SN1642");
  await page.key("Enter");
  await page.until("document.activeElement.id === 'box-title'", "the box is shown");
  assert.deepStrictEqual(await values(page, "#compare option"), ["This morning", "Earlier settings, number 1"]);
  assert.deepStrictEqual(await sides(page), [["Now, settings number 2", "baud=9600 parity=even gain=42"], ["Earlier settings, number 1", "baud=9600 parity=none gain=42"]]);
  assert.deepStrictEqual(await values(page, "#box mark"), ["parity=even", "parity=none"]);
  await picture(page, "box");
  await picture(page, "box-phone", { width: 390, height: 844, mobile: true });
  await page.look();
}

async function put(page) {
  await page.press("Change settings");
  await page.until("document.activeElement.id === 'edit'");
  await page.run("document.getElementById('edit').select()");
  await page.type("x".repeat(201));
  await page.press("Put these settings");
  await page.until("document.getElementById('trouble').textContent");
  assert.strictEqual(await page.text("trouble"), "SN1642 was not changed. Settings have at most 200 bytes.");
  await page.run("document.getElementById('edit').select()");
  await page.type("baud=1200 parity=even gain=42");
  await page.press("Put these settings");
  await page.until("document.getElementById('say').textContent.startsWith('SN1642 has new settings')");
  assert.strictEqual(await page.text("reply"), "No: 61 changes since this morning.");
  assert.deepStrictEqual((await values(page, "#steps .line span:first-child"))[0], "SN1642 in stage: settings changed");
  assert.deepStrictEqual(await values(page, "#steps li:first-child .text"), ["baud=9600 parity=even gain=42", "baud=1200 parity=even gain=42"]);
  assert.deepStrictEqual(await sides(page), [["Now, settings number 3", "baud=1200 parity=even gain=42"], ["This morning", "baud=9600 parity=even gain=42"]]);
}

async function backBySteps(page) {
  await page.press("Back to before this");
  await page.until("document.getElementById('confirm').open");
  assert.deepStrictEqual([await page.text("confirm-title"), await page.text("confirm-words")], ["Back to before this change", "1 change is taken back. This will change 1 box or folder:"]);
  await page.key("Escape");
  await page.until("!document.getElementById('confirm').open");
  assert.strictEqual(await page.text("reply"), "No: 61 changes since this morning.");
  await page.press("Back to before this");
  await page.until("document.getElementById('confirm').open");
  await page.press("Go back");
  await page.until("document.getElementById('reply').innerText === 'No: 60 changes since this morning.'");
  await page.press("Back to this morning");
  await page.until("document.getElementById('confirm').open");
  assert.match(await page.text("confirm-words"), /^60 changes are taken back. This will change 60 boxes or folders:$/);
  await page.press("Go back");
  await page.until("document.getElementById('reply').innerText === 'As it was: yes, byte for byte.'");
  assert.strictEqual(await page.text("then"), await page.text("now"));
}

async function hostile(browser, file, names) {
  await visit(browser, [file], async (page) => {
    assert.strictEqual(await page.run("document.querySelectorAll('#list button').length"), 2 * names.length);
    assert.strictEqual(await page.run("document.querySelectorAll('main img, main script, main i, main iframe, main a').length"), 0);
    const shown = (await values(page, "#list button")).join("");
    assert(!/[\p{Cc}\p{Cf}]/u.test(shown), "a character that cannot be seen");
    assert(shown.includes("<img src=x onerror=alert(1)>") && shown.includes("\\xe2\\x80\\xaegnp.exe") && shown.includes("\u00e9t\u00e9"));
    assert.match(await page.text("verdict"), /<b>bold\\xe2\\x80\\xae<\/b>/);
    await picture(page, "hostile", { width: 390, height: 844, mobile: true });
    for (const width of [320, 390, 700, 1200]) {
      await page.look({ width, height: 800, mobile: width < 500 });
      assert(await page.run("document.documentElement.scrollWidth <= innerWidth"), `wider than ${width}`);
    }
    for (const i of [0, 1, 5, names.length + 2]) {
      await page.run(`document.querySelectorAll('#list button')[${i}].click()`);
      await page.until(`document.getElementById('box-title')?.textContent === document.querySelectorAll('#list button')[${i}].textContent`);
    }
    await page.run("[...document.querySelectorAll('#list button')].find((b) => b.textContent.startsWith('<svg')).click()");
    await page.until("document.getElementById('box-title').innerText.startsWith('<svg')");
    assert.deepStrictEqual(await sides(page), [["Now", "<svg onload=alert(2)></script><script>alert(4)</script>"]]);
    await page.press("Take this file out");
    assert.strictEqual(Buffer.from(await page.downloaded("_svg_onload_alert_2__.txt")).toString(), "<svg onload=alert(2)></script><script>alert(4)</script>");
  });
}

async function damaged(browser, { image, bytes }) {
  for (const [name, some] of [["damaged.img", image], ["damaged.volume", bytes]]) {
    const file = write(name, some);
    await visit(browser, [file], async (page) => {
      assert.strictEqual(await page.text("answer-title"), "This volume is damaged");
      assert.match(await page.text("reply"), /which file has which part/);
      assert.deepStrictEqual(await values(page, "#facts li"), ["Damaged: SN2003"]);
      assert(!(await page.shown("boxes")) && !(await page.shown("changes")));
      await picture(page, name);
      await page.press("Rescue what is whole");
      await page.until("document.getElementById('answer-title').innerText === 'A rescued copy'");
      assert.strictEqual(await page.text("reply"), "1 box or folder is lost.");
      assert.deepStrictEqual(await values(page, "#facts li"), ["SN2003: lost, its contents could not be followed"]);
      assert.deepStrictEqual(await values(page, "#list button"), ["SN2001", "SN2002"]);
      await picture(page, name + "-rescued");
      await page.press("SN2002");
      await page.press("Take this file out");
      assert.strictEqual(Buffer.from(await page.downloaded("SN2002.txt")).toString(), "baud=19200");
      await page.press("Save the rescued copy");
      const saved = await Counter.open(await Bulgefs.load(fs.readFileSync(wasm)), [{ name, bytes: await page.downloaded(name.replace(".", "-rescued.")) }]);
      assert(saved.sound && saved.entries.length === 2);
      assert(fs.readFileSync(file).equals(Buffer.from(some)), "the opened file changed");
    });
    fs.rmSync(path.join(browser.downloads, "SN2002.txt"));
  }
}

async function wrong(browser) {
  const van = fs.readFileSync(inFolder("van.volume"));
  await visit(browser, [], async (page) => {
    for (const [name, some, words] of [["photo.jpg", crypto.randomBytes(20000), /^This is not a settings volume/], ["empty", Buffer.alloc(0), /^The file is empty/],
      ["cut.volume", van.subarray(0, 70000), /cut off while it was copied/], ["other.volume", Buffer.concat([Buffer.from("BulgeVol"), crypto.randomBytes(4000)]), /first page of the file is damaged/]]) {
      await page.choose(write(name, some));
      assert.match(await page.text("trouble"), words);
      assert(await page.shown("welcome"));
    }
    await page.choose(inFolder("van.volume"));
    await page.choose(inFolder("photo.jpg"));
    assert.match(await page.text("trouble"), /Nothing was opened/);
    assert.strictEqual(await page.text("file"), "van.volume");
    await page.choose(write("cut.img", fs.readFileSync(inFolder("before.img")).subarray(0, 5000)));
    assert.match(await page.text("reply"), /not that of a volume/);
    await page.press("Rescue what is whole");
    await page.until("document.getElementById('trouble').textContent.startsWith('Nothing can be rescued')");
  });
}

async function large(browser, { volume, image }) {
  const file = write("archive.img", image), journal = write("archive.img.journal", volume.journal);
  await visit(browser, [file], async (page) => {
    console.log(`32 MiB: opened with ${Math.round(await page.run("window.longest"))} ms in one piece at most`);
    assert.match(await page.text("verdict"), /^Sound archive, 201 boxes$/);
    assert.strictEqual(await page.text("reply"), "Nothing can be taken back.");
    await page.press("log");
    await page.press("Take this file out");
    assert.strictEqual((await page.downloaded("log.txt")).length, 163840);
    await page.choose(file, journal);
    assert.strictEqual(await page.text("reply"), "41 changes can be taken back.");
    await page.press("Back to the beginning");
    await page.until("document.getElementById('confirm').open");
    assert.deepStrictEqual(await values(page, "#confirm-list .line"), ["log: goes away"]);
    await page.press("Go back");
    await page.until("document.getElementById('reply').innerText === 'No change stands.'");
    assert.match(await page.text("verdict"), /200 boxes/);
  }, NO_PICKER + LONGEST);
}

// A handle as the browser gives it for a file that was chosen, with its bytes in the page.
const HANDLE = `
  window.disk = { bytes: new Uint8Array(0), permission: "granted", broken: false, writes: 0 };
  window.showOpenFilePicker = async () => [{
    kind: "file", requestPermission: async () => disk.permission, getFile: async () => new File([disk.bytes], "van.volume"),
    createWritable: async () => { let held = null; return {
      write: async (bytes) => { if (disk.broken) throw new Error("disk full"); held = bytes.slice(); }, close: async () => { disk.bytes = held; disk.writes++; }, abort: async () => {} }; },
  }];`;

async function inPlace(browser) {
  const van = fs.readFileSync(inFolder("van.volume")).toString("base64"), wanted = sha256(fs.readFileSync(inFolder("before.img")));
  await visit(browser, [], async (page) => {
    await page.run(`disk.bytes = Uint8Array.from(atob(${JSON.stringify(van)}), (c) => c.charCodeAt(0)); disk.kept = disk.bytes.slice(); 0`);
    await page.press("Open a file");
    await page.press("Back to this morning");
    await page.press("Go back");
    await page.until("document.getElementById('reply').innerText === 'As it was: yes, byte for byte.'");
    const refused = async (set, words, unset) => {
      await page.run(`${set}; document.getElementById('trouble').textContent = ''; 0`);
      await page.press("Save");
      await page.until("document.getElementById('trouble').textContent");
      assert.match(await page.text("trouble"), words);
      assert(await page.run("disk.writes === 0"));
      await page.run(`${unset}; 0`);
    };
    await refused("disk.permission = 'denied'", /may not write this file/, "disk.permission = 'granted'");
    await refused("disk.bytes[5000] ^= 1", /Another program has changed the file/, "disk.bytes[5000] ^= 1");
    await refused("disk.broken = true", /could not be written \(disk full\)/, "disk.broken = false");
    assert(await page.run("disk.bytes.every((byte, i) => byte === disk.kept[i])"));
    await page.press("Save");
    await page.until("document.getElementById('say').textContent.startsWith('Saved, and read back')");
    assert(!(await page.shown("save")));
    await page.press("Open another file");
    await page.until("document.getElementById('reply').innerText === 'As it was: yes, byte for byte.' && document.getElementById('say').textContent === 'van.volume is open.'");
    assert.strictEqual(await page.text("now"), wanted);
  }, HANDLE);
}

// The browser's own handles and its own replacing. A page from a file may not have a file of the browser's without asking a person, so this one comes from this computer's own address.
async function inPlaceByBrowser(browser) {
  const server = http.createServer((_, answer) => answer.writeHead(200, { "content-type": "text/html" }).end(fs.readFileSync(html)));
  await new Promise((resolve) => server.listen(0, "127.0.0.1", resolve));
  const page = await browser.page(), van = fs.readFileSync(inFolder("van.volume")).toString("base64");
  await page.look();
  await page.open(`http://127.0.0.1:${server.address().port}/`, `
    window.kept = async () => (await navigator.storage.getDirectory()).getFileHandle("van.volume", { create: true });
    window.hash = async () => { const d = await crypto.subtle.digest("SHA-256", await (await (await kept()).getFile()).arrayBuffer()); return [...new Uint8Array(d)].join(); };
    window.showOpenFilePicker = async () => [await kept()];`);
  await page.run(`(async () => { const s = await (await kept()).createWritable(); await s.write(Uint8Array.from(atob(${JSON.stringify(van)}), (c) => c.charCodeAt(0))); await s.close(); })()`);
  const before = await page.run("hash()");
  await page.press("Open a file");
  await page.press("Back to this morning");
  await page.press("Go back");
  await page.until("document.getElementById('reply').innerText === 'As it was: yes, byte for byte.'");
  assert.strictEqual(await page.run("hash()"), before, "the file changed before it was saved");
  await page.press("Save");
  await page.until("document.getElementById('say').textContent.startsWith('Saved, and read back')");
  assert.notStrictEqual(await page.run("hash()"), before);
  await page.press("Open another file");
  await page.until("document.getElementById('say').textContent === 'van.volume is open.'");
  assert.strictEqual(await page.text("reply"), "As it was: yes, byte for byte.");
  await page.close();
  server.close();
  server.closeAllConnections();
}

async function drop(browser) {
  await visit(browser, [], async (page) => {
    const data = { items: [], files: [inFolder("van.volume")], dragOperationsMask: 1 };
    for (const type of ["dragEnter", "dragOver", "drop"]) await page.send("Input.dispatchDragEvent", { type, x: 300, y: 300, data });
    await page.until("document.getElementById('say').textContent === 'van.volume is open.'");
    assert.strictEqual(await page.text("reply"), "No: 1 change since this morning.");
  });
}

// What a screen reader is told: everything that can be pressed or filled in has a name, headings go down one level at a time.
async function told(browser) {
  await visit(browser, [], async (page) => {
    await picture(page, "welcome");
    await picture(page, "welcome-dark-phone", { dark: true, width: 390, height: 844, mobile: true });
    await page.look();
    await page.choose(inFolder("fleet.volume"));
    await page.press("SN1000");
    await page.press("Change settings");
    const { nodes } = await page.send("Accessibility.getFullAXTree"), of = (role) => nodes.filter((node) => !node.ignored && node.role?.value === role);
    for (const role of ["button", "searchbox", "combobox", "textbox"]) {
      assert(of(role).length > 0, `no ${role}`);
      for (const node of of(role)) assert(node.name?.value, `a ${role} without a name`);
    }
    for (const role of ["main", "navigation", "banner", "status", "alert"]) assert(of(role).length > 0, `no ${role}`);
    const names = of("button").map((node) => node.name.value), backs = names.filter((name) => name.startsWith("Back to before this"));
    assert.strictEqual(new Set(backs).size, backs.length, "two ways back have one name");
    const levels = await page.run("[...document.querySelectorAll('h1, h2, h3')].filter((h) => h.getClientRects().length > 0).map((h) => +h.tagName[1])");
    assert(levels.every((level, i) => i === 0 || level <= levels[i - 1] + 1) && levels[0] === 1, `${levels}`);
    assert.strictEqual(await page.run("document.documentElement.lang"), "en");
  });
}

// By the keyboard alone, from the opened file to the answer.
async function keyboard(browser) {
  await visit(browser, [inFolder("van.volume")], async (page) => {
    const to = async (words) => {
      for (let i = 0; i < 30; i++) {
        await page.key("Tab");
        if ((await page.run("document.activeElement.innerText ?? ''")).startsWith(words)) return;
      }
      throw new Error(`the tab key does not come to ${words}`);
    };
    await to("Back to this morning");
    await page.key("Enter");
    await page.until("document.getElementById('confirm').open");
    await to("Go back");
    await page.key("Enter");
    await page.until("document.getElementById('reply').innerText === 'As it was: yes, byte for byte.'");
    assert.strictEqual(await page.run("document.activeElement.id"), "answer-title");
  });
}

// Words stand out from their ground by 4.5 to 1 at least, in light and dark.
const CONTRAST = `(() => {
  const light = (c) => { const [r, g, b] = c.match(/[\\d.]+/g).map((v) => { v /= 255; return v <= 0.03928 ? v / 12.92 : ((v + 0.055) / 1.055) ** 2.4; }); return 0.2126 * r + 0.7152 * g + 0.0722 * b; };
  const ground = (e) => { for (; e; e = e.parentElement) { const c = getComputedStyle(e).backgroundColor; if (c !== "rgba(0, 0, 0, 0)") return c; } return "rgb(255, 255, 255)"; };
  return [...document.querySelectorAll("body *")].filter((e) => e.getClientRects().length > 0 && [...e.childNodes].some((n) => n.nodeType === 3 && n.textContent.trim())).map((e) => {
    const [a, b] = [light(getComputedStyle(e).color), light(ground(e))].sort((x, y) => y - x);
    return { ratio: (a + 0.05) / (b + 0.05), words: e.textContent.slice(0, 30) };
  }).sort((x, y) => x.ratio - y.ratio)[0];
})()`;
async function contrast(browser) {
  for (const dark of [false, true]) {
    for (const file of ["van.volume", "damaged.img"]) {
      await visit(browser, [inFolder(file)], async (page) => {
        await page.look({ dark });
        const least = await page.run(CONTRAST);
        assert(least.ratio >= 4.5, `${least.words}: ${least.ratio}`);
        if (file === "van.volume") await picture(page, dark ? "van-dark" : "van-light", { dark });
      });
    }
  }
}

// The policy: nothing from elsewhere, no code made of text, no markup made of text.
async function policy(browser) {
  const page = await browser.page();
  await page.open(pathToFileURL(html).href, NO_PICKER);
  const tried = async (expression) => {
    const { result, exceptionDetails } = await page.send("Runtime.evaluate", { expression, awaitPromise: true, returnByValue: true, allowUnsafeEvalBlockedByCSP: false });
    return exceptionDetails ? "refused" : result.value;
  };
  assert.strictEqual(await tried("fetch('data:text/plain,x').then(() => 'done')"), "refused");
  assert.strictEqual(await tried("new Function('return 1')()"), "refused");
  assert.strictEqual(await tried("document.body.innerHTML = '<b>x</b>'"), "refused");
  assert.strictEqual(await tried("(() => { const s = document.createElement('style'); s.textContent = 'body { display: none }'; document.head.append(s); return getComputedStyle(document.body).display; })()"), "block");
  assert.strictEqual(await tried("new Promise((r) => { const i = new Image(); i.onload = () => r('done'); i.onerror = () => r('refused'); i.src = 'data:image/gif;base64,R0lGODlhAQABAAAAACw='; })"), "refused");
  await page.close();
}

async function all(browser) {
  const library = await Bulgefs.load(fs.readFileSync(wasm)), odd = await Make.hostile(library);
  write("fleet.volume", (await Make.fleet(library)).bytes);
  await judge("the README's van: back, and the hash is equal", () => van(browser));
  await judge("900 boxes: open, search, put, back", () => fleet(browser, inFolder("fleet.volume")));
  await judge("hostile names are text", async () => hostile(browser, write("hostile.volume", odd.bytes), odd.names));
  await judge("a damaged file: said, and rescued on a copy", async () => damaged(browser, await Make.damaged(library)));
  await judge("wrong files", () => wrong(browser));
  await judge("32 MiB", async () => large(browser, await Make.largest(library)));
  await judge("saved in place", () => inPlace(browser));
  await judge("saved in place, with the browser's own file", () => inPlaceByBrowser(browser));
  await judge("dropped on the page", () => drop(browser));
  await judge("what a screen reader is told", () => told(browser));
  await judge("by the keyboard alone", () => keyboard(browser));
  await judge("contrast, light and dark", () => contrast(browser));
  await judge("the policy", () => policy(browser));
}

// A browser that hangs is ended after 20 minutes. The times above are wide too, because the machine may have much else to do.
async function main() {
  const browser = await Browser.start(program);
  setTimeout(() => { console.log("the browser came to no end"); browser.process.kill("SIGKILL"); process.exit(1); }, 1200000).unref();
  await judge("the suite comes to its end", () => all(browser));
  await browser.end();
  finish();
}
main();
