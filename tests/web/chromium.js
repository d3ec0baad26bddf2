// A headless Chromium, driven by the DevTools protocol over two pipes.
const { spawn } = require("child_process");
const fs = require("fs"), os = require("os"), path = require("path");

class Browser {
  #waiting = new Map(); #next = 1; #rest = ""; #listeners = [];

  static async start(program) {
    const browser = new Browser();
    browser.folder = fs.mkdtempSync(path.join(os.tmpdir(), "counter-"));
    browser.downloads = path.join(browser.folder, "downloads");
    fs.mkdirSync(browser.downloads);
    browser.process = spawn(program, ["--headless=new", "--no-sandbox", "--disable-gpu", "--no-first-run", "--disable-background-networking", "--disable-component-update", "--disable-sync",
      "--disable-dev-shm-usage", "--hide-scrollbars", "--remote-debugging-pipe", `--user-data-dir=${path.join(browser.folder, "profile")}`, "about:blank"], { stdio: ["ignore", "ignore", "ignore", "pipe", "pipe"] });
    browser.process.stdio[4].setEncoding("utf8");
    browser.process.stdio[4].on("data", (text) => browser.#take(text));
    browser.process.on("exit", () => { for (const { reject } of browser.#waiting.values()) reject(new Error("the browser ended")); });
    await browser.send("Browser.getVersion");
    await browser.send("Browser.setDownloadBehavior", { behavior: "allow", downloadPath: browser.downloads, eventsEnabled: true });
    return browser;
  }

  #take(text) {
    const parts = (this.#rest + text).split("\0");
    this.#rest = parts.pop();
    for (const part of parts) this.#answer(JSON.parse(part));
  }

  #answer(message) {
    if (!message.id) { for (const listener of this.#listeners) listener(message); return; }
    const { resolve, reject, method } = this.#waiting.get(message.id);
    this.#waiting.delete(message.id);
    if (message.error) reject(new Error(`${method}: ${message.error.message}`)); else resolve(message.result);
  }

  send(method, params = {}, sessionId = undefined) {
    const id = this.#next++;
    this.process.stdio[3].write(JSON.stringify({ id, method, params, sessionId }) + "\0");
    return new Promise((resolve, reject) => this.#waiting.set(id, { resolve, reject, method }));
  }

  listen(listener) { this.#listeners.push(listener); }

  async page() {
    const { targetId } = await this.send("Target.createTarget", { url: "about:blank" });
    const { sessionId } = await this.send("Target.attachToTarget", { targetId, flatten: true });
    return new Page(this, targetId, sessionId);
  }

  async end() {
    await this.send("Browser.close").catch(() => null);
    await new Promise((resolve) => { if (this.process.exitCode !== null) resolve(); else this.process.on("exit", resolve); });
    fs.rmSync(this.folder, { recursive: true, force: true, maxRetries: 5 });
  }
}

const pause = (ms) => new Promise((resolve) => setTimeout(resolve, ms));

// A page; what it fetched, complained about and threw is kept.
class Page {
  fetched = []; complaints = [];

  constructor(browser, target, session) {
    this.browser = browser;
    this.target = target;
    this.session = session;
    browser.listen(({ method, params, sessionId }) => {
      if (sessionId !== session) return;
      if (method === "Network.requestWillBeSent") this.fetched.push(params.request.url);
      if (method === "Runtime.exceptionThrown") this.complaints.push(params.exceptionDetails.exception?.description ?? params.exceptionDetails.text);
      if (method === "Log.entryAdded" && params.entry.level !== "verbose") this.complaints.push(params.entry.text);
      if (method === "Page.javascriptDialogOpening") this.send("Page.handleJavaScriptDialog", { accept: true });
    });
  }

  send(method, params = {}) { return this.browser.send(method, params, this.session); }

  // Opens the page without a network, unless it comes by one.
  async open(url, before = "") {
    for (const domain of ["Page", "Runtime", "DOM", "Network", "Log", "Accessibility"]) await this.send(`${domain}.enable`);
    await this.send("Network.emulateNetworkConditions", { offline: url.startsWith("file:"), latency: 0, downloadThroughput: -1, uploadThroughput: -1 });
    if (before) await this.send("Page.addScriptToEvaluateOnNewDocument", { source: before });
    await this.send("Page.navigate", { url });
    await this.until("document.documentElement?.dataset.ready === 'yes'", "the page is ready");
  }

  async run(expression) {
    const { result, exceptionDetails } = await this.send("Runtime.evaluate", { expression, awaitPromise: true, returnByValue: true, userGesture: true });
    if (exceptionDetails) throw new Error(`${expression}: ${exceptionDetails.exception?.description ?? exceptionDetails.text}`);
    return result.value;
  }

  async until(expression, what = expression) {
    for (let left = 3000; left > 0; left--) {
      if (await this.run(`document.body !== null && Boolean(${expression})`)) return;
      await pause(20);
    }
    throw new Error(`never: ${what}; the page says: ${await this.run("document.body.innerText.slice(0, 600)")}`);
  }

  // Gives files to the page's own field for files, as choosing them does.
  async choose(...files) {
    await this.run("document.getElementById('say').textContent = document.getElementById('trouble').textContent = ''");
    const { root } = await this.send("DOM.getDocument"), { nodeId } = await this.send("DOM.querySelector", { nodeId: root.nodeId, selector: "#input" });
    await this.send("DOM.setFileInputFiles", { nodeId, files });
    await this.until("document.getElementById('say').textContent || document.getElementById('trouble').textContent", "the file is opened or refused");
  }

  text(id) { return this.run(`document.getElementById(${JSON.stringify(id)}).innerText`); }
  shown(id) { return this.run(`document.getElementById(${JSON.stringify(id)}).getClientRects().length > 0`); }

  // Presses the button whose words begin so, as a person does: by the mouse, where it is seen.
  async press(words) {
    const found = `[...document.querySelectorAll('button')].find((b) => b.getClientRects().length > 0 && b.textContent.startsWith(${JSON.stringify(words)}))`;
    await this.until(found, `a button ${words}`);
    const { x, y } = await this.run(`(() => { const b = ${found}; b.scrollIntoView({ block: "center" }); const r = b.getBoundingClientRect(); return { x: r.x + r.width / 2, y: r.y + r.height / 2 }; })()`);
    for (const type of ["mousePressed", "mouseReleased"]) await this.send("Input.dispatchMouseEvent", { type, x, y, button: "left", clickCount: 1 });
  }

  async key(key, code = key, text = undefined) {
    const codes = { Tab: 9, Enter: 13, Escape: 27, ArrowDown: 40, ArrowUp: 38, " ": 32 };
    await this.send("Input.dispatchKeyEvent", { type: "keyDown", key, code, windowsVirtualKeyCode: codes[key], text: key === "Enter" ? "\r" : text });
    await this.send("Input.dispatchKeyEvent", { type: "keyUp", key, code, windowsVirtualKeyCode: codes[key] });
  }

  type(text) { return this.send("Input.insertText", { text }); }

  async downloaded(name) {
    const file = path.join(this.browser.downloads, name);
    for (let left = 3000; left > 0; left--) {
      if (fs.existsSync(file)) return new Uint8Array(fs.readFileSync(file));
      await pause(20);
    }
    throw new Error(`${name} was not downloaded; there is: ${fs.readdirSync(this.browser.downloads)}`);
  }

  async picture(file, { width = 1200, height = 900, mobile = false, dark = false } = {}) {
    await this.look({ width, height, mobile, dark });
    const { data } = await this.send("Page.captureScreenshot", { format: "png" });
    fs.writeFileSync(file, Buffer.from(data, "base64"));
  }

  async look({ width = 1200, height = 900, mobile = false, dark = false } = {}) {
    await this.send("Emulation.setDeviceMetricsOverride", { width, height, deviceScaleFactor: 1, mobile });
    await this.send("Emulation.setEmulatedMedia", { features: [{ name: "prefers-color-scheme", value: dark ? "dark" : "light" }] });
    await pause(50);
  }

  close() { return this.browser.send("Target.closeTarget", { targetId: this.target }); }
}

module.exports = { Browser };
