// Drives headless Chromium over its pipe: what the test needs of it and no more.
import { spawn } from "node:child_process";
import { mkdtempSync, rmSync, writeFileSync } from "node:fs";
import { tmpdir } from "node:os";
import { join } from "node:path";
import { pathToFileURL } from "node:url";

const FLAGS = ["--headless=new", "--remote-debugging-pipe", "--no-first-run", "--hide-scrollbars", "--disable-extensions",
  "--disable-background-networking", "--disable-component-update", "--disable-renderer-backgrounding",
  "--disable-backgrounding-occluded-windows", "--disable-background-timer-throttling", "--font-render-hinting=none",
  "--force-color-profile=srgb"];

// Beside other work a page may wait for minutes until it draws.
const MOST_WAITING = Number(process.env.MOST_WAITING ?? 240000);

/** What the promise gives, unless it takes too long. */
function inTime(what, promise) {
  let waiting;
  const late = new Promise((resolve, reject) => {
    waiting = setTimeout(() => reject(new Error(`chromium did not answer to ${what.slice(0, 200)}`)), MOST_WAITING);
  });
  return Promise.race([promise, late]).finally(() => clearTimeout(waiting));
}

/** A running Chromium with a profile of its own. */
export class Browser {
  constructor(program) {
    this.profile = mkdtempSync(join(tmpdir(), "picture-"));
    const asRoot = process.getuid() === 0 ? ["--no-sandbox"] : [];
    this.process = spawn(program, [...FLAGS, ...asRoot, `--user-data-dir=${this.profile}`, "about:blank"],
      { stdio: ["ignore", "ignore", "ignore", "pipe", "pipe"] });
    this.waiting = new Map();
    this.ended = new Promise((resolve) => this.process.on("exit", resolve));
    this.ended.then(() => this.waiting.forEach(({ reject }) => reject(new Error("chromium has ended"))));
    this.pages = new Map();
    this.last = 0;
    this.text = "";
    this.process.stdio[4].setEncoding("utf8");
    this.process.stdio[4].on("data", (text) => this.take(text));
  }

  take(text) {
    const parts = (this.text + text).split("\0");
    this.text = parts.pop();
    for (const part of parts) this.answer(JSON.parse(part));
  }

  answer({ id, result, error, method, params, sessionId }) {
    if (id === undefined) {
      this.pages.get(sessionId)?.tell(method, params);
      return;
    }
    const { resolve, reject } = this.waiting.get(id);
    this.waiting.delete(id);
    if (error) reject(new Error(error.message));
    else resolve(result);
  }

  send(method, params = {}, sessionId = undefined) {
    const id = ++this.last;
    this.process.stdio[3].write(JSON.stringify({ id, method, params, sessionId }) + "\0");
    return inTime(method, new Promise((resolve, reject) => this.waiting.set(id, { resolve, reject })));
  }

  /** A new page of this size. */
  async page(width, height, { ratio = 1, mobile = false } = {}) {
    const { targetId } = await this.send("Target.createTarget", { url: "about:blank", newWindow: true });
    const { sessionId } = await this.send("Target.attachToTarget", { targetId, flatten: true });
    const page = new Page(this, sessionId, targetId);
    this.pages.set(sessionId, page);
    for (const domain of ["Page", "Runtime", "Network", "Log", "DOM"]) await page.send(`${domain}.enable`);
    await page.send("Emulation.setDeviceMetricsOverride", { width, height, deviceScaleFactor: ratio, mobile });
    await page.send("Emulation.setFocusEmulationEnabled", { enabled: true });
    if (mobile) await page.send("Emulation.setTouchEmulationEnabled", { enabled: true, maxTouchPoints: 2 });
    return page;
  }

  async close() {
    await this.send("Browser.close").catch(() => {});
    await this.ended;
    rmSync(this.profile, { recursive: true, force: true, maxRetries: 5, retryDelay: 100 });
  }
}

const faultIn = ({ exception, text }) => exception?.description ?? text;

/** A page, what it asked of the network, and what it complained of. */
class Page {
  constructor(browser, sessionId, targetId) {
    Object.assign(this, { browser, sessionId, targetId });
    this.requests = [];
    this.complaints = [];
    this.loaded = () => {};
  }

  send(method, params) {
    return this.browser.send(method, params, this.sessionId);
  }

  tell(method, params) {
    if (method === "Network.requestWillBeSent") this.requests.push(params.request.url);
    if (method === "Runtime.exceptionThrown") this.complaints.push(faultIn(params.exceptionDetails));
    if (method === "Log.entryAdded" && params.entry.level === "error") this.complaints.push(params.entry.text);
    if (method === "Page.loadEventFired") this.loaded();
  }

  async navigate(url) {
    await this.send("Page.bringToFront");
    const loaded = new Promise((resolve) => {
      this.loaded = resolve;
    });
    await this.send("Page.navigate", { url });
    await inTime(url, loaded);
  }

  /** Opens a file of this machine, with what follows `#` in the address, and waits until it is there. */
  async open(path, hash = "") {
    await this.navigate("about:blank");
    await this.navigate(pathToFileURL(path).href + hash);
    await this.frame();
  }

  /** What the function gives in the page for these values. */
  async run(body, ...values) {
    const expression = `(${body})(...${JSON.stringify(values)})`;
    const asked = { expression, awaitPromise: true, returnByValue: true };
    const { result, exceptionDetails } = await this.send("Runtime.evaluate", asked);
    if (exceptionDetails) throw new Error(faultIn(exceptionDetails));
    return result.value;
  }

  /** Waits for what is drawn after the next frame. */
  frame() {
    return this.run(() => new Promise((resolve) => requestAnimationFrame(() => requestAnimationFrame(() => resolve(null)))));
  }

  /** Waits until the function gives true in the page. */
  async until(body, ...values) {
    const end = performance.now() + MOST_WAITING;
    while (performance.now() < end) {
      if (await this.run(body, ...values)) return;
      await new Promise((resolve) => setTimeout(resolve, 50));
    }
    throw new Error(`this never came: ${body}`);
  }

  async click(x, y, modifiers = 0) {
    for (const type of ["mousePressed", "mouseReleased"]) {
      await this.send("Input.dispatchMouseEvent", { type, x, y, button: "left", clickCount: 1, modifiers });
    }
    await this.frame();
  }

  /** Moves the mouse there, with no button down. */
  async hover(x, y) {
    await this.send("Input.dispatchMouseEvent", { type: "mouseMoved", x, y });
    await this.frame();
  }

  async drag(fromX, fromY, toX, toY) {
    await this.send("Input.dispatchMouseEvent", { type: "mousePressed", x: fromX, y: fromY, button: "left", clickCount: 1 });
    for (let part = 1; part <= 5; part++) {
      const x = fromX + (toX - fromX) * part / 5, y = fromY + (toY - fromY) * part / 5;
      await this.send("Input.dispatchMouseEvent", { type: "mouseMoved", x, y, button: "left", buttons: 1 });
    }
    await this.send("Input.dispatchMouseEvent", { type: "mouseReleased", x: toX, y: toY, button: "left", clickCount: 1 });
    await this.frame();
  }

  async wheel(x, y, deltaX, deltaY, modifiers = 0) {
    await this.send("Input.dispatchMouseEvent", { type: "mouseWheel", x, y, deltaX, deltaY, modifiers });
    await this.frame();
  }

  /** Moves fingers: a list of steps, each with the places of all fingers. */
  async touch(steps) {
    for (const [place, fingers] of steps.entries()) {
      const touchPoints = fingers.map(([x, y], id) => ({ x, y, id }));
      await this.send("Input.dispatchTouchEvent", { type: place === 0 ? "touchStart" : "touchMove", touchPoints });
    }
    await this.send("Input.dispatchTouchEvent", { type: "touchEnd", touchPoints: [] });
    await this.frame();
  }

  async key(key, modifiers = 0) {
    const isLetter = key.length === 1, code = isLetter ? key.toUpperCase().charCodeAt(0) : { Tab: 9, Enter: 13, Escape: 27, ArrowLeft: 37, ArrowUp: 38, ArrowRight: 39, ArrowDown: 40 }[key];
    for (const type of ["keyDown", "keyUp"]) {
      const text = type !== "keyDown" ? undefined : isLetter ? key : key === "Enter" ? "\r" : undefined;
      await this.send("Input.dispatchKeyEvent", { type, key, code: key, windowsVirtualKeyCode: code, modifiers, text });
    }
    await this.frame();
  }

  async type(text) {
    await this.send("Input.insertText", { text });
    await this.frame();
  }

  /** Gives the file to the page's picker. */
  async pick(selector, path) {
    const { root } = await this.send("DOM.getDocument");
    const { nodeId } = await this.send("DOM.querySelector", { nodeId: root.nodeId, selector });
    await this.send("DOM.setFileInputFiles", { nodeId, files: [path] });
  }

  async drop(path, x, y) {
    const data = { items: [], files: [path], dragOperationsMask: 1 };
    for (const type of ["dragEnter", "dragOver", "drop"]) await this.send("Input.dispatchDragEvent", { type, x, y, data });
  }

  async screenshot(path) {
    const { data } = await this.send("Page.captureScreenshot", { format: "png" });
    writeFileSync(path, Buffer.from(data, "base64"));
  }

  /** The names of all buttons that a screen reader is told of. */
  async spokenButtons() {
    const { nodes } = await this.send("Accessibility.getFullAXTree");
    return nodes.filter((node) => !node.ignored && node.role?.value === "button").map((node) => node.name.value);
  }

  close() {
    return this.browser.send("Target.closeTarget", { targetId: this.targetId });
  }
}
