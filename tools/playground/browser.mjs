// Chromium without a window, talked to through two pipes: no port is opened. Pages are read from files alone.
import {spawn} from "node:child_process";
import {mkdtempSync, rmSync} from "node:fs";
import {tmpdir} from "node:os";
import {join} from "node:path";

export class Browser {
  static async open(program) {
    const browser = new Browser(program);
    await browser.send("Target.setDiscoverTargets", {discover: true});
    return browser;
  }

  constructor(program) {
    this.folder = mkdtempSync(join(tmpdir(), "playground-"));
    const words = ["--headless", "--no-sandbox", "--disable-gpu", "--disable-dev-shm-usage", "--no-first-run",
      "--disable-background-networking", "--disable-component-update", "--disable-sync", "--disable-default-apps", "--disable-extensions",
      "--host-resolver-rules=MAP * ~NOTFOUND", `--user-data-dir=${this.folder}`, "--remote-debugging-pipe", "about:blank"];
    this.child = spawn(program, words, {stdio: ["ignore", "ignore", "ignore", "pipe", "pipe"]});
    this.number = 0;
    this.waiting = new Map();
    this.listeners = [];
    let rest = "";
    this.child.stdio[4].setEncoding("utf8");
    this.child.stdio[4].on("data", (text) => {
      const parts = (rest + text).split("\0");
      rest = parts.pop();
      for (const part of parts) this.take(JSON.parse(part));
    });
    this.child.on("exit", () => {
      for (const {reject} of this.waiting.values()) reject(new Error("the browser has ended"));
    });
  }

  take(message) {
    const asked = this.waiting.get(message.id);
    if (asked !== undefined) {
      this.waiting.delete(message.id);
      if (message.error === undefined) asked.resolve(message.result);
      else asked.reject(new Error(message.error.message));
      return;
    }
    for (const listener of this.listeners) listener(message);
  }

  send(method, params = {}, sessionId = undefined) {
    const id = ++this.number;
    this.child.stdio[3].write(`${JSON.stringify({id, method, params, sessionId})}\0`);
    return new Promise((resolve, reject) => this.waiting.set(id, {resolve, reject}));
  }

  // A page of its own, with what its console says and what it asks the network for.
  async page({width = 1280, height = 900, dark = false} = {}) {
    const {targetId} = await this.send("Target.createTarget", {url: "about:blank"});
    const {sessionId} = await this.send("Target.attachToTarget", {targetId, flatten: true});
    const page = new Page(this, targetId, sessionId);
    this.listeners.push((message) => message.sessionId === sessionId && page.hear(message));
    for (const domain of ["Page", "Runtime", "Network", "Log", "DOM"]) await page.send(`${domain}.enable`);
    await page.send("Emulation.setDeviceMetricsOverride", {width, height, deviceScaleFactor: 1, mobile: false});
    if (dark) await page.send("Emulation.setEmulatedMedia", {features: [{name: "prefers-color-scheme", value: "dark"}]});
    return page;
  }

  async close() {
    await this.send("Browser.close").catch(() => undefined);
    await new Promise((resolve) => (this.child.exitCode === null ? this.child.on("exit", resolve) : resolve()));
    rmSync(this.folder, {recursive: true, force: true});
  }
}

class Page {
  constructor(browser, targetId, sessionId) {
    Object.assign(this, {browser, targetId, sessionId, faults: [], requests: [], heard: []});
  }

  send(method, params) {
    return this.browser.send(method, params, this.sessionId);
  }

  hear({method, params}) {
    if (method === "Network.requestWillBeSent") this.requests.push(params.request.url);
    if (method === "Runtime.exceptionThrown") this.faults.push(params.exceptionDetails.exception?.description ?? params.exceptionDetails.text);
    if (method === "Log.entryAdded" && params.entry.level === "error") this.faults.push(params.entry.text);
    if (method === "Runtime.consoleAPICalled" && params.type === "error") this.faults.push(params.args.map((it) => it.value).join(" "));
    if (method === "Page.javascriptDialogOpening") this.faults.push(`a dialog: ${params.message}`);
  }

  goto(url) {
    return this.send("Page.navigate", {url});
  }

  // What an expression of the page's comes to, as plain data.
  async ask(expression) {
    const {result, exceptionDetails} = await this.send("Runtime.evaluate", {expression, awaitPromise: true, returnByValue: true});
    if (exceptionDetails !== undefined) throw new Error(exceptionDetails.exception?.description ?? exceptionDetails.text);
    return result.value;
  }

  // Waits until an expression is true, and fails where it isn't within so many seconds.
  async until(expression, seconds = 20) {
    for (const end = Date.now() + 1000 * seconds; Date.now() < end;) {
      if (await this.ask(`Boolean(${expression})`).catch(() => false)) return;
      await new Promise((resolve) => setTimeout(resolve, 30));
    }
    throw new Error(`it isn't so within ${seconds} seconds: ${expression}`);
  }

  async click(x, y) {
    const at = {x, y, button: "left", clickCount: 1};
    await this.send("Input.dispatchMouseEvent", {type: "mousePressed", ...at});
    await this.send("Input.dispatchMouseEvent", {type: "mouseReleased", ...at});
  }

  async key(text) {
    await this.send("Input.dispatchKeyEvent", {type: "keyDown", text, key: text});
    await this.send("Input.dispatchKeyEvent", {type: "keyUp", key: text});
  }

  async screenshot() {
    const {data} = await this.send("Page.captureScreenshot", {format: "png"});
    return Buffer.from(data, "base64");
  }
}
