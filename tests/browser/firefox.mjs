// A headless Firefox, driven over WebDriver BiDi without packages: it does what the driver of Chromium does.
import { spawn } from "node:child_process";
import { mkdtempSync, rmSync, writeFileSync } from "node:fs";
import { tmpdir } from "node:os";
import { join } from "node:path";
import { pause, Waiting } from "./driver.mjs";

const KEYS = { ArrowLeft: "\uE012", ArrowRight: "\uE014", End: "\uE010", Enter: "\uE006", Escape: "\uE00C",
  Home: "\uE011", Tab: "\uE004" };
const MODIFIERS = [[2, "\uE009"], [8, "\uE008"]]; // Ctrl and Shift, by their bits

/** Firefox tells its address on its error stream. */
function addressOf(firefox) {
  return new Promise((found, failed) => {
    let told = "";
    firefox.stderr.on("data", part => {
      told += part;
      const line = /WebDriver BiDi listening on (ws:\/\/[0-9.:]+)/.exec(told);
      if (line) found(line[1]);
    });
    firefox.on("error", failed);
    setTimeout(() => failed(new Error("Firefox did not start")), 60000).unref();
  });
}

export class Firefox extends Waiting {
  static async start() {
    const browser = new Firefox();
    browser.folder = mkdtempSync(join(tmpdir(), "browser-"));
    // Scroll bars take no room, as in the other browser.
    writeFileSync(join(browser.folder, "user.js"), 'user_pref("ui.useOverlayScrollbars", 1);\n');
    browser.process = spawn("firefox-esr", ["--headless", "--no-remote", "--profile", browser.folder,
      "--remote-debugging-port", "0", "about:blank"], { stdio: ["ignore", "ignore", "pipe"] });
    process.on("exit", () => browser.process.kill("SIGKILL")); // also where a test throws
    browser.socket = new WebSocket(await addressOf(browser.process) + "/session");
    await new Promise(opened => browser.socket.onopen = opened);
    browser.socket.onmessage = message => browser.take(JSON.parse(message.data));
    await browser.send("session.new", { capabilities: {} });
    await browser.send("session.subscribe", { events: ["log.entryAdded", "network.beforeRequestSent"] });
    browser.context = (await browser.send("browsingContext.getTree")).contexts[0].context;
    return browser;
  }

  // Keys that WebDriver sends press no button in this browser.
  untried = ["the same by keys alone", "a run is kept, and compared with the next one, by keys"];
  answers = new Map();
  errors = [];
  requests = [];
  sent = 0;

  take({ id, method, params, result, error, message }) {
    if (id) {
      const { answered, failed } = this.answers.get(id);
      this.answers.delete(id);
      if (error) failed(new Error(`${error}: ${message}`));
      else answered(result);
    } else if (method === "log.entryAdded" && params.level === "error") this.errors.push(params.text);
    else if (method === "network.beforeRequestSent") this.requests.push(params.request.url);
  }

  send(method, params = {}) {
    return new Promise((answered, failed) => {
      this.answers.set(++this.sent, { answered, failed });
      this.socket.send(JSON.stringify({ id: this.sent, method, params }));
    });
  }

  inPage(method, params) {
    return this.send(method, { context: this.context, ...params });
  }

  open(url) {
    return this.inPage("browsingContext.navigate", { url, wait: "complete" });
  }

  /** The value of an expression in the page; what it throws is thrown here. */
  async value(expression) {
    const { type, result, exceptionDetails } = await this.send("script.evaluate", { target: { context: this.context },
      expression: `(async () => JSON.stringify(await (${expression})))()`, awaitPromise: true });
    if (type === "exception") throw new Error(exceptionDetails.text);
    return result.type === "string" ? JSON.parse(result.value) : undefined;
  }

  perform(...actions) {
    return this.inPage("input.performActions", { actions });
  }

  async press(key, modifiers = 0) {
    const held = MODIFIERS.filter(([bit]) => modifiers & bit).map(([, value]) => value), value = KEYS[key] || key;
    const down = [...held, value].map(each => ({ type: "keyDown", value: each }));
    const up = [value, ...held].map(each => ({ type: "keyUp", value: each }));
    await this.perform({ type: "key", id: "keys", actions: [...down, ...up] });
  }

  /** Clicks at a place of the page, with keys held. */
  async pressAt([x, y], modifiers) {
    const held = MODIFIERS.filter(([bit]) => modifiers & bit).map(([, value]) => value);
    const keys = type => held.map(value => ({ type, value }));
    if (held.length) await this.perform({ type: "key", id: "keys", actions: keys("keyDown") });
    await this.perform({ type: "pointer", id: "mouse", actions: [
      { type: "pointerMove", x: Math.round(x), y: Math.round(y) }, { type: "pointerDown", button: 0 },
      { type: "pointerUp", button: 0 }] });
    if (held.length) await this.perform({ type: "key", id: "keys", actions: keys("keyUp") });
  }

  /** Types a text at the caret, or in the place of what is selected. */
  insert(text) {
    return this.value(`document.execCommand("insertText", false, ${JSON.stringify(text)})`);
  }

  size(width, height) {
    return this.inPage("browsingContext.setViewport", { viewport: { width, height } });
  }

  async picture(path) {
    const { data } = await this.inPage("browsingContext.captureScreenshot", {});
    writeFileSync(path, Buffer.from(data, "base64"));
  }

  async close() {
    const gone = new Promise(ended => this.process.on("exit", ended));
    this.send("browser.close").catch(() => {}); // it may end before it answers
    await Promise.race([gone, pause(5000)]);
    this.process.kill("SIGKILL");
    this.socket.close();
    rmSync(this.folder, { recursive: true, force: true, maxRetries: 5, retryDelay: 100 });
  }
}
