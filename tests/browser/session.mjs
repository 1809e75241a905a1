// The playground in a browser, with what a person does there: what each try of the browser check is made of.
import { spawn } from "node:child_process";
import { readFileSync } from "node:fs";
import { join } from "node:path";
import { pause } from "./driver.mjs";
import { TOP } from "../../tools/programs.mjs";

/** Starts tools/playground at any free port; gives its address and what ends it. */
export async function startServer(...words) {
  const server = spawn(join(TOP, "tools", "playground"), ["--port", "0", ...words],
    { stdio: ["ignore", "pipe", "inherit"] });
  process.on("exit", () => server.kill()); // also where a test throws
  const address = await new Promise((found, failed) => {
    server.stdout.once("data", line => found(String(line).trim()));
    server.on("exit", () => failed(new Error("tools/playground ended")));
  });
  return { address, stop: () => server.kill() };
}

/** Serves a folder's files at any free port, by Python's own server; gives its address and what ends it. */
export async function serveFolder(folder) {
  const server = spawn("python3", ["-u", "-m", "http.server", "--bind", "127.0.0.1", "--directory", folder, "0"],
    { stdio: ["ignore", "pipe", "ignore"] });
  process.on("exit", () => server.kill());
  const line = await new Promise(found => server.stdout.once("data", told => found(String(told))));
  return { address: `http://127.0.0.1:${/ port (\d+)/.exec(line)[1]}/`, stop: () => server.kill() };
}

export const example = name => readFileSync(join(TOP, "examples", name), "utf8");

/** The lines of a text that count: no comments, no empty ones. */
export const linesOf = text => text.split("\n").filter(line => line && !line.startsWith("#"));

export const fragment = text => "#text=" + Buffer.from(text).toString("base64url");

/** A schedule with these lines after its head. */
export const schedule = (processes, front, ...lines) =>
  [`processes ${processes}`, "registers x", `front ${front}`, ...lines, ""].join("\n");

export class Session {
  /** @param {import("./driver.mjs").Browser} browser @param {string} address */
  constructor(browser, address) {
    this.browser = browser;
    this.address = address;
  }

  /** Opens the playground anew, with a fragment. */
  async open(hash = "") {
    await this.browser.open("about:blank");
    await this.browser.open(this.address + hash);
    await this.shown();
  }

  /** Waits until what was asked for is shown. */
  shown() {
    return this.browser.until("document.body.dataset.state === 'shown'", 20);
  }

  text() {
    return this.browser.value("document.getElementById('source').value");
  }

  /** The text that is seen in an element. */
  inside(selector) {
    return this.browser.value(`document.querySelector(${JSON.stringify(selector)}).innerText`);
  }

  count(selector) {
    return this.browser.value(`document.querySelectorAll(${JSON.stringify(selector)}).length`);
  }

  async click(selector, modifiers = 0) {
    await this.browser.click(selector, modifiers);
    await this.shown();
  }

  /** Clicks what opens the box of what the program printed. */
  async clickForOutput(selector) {
    await this.browser.click(selector);
    await this.browser.until("!document.getElementById('output').hidden");
  }

  async press(key, modifiers = 0) {
    await this.browser.press(key, modifiers);
    await pause(50);
    await this.shown();
  }

  /** Chooses an entry of one of the lists at the top. */
  async choose(list, value) {
    await this.browser.value(`(() => {
      const list = document.getElementById("${list}");
      list.value = ${JSON.stringify(value)};
      list.dispatchEvent(new Event("change"));
    })()`);
    await pause(50);
    await this.shown();
  }

  /** Chooses in the table of a front end, as ["read 1", "look"]; gives what is said of the table then. */
  async chooseStarts(...starts) {
    for (const [cell, start] of starts) {
      await this.browser.value(`(() => {
        const list = document.querySelector('[data-start="${cell}"]');
        list.value = "${start}";
        list.dispatchEvent(new Event("change"));
      })()`);
      await pause(50);
      await this.shown();
    }
    return this.inside("#front-verdict");
  }

  /** Types a text at the caret, or in the place of what is selected. */
  async type(text) {
    await this.browser.insert(text);
    await pause(350);
    await this.shown();
  }

  /** Types a text in the place of the one that is there. */
  async retype(text) {
    await this.browser.value("document.getElementById('source').select()");
    await this.browser.value("document.getElementById('source').focus()");
    await this.type(text);
  }

  isSolved() {
    return this.browser.value("document.getElementById('exercise').classList.contains('solved')");
  }

  /** The values of a list at the top. */
  valuesOf(list) {
    return this.browser.value(`[...document.getElementById("${list}").options].map(o => o.value).filter(v => v)`);
  }
}
