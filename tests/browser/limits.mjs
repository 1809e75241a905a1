// The limits of a run where there is no server: a thread that takes too long is ended, by the clock or by a button, and
// the next run has a new one. A browser without 64-bit memories is told so.
import assert from "node:assert/strict";
import { cpSync, mkdtempSync, readFileSync, readdirSync, rmSync, writeFileSync } from "node:fs";
import { tmpdir } from "node:os";
import { join } from "node:path";
import { example, fragment, serveFolder } from "./session.mjs";

/** A workload whose thousand plays take longer than a run may. */
const SCRIPTS = JSON.stringify(Array(16).fill(Array(60).fill(["write x 1", "read x"]).flat()));
const LONG = `front = "linear"\nregisters = ["x"]\nscripts = ${SCRIPTS}\nseed = 1\n`;

const SERVER = 'await import("./playground/js/server.js")';

/** A copy of the folder, in which the browser is taken for one without 64-bit memories: no Chromium is without them. */
function narrowed(folder) {
  const copy = mkdtempSync(join(tmpdir(), "narrow-")), path = join(copy, "web/js/wide.js");
  cpSync(folder, copy, { recursive: true });
  const text = readFileSync(path, "utf8"), changed = text.replace("WebAssembly.validate(WIDE)", "false");
  assert.notEqual(changed, text);
  writeFileSync(path, changed);
  return copy;
}

const kilobytes = (status, word) => +(new RegExp(`^${word}:\\s+(\\d+)`, "m").exec(status)?.[1] ?? 0);

/** The memory that a process and those below it hold, in megabytes. */
function heldBy(top) {
  const all = readdirSync("/proc").filter(name => /^\d+$/.test(name)).flatMap(name => {
    try {
      const status = readFileSync(`/proc/${name}/status`, "utf8");
      return [{ own: +name, parent: kilobytes(status, "PPid"), size: kilobytes(status, "VmRSS") / 1024 }];
    } catch {
      return []; // it has ended
    }
  });
  const sum = process => process.size + all.filter(({ parent }) => parent === process.own)
    .reduce((size, child) => size + sum(child), 0);
  return sum(all.find(({ own }) => own === top));
}

const MANY_RUNS = `(async () => {
  const { ask } = ${SERVER}, answers = new Set();
  const text = ${JSON.stringify(example("stale-read.sched"))};
  for (let i = 0; i < 10000; i++) answers.add((await ask("data", text)).output);
  return answers.size;
})()`;

export function triesOfLimits({ browser, session, folder }) {
  return {
    async "a run that takes too long is ended after ten seconds, and the next one is answered"() {
      await session.open();
      const [long, next, seconds] = await browser.value(`(async () => {
        const { ask } = ${SERVER}, start = performance.now();
        const long = await ask("outcomes", ${JSON.stringify(LONG)}), seconds = (performance.now() - start) / 1000;
        return [long, await ask("check", ${JSON.stringify(example("one-process.report"))}), seconds];
      })()`);
      assert.deepEqual(long, { status: -1, output: "", error: "stopped: a run has 10 s, 1 GB and 32 MB of output" });
      assert.ok(seconds >= 10 && seconds < 12, String(seconds));
      assert.equal(next.output, "serial yes\npoints yes\n");
    },

    async "a run that takes long says so, and a button stops it"() {
      await session.open(fragment(example("three-threads.toml")));
      await session.retype(LONG.replace("seed = 1", "seed = 2"));
      await browser.value("document.getElementById('outcomes').click()");
      await browser.until("!document.getElementById('busy').hidden");
      assert.match(await session.inside("#busy"), /The program has run for \d+ s/);
      const start = Date.now();
      await browser.click("#stop");
      await browser.until("document.getElementById('busy').hidden");
      assert.ok(Date.now() - start < 2000);
      assert.match(await session.inside("#output"), /stopped/);
      await session.retype(example("two-writers.sched"));
      assert.match(await session.inside("#verdict"), /^a schedule/);
    },

    async "a page left open for 30,000 runs holds its memory"() {
      await session.open();
      const before = heldBy(browser.process.pid), held = [];
      for (let i = 0; i < 3; i++) {
        assert.equal(await browser.value(MANY_RUNS), 1);
        held.push(heldBy(browser.process.pid));
      }
      assert.ok(Math.max(...held) - before < 250, `${before} MB, then ${held.join(", ")} MB`);
    },

    async "a browser without 64-bit memories is told so in a sentence"() {
      const copy = narrowed(folder), { address, stop } = await serveFolder(copy);
      try {
        await browser.open(address);
        assert.match(await session.inside("#fault"), /has no 64-bit memories/);
        await browser.open(address + "playground.html" + fragment(example("two-writers.sched")));
        await session.shown();
        assert.match(await session.inside("#verdict"), /has no 64-bit memories/);
        await browser.open("about:blank");
      } finally {
        stop();
        rmSync(copy, { recursive: true });
      }
    },
  };
}
