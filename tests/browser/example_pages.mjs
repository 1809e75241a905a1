// The page of each example: opened from a file, stepped through by keys and by its slider, and pointed at.
import assert from "node:assert/strict";
import { mkdtempSync, rmSync, writeFileSync } from "node:fs";
import { tmpdir } from "node:os";
import { join } from "node:path";
import { pause } from "./driver.mjs";
import { hover, oddText, slide } from "./stepping.mjs";
import { examples, made } from "../../tools/programs.mjs";

const MOST_STEPS = 60; // by keys; the slider goes through all

async function stepByKeys(browser, events) {
  const steps = Math.min(events, MOST_STEPS);
  for (let k = 0; k < steps; k++) await browser.press("ArrowRight");
  await pause(300); // the address is written a little later
  const at = await browser.value("location.hash");
  if (steps) assert.equal(at, `#event=${steps - 1}`);
}

async function walk(browser, path) {
  await browser.open("file://" + path + "#event=start");
  const events = await browser.value("+document.getElementById('slider').max + 1");
  await stepByKeys(browser, events);
  assert.equal(await slide(browser), null);
  for (const [key, modifiers] of [["End", 0], ["ArrowLeft", 8], ["Home", 0], ["End", 0]]) {
    await browser.press(key, modifiers);
  }
  assert.equal(await hover(browser), undefined);
  assert.equal(await oddText(browser), undefined);
}

/** A try for the page of each example. */
export function triesOfPages({ browser, shots }) {
  const folder = mkdtempSync(join(tmpdir(), "pages-"));
  process.on("exit", () => rmSync(folder, { recursive: true, force: true }));
  return Object.fromEntries(examples().map(({ name, text }) => [`page of ${name}`, async () => {
    const path = join(folder, name.replace(".sched", ".html"));
    writeFileSync(path, made("awshow", ["page"], text).output);
    await walk(browser, path);
    if (shots) await browser.picture(join(shots, name.replace(".sched", ".png")));
  }]));
}
