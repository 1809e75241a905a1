// The one browser check, which tools/pages runs: the pages of all examples, and a session of the playground.
import assert from "node:assert/strict";
import { mkdirSync, readFileSync } from "node:fs";
import { join } from "node:path";
import { parseArgs } from "node:util";
import { Browser } from "./driver.mjs";
import { Firefox } from "./firefox.mjs";
import { oddText } from "./stepping.mjs";
import { Session, serveFolder, startServer } from "./session.mjs";
import { triesOfPages } from "./example_pages.mjs";
import { triesOfBuilding } from "./building.mjs";
import { triesOfComparing } from "./comparing.mjs";
import { triesOfTexts } from "./texts.mjs";
import { triesOfExercises } from "./exercises.mjs";
import { triesOfAll } from "./seen_by_all.mjs";
import { triesOfSlides } from "./slides.mjs";
import { triesOfJudging } from "./judging.mjs";
import { triesOfSpeed } from "./speed.mjs";

const { values: asked, positionals: words } = parseArgs({ allowPositionals: true,
  options: { shots: { type: "string", default: "" }, rounds: { type: "string", default: "20" },
    site: { type: "string" }, firefox: { type: "boolean" },
    help: { type: "boolean", short: "h" } } });
if (asked.help) {
  const lines = readFileSync(new URL("../../tools/pages", import.meta.url), "utf8").split("\n");
  console.log(lines.filter(line => line.startsWith("//")).map(line => line.slice(3)).join("\n"));
  process.exit();
}

/** What a try came to: nothing, or what is wrong. The browser's errors and requests to elsewhere are wrong too. */
async function faultOf(attempt, { browser, session, shots }) {
  const [hadErrors, hadRequests] = [browser.errors.length, browser.requests.length], faults = [];
  try {
    await attempt();
    const odd = await oddText(browser);
    if (odd) faults.push("odd text: " + odd);
  } catch (error) {
    faults.push(error.message + (error instanceof assert.AssertionError ? "" : "\n" + error.stack));
    if (shots) await browser.picture(join(shots, "fault.png"));
  }
  const isOwn = url => /^(about|blob|data|file|http:\/\/127\.0\.0\.1):/.test(url);
  faults.push(...browser.errors.slice(hadErrors));
  faults.push(...browser.requests.slice(hadRequests).filter(url => !isOwn(url)).map(url => "asked for " + url));
  return faults.map(fault => fault.slice(0, 2000)).join("\n");
}

const { address, stop } = await (asked.site ? serveFolder(asked.site) : startServer()).catch(error => {
  console.error(`tools/pages: ${error.message}`);
  process.exit(1);
});
const browser = await (asked.firefox ? Firefox : Browser).start();
const session = new Session(browser, asked.site ? address + "playground.html" : address);
const context = { browser, session, shots: asked.shots, rounds: +asked.rounds };
if (asked.shots) mkdirSync(asked.shots, { recursive: true });
await browser.size(1440, 940);
const makers = [triesOfPages, triesOfBuilding, triesOfComparing, triesOfTexts, triesOfExercises, triesOfJudging,
  triesOfSlides, triesOfAll, triesOfSpeed];
const tries = Object.entries(Object.assign({}, ...makers.map(make => make(context))))
  .filter(([name]) => words.every(word => name.includes(word)))
  .filter(([name]) => !browser.untried?.includes(name));
for (const name of browser.untried ?? []) console.log("not tried: " + name);
let wrong = 0;
for (const [name, attempt] of tries) {
  const fault = await faultOf(attempt, context);
  console.log((fault ? "not well: " : "well: ") + name + (fault ? "\n  " + fault.replaceAll("\n", "\n  ") : ""));
  if (fault) wrong++;
}
await browser.close();
stop();
console.log(`${tries.length} tries, ${wrong} not well`);
process.exit(wrong || !tries.length ? 1 : 0);
