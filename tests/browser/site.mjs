// The page with no server, as tools/web laid it in a folder, in a headless browser: what a person does with schedules
// and reports there. `tools/web --look` runs it; any server of files does, here Python's.
import assert from "node:assert/strict";
import { mkdirSync } from "node:fs";
import { join } from "node:path";
import { Browser } from "./driver.mjs";
import { Firefox } from "./firefox.mjs";
import { triesOfJudging } from "./judging.mjs";
import { triesOfFirstPage, triesOfLesson } from "./lesson.mjs";
import { triesOfLimits } from "./limits.mjs";
import { Session, example, fragment, linesOf, schedule, serveFolder } from "./session.mjs";

const [folder, which, shots] = process.argv.slice(2);
const { address, stop } = await serveFolder(folder);
const browser = await (which === "firefox" ? Firefox : Browser).start();
const session = new Session(browser, address + "playground.html");
if (shots) mkdirSync(shots, { recursive: true });
await browser.size(1440, 940);

/** The last event of the run that is shown. */
const lastOf = async () => +/ (\d+)$/.exec(await session.inside("#where"))[1];

/** The events of a schedule, one a line. */
const eventsOf = text => linesOf(text).slice(3);

const TRIES = {
  async "each example of a schedule is run, and stepped to its end"() {
    for (const name of ["one-process.sched", "two-writers.sched", "lost-frame.sched", "held-read.sched"]) {
      await session.open(fragment(example(name)));
      assert.match(await session.inside("#verdict"), /^a schedule: .* events?, all accepted$/);
      const last = eventsOf(example(name)).length - 1;
      assert.equal(await lastOf(), last);
      for (let at = 0; at <= last; at++) await browser.press("ArrowRight");
      assert.equal(await session.inside("#where"), `event ${last} / ${last}`);
    }
    if (shots) await browser.picture(join(shots, "schedule.png"));
  },

  async "a run is built by clicks, and brought to rest"() {
    await session.open(fragment(schedule(2, "linear", "call 0 write x 1")));
    await session.click("#rest");
    await browser.until("!document.getElementById('toast').hidden");
    await session.shown();
    const rested = eventsOf(await session.text());
    assert.ok(rested.length > 1 && rested.every((line, at) => at === 0 || /^(take|tick) /.test(line)), rested.join());
  },

  async "a report is made and judged"() {
    await session.open(fragment(example("two-writers.sched")));
    await session.clickForOutput("#check");
    assert.match(await session.inside("#output"), /serial[^]*yes[^]*points[^]*yes/i);
    if (shots) await browser.picture(join(shots, "check.png"));
  },

  async "a workload is played, and its play becomes the text"() {
    await session.open(fragment(example("three-threads.toml")));
    assert.match(await session.inside("#verdict"), /^a workload: 3 processes, 3 registers, local-write, 6 operations$/);
    const last = await lastOf();
    assert.ok(last > 3);
    await session.click("#as-seeded");
    await browser.until("document.getElementById('source').value.includes('processes 3\\n')");
    await session.shown();
    assert.equal(eventsOf(await session.text()).length, last + 1);
    if (shots) await browser.picture(join(shots, "play.png"));
  },

  async "a schedule is run under a table that no name has, and judged so, until another table or text is chosen"() {
    await session.open(fragment(schedule(2, "local-write", "call 0 write x 1", "call 0 write x 2")));
    await session.clickForOutput("#front");
    assert.match(await session.chooseStarts(["write 1", "cast"]), /It is lawful[^]*run under it, as table 7, whatever/);
    assert.match(await session.inside("#facts"), /front end table 7: not the one of the text, and lawful/);
    assert.equal(await session.inside("#verdict"), "a schedule, run under table 7");
    assert.match(await session.inside("#story"), /Under table 7 a write is cast, and answered when/);
    if (shots) await browser.picture(join(shots, "table.png"));
    await session.click("#check");
    await browser.until("document.getElementById('output').innerText.includes('serial yes')");
    // the second call is open in the report that is judged
    assert.match(await browser.value("document.querySelector('#output pre').textContent"), /^history 3$/m);
    await session.retype(schedule(2, "local-write", "call 0 write x 1", "call 0 write x 2", "call 0 write x 3"));
    assert.match(await session.inside("#verdict"), /^a schedule, run under table 7\s+event 2: /);
    await session.clickForOutput("#front");
    assert.match(await session.chooseStarts(["write 1", "answer"]), /It is local-write/);
    assert.match(await session.inside("#facts"), /front end local-write: writes are answered at once/);
    assert.match(await session.chooseStarts(["read 1", "cast"]), /as table 13, whatever/);
    await session.choose("examples", (await session.valuesOf("examples"))[1]);
    assert.match(await session.inside("#facts"), /front end (linear|local-read|local-write): /);
  },

  async "a schedule that is refused is told so, by the line"() {
    await session.open(fragment(schedule(2, "linear", "take 0 1 0")));
    assert.match(await session.inside("#verdict"), /^event 0: /);
    await session.open(fragment(schedule(2, "linear", "take 0 1")));
    assert.match(await session.inside("#verdict"), /^line 4: /);
  },

  async "what is not in the page is told so, and a text of 256 MB is refused by its line"() {
    const told = await browser.value(`(async () => {
      const { ask } = await import("./playground/js/server.js");
      const answers = [ask("live", ""), ask("replay", "#".repeat(1 << 28)), ask("check", ${JSON.stringify(
        example("one-process.report"))})];
      return (await Promise.all(answers)).map(({ output, error }) => output || error);
    })()`);
    assert.match(told[0], /^not in this page/);
    assert.deepEqual(told.slice(1), ["line 2: end\n", "serial yes\npoints yes\n"]);
  },
};

const context = { browser, session, address, shots, folder };
const all = Object.entries({ ...TRIES, ...triesOfJudging(context), ...triesOfFirstPage(context),
  ...triesOfLesson(context), ...triesOfLimits(context) });
let wrong = 0;
for (const [name, attempt] of all) {
  const had = browser.errors.length;
  let fault = "";
  try {
    await attempt();
  } catch (error) {
    fault = error.message;
    if (shots) await browser.picture(join(shots, "fault.png"));
  }
  const faults = [fault, ...browser.errors.slice(had),
    ...browser.requests.filter(url => !/^(about|blob|data|http:\/\/127\.0\.0\.1):/.test(url))].filter(it => it);
  console.log((faults.length ? "not well: " : "well: ") + name + faults.map(it => "\n  " + it).join(""));
  if (faults.length) wrong++;
}
await browser.close();
stop();
process.exit(wrong ? 1 : 0);
