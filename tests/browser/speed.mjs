// How long a click takes, from the click until its run is laid out and painted, and until the text stands in its field,
// too: told, and not judged, since it hangs on the machine.
import assert from "node:assert/strict";
import { made } from "../../tools/programs.mjs";
import { example, fragment } from "./session.mjs";

const CLICKS = 5;

/** The last schedule that the page of a run can show of 64 processes. */
function crowd() {
  const scripts = JSON.stringify(Array(64).fill(["write x 1", "read x"]));
  const workload = `front = "local-read"\nregisters = ["x"]\nscripts = ${scripts}\nseed = 3\nbudget = 390\n`;
  return made("awshow", ["schedule"], workload).output;
}

/** A run of so many events that few of them can be seen at once. */
function longRun() {
  const scripts = JSON.stringify(Array(4).fill(Array(100).fill(["write x 1", "read x"]).flat()));
  const workload = `front = "local-read"\nregisters = ["x"]\nscripts = ${scripts}\nseed = 3\nbudget = 1000\n`;
  return made("awshow", ["schedule"], workload).output;
}

const TICK = "#offers [data-line^='tick']", BACK = "#back";

/** From a click until the event that it leads to is painted, and until all is. */
const click = selector => `(async () => {
  const where = document.getElementById("where"), start = performance.now(), taken = [];
  const take = () => taken.push(Math.round(performance.now() - start));
  const afterFrame = then => requestAnimationFrame(() => scheduler.postTask(then, { priority: "user-blocking" }));
  const painted = new Promise(done => new MutationObserver((_, observer) => {
    observer.disconnect();
    afterFrame(done);
  }).observe(where, { childList: true }));
  document.querySelector(${JSON.stringify(selector)}).click();
  await painted;
  take();
  while (document.body.dataset.state !== "shown") await new Promise(requestAnimationFrame);
  await new Promise(afterFrame);
  take();
  return taken;
})()`;

export function triesOfSpeed({ session }) {
  const tell = async (name, selector) => {
    const taken = [];
    for (let i = 0; i < CLICKS; i++) taken.push(await session.browser.value(click(selector)));
    const [painted, all] = [0, 1].map(i => taken.map(times => times[i]).join(", "));
    console.log(`  ${name}: ${painted} ms; ${all} ms with the text`);
    assert.ok(Math.min(...taken.flat()) < 5000);
  };
  return {
    async "64 processes and 390 events: how long a click takes"() {
      const few = example("stale-read.sched").split("\n").slice(0, -2).join("\n") + "\n";
      for (const [name, text] of [["64 processes, 390 events", crowd()], ["3 processes, 5 events", few]]) {
        await session.open(fragment(text));
        await tell(`a click, ${name}`, TICK);
      }
    },

    async "4 processes and 1,000 events: how long a click and a step back take"() {
      await session.open(fragment(longRun()));
      await tell("a click, 4 processes, 1,000 events", TICK);
      await tell("a step back", BACK);
    },
  };
}
