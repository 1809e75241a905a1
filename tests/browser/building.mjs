// Runs built in the playground by clicks and by keys.
import assert from "node:assert/strict";
import { pause } from "./driver.mjs";
import { made } from "../../tools/programs.mjs";
import { example, fragment, linesOf, schedule } from "./session.mjs";

const WRITERS = "two-writers.sched";

/** A try for each way to build a run. */
export const triesOfBuilding = context =>
  ({ ...triesOfWriters(context), ...triesOfChanges(context), ...triesAtRandom(context) });

function triesOfWriters({ session }) {
  const { browser } = session;
  return {
    async "two writers, built by clicks from an empty text"() {
      await session.open();
      await session.choose("examples", "new");
      await session.click('[data-call="0 write"]');
      await browser.click('[data-plus="1"]'); // by the diagram: the + of p1, and its small form
      await session.click('#menu [data-call="1 write"]');
      await session.click('#inner [data-offer="take 0 1 0"] .target'); // by the ends of arrows
      await session.click('#inner [data-offer="take 1 0 0"] .target');
      await session.click('#offers [data-line="take 0 1 2"]'); // by the list
      assert.deepEqual(linesOf(await session.text()), linesOf(example(WRITERS)));
      assert.match(await session.inside("#verdict"), /5 events, all accepted/);
      assert.equal(await session.inside("#where"), "event 4 / 4");
    },

    async "the same by keys alone"() {
      await session.open();
      for (const selector of ['[data-call="0 write"]', '[data-call="1 write"]', '[data-offer="take 0 1 0"]',
        '[data-offer="take 1 0 0"]']) {
        await tabTo(browser, selector);
        await session.press("Enter");
      }
      const numbered = await browser.value(
        `[...document.querySelectorAll("#offers .take")].find(e => e.dataset.line === "take 0 1 2").innerText`);
      await session.press(/\d/.exec(numbered)[0]);
      assert.deepEqual(linesOf(await session.text()), linesOf(example(WRITERS)));
    },
  };
}

function triesOfChanges({ session }) {
  const { browser } = session;
  return {
    async "up to here, bring to rest, check"() {
      await session.open(fragment(example(WRITERS)));
      await session.click("#first");
      await browser.press("ArrowRight");
      await browser.press("ArrowRight");
      await session.click("#cut");
      assert.deepEqual(linesOf(await session.text()), linesOf(example(WRITERS)).slice(0, 5));
      const before = await session.text();
      await session.click("#rest");
      await browser.until("!document.getElementById('toast').hidden");
      await session.shown();
      assert.deepEqual(linesOf(await session.text()), linesOf(made("awshow", ["rest"], before).output));
      assert.match(made("awreg", ["replay"], await session.text()).output, /answer  done/);
      await session.clickForOutput("#check");
      assert.match(await session.inside("#output"), /serial yes\s+points yes/);
      await session.click("#undo");
      assert.equal(await session.text(), before);
    },

    async "a frame taken again, and one left lost"() {
      await session.open(fragment(schedule(2, "linear", "call 0 write x 5", "take 0 1 0")));
      await browser.click('#inner [data-frame="1"] .tip');
      await session.click("#menu .item");
      assert.equal(linesOf(await session.text()).at(-1), "take 0 1 0");
      assert.match(await session.inside("#story"), /again, and drops it/);
      const end = '#inner [data-offer="take 1 0 1"]';
      await session.click(end + " .target", 8);
      assert.equal(await session.count(end), 0);
      assert.equal(await session.count("#offers .take.lost"), 1);
      await session.click("#offers .take.lost");
      assert.equal(await session.count(end), 1);
    },
  };
}

function triesAtRandom({ session, rounds }) {
  return {
    async "random clicks: each text is accepted, and the drawing is the one that is drawn anew"() {
      const random = numbers(12345), kinds = {};
      for (let round = 0; round < rounds; round++) await clickAround(session, round, random, kinds);
      console.log("  " + Object.entries(kinds).map(([kind, count]) => `${count} ${kind}`).join(", "));
    },
  };
}

async function tabTo(browser, selector) {
  for (let i = 0; i < 120; i++) {
    if (await browser.value(`document.activeElement.matches(${JSON.stringify(selector)})`)) return;
    await browser.press("Tab");
  }
  throw new Error("no Tab leads to " + selector);
}

/** Numbers below a limit, the same ones each time. */
function numbers(seed) {
  let state = seed;
  return most => {
    state = (Math.imul(state, 1103515245) + 12345) >>> 0;
    return (state >>> 8) % most;
  };
}

/** What may be pressed: buttons of the list, and ends of arrows. Each is given a number. */
const OFFERED = `[...document.querySelectorAll(
  "#offers .act:not([data-more]), #offers .take:not(.lost), #inner [data-offer]")].map((element, i) => {
    element.dataset.try = i;
    return (element.dataset.offer ? "end " : "list ") + (element.dataset.line || element.dataset.offer ||
      element.dataset.call);
  })`;

/** What is drawn, as a sorted list: elements without kids, with all that they say. */
const DRAWN = `[...document.querySelectorAll("#inner *, #axis *, #gutter *, #cards *")]
  .filter(element => !element.childElementCount)
  .map(element => element.outerHTML)
  .map(text => text.replace(/ data-try="\\d+"/, "").replace(/ over\\b|over /g, "").replace(' class=""', ""))
  .sort()`;

/** One run built by ten random clicks, between which one is undone. */
async function clickAround(session, round, random, kinds) {
  const { browser } = session, front = ["linear", "local-read", "local-write"][round % 3];
  await session.open(fragment(schedule([1, 2, 3, 4, 9][round % 5], front).replace("registers x", "registers x y")));
  for (let i = 0; i < 10; i++) {
    const before = await session.text(), offered = await browser.value(OFFERED), chosen = random(offered.length);
    await session.click(`[data-try="${chosen}"]` + (offered[chosen].startsWith("end ") ? " .target" : ""));
    const after = await session.text(), { status, error } = made("awreg", ["replay"], after);
    assert.equal(status, 0, `${offered[chosen]}: ${error}`);
    assert.equal(linesOf(after).length, linesOf(before).length + 1, `${offered[chosen]} adds one line`);
    const kind = offered[chosen].split(" ")[0] + " " + linesOf(after).at(-1).split(" ")[0];
    kinds[kind] = (kinds[kind] || 0) + 1;
    if (i === 5) {
      await session.press("z", 2);
      assert.equal(await session.text(), before);
    }
  }
  await pause(400); // until nothing flies
  const grown = await browser.value(DRAWN);
  await session.open(fragment(await session.text()));
  await session.click("#last");
  assert.deepEqual(grown, await browser.value(DRAWN));
}
