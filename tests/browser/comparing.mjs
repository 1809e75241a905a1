// Two runs beside each other, in the playground and on a page of their own; and a front end that is made of a table.
import assert from "node:assert/strict";
import { spawnSync } from "node:child_process";
import { mkdtempSync, rmSync, writeFileSync } from "node:fs";
import { tmpdir } from "node:os";
import { join } from "node:path";
import { example, fragment, schedule } from "./session.mjs";
import { TOP } from "../../tools/programs.mjs";

/** A try for each way to compare, and for the table. */
export const triesOfComparing = context => ({ ...triesOfPairs(context), ...triesOfTables(context) });

function triesOfPairs({ session, browser, shots }) {
  const differing = box => browser.value(`[...document.querySelectorAll("${box} .ev.differs")].map(e => e.dataset.ev)`);
  const bars = box => browser.value(`[...document.querySelectorAll("${box} .bar.differs")].map(e => e.dataset.op)`);
  return {
    async "a run is kept, and compared with the next one, by keys"() {
      await session.open(fragment(example("acknowledged-write.sched")));
      await browser.value("document.activeElement.blur()");
      await session.press("k");
      assert.match(await session.inside("#kept-told"), /^No event differs\. Both have points\./);
      assert.equal(await browser.value("document.activeElement.id"), "drop");
      await session.retype(example("repeated-frame.sched"));
      assert.match(await session.inside("#kept-told"), /^The first event that differs is 2\. Both have points\./);
      assert.deepEqual([await differing("#kept-diagram"), await differing("#diagram")], [["2"], ["2"]]);
      await session.retype(example("lost-frame.sched"));
      assert.match(await session.inside("#kept-told"), /B ends before event 1\.[^]*write x 5: done\s+write x 5: not/);
      assert.deepEqual([await bars("#kept-diagram"), await bars("#diagram")], [["0.0"], ["0.0"]]);
      if (shots) await browser.picture(join(shots, "kept.png"));
      await session.retype(example("two-writers.sched"));
      await browser.value("document.getElementById('differing').focus()");
      await session.press("Enter");
      assert.match(await session.inside("#where"), /^event 0 /);
      const marked = "[...document.querySelectorAll('.axis text.at')].map(e => e.textContent).filter(text => text)";
      assert.deepEqual(await browser.value(marked), ["0", "0"]);
      await session.press("ArrowRight");
      assert.deepEqual(await browser.value(marked), ["1", "1"]);
      await browser.value("document.getElementById('drop').focus()");
      await session.press("Enter");
      assert.ok(await browser.value("document.getElementById('kept').hidden"));
      assert.deepEqual([await differing("#diagram"), await bars("#diagram")], [[], []]);
    },

    async "events of both runs stand below each other"() {
      await session.open(fragment(example("waiting-read.sched")));
      await session.click("#keep");
      await session.retype(example("waiting-swap.sched"));
      const places = box => browser.value(`[...document.querySelectorAll("${box} .axis text[data-ev]")]
        .map(e => Math.round(e.getBoundingClientRect().left))`);
      const [kept, shown] = [await places("#kept-diagram"), await places("#diagram")];
      assert.equal(shown.length, 4);
      assert.deepEqual(kept, shown);
    },

    async "the page of two runs is stepped through by keys"() {
      const folder = mkdtempSync(join(tmpdir(), "pair-")), path = join(folder, "pair.html");
      const words = ["stale-read", "new-then-old"].map(name => join(TOP, "examples", `${name}.sched`));
      const { status, stdout } = spawnSync(join(TOP, "tools", "compare"), [...words, "--page"], { encoding: "utf8" });
      writeFileSync(path, stdout);
      assert.equal(status, 1);
      await browser.open("file://" + path);
      assert.equal(await session.inside("#where"), "event 1 / 5");
      assert.match(await session.inside("#story-one"), /take 0 1 0/i);
      assert.match(await session.inside("#story-other"), /take 0 2 0/i);
      await browser.press("End");
      assert.match(await session.inside("#story-one"), /value 0/);
      await browser.press("ArrowLeft");
      assert.match(await session.inside("#story-other"), /value 5/);
      await browser.press("Home");
      assert.equal(await session.inside("#where"), "start / 5");
      await browser.press("d");
      assert.equal(await session.inside("#where"), "event 1 / 5");
      assert.deepEqual([await differing("#diagram-one"), await bars("#diagram-other")], [["1"], ["0.0", "1.0", "2.0"]]);
      if (shots) await browser.picture(join(shots, "pair.png"));
      rmSync(folder, { recursive: true });
    },
  };
}

function triesOfTables({ session, browser, shots }) {
  const choose = (...starts) => session.chooseStarts(...starts);
  return {
    async "a front end from a table: a law that is broken, one that has a name, one that has none"() {
      await session.open(fragment(schedule(2, "local-read", "call 0 read x")));
      await session.clickForOutput("#front");
      assert.match(await session.inside("#front-verdict"), /It is local-read/);
      assert.match(await choose(["read 1", "look"]), new RegExp("it would miss the own write\\. No run comes to " +
        "this: [^]*Break it, section 9: [^]*Each of its runs is one of local-read"));
      if (shots) await browser.picture(join(shots, "table.png"));
      // (the module runs any lawful table, a server's programs those that have a name)
      const isRun = session.address.endsWith("playground.html");
      assert.match(await choose(["read 1", "hold"], ["write 0", "answer"]), isRun ?
        /lawful, and starts some call otherwise[^]*The text is run under it, as table 7/ :
        /lawful, and starts some call otherwise[^]*No program here runs it/);
      assert.match(await session.text(), /^front local-read$/m);
      assert.match(await choose(["write 1", "answer"]), /It is local-write/);
      assert.match(await session.text(), /^front local-write$/m);
      assert.match(await choose(["swap 0", "look"]), /has to be cast[^]*Break it, section 15: /);
      await choose(["read 1", "look"]);
      await browser.value("document.querySelector('#front-verdict a').focus()");
      await session.press("Enter");
      await browser.until("document.getElementById('output').innerText.includes('The answers without the rule')");
      assert.match(await session.inside("#output"), /A read waits while an own write is on its way/);
    },

    async "the stored run of a rule left out, by its address"() {
      await session.open("#broken=swap-waits");
      await browser.until("!document.getElementById('output').hidden");
      assert.match(await session.inside("#output"), /A swap waits for its delivery/);
    },
  };
}
