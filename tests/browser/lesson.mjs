// The first page and the chapters of the lesson, where there is no server: each door leads on, each command that a
// chapter lets run prints what the chapter says, and each text opens beside it.
import assert from "node:assert/strict";
import { join } from "node:path";
import { example } from "./session.mjs";

/** Whether lines are those that a chapter shows, in which `..` stands for any number of lines. */
function isShownAs(lines, shown) {
  const [line, ...rest] = shown;
  if (line === undefined) return lines.length === 0;
  if (line === "..") return lines.some((_, at) => isShownAs(lines.slice(at), rest)) || isShownAs([], rest);
  return lines.length > 0 && lines[0] === line && isShownAs(lines.slice(1), rest);
}

/** The element of the playground that stands beside a chapter. */
const BESIDE = "document.getElementById('run').contentDocument";
const beside = browser => browser.until(`${BESIDE}?.body?.dataset.state === "shown"`, 20);

/** Runs each command of a chapter that has a button; gives what the chapter shows, and what was printed. */
const RUN_ALL = `(async () => {
  const blocks = [...document.querySelectorAll("[data-steps]")];
  for (const block of blocks) {
    block.querySelector("button").click();
    while (!block.querySelector(".printed")) await new Promise(requestAnimationFrame);
  }
  return blocks.map(block => [block.querySelector("pre").innerText, block.querySelector(".printed").innerText]);
})()`;

export function triesOfFirstPage({ browser, session, address, shots }) {
  return {
    async "each door of the first page leads on"() {
      await browser.open(address);
      if (shots) await browser.picture(join(shots, "first.png"));
      for (const [door, wanted] of [["see", example("stale-read.sched")], ["judge", example("stale-linear.report")],
        ["build", "processes 2\nregisters x\nfront linear\n"]]) {
        await browser.open(address);
        await browser.click("#" + door);
        await browser.until("document.body?.dataset.state === 'shown'", 20);
        assert.equal(await session.text(), wanted);
      }
    },

    async "the first page knows which exercise was solved, and nothing else is kept"() {
      await session.open("#exercise=04-the-shortest");
      await session.click('[data-call="0 write"]');
      await session.click('[data-call="1 read"]');
      assert.equal(await session.isSolved(), true);
      await browser.open(address);
      assert.deepEqual(await browser.value(
        "[...document.querySelectorAll('.solved')].map(it => it.dataset.exercise)"), ["04-the-shortest"]);
      assert.match(await session.inside("#solved"), /^1 of /i);
      assert.deepEqual(await browser.value("Object.keys(localStorage)"), ["tellwydar exercises"]);
    },
  };
}

export function triesOfLesson({ browser, address, shots }) {
  const open = async number => {
    await browser.open("about:blank");
    await browser.open(`${address}lesson/${number}.html`);
  };
  return {
    async "each command of the lesson that has a button prints what its chapter says"() {
      await open(1);
      const chapters = await browser.value("document.getElementById('chapters').length");
      let count = 0;
      for (let number = 1; number <= chapters; number++) {
        await open(number);
        await beside(browser);
        for (const [shown, printed] of await browser.value(RUN_ALL)) {
          const [command, ...lines] = shown.trimEnd().split("\n");
          assert.ok(isShownAs(printed.trimEnd().split("\n"), lines), `${number}: ${command}\n${printed}`);
          count++;
        }
      }
      assert.ok(count > 15, String(count));
    },

    async "a chapter begins with its first text beside it, and a text of it that is pressed opens there"() {
      await open(4);
      await beside(browser);
      const text = () => browser.value(`${BESIDE}.getElementById("source").value`);
      assert.equal(await text(), example("stale-read.sched"));
      if (shots) await browser.picture(join(shots, "lesson.png"));
      const wanted = example("stale-linear.report");
      await browser.value(`[...document.querySelectorAll(".block")].find(it => it.innerText.startsWith("awreg report"))
        .querySelector(".beside").click()`);
      await browser.until(`${BESIDE}.getElementById("source").value === ${JSON.stringify(wanted)}`);
      await browser.until(`${BESIDE}.getElementById("no-run").innerText.includes("falling at 1")`);
    },

    async "the first chapter: a write is called and answered by clicks, beside the text that says so"() {
      await open(1);
      await beside(browser);
      const click = async selector => {
        await browser.value(`${BESIDE}.querySelector(${JSON.stringify(selector)}).dispatchEvent(
          new MouseEvent("click", { bubbles: true }))`);
        await beside(browser);
      };
      await click('[data-call="0 write"]');
      await click('#inner [data-offer="take 0 1 0"] .target');
      await click('#inner [data-offer="take 1 0 1"] .target');
      assert.match(await browser.value(`${BESIDE}.getElementById("story").innerText`), /done/);
      assert.match(await browser.value(`${BESIDE}.getElementById("verdict").innerText`), /^a schedule/);
    },
  };
}
