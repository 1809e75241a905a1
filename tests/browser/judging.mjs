// Histories judged in the playground: of a report and of lines of JSON, and how they are drawn.
import assert from "node:assert/strict";
import { example, fragment } from "./session.mjs";

const line = (process, type, f, value) => JSON.stringify({ process, type, f, key: "x", value }) + "\n";

/** A client reads the new value and then the old one, while the new one is being written. */
const LINES = line("a", "invoke", "write", 1) + line("a", "ok", "write", 1) + line("b", "invoke", "write", 2) +
  line("c", "invoke", "read") + line("c", "ok", "read", 2) + line("c", "invoke", "read") + line("c", "ok", "read", 1);

/** A try for each way of judging. */
export const triesOfJudging = ({ session, browser }) => ({
  async "a report is judged by its history, and drawn"() {
    await session.open(fragment(example("stale-linear.report")));
    const told = await session.inside("#no-run");
    const wanted =
      /points no: falling at 1[^]*register x: not linearizable\s+by event 4: p1 #0 read x: value 0\s+possible: value 5/;
    assert.match(told, wanted);
    assert.equal(await session.count("#no-run .bars .lasting"), 2);
    const text = selector => browser.value(`document.querySelector("#no-run ${selector}").textContent`);
    assert.equal(await text(".bars .refused text"), "read x: value 0");
    assert.match(await text(".told"),
      /p1 #0 read x: called at event 3, answered value 0 at event 4, .*: no order explains this answer/);
  },

  async "lines of JSON are judged by a report, which becomes the text"() {
    await session.open(fragment(LINES));
    assert.match(await session.inside("#verdict"), /^lines of JSON: 7 events of 3 processes at 1 key$/);
    const refused = /register x: not linearizable\s+by line 7: p2 #1 read x: value 1\s+possible: value 2\s+/;
    const underWay = /under way line 3: p1 #0 write x 2/;
    assert.match(await session.inside("#no-run"), new RegExp(refused.source + underWay.source));
    await session.click("#as-report");
    assert.match(await session.text(), /^awreg report 2\nfront observed\nprocesses 3\n/);
    assert.match(await session.inside("#no-run"), /by event 6: p2 #1 read x: value 1/);
    await session.press("z", 2);
    assert.equal(await session.text(), LINES);
    await session.clickForOutput("#judge");
    assert.match(await session.inside("#output"), /point order: no/);
  },

  async "the judge's points are put into a report of lines of JSON, and accepted"() {
    const lines = line("a", "invoke", "write", 5) + line("b", "invoke", "read") + line("b", "ok", "read", 5);
    await session.open(fragment(lines));
    await session.click("#as-report");
    await session.click("#with-points");
    await browser.until("document.getElementById('source').value.includes('points 2\\n')");
    await session.shown();
    assert.match(await session.inside("#verdict"), /serial yes; points yes/);
    assert.equal(await session.count("#no-run .bars .at"), 2);
    await session.open(fragment(example("stale-linear.report")));
    await session.click("#with-points");
    await browser.until("document.getElementById('toast').textContent === 'Its history has no point order.'");
  },

  async "EDN is judged by a report too"() {
    const edn = "{:process 0, :type :invoke, :f :write, :value 1}\n{:process 0, :type :ok, :f :write, :value 1}\n" +
      "#jepsen.history.Op{:process 1, :type :invoke, :f :read}\n{:process 1, :type :ok, :f :read, :value 0}\n";
    await session.open(fragment(edn));
    assert.match(await session.inside("#verdict"), /^EDN: 4 events of 2 processes at 1 key$/);
    assert.match(await session.inside("#no-run"), /register a: not linearizable\s+by line 4: p1 #0 read a: value 0/);
    await session.open(fragment("{:process 0, :type :invoke"));
    assert.match(await session.inside("#verdict"), /^line 1: wanted the end of what is begun$/);
  },

  async "a line of JSON that is refused is marked"() {
    await session.open(fragment(line("a", "ok", "read", 1)));
    assert.match(await session.inside("#verdict"), /^line 1: the process has no call under way$/);
    assert.equal(await session.count(".mark.refused"), 1);
  },

  async "the history of a run is judged at its end"() {
    await session.open(fragment(example("two-writers.sched")));
    await session.clickForOutput("#judge");
    assert.match(await session.inside("#output"), /^awshow judge[^]*yes[^]*register x: linearizable/i);
    assert.equal(await session.count("#output .bars .at"), 2);
  },
});
