// Texts of every kind in the playground: what is refused, what has no run, what is saved, and what is hostile.
import assert from "node:assert/strict";
import { readdirSync } from "node:fs";
import { join } from "node:path";
import { pause } from "./driver.mjs";
import { slide } from "./stepping.mjs";
import { example, fragment, linesOf, schedule } from "./session.mjs";
import { TOP, made } from "../../tools/programs.mjs";

const MARKED = "document.querySelector('.mark.refused').style.top";

/** What the operations of a report's history were answered, in the order of their calls. */
function answersIn(report) {
  const lines = linesOf(report).map(line => /^ +(\d+) +(p\d+ +#\d+) +(call|answer) +(.*)$/.exec(line)).filter(it => it);
  return lines.filter(([, , , what]) => what === "call").map(([, , key]) => {
    const answer = lines.find(([, , other, what]) => other === key && what === "answer");
    return answer ? `${answer[4]}, at event ${answer[1]}` : "not answered";
  });
}

/** A try for each kind of text. */
export const triesOfTexts = context =>
  ({ ...triesOfRefusals(context), ...triesOfHostility(context), ...triesOfKinds(context), ...triesOfSaving(context) });

function triesOfRefusals({ session }) {
  const { browser } = session;
  return {
    async "a refused text: its line is marked, and the last good run stays; undo and redo"() {
      await session.open(fragment(schedule(2, "linear", "call 0 write x 5")));
      await browser.press("e");
      await browser.value("document.getElementById('source').setSelectionRange(1e6, 1e6)");
      await session.type("cal 1 read x\n");
      assert.match(await session.inside("#verdict"), /^line 5: form/);
      assert.match(await session.inside("#verdict pre"), /"cal": did you mean call\?/);
      assert.equal(await browser.value(MARKED), "88px");
      assert.equal(await session.inside("#where"), "event 0 / 0");
      await session.press("z", 2);
      assert.equal(linesOf(await session.text()).length, 4);
      assert.match(await session.inside("#verdict"), /1 events?, all accepted/);
      await session.press("y", 2);
      assert.match(await session.inside("#verdict"), /^line 5: form/);
      await session.click("#undo");
      await session.click("#offers [data-line='take 0 1 0']");
      await session.click("#undo");
      assert.equal(linesOf(await session.text()).length, 4);
    },

    async "an event that is refused is shown at its line"() {
      await session.open(fragment(schedule(2, "linear", "call 0 write x 5", "take 1 0 0")));
      assert.match(await session.inside("#verdict"), /^event 1: no frame/);
      assert.equal(await browser.value(MARKED), "88px");
    },

    async "a run of more than 2,000 events is told so, and the last good one stays"() {
      const whole = schedule(1, "linear", ...Array(2000).fill("tick 0"));
      await session.open(fragment(whole));
      await session.click("#last");
      assert.equal(await session.inside("#where"), "event 1999 / 1999");
      await session.click("#offers [data-line='tick 0']");
      assert.match(await session.inside("#verdict"), /2001 events[^]*too many events to draw/);
      assert.equal(await session.inside("#where"), "event 1999 / 1999");
      await session.click("#undo");
      await session.click("#offers [data-call='0 read']");
      await session.open(fragment(whole + "tick 0\n"));
      assert.match(await session.inside("#no-run"), /too many events to draw/);
    },
  };
}

function triesOfHostility({ session }) {
  const { browser } = session;
  return {
    async "a hostile text stays in its element"() {
      const evil = "<img src=x onerror=alert(1)></script></textarea><script>document.title='gone'</script>" +
        "\u2028 &amp; ${1} \u0000";
      await session.open(fragment(`# ${evil}\n` + schedule(1, "linear", `# ${evil}`, "call 0 write x 5")));
      assert.equal(await session.count("img, #run script:not([type]), main script"), 0);
      assert.match(await session.inside("#title"), /onerror=alert\(1\)/);
      assert.match(await session.inside("#story .note"), /<script>/);
      for (const whole of [evil, `processes ${evil}`, `front = "${evil.replaceAll('"', "")}"`,
        "awreg report 2\n" + evil,
        "x".repeat(200000), "processes 2\nregisters " + evil]) {
        await session.open(fragment(whole));
        assert.equal(await session.count("img"), 0);
        assert.notEqual(await browser.value("document.title"), "gone");
      }
    },
  };
}

function triesOfKinds({ session }) {
  const { browser } = session;
  return {
    async "a workload: its play, its outcomes, and its events as a text"() {
      const source = example("lossy-play.toml");
      await session.open(fragment(source));
      assert.match(await session.inside("#verdict"), /a workload: 2 processes/);
      await session.clickForOutput("#outcomes");
      const counts = await browser.value(`[...document.querySelectorAll("#output tr")].map(row =>
        [row.cells[0].innerText, row.querySelector(".act").innerText])`);
      const table = made("awshow", ["outcomes"], source).output.split("\n").filter(line => line.startsWith(" "));
      assert.deepEqual(counts, table.map(line => [/\d+/.exec(line)[0], /seed \d+/.exec(line)[0]]));
      await session.click("#output .act");
      assert.match(await session.text(), new RegExp("^" + counts[0][1].replace(" ", " = ") + "$", "m"));
      await session.click("#undo");
      await session.click("#as-seeded");
      await browser.until("document.getElementById('workload').hidden");
      await session.shown();
      assert.equal(await session.text(), made("awshow", ["schedule"], source).output);
      assert.match(await session.inside("#offers"), /tick/);
    },

    async "a workload: all outcomes of its scripts, and a run with one"() {
      const source = example("lossy-play.toml");
      await session.open(fragment(source));
      await session.clickForOutput("#outcomes");
      await browser.click("#all-outcomes");
      await browser.until("document.getElementById('outcome-1')");
      const count = +/^outcomes (\d+)$/m.exec(made("awshow", ["outcomes", "--all"], source).output)[1];
      assert.equal(await browser.value(`document.querySelectorAll("#output tr").length`), count);
      await session.click(`#outcome-${count}`);
      await browser.until("document.getElementById('workload').hidden");
      await session.shown();
      assert.equal(await session.text(), made("awshow", ["outcomes", "--all", String(count)], source).output);
    },

    async "a report: what check says of it"() {
      await session.open(fragment(example("stale-linear.report")));
      assert.match(await session.inside("#verdict"), /points no: falling at 1/);
      await session.clickForOutput("#check");
      assert.match(await session.inside("#output"), /serial yes\s+points no: falling at 1/);
    },

    async "every example opens, and is stepped through"() {
      await session.open();
      const values = await session.valuesOf("examples");
      for (const value of values) {
        await session.choose("examples", value);
        assert.equal(await slide(browser), null, value);
        const verdict = await session.inside("#verdict"), isBroken = await browser.value(
          "document.getElementById('examples').selectedOptions[0].parentNode.label === 'Without this rule'");
        assert.ok(!await session.count(".verdict.is-refused") || / no: /.test(verdict) ||
          isBroken && /^event \d+: /.test(verdict), `${value}: ${verdict}`);
      }
      assert.ok(values.length > 25);
    },

    async "each run without a rule: what is stored of it, what check says of that, and the right program's answers"() {
      await session.open();
      const rules = readdirSync(join(TOP, "examples", "broken"), { withFileTypes: true })
        .filter(entry => entry.isDirectory()).map(({ name }) => name);
      for (const name of rules) {
        const file = of => example(join("broken", name, of)), right = made("awreg", ["replay"], file("schedule.sched"));
        await session.choose("examples", await browser.value(`[...document.querySelectorAll("#examples option")]
          .find(it => it.text === ${JSON.stringify(name.replaceAll("-", " "))}).value`));
        await browser.until("!document.getElementById('output').hidden");
        assert.equal(await session.text(), file("schedule.sched"));
        const rows = await browser.value(`[...document.querySelectorAll("#output tbody tr")].map(row =>
          [...row.cells].map(cell => cell.innerText))`);
        assert.deepEqual(rows.map(([, stored]) => stored), answersIn(file("report.txt")), name);
        if (right.status === 0) assert.deepEqual(rows.map(([, , own]) => own), answersIn(right.output), name);
        else assert.match(await session.inside("#right-refuses"), new RegExp(right.error.trim() + "$"));
        const said = await session.inside("#output");
        for (const line of file("check.txt").split("\n").slice(1).filter(it => /^(serial|points) (yes|no)/.test(it))) {
          assert.ok(said.includes(line), `${name}: ${line}`);
        }
      }
    },
  };
}

function triesOfSaving({ session }) {
  const { browser } = session;
  return {
    async "what is saved is what the programs print"() {
      const source = example("two-writers.sched"), print = (name, word) => made(name, [word], source).output;
      await session.open(fragment(source));
      await browser.value(`(() => {
        globalThis.saved = [];
        URL.createObjectURL = blob => {
          saved.push(blob.text());
          return "#";
        };
        HTMLAnchorElement.prototype.click = () => {};
      })()`);
      const wanted = [source, print("awreg", "replay"), print("awshow", "page"), print("awshow", "draw"),
        print("awshow", "trace")];
      for (const i of wanted.keys()) {
        await browser.click("#save");
        await browser.value(`document.querySelectorAll("#menu .item")[${i}].click()`);
        await browser.until(`saved.length === ${i + 1}`);
      }
      assert.deepEqual(await browser.value("Promise.all(saved)"), wanted);
    },

    async "a link holds the text, and no request does"() {
      const source = example("stale-read.sched");
      await session.open(fragment(source));
      await browser.click("#link");
      await pause(100);
      const link = await browser.value("location.href");
      await browser.open("about:blank");
      await browser.open(link);
      await session.shown();
      assert.equal(await session.text(), source);
      const sent = browser.requests.filter(url => url.includes("text=") && !url.startsWith(session.address + "#"));
      assert.deepEqual(sent, []);
    },
  };
}
