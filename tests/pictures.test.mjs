// The data of each example says what its picture shows and what its comments say; and the kept pages and pictures are
// what the programs print. Run by `node --test tests`.
import { test } from "node:test";
import assert from "node:assert/strict";
import { existsSync, readdirSync, readFileSync } from "node:fs";
import { join } from "node:path";
import { examples, made, TOP } from "../tools/programs.mjs";
import { frameText, Run, stampText } from "../page/js/run.js";

const all = examples().map(one => ({ ...one, run: new Run(one.told) }));
const drawingOf = text => made("awshow", ["draw"], text).output;

/** What a drawing shows of a run, by its data. */
function drawnByData(run) {
  const takes = run.events.filter(({ take }) => take), lost = run.puts.filter(({ takes }) => !takes.length);
  const line = ({ from, to, place }) => `take ${from} ${to} ${place}`;
  return {
    clocks: run.events.map(({ at, clock }) => `event ${at}, clock ${clock}`),
    taken: takes.map(({ text, frame }) => `${text}: ${frameText(frame)}`).sort(),
    lost: lost.map(put => `never taken: ${line(put)}: ${frameText(put.frame)}`).sort(),
    delivered: run.events.flatMap(({ delivered }) => delivered)
      .map(stamp => `${stampText(stamp)} ${run.operationOf(stamp).text}`).sort(),
    bars: run.operations.map(operation => operation.text + answerOf(run, operation)).sort(),
    points: run.points.map(({ op, at }) => `${op.name} at ${at}`).sort(),
  };
}

/** What stands on a bar of an answer: its value, and without points the place in the order too. */
function answerOf({ isRealTime, places }, { answer }) {
  if (!answer) return "";
  return `: ${answer.text}` + (isRealTime ? "" : `, place ${places.get(answer.at)}`);
}

/** The same of the drawing itself. */
function drawn(svg) {
  const all = pattern => [...svg.matchAll(pattern)].map(([, found]) => found);
  return {
    clocks: all(/<title>(event \d+, clock \d+)<\/title>/g),
    taken: all(/<title>(take [^<]*)<\/title>/g).sort(),
    lost: all(/<title>(never taken: [^<]*)<\/title>/g).sort(),
    delivered: all(/<text x="\d+" y="\d+">(\([^<]*)<\/text>/g).sort(),
    bars: all(/<text x="\d+" y="\d+">([a-z][^<]*)<\/text>/g).sort(),
    points: all(/<path class="point"[^>]*><title>([^<]*)<\/title>/g).sort(),
  };
}

test("the data of each example says what its drawing shows", () => {
  for (const { name, text, told, run } of all) {
    const places = new Map(told.events.map(({ reply }, at) => [at, reply && reply.place]));
    assert.deepEqual(drawnByData(Object.assign(run, { places })), drawn(drawingOf(text)), name);
  }
});

test("titles and notes are what the comments say", () => {
  for (const { name, text, told } of all) {
    const above = [];
    let words = [];
    for (const line of text.split("\n")) {
      if (line.startsWith("#")) words.push(line.slice(1).replace(/^ /, ""));
      else if (line) {
        above.push(words.filter(part => part).join(" "));
        words = [];
      }
    }
    assert.deepEqual([told.title, ...told.events.map(({ note }) => note)], [above[0], ...above.slice(3)], name);
  }
});

test("a page has the data of its run", () => {
  for (const { name, text, told } of all) {
    const page = made("awshow", ["page"], text).output;
    const inside = /<script type="application\/json" id="data">([^]*?)<\/script>/.exec(page);
    assert.deepEqual(JSON.parse(inside[1]), told, name);
  }
});

for (const [folder, ending, word] of [["pages", ".html", "page"], ["pictures", ".svg", "draw"]]) {
  test(`docs/${folder} has what awshow ${word} prints`, () => {
    const kept = readdirSync(join(TOP, "docs", folder));
    assert.ok(kept.length > 0);
    for (const name of kept) {
      const source = join(TOP, "examples", name.replace(ending, ".sched"));
      assert.ok(existsSync(source), name);
      const { output } = made("awshow", [word], readFileSync(source, "utf8"));
      assert.ok(readFileSync(join(TOP, "docs", folder, name), "utf8") === output, name);
    }
  });
}
