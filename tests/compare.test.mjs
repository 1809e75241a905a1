// Where two runs differ. Run by `node --test tests`.
import { test } from "node:test";
import assert from "node:assert/strict";
import { spawnSync } from "node:child_process";
import { join } from "node:path";
import { compareRuns, sentencesOf } from "../page/js/compare.js";
import { layOut } from "../page/js/layout.js";
import { Run } from "../page/js/run.js";
import { examples, TOP } from "../tools/programs.mjs";

const all = examples(), toldOf = name => all.find(one => one.name === `${name}.sched`).told;

/** A pair of examples as their texts and comments say that they are. */
const PAIRS = [
  { names: ["lost-frame", "acknowledged-write"], at: 1, points: [true, true],
    operations: [["p0 #0", "write x 5: not answered", "write x 5: done"]],
    says: ["A ends before event 1.", "Both have points."] },
  { names: ["acknowledged-write", "waiting-read"], at: 0, points: [true, false],
    operations: [["p0 #1", "not called", "read x: value 5"]],
    says: ["The first event that differs is 0.", "A has points, and B has none."] },
  { names: ["repeated-frame", "acknowledged-write"], at: 2, points: [true, true], operations: [],
    says: ["The first event that differs is 2.", "Both have points."] },
  { names: ["waiting-read", "waiting-swap"], at: 1, points: [false, false],
    operations: [["p0 #1", "read x: value 5", "swap x 6: value 5"]],
    says: ["The first event that differs is 1.", "Neither has points."] },
  { names: ["stale-read", "new-then-old"], at: 1, points: [false, false],
    operations: [["p0 #0", "write x 5: done", "write x 5: not answered"], ["p1 #0", "read x: value 0",
      "read x: value 5"], ["p2 #0", "not called", "read x: value 0"]],
    says: ["The first event that differs is 1.", "Neither has points."] },
];

for (const { names, at, points, operations, says } of PAIRS) {
  test(`${names.join(" and ")} differ as their texts say`, () => {
    const found = compareRuns(...names.map(toldOf));
    assert.deepEqual([found.at, found.points, found.isSame], [at, points, false]);
    assert.deepEqual(found.operations.map(({ name, told }) => [name, ...told]), operations);
    assert.deepEqual(sentencesOf(found, ["A", "B"]), says);
  });
}

/** The pairs of examples that have as many processes, and the same registers. */
const alike = all.flatMap(one => all.filter(({ told }) => told.processes === one.told.processes &&
  told.registers.join() === one.told.registers.join()).map(other => [one, other]));

test("of all pairs of one shape, a run differs nowhere from itself, and the other way round is the mirrored", () => {
  assert.ok(alike.length > 2 * all.length);
  for (const [one, other] of alike) {
    const found = compareRuns(one.told, other.told), back = compareRuns(other.told, one.told);
    const where = `${one.name}, ${other.name}`;
    assert.equal(found.isSame, one === other, where);
    if (one === other) assert.deepEqual([found.at, found.operations], [null, []], where);
    const mirrored = ({ shapes, at, ends, points, operations }) => [[...shapes].reverse(), at,
      [...ends].reverse(), [...points].reverse(), operations.map(({ name, told }) => [name, ...[...told].reverse()])];
    assert.deepEqual(mirrored(back), [found.shapes, found.at, found.ends, found.points,
      found.operations.map(({ name, told }) => [name, ...told])], where);
  }
});

test("over one axis both runs have the same places", () => {
  for (const [one, other] of alike) {
    const runs = [new Run(one.told), new Run(other.told)];
    const first = layOut(runs[0], true, 900, 0, { run: runs[1] });
    const second = layOut(runs[1], true, 400, 0, { run: runs[0], step: first.step });
    assert.deepEqual(first.xs, second.xs);
    const alone = layOut(runs[0], true, 900);
    if (one === other) assert.deepEqual(first.xs, alone.xs);
  }
});

const compare = (...words) => spawnSync(join(TOP, "tools", "compare"), words, { encoding: "utf8", cwd: TOP });
const [LOST, DONE] = ["lost-frame", "acknowledged-write"].map(name => `examples/${name}.sched`);
const BUFFERING = "examples/litmus/store-buffering.toml";

test("the tool tells events as a trace does, and its status tells whether something differs", () => {
  const { status, stdout } = compare(LOST, DONE);
  assert.equal(status, 1);
  assert.equal(stdout, [`${LOST} ends before event 1.`, `  ${LOST}`, "    the run ends here", `  ${DONE}`,
    "    1 take 0 1 0", "        takes data 0: cast (1, 0) write x 5", "        clock 2",
    "        delivers (1, 0) write x 5", "        copy x 5", "        puts count 1 (take 1 0 0)",
    "        puts data 0: acknowledgement (2, 1) (take 1 0 1)", "p0 #0", `  ${LOST}`, "    write x 5: not answered",
    `  ${DONE}`, "    write x 5: done", "Both have points.", ""].join("\n"));
  assert.equal(compare(DONE, DONE).status, 0);
  assert.equal(compare(BUFFERING, "--front", "linear").status, 0); // it has this one
  assert.equal(compare(BUFFERING, "--front", "local-read").status, 1);
  assert.equal(compare(BUFFERING, "--front", "local-read", "--seed", "7").status, 1);
});

test("what is refused has status 2, and prints nothing", () => {
  for (const words of [[], [DONE], ["examples/nothing", DONE], ["examples/stale-linear.report", DONE], ["--word"],
    [DONE, "--front", "linear"], [DONE, DONE, "--seed", "3"], [BUFFERING, "--front", "fast"],
    [BUFFERING, "--seed", "x"], [DONE, DONE, "--svg", "--page"]]) {
    const { status, stdout, stderr } = compare(...words);
    assert.deepEqual([status, stdout], [2, ""], words.join(" "));
    assert.match(stderr, /^tools\/compare: ./);
  }
});

test("the drawing has a title and a description, and events at the same places in both groups", () => {
  const { stdout } = compare(DONE, "examples/two-writers.sched", "--svg");
  assert.match(stdout, /<title id="pair-title">Two runs: [^<]*acknowledged-write[^<]*two-writers[^<]*<\/title>/);
  assert.match(stdout, /<desc id="pair-told">The first event that differs is 0\. Both have points\. p0 #0: /);
  const groups = stdout.split('<g class="run"').slice(1);
  const places = groups.map(group => new Map([...group.matchAll(
    /data-ev="(\d+)">(?:<text.*?<\/text>)?<rect class="node[^"]*" x="([\d.]+)" y="[\d.]+" width="([\d.]+)"/g)]
    .map(([, at, x, width]) => [at, +x + width / 2])));
  assert.deepEqual(places.map(({ size }) => size), [3, 5]);
  for (const [at, x] of places[0]) assert.equal(x, places[1].get(at));
});
