// What TEACHING.md plans: the commands of its sessions end as they should, its lab is handed out, solved and graded,
// and its answers are right. Run by `node --test tests`; alone, `node --test tests/teaching.test.mjs` is a rehearsal.
import { test } from "node:test";
import assert from "node:assert/strict";
import { spawnSync } from "node:child_process";
import { mkdirSync, mkdtempSync, readFileSync, readdirSync, rmSync, writeFileSync } from "node:fs";
import { tmpdir } from "node:os";
import { dirname, join } from "node:path";
import { exercises, made, program, seenOf, TOP } from "../tools/programs.mjs";
import { judge } from "../playground/js/judge.js";
import { renamingOf } from "../playground/js/variants.js";

const text = readFileSync(join(TOP, "docs", "TEACHING.md"), "utf8");
const PATH = [dirname(program("awreg")), dirname(program("awshow")), process.env.PATH].join(":");
/** What the commands print at their end that say no of a report; the others end with status 0. */
const SAY_NO = new Map([
  ["awreg check < examples/own-order.report", "serial no: own order"],
  ["awreg check < examples/stale-linear.report", "points no: falling at 1"],
  ["awreg check < examples/broken/equal-times/report.txt", "serial no: answer at 3"],
  ["awshow find serial < examples/broken/equal-times/report.txt", "no serial order"],
]);

for (const [, session, part] of text.matchAll(/^## (Session \d)(.*?)(?=^## )/gms)) {
  test(`${session}: each command`, () => {
    const commands = /```\n(.*?)\n```/s.exec(part)[1].split("\n");
    assert.ok(commands.length > 5);
    for (const command of commands) {
      const { status, stdout } = spawnSync("sh", ["-c", command], { cwd: TOP, encoding: "utf8", env: { PATH } });
      assert.equal(status, SAY_NO.has(command) ? 1 : 0, command);
      assert.ok(stdout.endsWith((SAY_NO.get(command) || "") + "\n"), command);
    }
  });
}

/** The exercises of these numbers that a part of the page names, as "exercises 12 to 17, 19 and 20". */
function numbersIn(words) {
  const numbers = [...words.matchAll(/(\d+)(?: to (\d+))?/g)].map(([, first, last = first]) => [+first, +last]);
  return numbers.flatMap(([first, last]) => Array.from({ length: last - first + 1 }, (_, i) => first + i));
}

test("the lab: two students get variants, hand in solutions of them, and are graded", () => {
  const folder = mkdtempSync(join(tmpdir(), "lab-")), grade = (...words) =>
    spawnSync(join(TOP, "tools", "grade"), [...words, "--variant", "autumn"], { cwd: folder, encoding: "utf8" });
  try {
    const students = ["ann", "bob"], numbers = numbersIn(/variant of their own of exercises ([^(]*)\(/.exec(text)[1]);
    assert.deepEqual(numbers, [12, 13, 14, 15, 16, 17, 19, 20]);
    writeFileSync(join(folder, "names.txt"), students.join("\n") + "\n");
    assert.equal(grade("--handout", "given", "--students", "names.txt").status, 0);
    const chosen = exercises().filter(({ name }) => numbers.includes(parseInt(name)));
    for (const student of students) {
      const own = join(folder, "handed-in", student), given = readdirSync(join(folder, "given", student));
      mkdirSync(own, { recursive: true });
      for (const exercise of chosen) {
        const file = given.find(name => name.startsWith(exercise.name) && !name.endsWith(".md"));
        const solution = readFileSync(join(TOP, "examples/exercises/tries", `${exercise.name}.solution`), "utf8");
        writeFileSync(join(own, file), renamingOf(exercise, `autumn/${student}`)(solution));
      }
    }
    const { stdout } = grade("handed-in", "--by-name", "--csv", "--memory", "0");
    assert.deepEqual(stdout.trimEnd().split("\n").slice(1),
      students.flatMap(student => chosen.map(({ name }) => `"${student}","${name}","yes",""`)));
  } finally {
    rmSync(folder, { recursive: true });
  }
});

test("the lab: each change that is told of the history with which JUDGE.md begins gives it a point order", () => {
  const [, history] = /```\n(\{"process".*?)```/s.exec(readFileSync(join(TOP, "docs", "JUDGE.md"), "utf8"));
  const judged = lines => made("awshow", ["judge"], lines).output.split("\n")[0];
  const line = (value, other) => history.replace(`"ok",     "f": "read",  "key": "x", "value": ${value}}`,
    `"ok",     "f": "read",  "key": "x", "value": ${other}}`);
  assert.match(text, /one change is that the last read answers 2; another that the first one answers 1\./);
  assert.deepEqual([history, line(1, 2), line(2, 1)].map(judged).map(said => said.split(" ")[0]), ["no", "yes", "yes"]);
});

/** What each answer to a task to be written by hand has: its front end, and what an exercise would want of it. */
const BY_HAND = {
  "waiting-swap.sched": ["local-write", { what: "answered", process: 0, number: 0, kind: "write", value: "5" },
    { what: "answered", process: 0, number: 1, kind: "swap", answer: "value 5" },
    { what: "lost", from: 0, to: 1, place: 1 }],
  "seen-swap.sched": ["local-read", { what: "answered", process: 1, kind: "read", answer: "value 5" },
    { what: "waiting", process: 0, kind: "swap", value: "5" }],
  "stale-after-swap.sched": ["local-read", { what: "turned", newer: "read", older: "swap", other: true }],
  "new-then-old-at-once.sched": ["local-write", { what: "turned", newer: "read", older: "read", other: true },
    { what: "answered", process: 1, kind: "read", answer: "value 5" },
    { what: "answered", process: 2, kind: "read", answer: "value 0" }],
  "overtaking-write.sched": ["local-write", { what: "turned", newer: "write", older: "write", other: true },
    { what: "answered", process: 0, number: 1, kind: "read", answer: "value 5" }],
  "overtaking-cas.sched": ["local-write", { what: "turned", newer: "cas", older: "write", other: true },
    { what: "answered", process: 0, kind: "cas", value: "7", answer: "done" }],
};

test("each schedule to be written by hand has an answer that does what is asked for", () => {
  const rows = [...text.matchAll(/^\| \.\. under `([a-z-]+)` .* \| \d+ \| `(.*)` \|$/gm)];
  assert.deepEqual(rows.map(([, front, file]) => [file, front]), Object.entries(BY_HAND).map(([file, [front]]) =>
    [file, front]));
  for (const [file, [front, ...wants]] of Object.entries(BY_HAND)) {
    const seen = seenOf(readFileSync(join(TOP, "examples", file), "utf8"), { rest: false, check: false });
    assert.equal(seen.run.front, front, file);
    for (const want of judge({ wants: wants.map(want => ({ ...want, say: want.what })) }, null, seen)) {
      assert.ok(want.isMet, `${file}: ${want.say}`);
    }
  }
});
