// Variants of the exercises: of each, by twenty seeds, what solves it solves the variant under the new names, and near
// misses stay near misses. Run by `node --test tests`.
import { test } from "node:test";
import assert from "node:assert/strict";
import { readFileSync } from "node:fs";
import { join } from "node:path";
import { exercises, seenOf, TOP } from "../tools/programs.mjs";
import { asksFor, isSolved, judge } from "../playground/js/judge.js";
import { renamingOf, variantOf } from "../playground/js/variants.js";

const all = exercises(), seeds = Array.from({ length: 20 }, (_, i) => `seed ${i}`);
const named = number => all.find(({ name }) => name.startsWith(number));
const tryOf = (name, what) =>
  readFileSync(join(TOP, "examples", "exercises", "tries", `${name}.${what}`), "utf8");

/** What says whether a text solves an exercise. */
function judged(exercise) {
  const start = exercise.head === "free" ? null : seenOf(exercise.start, { rest: false, check: false }).run;
  return text => isSolved(judge(exercise, start, seenOf(text, asksFor(exercise))));
}

for (const exercise of all) {
  test(`${exercise.name}: its variants have its solution and its near misses`, () => {
    const known = new Set();
    for (const seed of seeds) {
      const variant = variantOf(exercise, seed), key = JSON.stringify(variant);
      if (known.has(key)) continue;
      known.add(key);
      const rename = renamingOf(exercise, seed), solves = judged(variant);
      assert.ok(!solves(variant.start), `${seed}: the start`);
      for (const what of ["solution", "miss-1", "miss-2", "miss-3"]) {
        assert.equal(solves(rename(tryOf(exercise.name, what))), what === "solution", `${seed}: ${what}`);
      }
    }
  });
}

test("registers and values have the same names in the start, the task and what is wanted", () => {
  for (const seed of seeds) {
    const { start, task, wants } = variantOf(named("12"), seed);
    const [, register] = /^registers ([a-z])$/m.exec(start), { value } = wants[1];
    assert.equal(task.trim(), `Process 1 reads ${register}, which is 0 in its copy, and then calls ` +
      `\`cas ${register} 0 ${value}\`. Let it be told that ${register} is another value than 0.`);
    assert.equal(wants[1].say, `p1 writes ${value} where ${register} is 0, and is told that it is not`);
  }
});

test("processes have the same names too, and the place of a frame stays", () => {
  const variants = seeds.map(seed => variantOf(named("05"), seed));
  assert.deepEqual([...new Set(variants.map(({ wants }) => wants[1].process))].sort(), [0, 1]);
  for (const { start, task, wants } of variants) {
    const { process } = wants[1], other = 1 - process;
    assert.match(start, new RegExp(`^processes 2\nregisters [a-z]\nfront linear\ncall ${process} write [a-z] \\d+\n$`));
    assert.ok(task.trim().startsWith(`The cast of p${process} is lost for good`));
    assert.deepEqual([wants[0].from, wants[0].to, wants[0].place], [process, other, 0]);
    assert.equal(wants[0].say, `the first frame from p${process} to p${other} is never taken`);
  }
});

test("a text is renamed as a schedule, a report or a workload has its parts", () => {
  const rename = renamingOf(named("01"), "seed 1"), call = rename("call 0 write x 5");
  const [, process, register, value] = /^call (\d) write ([a-z]) (\d+)$/.exec(call), other = 1 - +process;
  const same = (text, renamed) => assert.equal(rename(text), renamed);
  same("take 0 1 5", `take ${process} ${other} 5`);
  same("tick 1", `tick ${other}`);
  same("registers x", `registers ${register}`);
  same("registers 1\nx\nhistory 5", `registers 1\n${register}\nhistory 5`);
  same("       5  p0    #5       answer  value 5", `       5  p${process}    #5       answer  value ${value}`);
  same("p1 #5 at 5", `p${other} #5 at 5`);
  same('scripts = [["swap x 5", "cas x 0 5"]]\nseed = 5',
    `scripts = [["swap ${register} ${value}", "cas ${register} 0 ${value}"]]\nseed = 5`);
  same("# process 1 writes 5 where x is 0", `# process ${other} writes ${value} where ${register} is 0`);
});

test("what an exercise doesn't name as varying stays, and so does all of it by no seed", () => {
  for (const exercise of all) {
    assert.equal(variantOf(exercise, ""), exercise);
    assert.deepEqual(variantOf({ ...exercise, varies: undefined }, "seed 1"), { ...exercise, varies: undefined });
  }
});

test("a seed gives one variant, however its letters are composed, and most seeds give another one", () => {
  const exercise = named("12");
  assert.deepEqual(variantOf(exercise, "Zo\u00eb"), variantOf(exercise, "Zoe\u0308"));
  assert.ok(new Set(seeds.map(seed => variantOf(exercise, seed).task)).size >= 15);
});

test("there are as many variants of each exercise as EXERCISES.md says", () => {
  const many = Array.from({ length: 3000 }, (_, i) => `student ${i}`);
  const counts = all.map(exercise => new Set(many.map(seed => JSON.stringify(variantOf(exercise, seed)))).size);
  const said = { "04": 40, "06": 40, "09": 20, 16: 20 };
  all.forEach(({ name }, i) => {
    const wanted = said[name.slice(0, 2)];
    assert.ok(wanted ? counts[i] === wanted : counts[i] >= 99, `${name}: ${counts[i]}`);
  });
});

test("no exercise with a workload varies its processes: another script would have another play", () => {
  for (const { start, varies } of all) {
    assert.ok(varies.every(what => ["processes", "registers", "values"].includes(what)));
    assert.ok(!start.includes("scripts =") || !varies.includes("processes"));
  }
});
