// The exercises in the playground: each of them solved, and missed.
import assert from "node:assert/strict";
import { join } from "node:path";
import { example } from "./session.mjs";
import { exercises } from "../../tools/programs.mjs";
import { renamingOf, variantOf } from "../../playground/js/variants.js";

/** A try by clicks, and one that types the solution and the near misses of each. */
export function triesOfExercises({ session }) {
  return {
    async "an exercise, missed and then solved, and the next one"() {
      await session.open();
      await session.choose("exercises", "04-the-shortest");
      await session.click('[data-call="1 read"]');
      await session.click('[data-call="0 write"]');
      assert.equal(await session.isSolved(), false);
      await session.click("#undo");
      await session.click("#undo");
      await session.click('[data-call="0 write"]');
      await session.click('[data-call="1 read"]');
      assert.equal(await session.isSolved(), true);
      await session.click("#next-exercise");
      await session.shown();
      assert.match(await session.inside("#exercise h3"), /Lost/);
    },

    async "a variant by its address, the next one, and the exercise itself"() {
      const [exercise, next] = ["12", "13"].map(number => exercises().find(({ name }) => name.startsWith(number)));
      const seed = "autumn/Zo\u00eb", solution = example(join("exercises", "tries", `${exercise.name}.solution`));
      await session.open(`#exercise=${exercise.name}&variant=${encodeURIComponent(seed)}`);
      assert.equal(await session.text(), variantOf(exercise, seed).start);
      await session.retype(solution);
      assert.equal(await session.isSolved(), false);
      await session.retype(renamingOf(exercise, seed)(solution));
      assert.equal(await session.isSolved(), true);
      await session.click("#next-exercise");
      await session.shown();
      assert.equal(await session.text(), variantOf(next, seed).start);
      await session.open(`#exercise=${exercise.name}`);
      await session.retype(solution);
      assert.equal(await session.isSolved(), true);
    },

    async "every exercise's solution is solved here too, and its near misses aren't"() {
      await session.open();
      const names = await session.valuesOf("exercises");
      assert.ok(names.length >= 10);
      for (const name of names) {
        await session.choose("exercises", name);
        for (const what of ["solution", "miss-1", "miss-2", "miss-3"]) {
          await session.retype(example(join("exercises", "tries", `${name}.${what}`)));
          assert.equal(await session.isSolved(), what === "solution", `${name} ${what}`);
        }
      }
    },
  };
}
