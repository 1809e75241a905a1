// The modules that need no screen, by the types that their comments give, where Debian's node-typescript is at hand.
import { test } from "node:test";
import assert from "node:assert/strict";
import { spawnSync } from "node:child_process";
import { readdirSync, readFileSync } from "node:fs";
import { join } from "node:path";
import { TOP } from "../tools/programs.mjs";

const isAtHand = spawnSync("tsc", ["--version"]).status === 0;

test("each module that wants to be checked is in the list", () => {
  const folders = ["page/js", "playground/js"].map(folder => join(TOP, folder));
  const marked = folders.flatMap(folder => readdirSync(folder).map(name => join(folder, name)))
    .filter(path => readFileSync(path, "utf8").startsWith("// @ts-check"));
  const { files } = JSON.parse(readFileSync(join(TOP, "tests", "tsconfig.json"), "utf8"));
  assert.deepEqual(files.map(file => join(TOP, "tests", file)).sort(), marked.sort());
});

test("tsc finds no fault in them", { skip: isAtHand ? false : "no tsc" }, () => {
  const { status, stdout } = spawnSync("tsc", ["-p", join(TOP, "tests")], { encoding: "utf8" });
  assert.equal(stdout, "");
  assert.equal(status, 0);
});
