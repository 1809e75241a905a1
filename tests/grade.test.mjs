// What tools/grade says of a class. Run by `node --test tests`.
import { test } from "node:test";
import assert from "node:assert/strict";
import { spawnSync } from "node:child_process";
import { chmodSync, copyFileSync, mkdirSync, mkdtempSync, readFileSync, readdirSync, rmSync, symlinkSync,
  writeFileSync } from "node:fs";
import { tmpdir } from "node:os";
import { join } from "node:path";
import { exercises, TOP } from "../tools/programs.mjs";
import { renamingOf, variantOf } from "../playground/js/variants.js";

const tries = join(TOP, "examples", "exercises", "tries");
const grade = (...words) => spawnSync(join(TOP, "tools", "grade"), words, { encoding: "utf8" });

function withFolder(use) {
  const folder = mkdtempSync(join(tmpdir(), "class-"));
  try {
    use(folder);
  } finally {
    rmSync(folder, { recursive: true });
  }
}

test("solved, not solved, and what is no text of a student", () => withFolder(folder => {
  for (const name of ["ann", "bob"]) mkdirSync(join(folder, name));
  copyFileSync(join(tries, "08-the-lock.solution"), join(folder, "ann", "08.sched"));
  copyFileSync(join(tries, "12-too-late.solution"), join(folder, "ann", "12-too-late.sched"));
  copyFileSync(join(tries, "12-too-late.miss-2"), join(folder, "bob", "12.sched"));
  writeFileSync(join(folder, "bob", "08.sched"), "x".repeat(70_000));
  symlinkSync(join(tries, "13-it-came-back.solution"), join(folder, "bob", "13.sched"));
  writeFileSync(join(folder, "bob", "home\x1b.txt"), "");
  const { status, stdout } = grade(folder, "--csv", "--memory", "0");
  assert.equal(status, 0);
  assert.deepEqual(stdout.split("\n"), [
    "student,exercise,solved,missing",
    '"ann","08-the-lock","yes",""',
    '"ann","12-too-late","yes",""',
    '"bob","08-the-lock","no","has more than 65536 bytes"',
    '"bob","12-too-late","no","p1 writes 2 where x is 0, and is told that it is not"',
    '"bob","13-it-came-back","no","is no file"',
    '"bob","home?.txt","no","no exercise has this name"',
    "",
  ]);
}));

const head = (processes, front) => `processes ${processes}\nregisters x\nfront ${front}\n`;
const LOCK = "processes 2\nregisters lock\nfront linear\ncall 0 swap lock 1\ncall 1 swap lock 1\n";
const start = number => exercises().find(({ name }) => name.startsWith(number)).start.trimStart();
/** Two takes of each other's casts, and the acknowledgement that process 1 lacks then. */
const SWAPPED = "take 0 1 0\ntake 1 0 0\ntake 0 1 2\n";

/** Ten submissions, and what is missing of each: worked out from the schedule and from what the exercise wants. */
const TEN = [
  // the acknowledgement is the second frame that process 1 puts: the count before it isn't needed
  ["01.sched", head(2, "linear") + "call 0 write x 5\ntake 0 1 0\ntake 1 0 1\n", []],
  ["01.sched", head(2, "linear") + "call 0 write x 5\ntake 0 1 0\ntake 1 0 0\ntake 1 0 1\n",
    ["no more than three events"]],
  // of two processes the other one delivers a cast as it takes it: its read isn't stale
  ["03.sched", head(2, "local-read") + "call 0 write x 5\ntake 0 1 0\ntake 1 0 1\ncall 1 read x\n",
    ["the head is the one given", "p1 reads 0",
      "the write was answered before the read was called, and comes after it in the order"]],
  // a read of the process that wrote waits, and misses nothing
  ["04.sched", head(2, "local-write") + "call 0 write x 1\ncall 0 read x\n",
    ["a read of p1 stands in the order before a write that was answered before its call"]],
  // the start alone: its frame is not taken, and all else is still to come
  ["05.sched", head(2, "linear") + "call 0 write x 5\n",
    ["the write is answered", "the run is at rest: awshow rest has nothing to add"]],
  // what stands first is another call
  ["05.sched", head(2, "linear") + "call 0 write x 6\ntick 0\ntake 0 1 1\ntake 1 0 0\ntake 1 0 1\ntake 0 1 2\n",
    ["the head and the first events are those given"]],
  // equal times are ordered by process, so process 0 gets the lock
  ["08.sched", LOCK + SWAPPED,
    ["p1 has the lock: its swap answers 0", "p0 is told that it is taken: its swap answers 1"]],
  ["09.sched", head(2, "local-write") + "call 1 write x 5\ncall 0 swop x 7\n",
    ["refused: line 5: form", "the head is the one given", "a swap answers 0",
      "it stands in the order before a write of the other process that was answered before its call"]],
  // another answer, which the order explains: the history is another one, and the points still fall
  ["11.report", start("11").replace("value 0", "value 5").replace("p1 #0\np0 #0\n", "p0 #0\np1 #0\n")
    .replace("p1 #0 at 3\np0 #0 at 2\n", "p0 #0 at 2\np1 #0 at 1\n"),
    ["the history is the one given", "and: points no: outside at 0"]],
  // the crashed write takes effect after the first read, and the swap, of which nobody is told, is left out
  ["20.report", start("20").replace("order 0\npoints 0\n", "order 5\np1 #0\np0 #0\np1 #1\np2 #0\np1 #2\n" +
    "points 5\np1 #0 at 1\np0 #0 at 3\np1 #1 at 4\np2 #0 at 5\np1 #2 at 8\n"), []],
];

test("ten submissions, worked by hand", () => withFolder(folder => {
  TEN.forEach(([file, text], i) => {
    mkdirSync(join(folder, `student ${i}`));
    writeFileSync(join(folder, `student ${i}`, file), text);
  });
  const { stdout } = grade(folder, "--csv", "--memory", "0");
  const rows = stdout.trimEnd().split("\n").slice(1).map(row => row.slice(1, -1).split('","'));
  assert.deepEqual(rows.map(([student, , solved, missing]) => [student, solved, missing]),
    TEN.map(([, , missing], i) => [`student ${i}`, missing.length ? "no" : "yes", missing.join("; ")]));
}));

test("a file for each student, of one exercise; a name is no formula", () => withFolder(folder => {
  copyFileSync(join(tries, "12-too-late.solution"), join(folder, "=cmd.sched"));
  const { stdout } = grade(folder, "--exercise", "12", "--csv", "--memory", "0");
  assert.equal(stdout.split("\n")[1], `"'=cmd","12-too-late","yes",""`);
}));

test("a handout has tasks and starts, and no solutions", () => withFolder(folder => {
  assert.equal(grade("--handout", folder).status, 0);
  assert.equal(readdirSync(folder).length, 2 * exercises().length);
}));

test("a variant for each student: a handout, what solves it, and the text of a neighbour", () => withFolder(folder => {
  const given = join(folder, "given"), texts = join(folder, "texts"), names = join(folder, "names");
  writeFileSync(names, "ann\n\nbob \n");
  assert.equal(grade("--handout", given, "--variant", "autumn", "--students", names).status, 0);
  assert.deepEqual(readdirSync(given), ["ann", "bob"]);
  const exercise = exercises().find(({ name }) => name.startsWith("12"));
  const [ofAnn, ofBob] = ["ann", "bob"].map(name => variantOf(exercise, `autumn/${name}`));
  assert.notEqual(ofAnn.start, ofBob.start);
  assert.equal(readFileSync(join(given, "ann", "12-too-late.sched"), "utf8"), ofAnn.start);
  assert.ok(readFileSync(join(given, "bob", "12-too-late.md"), "utf8").includes(ofBob.task.trim()));
  const solution = renamingOf(exercise, "autumn/ann")(readFileSync(join(tries, "12-too-late.solution"), "utf8"));
  for (const name of ["ann", "bob"]) {
    mkdirSync(join(texts, name), { recursive: true });
    writeFileSync(join(texts, name, "12.sched"), solution);
  }
  const { stdout } = grade(texts, "--variant", "autumn", "--by-name", "--memory", "0");
  assert.match(stdout, /^ann  12-too-late  solved\nbob  12-too-late  not solved\n/);
  assert.match(grade(texts, "--variant", "autumn/ann", "--memory", "0").stdout,
    /^ann  12-too-late  solved\nbob  12-too-late  solved\n$/);
}));

const isRoot = process.getuid?.() === 0;

test("a folder that can't be read keeps no other from being graded", { skip: isRoot ? "root reads all" : false }, () =>
  withFolder(folder => {
    for (const name of ["ann", "bob"]) mkdirSync(join(folder, name));
    copyFileSync(join(tries, "08-the-lock.solution"), join(folder, "bob", "08.sched"));
    chmodSync(join(folder, "ann"), 0);
    const { stdout } = grade(folder, "--memory", "0");
    assert.equal(stdout, "ann  ann  not solved\n    missing: can't be read\nbob  08-the-lock  solved\n");
  }));

test("a text whose lines end as another system's do", () => withFolder(folder => {
  const text = readFileSync(join(tries, "12-too-late.solution"), "utf8");
  writeFileSync(join(folder, "ann.sched"), "\ufeff" + text.replaceAll("\n", "\r\n"));
  const { stdout } = grade(folder, "--exercise", "12", "--memory", "0");
  assert.equal(stdout, "ann  12-too-late  solved\n");
}));

test("words that say nothing are refused", () => {
  for (const words of [[], ["a", "b"], ["a", "--exercise", "99"], ["a", "--by-name"], ["a", "--variant", ""],
    ["a", "--variant", "b", "--students", "c"], ["--handout", "a", "--students", "b"],
    ["--handout", "a", "--variant", "b", "--by-name"]]) assert.equal(grade(...words).status, 2, words.join(" "));
});

test("a name that is no folder's is refused before anything is written", () => withFolder(folder => {
  for (const name of ["../ann", ".", "an\x07n"]) {
    writeFileSync(join(folder, "names"), `bob\n${name}\n`);
    const words = ["--handout", join(folder, "given"), "--variant", "autumn", "--students", join(folder, "names")];
    assert.equal(grade(...words).status, 2);
    assert.deepEqual(readdirSync(folder), ["names"]);
  }
}));
