// The answers of QUIZ.md that the programs can judge: each history and each schedule is worked out from its question.
// Run by `node --test tests`.
import { test } from "node:test";
import assert from "node:assert/strict";
import { readFileSync } from "node:fs";
import { join } from "node:path";
import { made, TOP } from "../tools/programs.mjs";

/** An entry of a history, as "3 p0 #0 answer done", in the columns of a report. */
function columns(entry) {
  const [event, process, number, what, ...words] = entry.split(" ");
  return `${event.padStart(8)}  ${process.padEnd(6)}${number.padEnd(9)}${what.padEnd(8)}${words.join(" ")}`;
}

/** A report of two processes with x, of which an order and points are claimed, or none. */
const report = (entries, order = [], points = []) => ["awreg report 1", "front linear", "processes 2", "registers x",
  `history ${entries.length}`, ...entries.map(columns), `order ${order.length}`, ...order, `points ${points.length}`,
  ...points.map((at, i) => `${order[i]} at ${at}`), "end", ""].join("\n");
const schedule = (processes, front, ...events) =>
  [`processes ${processes}`, "registers x y", `front ${front}`, ...events, ""].join("\n");

const checked = text => made("awreg", ["check"], text).output;
const found = (kind, text) => made("awshow", ["find", kind], text).output;
/** The entries of what happens by a schedule, one space between two words. */
const entriesOf = text => made("awreg", ["replay"], text).output.split(/^history .*\n|^order /m)[1].trimEnd()
  .split("\n").map(line => line.trim().replace(/ +/g, " "));
const answers = text => entriesOf(text).filter(entry => entry.includes(" answer "));
const traceOf = text => made("awshow", ["trace"], text).output;

test("question 1: a read may be answered a value before its write is answered", () => {
  const entries = ["0 p0 #0 call write x 1", "1 p1 #0 call read x", "2 p1 #0 answer value 1", "3 p0 #0 answer done"];
  assert.equal(checked(report(entries, ["p0 #0", "p1 #0"], [1, 2])), "serial yes\npoints yes\n");
});

const oneAfterAnother = value => ["0 p0 #0 call write x 1", "1 p0 #0 answer done", "2 p1 #0 call write x 2",
  "3 p1 #0 answer done", "4 p0 #1 call read x", `5 p0 #1 answer value ${value}`];

test("question 2: an old value is serial, and has no points", () => {
  assert.match(checked(report(oneAfterAnother(1), ["p1 #0", "p0 #0", "p0 #1"])), /^serial yes\n/);
  assert.equal(found("points", report(oneAfterAnother(1))), "no point order\n");
});

test("question 3: the points", () => {
  assert.equal(checked(report(oneAfterAnother(2), ["p0 #0", "p1 #0", "p0 #1"], [1, 3, 5])), "serial yes\npoints yes\n");
});

test("question 4: of (3, 0) and (3, 2) the first is delivered by who has heard from process 1 at the time 3", () => {
  const last = traceOf(schedule(3, "local-write", "call 2 write x 1", "call 2 write x 2", "call 2 write x 3",
    "take 2 1 0", "take 2 1 1", "take 2 0 0", "call 0 write x 4", "take 2 0 1", "take 2 0 2", "take 1 0 0",
    "take 1 0 1")).split(/^(?=\d)/m).at(-1);
  assert.match(last, /takes data 1: acknowledgement \(3, 1\)/);
  assert.match(last, /delivers \(3, 0\) write x 4\n {4}copy x 4\n {4}holds \(3, 2\): p1 was not heard past it/);
});

test("question 5: what is answered though no frame is taken", () => {
  const answered = (front, ...calls) => answers(schedule(2, front, ...calls.map(call => `call 0 ${call}`))).length;
  const ones = ["read x", "write x 1", "swap x 1"];
  assert.deepEqual(ones.map(one => answered("linear", one)), [0, 0, 0]);
  assert.deepEqual(ones.map(one => answered("local-read", one)), [1, 0, 0]);
  assert.deepEqual(ones.map(one => answered("local-write", one)), [1, 1, 0]);
  assert.equal(answered("local-write", "read x", "write x 1", "read x"), 2);
});

test("question 6: without counts all is answered, and each tick puts again what was accepted", () => {
  const events = ["call 0 write x 5", "take 0 1 0", "take 1 0 1"];
  assert.deepEqual(answers(schedule(2, "linear", ...events)), ["2 p0 #0 answer done"]);
  const ticks = traceOf(schedule(2, "linear", ...events, "tick 0", "take 0 1 2", "tick 0")).split(/^(?=\d)/m);
  for (const at of [3, 5]) assert.match(ticks[at], /puts data 0: cast \(1, 0\) write x 5/);
});

test("question 7: a lock that is given back can still be told to be taken", () => {
  const text = schedule(2, "local-write", "call 0 swap x 1", "take 0 1 0", "take 1 0 1", "call 0 write x 0",
    "call 1 swap x 1", "take 1 0 2", "take 0 1 2");
  const entries = entriesOf(text), at = words => entries.findIndex(entry => entry.includes(words));
  assert.ok(at("p0 #1 answer done") < at("p1 #0 call swap x 1"));
  assert.match(entries.at(-1), /^\d+ p1 #0 answer value 1$/);
});

test("question 8: who reads the later write of a process reads its earlier one too", () => {
  const workload = 'front = "linear"\nregisters = ["x", "y"]\n' +
    'scripts = [["write x 1", "write y 1"], ["read y", "read x"]]\n';
  const [may, never] = made("awshow", ["outcomes", "--all"], workload).output.split(/^never /m);
  assert.deepEqual(may.match(/p1 #0 value 1 .*? (?= turns)/g), ["p1 #0 value 1  p1 #1 value 1 "]);
  assert.equal(never, "1\np1 #0 value 1  p1 #1 value 0\n");
});

test("each question has one answer", () => {
  const [questions, told] = readFileSync(join(TOP, "docs", "QUIZ.md"), "utf8").split("## Answers");
  const numbers = found => [...found].map(([, number]) => +number), ten = Array.from({ length: 10 }, (_, i) => i + 1);
  assert.deepEqual(numbers(questions.matchAll(/^\*\*(\d+)\.\*\*/gm)), ten);
  assert.deepEqual(numbers(told.matchAll(/^(\d+)\. /gm)), ten);
});
