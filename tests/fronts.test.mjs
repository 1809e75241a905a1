// Front ends as tables, all of them, by the laws as docs/DEFINITIONS.md has them. Run by `node --test tests`.
import { test } from "node:test";
import assert from "node:assert/strict";
import { existsSync, readFileSync } from "node:fs";
import { join } from "node:path";
import { Run } from "../page/js/run.js";
import { storyOf } from "../page/js/sentences.js";
import { lookUnder } from "../playground/js/api.js";
import { judgeTable, NAMED, numberOf, STARTS } from "../playground/js/fronts.js";
import * as server from "../playground/js/server.js";
import { withFront } from "../playground/js/texts.js";
import { TOP } from "../tools/programs.mjs";
import * as module from "../web/js/server.js";

/**
 * `MayStart`, worked by hand: of each kind of operation, how it may start with no own cast on its way, and with some.
 * Cast: always. CastAndAnswer: what answers Done on every memory. Look: what changes nothing, with none on its way.
 * Hold: what changes nothing, with some on their way. A read changes nothing and answers a value; a write changes and
 * answers Done; a swap and a compare-and-swap change, and their answers depend on the memory.
 */
const MAY = {
  read: [["cast", "look"], ["cast", "hold"]],
  write: [["cast", "answer"], ["cast", "answer"]],
  swap: [["cast"], ["cast"]],
};

/** The three that have names, as docs/DEFINITIONS.md says how they start reads, writes and swaps. */
const THREE = { "cast cast cast cast cast cast": "linear", "look hold cast cast cast cast": "local-read",
  "look hold answer answer cast cast": "local-write" };

const CHOICES = ["cast", "look", "hold", "answer"];
const KINDS = ["read", "write", "swap"];
const tables = [...Array(4 ** 6).keys()].map(number => [...Array(6).keys()].map(i => CHOICES[(number >> 2 * i) & 3]));
const tableOf = starts => Object.fromEntries(KINDS.map((kind, i) => [kind, starts.slice(2 * i, 2 * i + 2)]));

test("each of the 4,096 tables breaks the laws that it breaks, and no others", () => {
  let lawful = 0;
  for (const starts of tables) {
    const { faults, name } = judgeTable(tableOf(starts));
    const wrong = starts.flatMap((start, i) => {
      const kind = KINDS[i >> 1], place = i & 1;
      return MAY[kind][place].includes(start) ? [] : [`${kind} ${place}`];
    });
    assert.deepEqual(faults.map(({ kind, place }) => `${kind} ${place}`), wrong, starts.join(" "));
    assert.equal(name, THREE[starts.join(" ")] || null);
    if (!wrong.length) lawful++;
  }
  assert.equal(lawful, 2 * 2 * 2 * 2);
});

/**
 * Each cell of a table by which an operation of some process starts. What decides how the next one starts is whether an
 * own cast or a hold runs, and how many own casts are not yet delivered: all such states are gone through, up to three
 * casts. Each step is worked by hand from the definitions: a cast runs until its own delivery, own casts are delivered
 * in the order of their calls, and a hold ends at a delivery after which none is left.
 */
function cellsReached(starts) {
  const seen = new Set(), cells = new Set(), ahead = [["nothing", 0]];
  while (ahead.length) {
    const [runs, unsettled] = ahead.pop();
    if (unsettled > 3 || seen.has(runs + unsettled)) continue;
    seen.add(runs + unsettled);
    if (runs === "nothing") {
      KINDS.forEach((_, kind) => {
        const cell = 2 * kind + Math.min(unsettled, 1), start = starts[cell];
        cells.add(cell);
        ahead.push({ cast: ["cast", unsettled + 1], answer: ["nothing", unsettled + 1], look: ["nothing", unsettled],
          hold: ["hold", unsettled] }[start]);
      });
    }
    if (unsettled > 0) ahead.push([unsettled === 1 ? "nothing" : runs, unsettled - 1]); // an own cast is delivered
    if (runs === "hold" && unsettled === 0) ahead.push(["nothing", 0]); // a cast of another process is
  }
  return cells;
}

test("of the lawful tables nine start each call that comes as one of the three does, and seven as none", () => {
  const same = { linear: 0, "local-read": 0, "local-write": 0, none: 0 };
  for (const starts of tables) {
    const { faults, sameAs } = judgeTable(tableOf(starts)), cells = cellsReached(starts);
    const alike = Object.keys(NAMED).filter(name => {
      const named = KINDS.flatMap(kind => NAMED[name][kind]);
      return [...cells].every(cell => named[cell] === starts[cell]);
    });
    assert.deepEqual(alike, sameAs ? [sameAs] : [], starts.join(" "));
    for (const { kind, place, isReached } of faults) {
      assert.equal(isReached, cells.has(2 * KINDS.indexOf(kind) + place), starts.join(" "));
    }
    if (!faults.length) same[sameAs || "none"]++;
  }
  assert.deepEqual(same, { linear: 4, "local-read": 4, "local-write": 1, none: 7 });
});

test("each law is one sentence, and each run that shows it is stored", () => {
  assert.deepEqual(Object.keys(STARTS), CHOICES);
  const faults = tables.flatMap(starts => judgeTable(tableOf(starts)).faults);
  for (const { law } of faults) assert.match(law, /^[A-Z][^.]*\.$/);
  const shown = new Set(faults.flatMap(({ kind, place, runs }) => runs.map(run => `${kind} ${place} ${run}`)));
  assert.deepEqual([...shown].sort(), ["read 0 held-for-own-casts", "read 0 read-answers-value",
    "read 1 read-answers-value", "read 1 read-waits", "swap 0 compare-and-swap-waits", "swap 0 held-for-own-casts",
    "swap 0 swap-is-cast", "swap 0 swap-waits", "swap 1 compare-and-swap-waits", "swap 1 swap-is-cast",
    "swap 1 swap-waits", "write 0 held-for-own-casts", "write 0 write-is-cast", "write 1 write-is-cast"]);
  assert.ok(faults.every(({ runs }) => runs.length));
  const page = readFileSync(join(TOP, "docs", "BREAK_IT.md"), "utf8"), runs = new Set(faults.flatMap(it => it.runs));
  const sections = [...page.matchAll(/^## (\d+)\. (?:(?!^## )[^])*?broken\/([\w-]+)\/rule\.edit/gm)];
  assert.deepEqual(sections.filter(([, , run]) => runs.has(run)).map(([, number]) => +number),
    [9, 10, 11, 14, 15, 16, 21]);
  assert.match(page, /whose runs show it \(9 to 11, 14 to 16 and 21\)/);
  for (const words of shown) assert.ok(existsSync(join(TOP, "examples", "broken", words.split(" ")[2], "report.txt")));
});

test("a text is put under another front end", () => {
  assert.equal(withFront("# front x\nprocesses 2\nregisters x\nfront linear\ncall 0 read x\n", "local-read"),
    "# front x\nprocesses 2\nregisters x\nfront local-read\ncall 0 read x\n");
  assert.equal(withFront('front = "linear"\nregisters = ["front"]\n', "local-write"),
    'front = "local-write"\nregisters = ["front"]\n');
  assert.equal(withFront("front=\"local-read\" # as it was\n", "linear"), "front=\"linear\" # as it was\n");
});

test("each lawful table has a number of its own, and the three have those that the module's clauses mean", () => {
  const lawful = tables.filter(starts => !judgeTable(tableOf(starts)).faults.length);
  assert.deepEqual(lawful.map(starts => numberOf(tableOf(starts))).sort((a, b) => a - b), [...Array(16).keys()]);
  assert.deepEqual(Object.values(NAMED).map(numberOf), [0, 3, 15]);
  // `table_of` of crates/reg_web/specs/Tables.antt, worked by hand for the seven that no name has
  const seven = { "cast cast answer cast": 4, "look cast answer cast": 5, "cast hold answer cast": 6,
    "look hold answer cast": 7, "cast cast answer answer": 12, "look cast answer answer": 13,
    "cast hold answer answer": 14 };
  for (const [words, number] of Object.entries(seven)) {
    const table = tableOf([...words.split(" "), "cast", "cast"]);
    assert.deepEqual([numberOf(table), judgeTable(table)], [number, { faults: [], name: null, sameAs: null }], words);
  }
});

/**
 * The data of a run under table 4, in which a write is answered at once with no own cast on its way, and waits with
 * one: process 0 writes twice.
 */
const TWO_WRITES = {
  version: 1, title: "", processes: 2, registers: ["x"], front: "local-read",
  events: [[1, { answer: "done", place: 0 }], [2, null]].map(([value, reply]) => ({ event: `call 0 write x ${value}`,
    process: 0, frame: null, clock: value, delivered: [], reply,
    sent: [[1, value - 1, ["cast", value - 1, value, `write x ${value}`]]], note: "" })),
  states: [[[[1, 0]], null], [[[1, 0], [2, 0]], ["cast", 2]]].map(([held, running]) =>
    ({ peers: [null, [0, 0, 0, held.length]], held, copy: [], delivered: 0, running })),
  arrows: [], order: [], reads: [], witness: [], points: null,
  operations: [0, 1].map(number => ({ process: 0, number, op: `write x ${number + 1}`, call: number,
    answer: number ? null : { at: 0, text: "done" } })),
};

test("what is said of a run under a table is what that table does", () => {
  const run = new Run(TWO_WRITES, "table 4"), named = new Run(TWO_WRITES);
  const why = (told, at) => storyOf(told, at).lines.find(({ word }) => word === "why").body.join("");
  assert.equal(why(run, 0), "Under table 4 a write is answered at once; its cast is still to be delivered.");
  assert.equal(why(run, 1), "Under table 4 a write is cast, and answered when its own process delivers it.");
  for (const at of [0, 1]) { // a process that is alone delivers its cast at the call
    assert.equal(why(named, at), "Under local-read a write is cast, and answered when its own process delivers it.");
  }
  assert.ok(run.scheduleAt(1).includes("\nfront local-read\n"));
  assert.deepEqual([run.sharedWith(run), run.sharedWith(named)], [2, -1]);
});

test("a text is run under a table where it is a schedule, and else looked at as ever", async () => {
  const asked = [], told = (output, error = "") => ({ status: error ? 1 : 0, output, error });
  const look = (text, answers) => {
    globalThis.fetch = async path => (asked.push(path), { ok: true, json: async () => answers[path.slice(5)] });
    return lookUnder(text, 4);
  };
  const data = told(JSON.stringify(TWO_WRITES)), schedule = told("a schedule: 2 events\n");
  const seen = { kind: "schedule", why: "a schedule, run under table 4", told: TWO_WRITES, refusal: "", table: 4 };
  assert.deepEqual(await look("both take it", { why: schedule, "data-under/4": data }), seen);
  const busy = told("event 1: busy\n");
  assert.deepEqual(await look("the named one refuses it", { why: busy, "data-under/4": data }), seen);
  assert.deepEqual(await look("the table refuses it", { why: schedule, "data-under/4": told("", "event 1: busy\n") }),
    { ...seen, told: null, refusal: "event 1: busy" });
  assert.deepEqual(asked, Array(3).fill(["/run/why", "/run/data-under/4"]).flat());
  const report = told("a report: 1 operation\n"), none = told("", "line 1: processes\n");
  assert.deepEqual(await look("a report", { why: report, "data-under/4": none, data: none }),
    { kind: "report", why: report.output, told: null, refusal: "", table: null });
});

test("tables are run by the module, and not by the server's programs", () => {
  assert.deepEqual(Object.keys(server).sort(), Object.keys(module).sort());
  assert.deepEqual([server.RUNS_TABLES, module.RUNS_TABLES], [false, true]);
});
