// Lines of JSON and EDN, and the reports that the playground makes of them: `awshow judge` says of both the same, at
// the same place. Run by `node --test tests`.
import { test } from "node:test";
import assert from "node:assert/strict";
import { execFileSync } from "node:child_process";
import { readFileSync } from "node:fs";
import { join } from "node:path";
import { operationsOf } from "../playground/js/bars.js";
import { isHistory, reportOf } from "../playground/js/history.js";
import { TOP, made } from "../tools/programs.mjs";

const judged = (text, ...flags) => made("awshow", ["judge", ...flags], text);

/**
 * The lines of an answer but for that on the first value, with lines of the text in the place of events, and its values
 * in the place of those that a report has.
 */
function told(output, history, values) {
  const words = new Map([...values ?? []].map(([number, value]) => [`value ${value}`, history.words.values[number]]));
  const place = line => /^ {2}(by|under way) (?:line|event) (\d+): /.exec(line);
  return output.trimEnd().split("\n").filter(line => !line.startsWith("first value: ")).map(line => {
    const [, word, number] = place(line) || [];
    const own = history && number ? history.events[+number].line : number;
    if (line.startsWith("  possible: "))
      return "possible: " + line.slice(12).split(", ").map(one => words.get(one) ?? one.replace("value ", "")).sort();
    return word ? `${word} ${own}` : line.replace(/^(key|register) .*: /, "register: ");
  });
}

/** Both judge alike: the whole, each register, at which answer, and what is under way there; and so do both reports. */
function agree(text) {
  const { refusal, history, report } = reportOf(text), native = judged(text);
  if (refusal || native.error) {
    assert.equal(native.error, `refused: ${refusal}\n`, text);
    return native;
  }
  const own = judged(report.text);
  assert.equal(own.error, "", text);
  assert.equal(own.status, native.status, text);
  const lines = told(own.output, history, report.values), wanted = told(native.output, null);
  const isSerial = one => one.startsWith("serial order: "), isUnderWay = one => one.startsWith("under way ");
  const kept = all => all.filter(one => !isUnderWay(one) && (report.isOwn || !isSerial(one)));
  assert.deepEqual(kept(lines), kept(wanted), text);
  // calls that fail later, and reads of unknown end, are under way in the lines, and left out of the report
  for (const one of lines.filter(isUnderWay)) assert.ok(wanted.includes(one), text);
  const same = judged(reportOf(text, true).report.text, "--report");
  if (native.status === 0) assert.equal(same.output, judged(text, "--report").output, text);
  return native;
}

const line = (process, type, f, value, more = {}) =>
  JSON.stringify({ process, type, f, key: "x", value, ...more }) + "\n";

test("the examples of the judge's document are judged alike", () => {
  const blocks = readFileSync(join(TOP, "docs/JUDGE.md"), "utf8").matchAll(/^```\w*\n([^]*?)^```$/gm);
  const histories = [...blocks].map(([, block]) =>
    block.split("\n").filter(one => one.startsWith("{\"")).map(one => one + "\n").join("")).filter(Boolean);
  assert.equal(histories.length, 3);
  assert.deepEqual(histories.map(text => agree(text).output.split("\n")[0]), ["no", "no", "yes"]);
});

test("histories made by chance are judged alike", () => {
  const histories = JSON.parse(execFileSync("python3", ["-c", `
import importlib.machinery, importlib.util, json, random, sys
sys.path.insert(0, "${TOP}/tools")
loader = importlib.machinery.SourceFileLoader("tries", "${TOP}/tools/judge-tries")
tries = importlib.util.module_from_spec(importlib.util.spec_from_loader("tries", loader))
loader.exec_module(tries)
made = [tries.history(random.Random(seed))[0] for seed in range(150)]
print(json.dumps([["\\n".join(it) + "\\n", tries.in_edn(random.Random(seed), it)] for seed, it in enumerate(made)]))
`], { encoding: "utf8" }));
  const words = histories.map(([lines]) => agree(lines).output.split("\n")[0]);
  for (const [lines, edn] of histories) {
    assert.ok(isHistory(edn), edn);
    assert.equal(reportOf(edn).report?.text, reportOf(lines).report?.text, edn);
  }
  for (const [, edn] of histories.slice(0, 50)) agree(edn);
  assert.ok(words.filter(word => word === "yes").length > 25 && words.filter(word => word === "no").length > 25);
});

test("what is refused is refused at the same line for the same reason", () => {
  const call = line(0, "invoke", "write", 1);
  for (const text of ["{\n", "{}\n", call + "[]\n", "7\n", "{\"process\": 1.5}\n", line(null, "invoke", "read"),
    line(0, "begin", "read"), line(0, "invoke", "scan"), line(0, "invoke", "write"), line(0, "invoke", "cas", [1]),
    line(0, "invoke", "cas", 1), line(0, "invoke", "cas", [1, null]), line(0, "invoke", "read", true),
    line(0, "invoke", "read", null, { key: [] }), line(0, "ok", "read", 1), call + call,
    call + line(0, "ok", "read", 1), call + line(0, "ok", "write", 1, { key: "y" }), call + "\n \n",
    "{\"process\": 18446744073709551616}\n", "{\"process\": -0}\n", "{\"process\": \"\\ud800\"}\n",
    Array.from({ length: 65 }, (_, process) => line(process, "invoke", "write", 1)).join(""),
    "{:process 0", "{:process 0}\n", "[{:process 0 :type :invoke :f :read}", "{:a #_ 1}", "{:a #\"b\"}", "{:a [)}",
    "{:a a\\b}", "[{:process :nemesis}] {", "{:process :nemesis}\n[", "{:a 1}\n  x ", "{:a \"b\n\\ud800\"}",
    "{:a 1 2 3}",
    "{:a " + "[".repeat(61), "{:process 0 :type :invoke :f :read :x " + "#{".repeat(60) + "}".repeat(61) + "{",
    "{:process 0 :type :invoke :f :write :value [:x 1.5]}", "{:process 0 :type :invoke :f :cas :value [1 2 3]}",
    "{:process 0 :type :info :f :read}", "{:process 0 :type :invoke :f :write :value #{1}}"]) {
    assert.notEqual(agree(text).error, "", text);
  }
});

test("values of 64 bits, strings and null are kept apart", () => {
  const top = "18446744073709551615", near = "18446744073709551614";
  const text = (value, answer) => `{"process": 0, "type": "invoke", "f": "write", "value": ${value}}
{"process": 0, "type": "ok", "f": "write", "value": ${value}}
{"process": "0", "type": "invoke", "f": "read"}
{"process": "0", "type": "ok", "f": "read", "value": ${answer}}
`;
  const says = (value, answer) => agree(text(value, answer)).output.split("\n")[0];
  const words = [says(top, top), says(top, near), says("1", "\"1\""), says("\"a\"", "\"\\u0061\""),
    says("5", "null")];
  assert.deepEqual(words, ["yes", "no", "no", "yes", "no"]);
});

test("a process that goes on after a call of unknown end takes another place", () => {
  const text = line(0, "invoke", "write", 1) + line(0, "info", "write", 1) + line(0, "invoke", "read") +
    line(0, "ok", "read", 0) + line(1, "invoke", "read") + line(1, "ok", "read", 1);
  assert.equal(agree(text).status, 0);
  assert.equal(reportOf(text).report.isOwn, false);
  assert.equal(reportOf(line(0, "invoke", "read")).report.isOwn, true);
});

test("a text is meant as lines of JSON by its first line", () => {
  assert.deepEqual(["{}", "\n{", "awreg report 2\n", "processes 1\n", "front = \"linear\"\n", ""].map(isHistory),
    [true, true, false, false, false, false]);
});

test("a text is meant as EDN by how it begins", () => {
  assert.ok(["{:a 1}", " ; c\n[ #a/b {:a 1}]", "#a.B{ :a 1}"].every(isHistory));
  assert.ok(!["# {:a\nprocesses 1\n", "[front]\n"].some(isHistory));
});

test("the operations of a report are drawn with their answers and points", () => {
  const report = ["awreg report 2", "front linear", "processes 2", "registers 1", "x", "history 3",
    "       0  p0    #0       call    write x 5", "       2  p1    #0       call    read x",
    "       4  p1    #0       answer  value 5", "order 2", "p0 #0", "p1 #0", "points 2", "p0 #0 at 1", "p1 #0 at 3",
    "end", ""].join("\n");
  assert.deepEqual(operationsOf(report), [{ process: 0, number: 0, text: "write x 5", called: 0, point: 1 },
    { process: 1, number: 0, text: "read x", called: 2, answered: 4, answer: "value 5", point: 3 }]);
});
