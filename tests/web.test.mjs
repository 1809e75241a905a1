// The page with no server, as tools/web lays it, but for its module: what it names lies beside it, and it names nothing
// elsewhere. Run by `node --test tests`.
import { after, test } from "node:test";
import assert from "node:assert/strict";
import { execFileSync } from "node:child_process";
import { existsSync, mkdtempSync, readFileSync, readdirSync, rmSync } from "node:fs";
import { tmpdir } from "node:os";
import { dirname, join, resolve } from "node:path";
import { setFlagsFromString } from "node:v8";
import { TOP } from "../tools/programs.mjs";
import { Engine } from "../web/js/engine.js";

setFlagsFromString("--experimental-wasm-memory64");
const folder = mkdtempSync(join(tmpdir(), "web-"));
after(() => rmSync(folder, { recursive: true }));
execFileSync(join(TOP, "tools", "web"), [folder, "--page"]);
const read = path => readFileSync(join(folder, path), "utf8");
const files = readdirSync(folder, { recursive: true, encoding: "utf8" });
const scripts = files.filter(path => path.endsWith(".js"));
const chapters = readFileSync(join(TOP, "docs", "TUTORIAL.md"), "utf8").match(/^## \d+\. .*$/gm);
const pages = ["index.html", "playground.html", ...chapters.map((_, at) => `lesson/${at + 1}.html`)];

test("each file that the page names lies in the folder, by a path that holds anywhere", () => {
  for (const page of pages) {
    const named = [...read(page).matchAll(/(?:href|src)="([^"#]+)[^"]*"/g)].map(([, path]) => path)
      .filter(path => !path.startsWith("data:"));
    assert.ok(named.length > (page.startsWith("lesson/") ? 5 : 10), page);
    for (const path of named) {
      assert.ok(!path.startsWith("/") && existsSync(join(folder, dirname(page), path)), `${page}: ${path}`);
    }
  }
});

test("the first page leads to each chapter and to each exercise", () => {
  const first = read("index.html"), exercises = JSON.parse(read("lists/exercises.json"));
  assert.equal(first.match(/<li data-chapter>/g).length, chapters.length);
  for (const { name } of exercises) assert.ok(first.includes(`playground.html#exercise=${name}"`), name);
});

/** The text of a page as it is read, without its marks. */
const plain = page => page.replace(/<[^>]*>/g, "").replaceAll("&lt;", "<").replaceAll("&gt;", ">")
  .replaceAll("&amp;", "&");

test("each chapter has the text of the tutorial: its blocks of code as they stand", () => {
  const parts = readFileSync(join(TOP, "docs", "TUTORIAL.md"), "utf8").split(/^## /m).slice(1, chapters.length + 1);
  parts.forEach((part, at) => {
    const text = plain(read(`lesson/${at + 1}.html`));
    const blocks = part.split(/^```$/m).filter((_, place) => place % 2 === 1);
    for (const line of blocks.flatMap(block => block.split("\n"))) assert.ok(text.includes(line), line);
    assert.ok(text.includes(/Question \d+/.exec(part)?.[0] ?? ""));
  });
});

test("what a chapter lets run is in the module", () => {
  const code = name => readFileSync(join(TOP, "crates/reg_web/src", name), "utf8");
  const source = code("texts.rt") + code("plays.rt");
  const steps = pages.flatMap(page => [...read(page).matchAll(/data-steps="([^"]+)"/g)]
    .flatMap(([, words]) => words.split(" ")));
  assert.ok(steps.length > 15);
  for (const step of steps) assert.ok(source.includes(`fn tellwydar_${step.replaceAll("-", "_")}(`), step);
});

test("each script that a script names lies in the folder", () => {
  for (const script of scripts) {
    for (const [, path] of read(script).matchAll(/^(?:import|export)[^;]*? from "([^"]+)";/gm)) {
      assert.ok(path.startsWith("."), `${script}: ${path}`);
      assert.ok(existsSync(resolve(folder, dirname(script), path)), `${script}: ${path}`);
    }
  }
});

test("the page has a policy, and no script asks for a page or a run of a server", () => {
  for (const page of pages) {
    assert.match(read(page), /http-equiv="Content-Security-Policy" content="default-src 'none'; script-src 'self'/);
  }
  for (const script of scripts) assert.doesNotMatch(read(script), /fetch\("\//, script);
});

test("no site is named but in names of forms", () => {
  for (const path of files.filter(path => /\.(js|css|html)$/.test(path))) {
    const sites = [...read(path).matchAll(/https?:\/\/([^/"' ]+)/g)].map(([, site]) => site);
    assert.deepEqual(sites.filter(site => site !== "www.w3.org"), [], path);
  }
});

test("the lists are those that the server gives", () => {
  const groups = new Set(JSON.parse(read("lists/examples.json")).map(({ group }) => group));
  assert.deepEqual([...groups], ["Schedules", "Workloads", "Litmus tests", "Reports", "Without this rule"]);
  assert.ok(JSON.parse(read("lists/exercises.json")).every(({ task }) => task));
});

test("each rule that is left out has its run, its report and what is left out", () => {
  const broken = JSON.parse(read("lists/examples.json")).filter(({ group }) => group === "Without this rule");
  const folders = readdirSync(join(TOP, "examples/broken"), { withFileTypes: true }).filter(it => it.isDirectory());
  assert.deepEqual(broken.map(({ name }) => name.replaceAll(" ", "-")).sort(), folders.map(({ name }) => name).sort());
  for (const { name, lacks, text, report } of broken) {
    const file = of => readFileSync(join(TOP, "examples/broken", name.replaceAll(" ", "-"), of), "utf8");
    assert.deepEqual([text, report], [file("schedule.sched"), file("report.txt")]);
    assert.ok(lacks && !/[`\][*]/.test(lacks), lacks);
  }
});

/** A part of a module: its number, its length, and its bytes. */
const part = (number, ...bytes) => [number, bytes.length, ...bytes];
const name = text => [text.length, ...Buffer.from(text)];

/** A module with two commands, of which one traps and one answers nothing. */
function trapping() {
  const eight = [0x60, 8, ...Array(8).fill(0x7e), 1, 0x7f]; // eight numbers of 64 bits to one of 32
  return new Uint8Array([0, 0x61, 0x73, 0x6d, 1, 0, 0, 0, ...part(1, 1, ...eight), ...part(3, 2, 0, 0),
    ...part(5, 1, 4, 1), ...part(6, 1, 0x7e, 0, 0x42, 16, 0x0b),
    ...part(7, 4, ...name("memory"), 2, 0, ...name("__heap_base"), 3, 0, ...name("tellwydar_replay"), 0, 0,
      ...name("tellwydar_check"), 0, 1),
    ...part(10, 2, 3, 0, 0, 0x0b, 4, 0, 0x41, 0, 0x0b)]);
}

test("after a trap the next run has a new instance", () => {
  const engine = new Engine(new WebAssembly.Module(trapping()));
  assert.equal(engine.run("check", new Uint8Array(4)).status, 0);
  const before = engine.instance;
  assert.throws(() => engine.run("replay", new Uint8Array(4)), WebAssembly.RuntimeError);
  assert.equal(engine.run("check", new Uint8Array(4)).status, 0);
  assert.notEqual(engine.instance, before);
});

test("a command gets the number behind it, and else its own", () => {
  const nine = [0x60, 9, 0x7e, 0x7e, 0x7e, 0x7f, ...Array(5).fill(0x7e), 1, 0x7f]; // the fourth has 32 bits
  const answering = called => new Uint8Array([0, 0x61, 0x73, 0x6d, 1, 0, 0, 0, ...part(1, 1, ...nine), ...part(3, 1, 0),
    ...part(5, 1, 4, 1), ...part(6, 1, 0x7e, 0, 0x42, 16, 0x0b),
    ...part(7, 3, ...name("memory"), 2, 0, ...name("__heap_base"), 3, 0, ...name(called), 0, 0),
    ...part(10, 1, 4, 0, 0x20, 3, 0x0b)]); // it answers the fourth
  for (const [command, own] of [["outcome", 1], ["data-under", 0], ["replay-under", 0]]) {
    const bytes = answering("tellwydar_" + command.replace("-", "_"));
    const engine = new Engine(new WebAssembly.Module(bytes)), text = new Uint8Array(4);
    assert.deepEqual([engine.call(command, text).status, engine.call(command + " 13", text).status], [own, 13]);
  }
});
