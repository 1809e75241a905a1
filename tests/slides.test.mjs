// The slides are those of their Markdown, in one file, and their histories are those of examples. Run by
// `node --test tests`.
import { test } from "node:test";
import assert from "node:assert/strict";
import { spawnSync } from "node:child_process";
import { mkdtempSync, readFileSync, rmSync } from "node:fs";
import { tmpdir } from "node:os";
import { join } from "node:path";
import { made as printed, TOP } from "../tools/programs.mjs";

const source = join("docs", "slides", "slides.md");
const made = readFileSync(join(TOP, "docs", "slides", "slides.html"), "utf8");
const isAtHand = spawnSync("pandoc", ["--version"]).status === 0;

/** The words that a page shows. */
const wordsOf = html => html.replace(/^[^]*<main>|<\/main>[^]*$/g, "").replace(/<[^>]*>/g, " ").split(/\s+/).join(" ");

test("each heading is a slide, each picture is in the file, and nothing is loaded", () => {
  const text = readFileSync(join(TOP, source), "utf8");
  const headings = [...made.matchAll(/<h1[^>]*>(.*?)<\/h1>/gs)].map(([, words]) => words.replace(/\s+/g, " "));
  assert.deepEqual(headings, text.match(/^# .*$/gm).map(line => line.slice(2).replace(/ \{.*\}$/, "")));
  assert.equal(made.match(/<img src="data:image\/svg\+xml;base64,/g).length, text.match(/^!\[/gm).length);
  assert.doesNotMatch(made, /<link|<script src|https?:|url\(/);
});

test("pandoc makes the same words of the Markdown", { skip: isAtHand ? false : "no pandoc" }, () => {
  const folder = mkdtempSync(join(tmpdir(), "slides-")), file = join(folder, "slides.html");
  try {
    const { status, stderr } = spawnSync(join(TOP, "tools", "slides"), [source, file], { cwd: TOP, encoding: "utf8" });
    assert.equal(status, 0, stderr);
    assert.equal(wordsOf(readFileSync(file, "utf8")), wordsOf(made));
  } finally {
    rmSync(folder, { recursive: true });
  }
});

test("each history on a slide is one of the examples that TEACHING.md names", () => {
  const read = path => readFileSync(join(TOP, "examples", path), "utf8");
  const reports = [printed("awreg", ["replay"], read("stale-read.sched")).output, read("stale-linear.report"),
    read("broken/equal-times/report.txt")];
  const shown = [...readFileSync(join(TOP, source), "utf8").matchAll(/^```\n(.*?)^```$/gms)].map(([, block]) => block);
  assert.equal(shown.length, reports.length);
  shown.forEach((block, at) => assert.ok(reports[at].includes(block), block));
});
