// Two runs beside each other. Run as tools/compare.
import { spawnSync } from "node:child_process";
import { readFileSync } from "node:fs";
import { join } from "node:path";
import { parseArgs } from "node:util";
import { compareRuns, sentencesOf } from "../page/js/compare.js";
import { kindOf } from "../playground/js/api.js";
import { withFront, withSeed } from "../playground/js/texts.js";
import { drawingOfTwo } from "./compare_drawing.mjs";
import { made, NotBuilt, TOP } from "./programs.mjs";

const USAGE = `Says where two runs differ.

usage: tools/compare A B [--svg | --page]
       tools/compare WORKLOAD [--front NAME] [--seed S] [--svg | --page]

A and B are schedules or workloads: of a workload the run is its play. With one workload the other run is its play under
the front end NAME, by the seed S, or both. Told are the first event that differs, as awshow trace has it in both runs;
each operation that is called or answered otherwise; and which of the runs has points. --svg prints both drawings over
one axis of events, --page a page that steps through both. awreg and awshow stand on the path, or in crates/*/out.

The status is 0 if no event differs and both runs or neither have points, 1 if something differs, and 2 for words or a
text that is refused.
`;

class Refused extends Error {}

function read(file) {
  try {
    return { name: file, text: readFileSync(file, "utf8") };
  } catch (fault) {
    throw new Refused(`${file}: ${fault.code === "ENOENT" ? "there is no such file" : fault.message}`);
  }
}

/** The two texts that the words name. */
function textsOf(files, { front, seed }) {
  const isChanged = front !== undefined || seed !== undefined;
  if (files.length === 2 && !isChanged) return files.map(read);
  if (files.length !== 1 || !isChanged) throw new Refused("see tools/compare --help");
  const one = read(files[0]), { name } = one;
  const kind = kindOf(made("awshow", ["why"], one.text).output);
  if (kind === "schedule" || kind === "report") throw new Refused(`${name} is a ${kind}, and no workload`);
  let text = one.text, words = name;
  if (front !== undefined) [text, words] = [withFront(text, front), `${words} --front ${front}`];
  if (seed !== undefined) [text, words] = [withSeed(text, seed), `${words} --seed ${seed}`];
  return [one, { name: words, text }];
}

/** What `awshow data` tells of the run of a text. */
function toldOf({ name, text }) {
  const { status, output, error } = made("awshow", ["data"], text);
  if (status !== 0) throw new Refused(`${name}: ${error.trim() || "refused"}`);
  return { name, text, data: output.trimEnd(), told: JSON.parse(output) };
}

/** An event as the trace of its run has it, or that there is none. */
function traced({ text, told }, at) {
  if (at >= told.events.length) return "the run ends here\n";
  return made("awshow", ["trace", "--whole"], text).output.split(/^(?=\d)/m)[at];
}

const indented = text => text.trimEnd().split("\n").map(line => `    ${line}\n`).join("");

/** What differs, as lines. */
function textOf(sides, comparison) {
  const { at, operations } = comparison, names = sides.map(({ name }) => name);
  const inBoth = texts => names.map((name, i) => `  ${name}\n${indented(texts[i])}`).join("");
  const sentences = sentencesOf(comparison, names), points = sentences.pop();
  const events = at === null ? "" : inBoth(sides.map(side => traced(side, at)));
  const answers = operations.map(({ name, told }) => `${name}\n${inBoth(told)}`).join("");
  return `${sentences.join("\n")}\n${events}${answers}${points}\n`;
}

/** A page that has both runs. */
function pageOf(sides) {
  const names = JSON.stringify(sides.map(({ name }) => name)).replace(/[<>&\u2028\u2029]/g,
    sign => "\\u" + sign.charCodeAt(0).toString(16).padStart(4, "0"));
  const { status, stdout, stderr } = spawnSync(join(TOP, "tools", "page"), ["--pair"], { encoding: "utf8",
    maxBuffer: 1 << 28, input: `{"names":${names},"runs":[\n${sides.map(({ data }) => data).join(",\n")}]}\n` });
  if (status !== 0) throw new Error(stderr);
  return stdout;
}

try {
  const { values, positionals } = parseArgs({ allowPositionals: true, options: { front: { type: "string" },
    seed: { type: "string" }, svg: { type: "boolean" }, page: { type: "boolean" },
    help: { type: "boolean", short: "h" } } });
  if (values.help) process.stdout.write(USAGE);
  else {
    if (values.svg && values.page) throw new Refused("see tools/compare --help");
    const sides = textsOf(positionals, values).map(toldOf), comparison = compareRuns(sides[0].told, sides[1].told);
    process.stdout.write(values.page ? pageOf(sides) : values.svg ? drawingOfTwo(sides, comparison) :
      textOf(sides, comparison));
    process.exitCode = comparison.isSame ? 0 : 1;
  }
} catch (fault) {
  const isTold = fault instanceof Refused || fault instanceof NotBuilt || /^ERR_PARSE_ARGS/.test(fault.code || "");
  if (!isTold) throw fault;
  console.error(`tools/compare: ${fault.message}`);
  process.exitCode = 2;
}
