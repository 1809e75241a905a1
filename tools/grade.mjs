// Grades students' texts by what the exercises want of them. Run as tools/grade.
import { spawnSync } from "node:child_process";
import { closeSync, lstatSync, mkdirSync, openSync, readdirSync, readFileSync, readSync, writeFileSync } from "node:fs";
import { join, parse } from "node:path";
import { parseArgs } from "node:util";
import { asksFor, judge } from "../playground/js/judge.js";
import { variantOf } from "../playground/js/variants.js";
import { exercises, program, seenOf } from "./programs.mjs";

const USAGE = `Grades the texts of a class.

usage: tools/grade FOLDER [--exercise NAME] [--variant SEED [--by-name]] [--csv] [--memory MIB]
       tools/grade --handout FOLDER [--variant SEED [--students FILE]]     at the top of the repository

FOLDER has a file for each student, named by the student, if --exercise says which exercise all of them are of; or a
folder for each student, whose files are named by their exercises, as 08-the-lock.sched or 08.sched. Each text is judged
as the playground judges it: by what awreg and awshow, on the path or in crates/*/out, print of it. Of an exercise that
is not solved each thing that is missing is told. --csv prints rows for a gradebook. Links, and files of more than
64 KiB, are not read; a program that takes more than five seconds, or more memory than --memory says, is stopped. That
is 4,096, and 0 for no limit, as a program built by rt try needs it.

--handout writes for each exercise its task, what is judged, and the text that it starts with, and no solution.

--variant renames values, registers and processes, by any word as SEED: all students have the same variant. With
--by-name each has another one, by SEED and the student's name; --students writes a folder of it for each line of FILE.
`;

const MOST_BYTES = 1 << 16, SECONDS = 5;

class Refused extends Error {}

/** What a program makes of a text, within limits. */
const limited = mebibytes => (name, words, input) => {
  const { status, stdout, stderr, error, signal } = spawnSync("sh",
    ["-c", `ulimit -v ${mebibytes ? mebibytes << 10 : "unlimited"}; exec "$0" "$@"`, program(name), ...words],
    { input, encoding: "utf8", maxBuffer: 1 << 26, timeout: SECONDS * 1000, killSignal: "SIGKILL" });
  if (error || signal) throw new Refused(`${name} ${words.join(" ")} was stopped`);
  return { status, output: stdout, error: stderr };
};

/** The text of a student's file, with the ends of lines that it has in the playground. */
function textOf(path) {
  const told = lstatSync(path);
  if (!told.isFile()) throw new Refused("is no file");
  if (told.size > MOST_BYTES) throw new Refused(`has more than ${MOST_BYTES} bytes`);
  const bytes = Buffer.alloc(MOST_BYTES), file = openSync(path, "r");
  try {
    return bytes.toString("utf8", 0, readSync(file, bytes)).replace(/^\ufeff/, "").replace(/\r\n?/g, "\n");
  } finally {
    closeSync(file);
  }
}

/** The exercise of this name, or of the number or the name that the file's name begins with. */
function exerciseOf(all, name) {
  const word = parse(name).name;
  return all.find(exercise => exercise.name === word || exercise.name.split("-")[0] === word.split("-")[0]) || null;
}

/** The names in a student's folder, or null where it can't be read. */
function namesIn(folder) {
  try {
    return readdirSync(folder).sort();
  } catch {
    return null;
  }
}

/** The students' files: of whom, of which exercise, and where; and a student's folder that can't be read. */
function filesIn(folder, all, only) {
  return readdirSync(folder, { withFileTypes: true }).sort((a, b) => a.name < b.name ? -1 : 1).flatMap(entry => {
    const path = join(folder, entry.name);
    if (!entry.isDirectory()) return [{ student: parse(entry.name).name, exercise: only, path }];
    const names = namesIn(path);
    if (!names) return [{ student: entry.name, exercise: only, path, fault: "can't be read" }];
    return names.map(name =>
      ({ student: entry.name, exercise: only || exerciseOf(all, name), path: join(path, name) }));
  });
}

/** The seed of a student's variants. */
const seedFor = (student, { variant = "", "by-name": isByName }) => isByName ? `${variant}/${student}` : variant;

/** What gives the variant of an exercise by a seed, and the run of its start. Each is made once. */
function variantsWithStarts() {
  const known = new Map();
  return (exercise, seed) => {
    const key = JSON.stringify([exercise.name, seed]);
    if (!known.has(key)) {
      const variant = variantOf(exercise, seed), isFree = variant.head === "free";
      known.set(key, { variant, start: isFree ? null : seenOf(variant.start, { rest: false, check: false }).run });
    }
    return known.get(key);
  };
}

/** What is missing of an exercise: nothing where it is solved. */
function missingOf({ exercise, path, fault }, variantFor, make) {
  if (fault) return [fault];
  if (!exercise) return ["no exercise has this name"];
  try {
    const { variant, start } = variantFor(exercise), seen = seenOf(textOf(path), asksFor(variant), make);
    const told = judge(variant, start, seen);
    const first = seen.kind === "refused" ? [`refused: ${seen.why.split("\n")[0]}`] : [];
    return [...first, ...told.filter(({ isMet }) => !isMet).map(({ say }) => say)];
  } catch (refusal) {
    if (refusal instanceof Refused || refusal.code) return [refusal.message];
    throw refusal;
  }
}

/** A student's text or name may hold anything: signs that a terminal obeys are shown as question marks. */
const plain = text => text.replace(/[\x00-\x1f\x7f-\x9f]/g, "?");
/** A cell that no spreadsheet takes for a formula. */
const cell = text => `"${plain(text).replace(/^[=+\-@]/, "'$&").replace(/"/g, '""')}"`;

function grade(folder, asked) {
  const { exercise: only, csv: isCsv, memory } = asked;
  const make = limited(Number(memory)), variantOfSeed = variantsWithStarts();
  const all = exercises(), set = only ? exerciseOf(all, only) : null;
  if (only && !set) throw new Refused(`no exercise is named ${only}`);
  if (isCsv) console.log("student,exercise,solved,missing");
  for (const file of filesIn(folder, all, set)) {
    const missing = missingOf(file, exercise => variantOfSeed(exercise, seedFor(file.student, asked)), make);
    const name = file.exercise ? file.exercise.name : parse(file.path).base;
    if (isCsv) {
      console.log([file.student, name, missing.length ? "no" : "yes", missing.join("; ")].map(cell).join(","));
    } else {
      console.log(`${plain(file.student)}  ${plain(name)}  ${missing.length ? "not solved" : "solved"}`);
      for (const say of missing) console.log(`    missing: ${plain(say)}`);
    }
  }
}

/** Writes what students get, of the variants by a seed: tasks, what is judged, and starts. */
function handOut(folder, seed) {
  mkdirSync(folder, { recursive: true });
  for (const { name, title, task, hint, start, wants } of exercises().map(exercise => variantOf(exercise, seed))) {
    const end = start.startsWith("awreg report") ? "report" : start.includes("scripts =") ? "toml" : "sched";
    const judged = ["What is judged:", "", ...wants.map(({ say }) => `- ${say}`)].join("\n");
    const told = [`# ${title}`, task.trim(), judged, ...(hint ? [`Hint: ${hint.trim()}`] : [])];
    writeFileSync(join(folder, `${name}.md`), told.join("\n\n") + "\n");
    writeFileSync(join(folder, `${name}.${end}`), start.trimStart());
  }
}

/** Writes a folder for each student whose name is a line of a file, with variants of the student's own. */
function handOutEach(folder, { variant, students }) {
  const names = readFileSync(students, "utf8").split("\n").map(line => line.trim()).filter(Boolean);
  const odd = names.find(name => /^\.|[/\x00-\x1f]/.test(name));
  if (odd) throw new Refused(`no folder can have the name ${plain(odd)}`);
  for (const name of names) handOut(join(folder, name), seedFor(name, { variant, "by-name": true }));
}

/** Whether the flags fit each other, and the folder that is graded. */
function fits({ handout, variant, students, "by-name": isByName }, folders) {
  return folders.length === (handout ? 0 : 1) && variant !== "" && (!isByName || variant && !handout) &&
    (!students || variant && handout);
}

try {
  const { values, positionals } = parseArgs({ allowPositionals: true, options: {
    exercise: { type: "string" }, csv: { type: "boolean" }, memory: { type: "string", default: "4096" },
    handout: { type: "string" }, variant: { type: "string" }, "by-name": { type: "boolean" },
    students: { type: "string" },
    help: { type: "boolean", short: "h" } } });
  if (values.help) console.log(USAGE.trimEnd());
  else if (!fits(values, positionals)) throw new Refused("see tools/grade --help");
  else if (!values.handout) grade(positionals[0], values);
  else if (values.students) handOutEach(values.handout, values);
  else handOut(values.handout, values.variant || "");
} catch (fault) {
  console.error(`tools/grade: ${fault.message}`);
  process.exitCode = 2;
}
