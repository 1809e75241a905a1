// Tries tools/grade on a class that is made up. Run as tools/grade-tries.
import { execFileSync, spawnSync } from "node:child_process";
import { mkdirSync, mkdtempSync, readFileSync, rmSync, symlinkSync, writeFileSync } from "node:fs";
import { tmpdir } from "node:os";
import { join } from "node:path";
import { parseArgs } from "node:util";
import { renamingOf, variantOf } from "../playground/js/variants.js";
import { exercises, TOP } from "./programs.mjs";

const USAGE = `Makes up the submissions of a class, grades them, and compares what is said of each with how it was made.

usage: tools/grade-tries [--count N] [--memory MIB]     at the top of the repository

There are 200 students, or N, each with a variant and a submission of their own: solutions, near misses, the solution of
another student, and files that no class should hand in. The rows that differ from what is expected are printed, and how
long grading took; the status is 1 if some differ. --memory is handed to tools/grade.
`;

const SEED = "tries";
const TRIES = join(TOP, "examples", "exercises", "tries");
const all = exercises();
const tryOf = ({ name }, what) => readFileSync(join(TRIES, `${name}.${what}`), "utf8");
const variantFor = (exercise, student) => variantOf(exercise, `${SEED}/${student}`);
const renamedFor = (exercise, student, text) => renamingOf(exercise, `${SEED}/${student}`)(text);

const LONG = `front = "linear"
registers = ["x"]
scripts = [${Array(8).fill('["write x 5", "read x"]').join(", ")}]
loss = 100
budget = 1048576
`;

/** Whether a text that keeps the head or the history of one variant can't be one of the other. */
const differ = (one, other) => one.start !== other.start &&
  (one.head !== "free" || one.wants.some(({ what }) => what === "changed"));

/** A text of an exercise, and whether it solves the student's variant of it. */
const TEXTS = [
  (exercise, student) => [renamedFor(exercise, student, tryOf(exercise, "solution")), true],
  ...[1, 2, 3].map(number => (exercise, student) =>
    [renamedFor(exercise, student, tryOf(exercise, `miss-${number}`)), false]),
  (exercise, student) => {
    const others = Array.from({ length: 40 }, (_, i) => `neighbour ${i}`);
    const other = others.find(name => differ(variantFor(exercise, student), variantFor(exercise, name)));
    return other ? [renamedFor(exercise, other, tryOf(exercise, "solution")), false] : TEXTS[0](exercise, student);
  },
  (exercise, student) =>
    [renamedFor(exercise, student, tryOf(exercise, "solution")).replaceAll("\n", "\r\n"), true],
];

const isReport = text => text.startsWith("awreg report");

/**
 * Files that no class should hand in: how each is made, which texts solve an exercise all the same, and what is
 * missing. A report alone may have no empty lines.
 */
const HOSTILE = [
  { make: path => symlinkSync(join(TRIES, "08-the-lock.solution"), path), missing: "is no file" },
  { make: path => symlinkSync(path, path), missing: "is no file" },
  { make: path => mkdirSync(path), missing: "is no file" },
  { make: path => execFileSync("mkfifo", [path]), missing: "is no file" },
  { make: path => writeFileSync(path, "#".repeat(1 << 20)), missing: "has more than 65536 bytes" },
  { make: path => writeFileSync(path, "#".repeat((1 << 16) + 1)), missing: "has more than 65536 bytes" },
  { make: path => writeFileSync(path, LONG) },
  { make: path => writeFileSync(path, "") },
  { make: path => writeFileSync(path, "\0".repeat(1000)) },
  { make: path => writeFileSync(path, Buffer.from([0xff, 0xfe, 0x00, 0xd8])) },
  { make: path => writeFileSync(path, "processes 2\nregisters lock\nfront linear\ncall 1 swap lock 1\0\n") },
  { make: path => writeFileSync(path, '"=cmd()\x1b[2J\n') },
  { make: path => writeFileSync(path, "call ".repeat(13_000)) },
  { make: (path, text) => writeFileSync(path, text.padStart(1 << 16, "\n")), solves: text => !isReport(text) },
  { file: "99.sched", make: (path, text) => writeFileSync(path, text), missing: "no exercise has this name" },
  { file: "\x1b]0;x\x07.sched", make: (path, text) => writeFileSync(path, text), missing: "no exercise has this name" },
];

/** Names of students that terminals, spreadsheets and readers of CSV may trip over, and how they stand in the table. */
const NAMES = [["=cmd()", "'=cmd()"], ["+1", "'+1"], ["-2-3", "'-2-3"], ["@sum(A1)", "'@sum(A1)"],
  ["an\x1b[31mn", "an?[31mn"], ["new\nline", "new?line"], ['a "b", c', 'a "b", c'], ["Zo\u00eb", "Zo\u00eb"],
  ["-h", "'-h"], ["--csv", "'--csv"], ["__proto__", "__proto__"]];

/** What is handed in by the student of a number: of each exercise six texts, and four files that nobody should. */
function submissionOf(number) {
  const [student, shown] = NAMES[number] || [`student ${number}`, `student ${number}`];
  const place = number % all.length, kind = (place + Math.floor(number / all.length)) % (TEXTS.length + 4);
  const exercise = all[place], isHostile = kind >= TEXTS.length;
  const [text, isSolved] = TEXTS[isHostile ? 0 : kind](exercise, student);
  const own = `${exercise.name.split("-")[0]}.txt`;
  if (!isHostile) {
    return { student, shown, file: own, said: exercise.name, make: path => writeFileSync(path, text), isSolved };
  }
  const { file, make, solves = () => false, missing } = HOSTILE[(4 * place + kind - TEXTS.length) % HOSTILE.length];
  return { student, shown, file: file || own, said: file ? file.replace(/[\x00-\x1f]/g, "?") : exercise.name,
    make: path => make(path, text), isSolved: solves(text), missing };
}

/** The cells of a table, row by row. */
const rowsOf = csv => csv.trimEnd().split("\n").slice(1).map(row =>
  [...row.matchAll(/"((?:[^"]|"")*)"/g)].map(([, cell]) => cell.replaceAll('""', '"')));

/** What the table says otherwise than it should. */
function oddOf(submissions, rows) {
  const rowBy = new Map(rows.map(row => [row[0], row]));
  const odd = submissions.filter(({ shown, said, isSolved, missing }) => {
    const [, exercise, solved, why] = rowBy.get(shown) || [];
    return exercise !== said || solved !== (isSolved ? "yes" : "no") || (missing !== undefined && why !== missing) ||
      isSolved !== (why === "");
  });
  const told = odd.map(({ shown, said, isSolved }) =>
    `${shown}: ${said}, ${isSolved ? "solved" : "not solved"}, and in the table ${JSON.stringify(rowBy.get(shown))}`);
  return rows.length === submissions.length ? told : [...told, `${rows.length} rows`];
}

function tryClass(folder, count, memory) {
  const submissions = Array.from({ length: count }, (_, number) => submissionOf(number));
  for (const { student, file, make } of submissions) {
    mkdirSync(join(folder, student));
    make(join(folder, student, file));
  }
  const started = process.hrtime.bigint();
  const { status, stdout, stderr } = spawnSync(join(TOP, "tools", "grade"),
    [folder, "--csv", "--variant", SEED, "--by-name", "--memory", memory], { encoding: "utf8", maxBuffer: 1 << 26 });
  const seconds = Number(process.hrtime.bigint() - started) / 1e9;
  const odd = status === 0 ? oddOf(submissions, rowsOf(stdout)) : [`status ${status}: ${stderr}`];
  for (const line of odd) console.log(line);
  const solved = submissions.filter(({ isSolved }) => isSolved).length;
  console.log(`${count} submissions, ${solved} of them solved, graded in ${seconds.toFixed(1)} s: ` +
    (odd.length ? `${odd.length} otherwise than expected` : "all as expected"));
  return odd.length ? 1 : 0;
}

const { values } = parseArgs({ options: { count: { type: "string", default: "200" },
  memory: { type: "string", default: "4096" }, help: { type: "boolean", short: "h" } } });
if (values.help) {
  console.log(USAGE.trimEnd());
} else {
  const folder = mkdtempSync(join(tmpdir(), "grade-tries-"));
  try {
    process.exitCode = tryClass(folder, Number(values.count), values.memory);
  } finally {
    rmSync(folder, { recursive: true });
  }
}
