// Compares what the module and the programs tell of texts, byte for byte: of each example, exercise and litmus test by
// each command that the module has, and of each text cut short; and of random texts from a seed, each by a command of
// its kind. `tools/web --compare` runs it.
import { readFileSync, readdirSync } from "node:fs";
import { spawnSync } from "node:child_process";
import { join } from "node:path";
import { TOP, program } from "../tools/programs.mjs";
import { Engine } from "./js/engine.js";
import { Random, decoded, randomText } from "./random_texts.mjs";

const WORDS = {
  "replay": ["awreg", "replay"], "check": ["awreg", "check"], "play": ["awreg", "play"],
  "play-fair": ["awreg", "play", "--fair"], "trace": ["awshow", "trace", "--whole"],
  "draw": ["awshow", "draw", "--whole"], "draw-large": ["awshow", "draw", "--large", "--whole"],
  "data": ["awshow", "data"], "page": ["awshow", "page", "--whole"],
  "rest": ["awshow", "rest"], "verify": ["awshow", "verify"], "merge": ["awshow", "merge"],
  "find-serial": ["awshow", "find", "serial"], "find-points": ["awshow", "find", "points"],
  "judge": ["awshow", "judge"], "judge-report": ["awshow", "judge", "--report"],
  "schedule": ["awshow", "schedule"], "schedule-fair": ["awshow", "schedule", "--fair"],
  "short": ["awshow", "schedule", "--short"], "short-fair": ["awshow", "schedule", "--fair", "--short"],
  "outcomes": ["awshow", "outcomes"], "outcomes 10": ["awshow", "outcomes", "--plays", "10"],
  "outcomes-all": ["awshow", "outcomes", "--all"], "outcome 1": ["awshow", "outcomes", "--all", "1"],
  "outcome 3": ["awshow", "outcomes", "--all", "3"], "why": ["awshow", "why"],
};
const FOLDERS = ["examples", "examples/litmus", "examples/exercises", "examples/exercises/tries"];

// What is asked of a random text of a kind; a thousand plays of each would take hours.
const ASKED = {
  workload: ["play", "play-fair", "schedule", "schedule-fair", "short", "short-fair", "outcomes-all", "outcome 1",
    "outcomes 10", "data", "trace", "why"],
  schedule: ["replay", "trace", "draw", "draw-large", "data", "page", "rest", "why"],
  report: ["check", "find-serial", "find-points", "judge", "judge-report", "why"],
  record: ["verify", "merge", "why"],
};

const [path, count, seed] = process.argv.slice(2);
const engine = new Engine(new WebAssembly.Module(readFileSync(path)));
const commands = Object.keys(WORDS).filter(command => engine.has(command));
const tally = { same: 0, refused: 0, other: 0 };

// The numbers of the tables of the named front ends, and what commands tell of points, with what they tell of none.
const TABLES = { "linear": 0, "local-read": 3, "local-write": 15 };
const POINTS = [["data", /,\n"points":[^]*$/, ',\n"points":null}\n'], ["replay", /^points [^]*?(?=^end$)/m, ""]];

/** The files of the examples, each with its text, and with its text up to the middle. */
function* texts() {
  const broken = readdirSync(join(TOP, "examples/broken"), { withFileTypes: true }).filter(it => it.isDirectory());
  for (const folder of [...FOLDERS, ...broken.map(({ name }) => join("examples/broken", name))]) {
    for (const entry of readdirSync(join(TOP, folder), { withFileTypes: true })) {
      if (!entry.isFile()) continue;
      const name = join(folder, entry.name), text = readFileSync(join(TOP, name));
      yield { name, text };
      yield { name: name + ", cut short", text: text.subarray(0, text.length >> 1) };
    }
  }
}

/** What the module tells, as the programs tell it. */
function told(command, text) {
  const { status, output, error } = engine.run(command, new Uint8Array(text));
  return { status, stdout: Buffer.from(output), stderr: Buffer.from(error) };
}

const isSame = (one, other) => one.status === other.status && one.stdout.equals(other.stdout) &&
  one.stderr.equals(other.stderr);

/**
 * Both refuse a workload, each by a line of its own: the module's reader of workloads has no clause. `why` alone writes
 * that line, and what explains it, as its answer.
 */
const areRefused = (command, text, one, other) => engine.kindOf(new Uint8Array(text)) === "workload" &&
  [one, other].every(({ status, stdout }) => status === 1 && (command === "why" || !stdout.length));

/** A text that is no report is lines of JSON to the program that judges, and refused by the module. */
const isAsked = (command, text) => !command.startsWith("judge") || engine.kindOf(new Uint8Array(text)) === "report";

function compare(command, name, text) {
  if (!isAsked(command, text)) return;
  const [program_name, ...words] = WORDS[command];
  const native = spawnSync(program(program_name), words, { input: text, maxBuffer: 1 << 30 });
  if (native.error) throw native.error;
  if (command.startsWith("judge")) native.stderr = Buffer.from(String(native.stderr).replace(/^refused: /, ""));
  const own = told(command, text);
  if (!isSame(own, native) && areRefused(command, text, own, native)) tally.refused++;
  else compareTold(`${command} ${name}`, text, own, native);
}

function compareTold(what, text, own, other) {
  if (isSame(own, other)) return tally.same++;
  tally.other++;
  console.log(`${what}: not the same\n  module  ${firstOf(own)}\n  program ${firstOf(other)}`);
  if (what.includes(" random ")) console.log(JSON.stringify(Buffer.from(text).toString("latin1")));
}

/** Under the table of the front end that it names a schedule has the run that it has under that, but for points. */
function compareTable(name, text) {
  const number = TABLES[/^front (.*)$/m.exec(text)?.[1]];
  if (number === undefined || engine.kindOf(new Uint8Array(text)) !== "schedule") return;
  for (const [command, points, none] of POINTS) {
    const other = told(command, text);
    other.stdout = Buffer.from(String(other.stdout).replace(points, none));
    compareTold(`${command}-under ${number} ${name}`, text, told(`${command}-under ${number}`, text), other);
  }
}

const firstOf = ({ status, stdout, stderr }) => `${status} ${JSON.stringify(String(stdout).slice(0, 60))} ` +
  JSON.stringify(String(stderr).slice(0, 60));

function compareRandom() {
  const random = new Random(+seed), kinds = {};
  const run = (command, text) => decoded(engine.run(command, new TextEncoder().encode(text)).output);
  for (let number = 0; number < +count; number++) {
    const { kind, text } = randomText(random, run), command = random.of(ASKED[kind.split(",")[0]]);
    kinds[kind] = (kinds[kind] || 0) + 1;
    compare(command, `random ${number}, a ${kind}`, text);
  }
  return Object.entries(kinds).sort().map(([kind, many]) => `${many} ${kind}`).join("; ");
}

// What is told where memory is refused: of the line a first part may come, and where there was none for all of the
// answer, a first part of that.
const REFUSALS = ["out of memory\n", "output: write\n"];

/**
 * Runs a command in rooms of more and more bytes, until one is enough: in each the answer is that memory was refused,
 * or the one that it has in a large room. Gives how many rooms were too small.
 */
function refusedRooms(command, text) {
  const whole = told(command, text), step = 64;
  for (let room = 0; ; room += step) {
    const answer = engine.within(instance => {
      const { end } = instance, bytes = new Uint8Array(text);
      instance.end = instance.begin + Math.ceil(bytes.length / 16) * 16 + room;
      try {
        return instance.run(instance.exports["tellwydar_" + command], bytes);
      } finally {
        instance.end = end;
      }
    });
    const isPart = whole.stdout.subarray(0, answer.output.length).equals(answer.output);
    const isRefused = answer.status === 1 && isPart && REFUSALS.some(line => line.startsWith(decoded(answer.error)));
    if (isRefused && answer.output.length + answer.error.length < whole.stdout.length + whole.stderr.length) continue;
    if (answer.status !== whole.status || !Buffer.from(answer.output).equals(whole.stdout)) {
      tally.other++;
      console.log(`${command} in a room of ${room} bytes: ${answer.status} ${decoded(answer.error)}`);
    }
    return room / step;
  }
}

let rooms = 0;
for (const [command, name] of [["replay", "stale-read.sched"], ["trace", "swap-lock.sched"],
  ["page", "one-process.sched"], ["rest", "lost-frame.sched"], ["check", "stale-linear.report"],
  ["judge", "stale-linear.report"], ["why", "stale-linear.report"]]) {
  rooms += refusedRooms(command, readFileSync(join(TOP, "examples", name)));
}
console.log(`memory is refused in each of ${rooms} rooms that are too small`);
for (const { name, text } of texts()) {
  for (const command of commands) compare(command, name, text);
  compareTable(name, text);
}
const say = what => console.log(`${what}: ${tally.same} answers the same, ${tally.refused} refused by another line, ` +
  `${tally.other} not`);
say(`${commands.length} commands over the examples`);
const kinds = compareRandom();
say(`with ${count} random texts by the seed ${seed} (${kinds})`);
process.exit(tally.other ? 1 : 0);
