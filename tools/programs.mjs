// What `awreg` and `awshow` make of a text, for tests and for tools/grade: they are looked for on the path, and then in
// crates/*/out.
import { execFileSync, spawnSync } from "node:child_process";
import { existsSync, readdirSync, readFileSync } from "node:fs";
import { dirname, join } from "node:path";
import { fileURLToPath } from "node:url";
import { Run } from "../page/js/run.js";
import { kindOf } from "../playground/js/api.js";

export const TOP = dirname(dirname(fileURLToPath(import.meta.url)));

/** A program that was looked for is nowhere. */
export class NotBuilt extends Error {}

/** Where a program is. */
export function program(name) {
  const folders = [...process.env.PATH.split(":"), join(TOP, "crates", name, "out")];
  const found = folders.map(folder => join(folder, name)).find(existsSync);
  if (!found) throw new NotBuilt(`${name} isn't built: tools/install, or (cd crates/${name} && rt run)`);
  return found;
}

/** @returns {{status: number, output: string, error: string}} */
export function made(name, words, input) {
  const { status, stdout, stderr, error } = spawnSync(program(name), words,
    { input, encoding: "utf8", maxBuffer: 1 << 26 });
  if (error) throw error;
  return { status, output: stdout, error: stderr };
}

/** The exercises by name, as their files say. */
export function exercises() {
  const folder = join(TOP, "examples", "exercises");
  const read = "import json, sys, tomllib; " +
    "print(json.dumps([tomllib.load(open(path, 'rb')) for path in sys.argv[1:]]))";
  const files = readdirSync(folder).filter(name => name.endsWith(".toml")).sort();
  const told = JSON.parse(execFileSync("python3", ["-c", read, ...files.map(name => join(folder, name))],
    { encoding: "utf8" }));
  return files.map((name, i) => ({ name: name.slice(0, -5), ...told[i] }));
}

/** The schedules of the examples by name, and what `awshow data` tells of each. */
export function examples() {
  return readdirSync(join(TOP, "examples")).filter(name => name.endsWith(".sched")).map(name => {
    const text = readFileSync(join(TOP, "examples", name), "utf8");
    return { name, text, told: JSON.parse(made("awshow", ["data"], text).output) };
  });
}

/**
 * What the playground's server would tell a judge of a text.
 * @param {string} text
 * @param {{rest: boolean, check: boolean}} asks what is asked of the programs beside the run
 * @param {typeof made} make how a program is run
 */
export function seenOf(text, asks = { rest: true, check: true }, make = made) {
  const why = make("awshow", ["why"], text).output, kind = kindOf(why);
  const schedule = kind === "workload" ? make("awshow", ["schedule"], text).output : text;
  const data = kind === "report" ? { status: 1 } : make("awshow", ["data"], schedule);
  const run = data.status === 0 ? new Run(JSON.parse(data.output)) : null;
  const events = t => t.split("\n").filter(line => line && !line.startsWith("#")).length;
  const eventsToRest = run && asks.rest ? events(make("awshow", ["rest"], schedule).output) - events(schedule) :
    Infinity;
  const report = () => kind === "report" ? text : make("awreg", ["replay"], schedule).output;
  return { text, run, kind, why, eventsToRest, check: asks.check ? make("awreg", ["check"], report()).output : "" };
}
