// @ts-check
// Two runs beside each other: the first event at which they differ, and the operations that they call or answer
// otherwise. No screen is needed here.
import { opKey } from "./run.js";

/**
 * @typedef {import("./data").ToldRun} ToldRun
 * @typedef {import("./data").ToldOperation} ToldOperation
 * @typedef {{key: string, name: string, told: [string, string]}} Otherwise an operation, and what is told of it
 * @typedef {{shapes: [string, string], at: number | null, ends: [number, number], operations: Otherwise[],
 *   points: [boolean, boolean], isSame: boolean}} Comparison
 */

/** What an event did, without what a comment says of it; nothing where the run has ended. @param {ToldRun} run */
const toldOf = (run, at) => at < run.events.length ? JSON.stringify({ ...run.events[at], note: "" }) : "";

/** @param {ToldRun} run */
const shapeOf = ({ processes, registers }) => `processes ${processes}, registers ${registers.join(" ")}`;

/** @param {ToldOperation | undefined} operation */
const saidOf = operation => !operation ? "not called" :
  `${operation.op}: ${operation.answer ? operation.answer.text : "not answered"}`;

/** The operations that aren't the same in both runs, by process and number. @returns {Otherwise[]} */
function otherwise(/** @type {ToldRun[]} */ ...runs) {
  const [one, other] = runs.map(({ operations }) =>
    new Map(operations.map(operation => [opKey(operation.process, operation.number), operation])));
  const all = [...new Map([...one, ...other])];
  all.sort(([, a], [, b]) => a.process - b.process || a.number - b.number);
  return all.map(([key, { process, number }]) => {
    /** @type {[string, string]} */
    const told = [saidOf(one.get(key)), saidOf(other.get(key))];
    return { key, name: `p${process} #${number}`, told };
  }).filter(({ told: [a, b] }) => a !== b);
}

/** Where two runs differ, by what `awshow data` tells of each. @param {ToldRun} one @param {ToldRun} other
 * @returns {Comparison} */
export function compareRuns(one, other) {
  const most = Math.max(one.events.length, other.events.length);
  const found = [...Array(most).keys()].find(at => toldOf(one, at) !== toldOf(other, at));
  const at = found === undefined ? null : found;
  /** @type {[boolean, boolean]} */
  const points = [one.points !== null, other.points !== null];
  /** @type {[string, string]} */
  const shapes = [shapeOf(one), shapeOf(other)];
  return { shapes, at, ends: [one.events.length, other.events.length], operations: otherwise(one, other), points,
    isSame: at === null && shapes[0] === shapes[1] && points[0] === points[1] };
}

/** Of which of two runs something holds. @param {[boolean, boolean]} holds @param {string[]} names */
function whose([one, other], names, what) {
  if (one === other) return one ? `Both have ${what}.` : `Neither has ${what}.`;
  const [has, lacks] = one ? names : [names[1], names[0]];
  return `${has} has ${what}, and ${lacks} has none.`;
}

/** In a sentence each: where the runs begin to differ, and which of them has points. @param {Comparison} comparison */
export function sentencesOf({ shapes, at, ends, points }, names) {
  const ended = at === null ? -1 : ends.findIndex(end => at >= end);
  return [
    ...(shapes[0] === shapes[1] ? [] : [`${names[0]} has ${shapes[0]}, and ${names[1]} ${shapes[1]}.`]),
    at === null ? "No event differs." : ended < 0 ? `The first event that differs is ${at}.` :
      `${names[ended]} ends before event ${at}.`,
    whose(points, names, "points"),
  ];
}
