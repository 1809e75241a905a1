// @ts-check
// Variants of an exercise by a seed: values, registers and processes have other names, the same ones in its prose, its
// start, its wants, and in any text that is written for it. docs/EXERCISES.md says what is renamed.

/**
 * @typedef {import("./judge.js").Want} Want
 * @typedef {{title: string, task: string, hint?: string, after?: string, start: string, varies?: string[],
 *   wants: Want[]}} Exercise
 * @typedef {(text: string) => string} Rename
 * @typedef {Record<string, Rename>} Names how processes, registers and values are renamed
 * @typedef {[form: string, rename: (found: string, names: Names) => string]} Place
 */

const LETTERS = [..."bcdefghkmnqrstuvwxyz"];
const VALUES = Array.from({ length: 99 }, (_, i) => String(i + 1));

/** A source of numbers below a bound: the generator mulberry32, begun by the hash FNV-1a of a seed. */
function numbersOf(seed) {
  let state = 0x811c9dc5;
  for (const letter of seed.normalize()) state = Math.imul(state ^ letter.codePointAt(0), 0x01000193);
  return below => {
    state = state + 0x6d2b79f5 | 0;
    let word = Math.imul(state ^ state >>> 15, state | 1);
    word ^= word + Math.imul(word ^ word >>> 7, word | 61);
    return ((word ^ word >>> 14) >>> 0) % below;
  };
}

/** Names under other names: a permutation of those that are listed, so that no two become one. @returns {Rename} */
function shuffled(names, numberBelow) {
  const others = [...names];
  for (let i = others.length - 1; i > 0; i--) {
    const j = numberBelow(i + 1);
    [others[i], others[j]] = [others[j], others[i]];
  }
  const renamed = new Map(names.map((name, i) => [name, others[i]]));
  return name => renamed.get(name) || name;
}

/** What of an exercise varies has other names, and all else keeps its own. @returns {Names} */
function namesOf({ start, varies = [] }, seed) {
  const numberBelow = numbersOf(seed), [, processes = 0] = /^processes (\d+)/m.exec(start) || [];
  const lists = { processes: [...Array(+processes).keys()].map(String), registers: LETTERS, values: VALUES };
  const renames = Object.entries(lists).map(([what, names]) => [what, shuffled(names, numberBelow)]);
  return Object.fromEntries(renames.map(([what, rename]) => [what, varies.includes(what) ? rename : name => name]));
}

const inNumbers = (text, rename) => text.replace(/\d+/g, rename);
const inLetters = (text, rename) => text.replace(/\b[a-z]\b/g, rename);
/**
 * Where names stand, in texts and in prose.
 * @type {Place[]}
 */
const PLACES = [
  ["\\b(?:call |tick |[Pp]rocess |p)\\d+", (found, { processes }) => inNumbers(found, processes)],
  ["\\btake \\d+ \\d+ \\d+", (found, { processes }) => found.replace(/\d+ \d+/, wire => inNumbers(wire, processes))],
  ["\\b(?:read|write|swap|cas) [a-z]+(?: \\d+)*", (found, { registers, values }) =>
    inNumbers(inLetters(found, registers), values)],
  ["\\bvalue \\d+", (found, { values }) => inNumbers(found, values)],
  ["^registers .*$|^[a-z]$", (found, { registers }) => inLetters(found, registers)],
];
/**
 * In prose any other number is a value, and any other letter that stands alone a register.
 * @type {Place[]}
 */
const IN_PROSE = [...PLACES, ["(?<!#)\\b\\d+\\b", (found, { values }) => values(found)],
  ["(?<!')\\b[a-z]\\b", (found, { registers }) => registers(found)]];

/** @param {Place[]} places @param {Names} names @returns {Rename} */
function renamer(places, names) {
  const form = new RegExp(places.map(([source]) => `(${source})`).join("|"), "gm");
  return text => text.replace(form, (found, ...groups) =>
    places[groups.findIndex(group => group !== undefined)][1](found, names));
}

/**
 * How a text that is written for an exercise is renamed for its variant, its comments as prose.
 * @param {Exercise} exercise @param {string} seed @returns {Rename}
 */
export function renamingOf(exercise, seed) {
  const names = namesOf(exercise, seed), inText = renamer(PLACES, names), inProse = renamer(IN_PROSE, names);
  return text => text.split("\n").map(line => (line.startsWith("#") ? inProse : inText)(line)).join("\n");
}

/** The variant of an exercise by a seed; by the seed "" the exercise itself. @param {string} seed */
export function variantOf(exercise, seed) {
  if (seed === "") return exercise;
  const names = namesOf(exercise, seed), inText = renamingOf(exercise, seed), inProse = renamer(IN_PROSE, names);
  const ofProcess = process => +names.processes(String(process));
  const renames = { title: inProse, task: inProse, hint: inProse, after: inProse, start: inText, say: inProse,
    answer: inText, value: names.values, register: names.registers, process: ofProcess, from: ofProcess,
    to: ofProcess };
  const renamed = told => Object.fromEntries(Object.entries(told).map(([key, it]) =>
    [key, key in renames ? renames[key](it) : it]));
  return { ...renamed(exercise), wants: exercise.wants.map(renamed) };
}
