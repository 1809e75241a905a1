// @ts-check
// A history as clients of any system write it down in lines of JSON or EDN (docs/JUDGE.md), and the report of registers
// that stands for it. No proof speaks of this script: `awshow judge` reads such texts by code that has one.
import { EdnRefusal, entriesOf, isEdn } from "./edn.js";

const MOST_LINES = 1048576, MOST_KEYS = 4096, MOST_PLACES = 64, MOST_OPERATIONS = 65535;
const MOMENTS = new Set(["invoke", "ok", "fail", "info"]), ACTS = new Set(["read", "write", "swap", "cas"]);

/**
 * @typedef {{line: number, process: number, moment: string, act: string, key: number, expected: number,
 *   value: number}} Event what a line tells of a call; processes, keys and values are numbers of words
 * @typedef {{processes: string[], keys: string[], values: string[]}} Words the words, as JSON has them
 * @typedef {{events: Event[], words: Words, first: number}} History
 * @typedef {{at: number, process: number, key: number, call: {act: string, expected: number, value: number} | null,
 *   answer: string}} Row
 * @typedef {{text: string, isOwn: boolean, registers: string[], values: Map<number, string>}} Made
 */

/** Why a line is refused, or a whole history. */
class Refusal extends Error {}

const at = (/** @type {number} */ line, /** @type {string} */ why) => new Refusal(`line ${line}: ${why}`);

/* ---------- lines ---------- */

const TOKENS = /"(?:[^"\\]|\\.)*"|[{}[\]:,]|[^\s"{}[\]:,]+/g;

/**
 * The members of an object as the text has them, each with its tokens: so an integer keeps all of its digits. Null if
 * the text is no JSON; none for JSON of another kind.
 * @param {string} text @returns {Map<string, string[]> | null}
 */
function membersOf(text) {
  try {
    JSON.parse(text);
  } catch {
    return null;
  }
  const tokens = text.match(TOKENS) || [], members = new Map();
  if (tokens.some(token => token.startsWith("\"") && /[\ud800-\udfff]/u.test(JSON.parse(token)))) return null;
  if (tokens[0] !== "{") return members;
  for (let place = 1; tokens[place] !== "}";) {
    const name = JSON.parse(tokens[place]), begin = place += 2;
    for (let depth = 0; depth > 0 || tokens[place] !== "," && tokens[place] !== "}"; place++) {
      if (tokens[place] === "{" || tokens[place] === "[") depth++;
      if (tokens[place] === "}" || tokens[place] === "]") depth--;
    }
    members.set(name, tokens.slice(begin, place));
    if (tokens[place] === ",") place++;
  }
  return members;
}

/**
 * A string or an integer of 64 bits, in the one way that JSON is written here; else null.
 * @param {string[] | undefined} tokens
 */
function wordOf(tokens) {
  const [token] = tokens || [];
  if (tokens?.length !== 1) return null;
  if (token.startsWith("\"")) return JSON.stringify(JSON.parse(token));
  if (!/^-?\d+$/.test(token) || token === "-0") return null;
  return BigInt(token) >= -(2n ** 63n) && BigInt(token) < 2n ** 64n ? token : null;
}

const isNull = (/** @type {string[] | undefined} */ tokens) => !tokens || tokens.length === 1 && tokens[0] === "null";
const wordOrNull = (/** @type {string[] | undefined} */ tokens) => isNull(tokens) ? "null" : wordOf(tokens);

/**
 * The expected and the new value of a compare-and-swap.
 * @param {string[] | undefined} tokens @param {number} line @returns {string[]}
 */
function pairOf(tokens, line) {
  if (isNull(tokens)) return ["null", "null"];
  const [open, one, comma, other, close] = tokens || [];
  const isPair = tokens?.length === 5 && open === "[" && comma === "," && close === "]";
  const words = isPair ? [one, other].flatMap(token => wordOrNull([token]) ?? []) : [];
  if (words.length !== 2) throw at(line, "wanted value, the expected value and the new one");
  return words;
}

const stringOf = (/** @type {string[] | undefined} */ tokens) =>
  tokens?.length === 1 && tokens[0].startsWith("\"") ? JSON.parse(tokens[0]) : null;

const isNemesis = (/** @type {Map<string, string[]>} */ members) => stringOf(members.get("process")) === "nemesis";

/** What a line of JSON tells, null where it is of no call. @param {string} text @param {number} line */
function toldByLine(text, line) {
  if (text === "") return null;
  const members = membersOf(text);
  if (members === null) throw at(line, "wanted a JSON object");
  return isNemesis(members) ? null : tellingOf(members, line);
}

/** The elements of an array, each with its tokens, or null where these are no array. @param {string[]} tokens */
function elementsOf(tokens) {
  if (tokens[0] !== "[") return null;
  const elements = [/** @type {string[]} */ ([])];
  let depth = 0;
  for (const token of tokens.slice(1, -1)) {
    if (token === "," && !depth) {
      elements.push([]);
      continue;
    }
    if (token === "[" || token === "{") depth++;
    if (token === "]" || token === "}") depth--;
    elements[elements.length - 1].push(token);
  }
  return elements;
}

/**
 * The members of an entry of EDN. Where it has no key, and its value is a pair of a key and a value, each is a member.
 * @param {Map<string, string[]>} members
 */
function partedKey(members) {
  const pair = members.has("key") ? null : elementsOf(members.get("value") || []);
  const isKeyed = pair?.length === 2 && (stringOf(members.get("f")) !== "cas" || pair[1][0] === "[");
  return isKeyed ? new Map([...members, ["key", pair[0]], ["value", pair[1]]]) : members;
}

/** What an entry of EDN tells, null where it is of no call. @param {string} json @param {number} line */
function toldByEntry(json, line) {
  const members = membersOf(json);
  if (members === null) throw at(line, "wanted an entry, a map of EDN whose keys are keywords");
  const isNote = stringOf(members.get("process")) !== null && stringOf(members.get("type")) === "info" &&
    !ACTS.has(stringOf(members.get("f")));
  return isNemesis(members) || isNote ? null : tellingOf(partedKey(members), line);
}

/** What these members tell. @param {Map<string, string[]>} members @param {number} line */
function tellingOf(members, line) {
  /** @type {(word: string | null, why: string) => string} */
  const wanted = (word, why) => {
    if (word === null) throw at(line, "wanted " + why);
    return word;
  };
  const process = wanted(wordOf(members.get("process")), "process, an integer or a string");
  const type = stringOf(members.get("type")), act = stringOf(members.get("f"));
  wanted(MOMENTS.has(type) ? type : null, "type, one of invoke, ok, fail and info");
  wanted(ACTS.has(act) ? act : null, "f, one of read, write, swap and cas");
  const key = wanted(wordOrNull(members.get("key")), "key, an integer, a string or null");
  const isUnequal = type === "fail" && act === "cas" && stringOf(members.get("error")) === "unequal";
  const [expected, value] = act === "cas" ? pairOf(members.get("value"), line) :
    ["null", wanted(wordOrNull(members.get("value")), "value, an integer, a string or null")];
  if (type === "invoke" && act !== "read" && value === "null") throw at(line, "wanted value, what is written");
  return { process, moment: isUnequal ? "unequal" : type, act, key, expected, value };
}

/** Words under numbers, each under the place at which it first came. */
class Numbers {
  /** @type {Map<string, number>} */
  numbers = new Map();

  of(/** @type {string} */ word) {
    const number = this.numbers.get(word) ?? this.numbers.size;
    this.numbers.set(word, number);
    return number;
  }

  get words() {
    return [...this.numbers.keys()];
  }
}

/** Each process calls and is told in turn. @param {Event[]} events */
function checkTurns(events) {
  /** @type {Map<number, Event>} */
  const running = new Map();
  for (const event of events) {
    const call = running.get(event.process), isCall = event.moment === "invoke";
    if (isCall && call) throw at(event.line, "the process has a call under way");
    if (!isCall && !call) throw at(event.line, "the process has no call under way");
    if (!isCall && (call?.act !== event.act || call?.key !== event.key)) {
      throw at(event.line, "the process has another call under way");
    }
    if (isCall) running.set(event.process, event);
    else running.delete(event.process);
  }
}

const isAnswered = (/** @type {string} */ moment) => moment === "ok" || moment === "unequal";

/**
 * What the lines of a text tell, or its entries of EDN, with their lines.
 * @param {string} text
 */
function* tellings(text) {
  if (isEdn(text)) {
    for (const { line, json } of entriesOf(text)) yield { line, told: toldByEntry(json, line) };
    return;
  }
  const lines = text.split("\n");
  if (lines.at(-1) === "") lines.pop();
  for (const [place, one] of lines.entries()) yield { line: place + 1, told: toldByLine(one, place + 1) };
}

/** @param {string} text @returns {History} */
function hear(text) {
  const processes = new Numbers(), keys = new Numbers(), values = new Numbers();
  /** @type {Event[]} */
  const events = [];
  let count = 0;
  for (const { line, told } of tellings(text)) {
    if (count++ === MOST_LINES) throw new Refusal(`more than ${MOST_LINES} lines or entries`);
    if (told === null) continue;
    const { process, moment, act, key, expected, value } = told;
    events.push({ line, process: processes.of(process), moment, act, key: keys.of(key), expected: values.of(expected),
      value: values.of(value) });
  }
  const none = values.of("null"), zero = values.of("0");
  const isNullTold = events.some(({ moment, act, expected, value }) => act === "cas" ?
    moment === "invoke" && expected === none : moment === "ok" && act !== "write" && value === none);
  checkTurns(events);
  if (keys.words.length > MOST_KEYS) throw new Refusal(`${keys.words.length} keys, at most ${MOST_KEYS} are judged`);
  return { events, words: { processes: processes.words, keys: keys.words, values: values.words },
    first: isNullTold ? none : zero };
}

/* ---------- the report ---------- */

/** What each event means, by how its call ends. @param {History} history @returns {Row[]} */
function rowsOf({ events }) {
  /** @type {Map<number, string>} */
  const next = new Map();
  const rows = events.map((event, place) => ({ event, at: place })).reverse().flatMap(({ event, at }) => {
    const { process, moment, act, key, expected, value } = event, end = next.get(process);
    next.set(process, moment);
    if (moment === "invoke") {
      const counts = isAnswered(end || "") || end !== "fail" && act !== "read";
      return counts ? [{ at, process, key, call: { act, expected, value }, answer: "" }] : [];
    }
    const answer = moment === "unequal" ? "unequal" : act === "read" || act === "swap" ? `value ${value}` : "done";
    return isAnswered(moment) ? [{ at, process, key, call: null, answer }] : [];
  });
  return rows.reverse();
}

/**
 * The place of each row's call: that of its own process, if none goes on after a call of unknown end and all have room;
 * else the lowest at which no call is under way.
 * @param {Row[]} rows @param {number[]} lines @param {boolean} isOwn
 * @returns {{process: number, number: number}[] | null} null if it is no one's own
 */
function placesOf(rows, lines, isOwn) {
  /** @type {{process: number, number: number}[]} */
  const held = [];
  const next = Array(MOST_PLACES).fill(0), busy = Array(MOST_PLACES).fill(false), places = [];
  for (const { at: event, process, call } of rows) {
    if (call) {
      const isFree = (/** @type {number} */ place) => !busy[place] && next[place] < MOST_OPERATIONS;
      const place = isOwn ? (process < MOST_PLACES && isFree(process) ? process : -1) :
        next.findIndex((_, place) => isFree(place));
      if (place < 0 && isOwn) return null;
      if (place < 0) throw at(lines[event], "more than 64 calls under way");
      held[process] = { process: place, number: next[place]++ };
    }
    busy[held[process].process] = call !== null;
    places.push(held[process]);
  }
  return places;
}

/** The name of the register of this number: a and so on to z, then aa. @param {number} number @returns {string} */
const letters = number => (number >= 26 ? letters(Math.floor(number / 26) - 1) : "") +
  String.fromCharCode(97 + number % 26);

/** The registers' names: the keys, if all are names of registers. @param {string[]} keys */
function namesOf(keys) {
  const isName = keys.length > 0 && keys.every(key => /^"[a-z]{1,16}"$/.test(key));
  const name = (/** @type {string} */ key, /** @type {number} */ number) => isName ? JSON.parse(key) : letters(number);
  return (keys.length ? keys : ["null"]).map(name);
}

/**
 * What registers have for each value: the integers themselves, if all values are such and 0 is the first one; else 0
 * for the first value, and for each other a number of its own.
 * @param {History} history @param {Row[]} rows
 */
function valuesOf({ words: { values }, first }, rows) {
  const toldIn = (/** @type {Row} */ { call, answer }) => !call ?
    answer.startsWith("value ") ? [+answer.slice(6)] : [] :
    [...call.act === "read" ? [] : [call.value], ...call.act === "cas" ? [call.expected] : []];
  const used = new Set(rows.flatMap(toldIn));
  const isPlain = values[first] === "0" && [...used].every(number => /^\d+$/.test(values[number]));
  const numbered = (/** @type {number} */ number) => number === first ? 0 : number === 0 ? first : number;
  return new Map([...used].map(number => [number, isPlain ? values[number] : String(numbered(number))]));
}

/**
 * The report of a history: its order is empty and it has no points, since none are looked for here.
 * @param {History} history @param {boolean} asNative whether it is made as by `awshow judge --report`, with letters,
 *   numbers and lowest places
 * @returns {Made}
 */
function made(history, asNative) {
  const rows = rowsOf(history), lines = history.events.map(({ line }) => line);
  const own = asNative || history.words.processes.length > MOST_PLACES ? null : placesOf(rows, lines, true);
  const places = own || placesOf(rows, lines, false) || [];
  const { keys, processes } = history.words;
  const registers = asNative ? namesOf(keys.map(() => "")) : namesOf(keys);
  const values = valuesOf(asNative ? { ...history, words: { ...history.words, values: [] } } : history, rows);
  const operation = (/** @type {Row} */ { key, call }) => !call ? "" : [call.act, registers[key],
    ...call.act === "cas" ? [values.get(call.expected)] : [],
    ...call.act === "read" ? [] : [values.get(call.value)]].join(" ");
  const answer = (/** @type {string} */ told) => told.replace(/^value (\d+)$/, (_, number) =>
    "value " + values.get(+number));
  const entries = rows.map((row, place) => {
    const { process, number } = places[place];
    return `${String(row.at).padStart(8)}  p${String(process).padEnd(3)}  #${String(number).padEnd(6)}  ` +
      (row.call ? "call    " + operation(row) : "answer  " + answer(row.answer));
  });
  const version = rows.some(({ call }) => call?.act === "cas") ? 3 : 2;
  const text = [`awreg report ${version}`, "front observed",
    `processes ${own ? Math.max(1, processes.length) : MOST_PLACES}`, `registers ${registers.length}`, ...registers,
    `history ${entries.length}`, ...entries, "order 0", "end", ""].join("\n");
  return { text, isOwn: own !== null, registers, values };
}

/** Whether a text is meant as lines of JSON, whose first line that isn't empty begins as an object, or as EDN. */
export const isHistory = (/** @type {string} */ text) => /^\n*\{/.test(text) || isEdn(text);

/**
 * The history that lines of JSON or EDN tell, and its report; or why there is none.
 * @param {string} text
 * @returns {{refusal: string, history: History | null, report: Made | null}}
 */
export function reportOf(text, asNative = false) {
  try {
    const history = hear(text);
    return { refusal: "", history, report: made(history, asNative) };
  } catch (error) {
    if (!(error instanceof Refusal || error instanceof EdnRefusal)) throw error;
    return { refusal: error.message, history: null, report: null };
  }
}

const count = (/** @type {number} */ number, /** @type {string} */ one, many = one + "s") =>
  `${number} ${number === 1 ? one : many}`;

/** What is said of lines of JSON or EDN, or which of them is refused. @param {string} text */
export function whatHistory(text) {
  const { refusal, history } = reportOf(text);
  if (!history) return { kind: "refused", why: refusal };
  const { events, words: { processes, keys } } = history;
  return { kind: "history", why: `${isEdn(text) ? "EDN" : "lines of JSON"}: ${count(events.length, "event")} of ` +
    `${count(processes.length, "process", "processes")} at ${count(keys.length, "key")}` };
}
