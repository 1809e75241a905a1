// Random texts of each kind, from a seed: workloads, the schedules of their plays, the reports and records of these,
// and each of them broken. The module makes the plays; what it says of a text is compared by compare.mjs.

const encoder = new TextEncoder(), decoder = new TextDecoder();

/** Random numbers from a seed: below a limit, a choice of a list, and a yes one time in some. */
export class Random {
  constructor(seed) {
    this.state = (seed ^ 0x9e3779b9) >>> 0 || 1;
  }

  below(limit) {
    this.state ^= this.state << 13;
    this.state ^= this.state >>> 17;
    this.state ^= this.state << 5;
    this.state >>>= 0;
    return this.state % limit;
  }

  of(list) {
    return list[this.below(list.length)];
  }

  oneIn(times) {
    return this.below(times) === 0;
  }

  list(most, make) {
    return Array.from({ length: this.below(most + 1) }, make);
  }
}

const FRONTS = ["linear", "local-read", "local-write"];
const VALUES = ["0", "1", "2", "7", "18446744073709551615"];

function operation(random, names) {
  const name = random.of(names), value = () => random.of(VALUES);
  return random.of([`read ${name}`, `write ${name} ${value()}`, `swap ${name} ${value()}`,
    `cas ${name} ${value()} ${value()}`]);
}

/** A workload, with its keys in any order. */
function workload(random) {
  const names = ["x", "y", "lock"].slice(0, 1 + random.below(3)), processes = 1 + random.below(4);
  const scripts = Array.from({ length: processes }, () => random.list(4, () => operation(random, names)));
  const lines = [`front = "${random.of(FRONTS)}"`, `registers = ${JSON.stringify(names)}`,
    `scripts = ${JSON.stringify(scripts)}`];
  for (const [key, most] of [["seed", 1 << 30], ["loss", 41], ["repeat", 41]]) {
    if (random.oneIn(2)) lines.push(`${key} = ${random.below(most)}`);
  }
  lines.push(`budget = ${1 + random.below(400)}`);
  for (let at = lines.length - 1; at > 0; at--) {
    const other = random.below(at + 1);
    [lines[at], lines[other]] = [lines[other], lines[at]];
  }
  return (random.oneIn(3) ? "# a comment\n" : "") + lines.join("\n") + "\n";
}

/** A number of some bytes, as a frame has it. */
const bytesOf = (number, count) => BigInt(number).toString(16).padStart(2 * count, "0");
const OPERATIONS = { read: [1, 1], write: [2, 1], swap: [3, 2], cas: [4, 4] }; // the byte, and the version

/** A frame as its bytes, from what `awshow trace` tells of it. */
function frameOf(told, names) {
  const count = /^count (\d+)$/.exec(told);
  if (count) return "000a0102" + bytesOf(count[1], 8);
  const [, number, body, time, words] = /^data (\d+): (cast|acknowledgement) \((\d+), \d+\)(?: (.*))?$/.exec(told);
  if (body === "acknowledgement") return "00130101" + bytesOf(number, 8) + "02" + bytesOf(time, 8);
  const [kind, name, ...values] = words.split(" "), [byte, version] = OPERATIONS[kind];
  const rest = bytesOf(version, 1) + "01" + bytesOf(number, 8) + "01" + bytesOf(time, 8) + bytesOf(byte, 1) +
    bytesOf(names.indexOf(name), 2) + values.map(value => bytesOf(value, 8)).join("");
  return bytesOf(rest.length / 2, 2) + rest;
}

/** The record of a schedule's run, from what `awshow trace` tells of it. */
export function recordOf(schedule, trace) {
  const head = schedule.split("\n").filter(line => line && !line.startsWith("#")).slice(0, 3);
  const names = head[1].split(" ").slice(1), steps = [];
  for (const line of trace.trimEnd().split("\n")) {
    const event = /^\d+ (call|take|tick) (.*)$/.exec(line), takes = /^ {4}takes (.*)$/.exec(line);
    const answers = /^ {4}answers (.*), place (\d+)$/.exec(line), last = steps.length - 1;
    if (event?.[1] === "call") steps.push(event[2].replace(" ", " call "));
    else if (event?.[1] === "tick") steps.push(`${event[2]} tick`);
    else if (event) steps.push(event[2].replace(/^(\d+) (\d+) \d+$/, "$2 take $1"));
    else if (takes) steps[last] += " " + frameOf(takes[1], names);
    else if (answers) steps[last] += ` = ${answers[1]} ${answers[2]}`;
  }
  return ["tellwydar record 1", head[2], head[0], head[1], ...steps].join("\n") + "\n";
}

/** One line of a text taken out, put twice, exchanged with the next, or with another number in it. */
function withOtherLine(random, text) {
  const lines = text.split("\n"), at = random.below(lines.length);
  const change = random.below(4);
  if (change === 0) lines.splice(at, 1);
  else if (change === 1) lines.splice(at, 0, lines[at]);
  else if (change === 2) [lines[at], lines[at - 1]] = [lines[at - 1] ?? "", lines[at]];
  else lines[at] = lines[at].replace(/\d+/, () => String(random.below(7)));
  return lines.join("\n");
}

/** Bytes of a text that are others, are gone, or are new. */
function withOtherBytes(random, bytes) {
  const broken = [...bytes];
  for (let times = 1 + random.below(3); times > 0; times--) {
    const at = random.below(broken.length + 1), count = random.below(2);
    broken.splice(at, count, ...random.list(2, () => random.oneIn(2) ? random.below(256) : 32 + random.below(95)));
  }
  return new Uint8Array(broken);
}

/** A text of a kind, as it should be: the module makes of a random workload what it is a text of. */
function whole(random, kind, run) {
  const text = workload(random);
  if (kind === "workload") return text;
  const schedule = run("schedule", text);
  if (kind === "schedule") return schedule;
  if (kind === "record") return recordOf(schedule, run("trace", schedule));
  return run("replay", schedule);
}

/**
 * A random text, and what it is: of each three one as it should be, one with another line, one with other bytes.
 * @param {Random} random @param {(command: string, text: string) => string} run what the module makes of a text
 */
export function randomText(random, run) {
  const kind = random.of(["workload", "schedule", "report", "record"]), text = whole(random, kind, run);
  const change = random.below(3);
  if (change === 0) return { kind, text: encoder.encode(text) };
  if (change === 1) return { kind: kind + ", another line", text: encoder.encode(withOtherLine(random, text)) };
  return { kind: kind + ", other bytes", text: withOtherBytes(random, encoder.encode(text)) };
}

export const decoded = bytes => decoder.decode(bytes);
