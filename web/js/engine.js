// The proved programs as a page has them: the module, and a call of one of its functions for each command. The module
// asks its host for nothing: all that it works in is memory of its own that is lent to it with the call. Nothing here
// looks at a text: it goes in as bytes, and what the module told comes out as bytes.

// What an instance lends to each of its runs, and how much of it a run may take before a new instance is made, so that
// the memory is given back. What a run took is lent again to the next one: nothing in the module outlives a call.
const MEMORY_BYTES = 1 << 30;
const MOST_KEPT_BYTES = 256 << 20;
const OUTPUT_BYTES = 32 << 20;
const ERROR_BYTES = 4096;
const PAGE_BYTES = 65536;

// The commands that play a workload: they read it in its one layout.
const PLAYS = new Set(["play", "play-fair", "schedule", "schedule-fair", "short", "short-fair", "outcomes",
  "outcomes-all", "outcome"]);

// The commands that take a number, and the number where none is given: how many plays, which outcome, and which table
// of a front end (numberOf in playground/js/fronts.js).
const NUMBERS = { outcomes: 1000, outcome: 1, "data-under": 0, "replay-under": 0 };

// The commands that show the run of a schedule, and of a workload that of its play.
const SHOWS = new Set(["data", "trace", "draw", "draw-large", "page", "rest"]);

// What the module answers of a text's kind.
const KINDS = ["schedule", "workload", "report"];

const rounded = at => Math.ceil(at / 16) * 16;

/** Adds to a memory, whose addresses have 64 bits; engines from before their numbers were settled take a plain one. */
function grow(memory, bytes) {
  const pages = Math.ceil(bytes / PAGE_BYTES);
  try {
    memory.grow(BigInt(pages));
  } catch (error) {
    if (!(error instanceof TypeError)) throw error;
    memory.grow(pages);
  }
}

/** An instance of the module, and where in its memory things lie. */
class Instance {
  constructor(module) {
    this.exports = new WebAssembly.Instance(module).exports;
    const { memory, __heap_base: base } = this.exports;
    grow(memory, MEMORY_BYTES);
    this.end = memory.buffer.byteLength;
    this.lengths = rounded(Number(base.value));
    this.room = this.lengths + 16;
    this.errors = this.room + 16;
    this.output = this.errors + ERROR_BYTES;
    this.begin = this.output + OUTPUT_BYTES;
    this.isLarge = false; // whether a run took much
    this.view = new DataView(memory.buffer);
  }

  bytes(at, count) {
    return new Uint8Array(this.view.buffer, at, count);
  }

  number(at) {
    return Number(this.view.getBigUint64(at, true));
  }

  /** Puts a text where the memory that is lent begins. */
  place(text) {
    if (this.begin + text.length > this.end) throw new RangeError("out of memory");
    this.bytes(this.begin, text.length).set(text);
    return this.begin;
  }

  /** Lends all memory behind a text: where it begins, and how many bytes it has. */
  lend(text) {
    const free = rounded(this.begin + text.length);
    this.view.setBigUint64(this.room, BigInt(free), true);
    this.view.setBigUint64(this.room + 8, BigInt(this.end - free), true);
  }

  /** Calls a function with a text, and with a number where it takes one. */
  run(call, text, ...numbers) {
    const at = this.place(text);
    this.lend(text);
    const given = [this.room, at, text.length].map(BigInt);
    const taken = [this.output, OUTPUT_BYTES, this.errors, ERROR_BYTES, this.lengths].map(BigInt);
    const status = call(...given, ...numbers, ...taken);
    this.isLarge = this.number(this.room) - this.begin > MOST_KEPT_BYTES;
    const many = this.number(this.lengths), few = this.number(this.lengths + 8);
    if (many > OUTPUT_BYTES) throw new RangeError("too much output");
    const error = this.bytes(this.errors, Math.min(few, ERROR_BYTES)).slice();
    return { status, output: this.bytes(this.output, many).slice(), error };
  }
}

export class Engine {
  /** @param {WebAssembly.Module} module */
  constructor(module) {
    this.module = module;
    this.names = new Set(WebAssembly.Module.exports(module).map(({ name }) => name));
    this.instance = null;
  }

  /** Whether the module has a command. @param {string} command */
  has(command) {
    return this.names.has(nameOf(command));
  }

  /**
   * What a command makes of a text. A workload that is played or told about is put into its layout first, and one whose
   * run is shown is played first. A number may stand behind a command that takes one, as in "outcome 3".
   * @param {string} command @param {Uint8Array} text
   * @returns {{status: number, output: Uint8Array, error: Uint8Array}}
   */
  run(command, text) {
    const before = this.before(command, text);
    if (!before) return this.call(command, text);
    const made = this.run(before, text);
    if (made.status === 0) return this.call(command, made.output);
    // Of a text that says no workload `why` tells why; what shows runs reads it as a
    // schedule, and tells why it is none.
    const isRead = command === "why" || SHOWS.has(command) && this.call("layout", text).status !== 0;
    return isRead ? this.call(command, text) : made;
  }

  /** The command that makes of a text what this command reads, where it doesn't read the text itself. */
  before(command, text) {
    if (PLAYS.has(command.split(" ")[0])) return "layout";
    const made = command === "why" ? "layout" : SHOWS.has(command) ? "schedule" : null;
    return made && this.kindOf(text) === "workload" ? made : null;
  }

  call(command, text) {
    const [word, number = NUMBERS[word]] = command.split(" ");
    const numbers = word in NUMBERS ? [+number] : [];
    return this.within(instance => instance.run(instance.exports[nameOf(command)], text, ...numbers));
  }

  /** What a text is: "schedule", "workload" or "report". @param {Uint8Array} text */
  kindOf(text) {
    return this.within(instance =>
      KINDS[instance.exports.tellwydar_kind(BigInt(instance.place(text)), BigInt(text.length))]);
  }

  /** Calls into an instance. One in which a call failed is used no more: after a trap it refuses all further calls. */
  within(call) {
    if (!this.instance || this.instance.isLarge) this.instance = new Instance(this.module);
    try {
      return call(this.instance);
    } catch (error) {
      this.instance = null;
      throw error;
    }
  }
}

const nameOf = command => "tellwydar_" + command.split(" ")[0].replaceAll("-", "_");
