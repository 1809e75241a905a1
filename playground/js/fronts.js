// @ts-check
// A front end as a table: how reads, writes and swaps start, with and without own casts on their way; and which law of
// front ends (docs/DEFINITIONS.md, `lawful` of reg_front) a choice breaks. A compare-and-swap starts as a swap does.

/**
 * @typedef {"read" | "write" | "swap"} Kind
 * @typedef {"cast" | "look" | "hold" | "answer"} Start
 * @typedef {Record<Kind, [none: Start, some: Start]>} Table how each kind starts, with no own cast on its way and with
 * some
 * @typedef {{law: string, runs: string[]}} Fault the law, and the folders of examples/broken whose runs show it
 * @typedef {{kind: Kind, place: number, isReached: boolean} & Fault} Found whether some call of a run starts so
 */

/** @type {Kind[]} */
export const ROWS = ["read", "write", "swap"];

/** @type {Record<Start, string>} */
export const STARTS = { cast: "cast and wait", look: "look at the copy at once",
  hold: "hold until own casts are delivered, then look", answer: "cast and answer at once" };

/** @type {Record<string, Table>} */
export const NAMED = {
  linear: { read: ["cast", "cast"], write: ["cast", "cast"], swap: ["cast", "cast"] },
  "local-read": { read: ["look", "hold"], write: ["cast", "cast"], swap: ["cast", "cast"] },
  "local-write": { read: ["look", "hold"], write: ["answer", "answer"], swap: ["cast", "cast"] },
};

const CHANGES = "What may change a register has to be cast: no other process hears of it otherwise.";
const ANSWERED = "Only what is answered Done on every memory may be answered at once, and the answer of ";
const HELD = "held-for-own-casts";

/** @type {Record<Kind, Partial<Record<Start, [Fault | null, Fault | null]>>>} */
const FAULTS = {
  read: {
    look: [null, { law: "A read looks at the copy at once only while no own cast is on its way: it would miss the " +
      "own write.", runs: ["read-waits"] }],
    hold: [{ law: "A read is held only while an own cast is on its way, since the delivery of the last one ends the " +
      "hold.", runs: [HELD] }, null],
    answer: same({ law: ANSWERED + "a read is a value.", runs: ["read-answers-value"] }),
  },
  write: uncast("write-is-cast"),
  swap: {
    ...uncast("swap-is-cast"),
    answer: same({ law: ANSWERED + "a swap or a compare-and-swap depends on what its register holds at its place in " +
      "the order.", runs: ["swap-waits", "compare-and-swap-waits"] }),
  },
};

/** @param {Fault} fault @returns {[Fault, Fault]} */
function same(fault) {
  return [fault, fault];
}

/**
 * What isn't cast though it may change a register: looked at, or held, which with no own cast on its way may never end.
 * @param {string} run @returns {{look: [Fault, Fault], hold: [Fault, Fault]}}
 */
function uncast(run) {
  return { look: same({ law: CHANGES, runs: [run] }), hold: [{ law: CHANGES, runs: [run, HELD] },
    { law: CHANGES, runs: [run] }] };
}

const spelled = (/** @type {Table} */ table) => ROWS.map(kind => table[kind].join()).join();

/**
 * Whether some operation is called with own casts on their way: only one that is cast and answered at once leaves its
 * cast to the next call. Each other one that is cast runs until its delivery, which comes after all earlier own ones.
 * @param {Table} table
 */
const leavesCasts = table => ROWS.some(kind => table[kind][0] === "answer");

/** What a lawful table may choose in the place of a cast, in the order of the digits of its number. */
const CHOICES = /** @type {[Kind, number, Start][]} */ (
  [["read", 0, "look"], ["read", 1, "hold"], ["write", 0, "answer"], ["write", 1, "answer"]]);

/**
 * The number of a lawful table, by which the module of a page runs a schedule under it: the sum of 1 where a read with
 * no own cast on its way looks, 2 where one with own casts on their way is held, 4 and 8 where such writes are answered
 * at once. So 0 is linear, 3 local-read and 15 local-write.
 * @param {Table} table
 */
export const numberOf = table =>
  CHOICES.reduce((sum, [kind, place, start], digit) => sum + (table[kind][place] === start ? 2 ** digit : 0), 0);

/**
 * Which laws a table breaks, and where; which of the three it is, or null; and as which of them it starts each call
 * that comes, or null.
 * @param {Table} table @returns {{faults: Found[], name: string | null, sameAs: string | null}}
 */
export function judgeTable(table) {
  const places = leavesCasts(table) ? [0, 1] : [0];
  const faults = ROWS.flatMap(kind => table[kind].flatMap((start, place) => {
    const fault = FAULTS[kind][start]?.[place];
    return fault ? [{ kind, place, isReached: places.includes(place), ...fault }] : [];
  }));
  const named = (/** @type {(one: Table) => boolean} */ isIt) =>
    Object.keys(NAMED).find(one => isIt(NAMED[one])) || null;
  return { faults, name: named(one => spelled(one) === spelled(table)),
    sameAs: named(one => ROWS.every(kind => places.every(place => one[kind][place] === table[kind][place]))) };
}
