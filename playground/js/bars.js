// The history of a report as bars over time: a row for each process, and in it a bar from each call to its answer.
import { html, hue, svg } from "../../page/js/elements.js";

const MOST = 400; // operations that are drawn
const ROW = 44, TOP = 10, LEFT = 48, GAP = 22, LETTER = 6.7;

const ENTRY = /^ *(\d+) {2}p(\d+) *#(\d+) *(call|answer) +(.*)$/;
const POINT = /^p(\d+) #(\d+) at (\d+)$/;

/**
 * The operations of a report in the order of their calls, each with its point where the report has one.
 * @param {string} text
 */
export function operationsOf(text) {
  const operations = new Map();
  for (const line of text.split("\n")) {
    const entry = ENTRY.exec(line), point = POINT.exec(line);
    if (point) operations.get(`${point[1]} ${point[2]}`).point = +point[3];
    if (!entry) continue;
    const [, at, process, number, sort, told] = entry, key = `${process} ${number}`;
    if (sort === "call") operations.set(key, { process: +process, number: +number, text: told, called: +at });
    else Object.assign(operations.get(key), { answered: +at, answer: told });
  }
  return [...operations.values()];
}

/** What a bar says: the operation, and what it was answered if that is more than that it is done. */
const labelOf = ({ text, answer }) => answer && answer !== "done" ? `${text}: ${answer}` : text;

/** Where each event stands: each at least a step after the one before, and each call after its process's last label. */
function placesOf(operations) {
  const events = [...new Set(operations.flatMap(({ called, answered = called }) => [called, answered]))];
  const callOf = new Map(operations.map(operation => [operation.called, operation]));
  const free = new Map(), places = new Map();
  let place = LEFT;
  for (const event of events.sort((one, other) => one - other)) {
    const call = callOf.get(event);
    place = Math.max(place + GAP, call ? free.get(call.process) || 0 : 0);
    places.set(event, place);
    if (call) free.set(call.process, place + labelOf(call).length * LETTER + 14);
  }
  return { places, width: Math.max(place, ...free.values()) + GAP };
}

/** The place of a point: that of its event, or of the last one before it; those of one event stand side by side. */
function pointPlaces(operations, places) {
  const events = [...places.keys()], many = new Map();
  return new Map(operations.filter(({ point }) => point !== undefined).map(operation => {
    const event = events.findLast(at => at <= operation.point) ?? events[0], count = many.get(event) || 0;
    many.set(event, count + 1);
    return [operation, places.get(event) + 4 * count];
  }));
}

function bar(operation, places, y, { end, at, refused }) {
  const { process, answered, called } = operation, begin = places.get(called);
  const isBad = refused.has(answered), isOpen = answered === undefined;
  const width = Math.max(6, (isOpen ? end : places.get(answered)) - begin);
  return svg("g", { class: `${hue(process)} lasting${isOpen ? " open" : ""}${isBad ? " refused" : ""}` },
    svg("title", {}, sentenceOf(operation, refused)),
    svg("rect", { x: begin, y: y + 16, width, height: 12, rx: 3 }),
    svg("text", { x: begin, y: y + 11 }, labelOf(operation)),
    at === undefined ? null : svg("path", { class: "at", d: `M${at} ${y + 12}v20` }));
}

function sentenceOf({ process, number, text, called, answered, answer, point }, refused) {
  const end = answered === undefined ? "never answered" : `answered ${answer} at event ${answered}`;
  return `p${process} #${number} ${text}: called at event ${called}, ${end}` +
    (point === undefined ? "" : `, takes effect at event ${point}`) +
    (refused.has(answered) ? ": no order explains this answer" : "");
}

/**
 * A drawing of the operations of a report, with the same as a list. Answers at the events of `refused` are marked.
 * @param {string} text @param {Set<number>} refused
 */
export function bars(text, refused = new Set()) {
  const operations = operationsOf(text);
  if (!operations.length) return [];
  if (operations.length > MOST) {
    return [html("p", { class: "fine" }, `${operations.length} operations: up to ${MOST} are drawn.`)];
  }
  const rows = [...new Set(operations.map(({ process }) => process))].sort((one, other) => one - other);
  const { places, width } = placesOf(operations), points = pointPlaces(operations, places);
  const height = TOP + rows.length * ROW, say = `${operations.length} operations of ${rows.length} processes over time`;
  const drawn = svg("svg", { class: "bars", role: "img", "aria-label": say, width, height,
    viewBox: `0 0 ${width} ${height}` }, rows.map((process, row) =>
    svg("text", { class: `who ${hue(process)}`, x: 8, y: TOP + row * ROW + 26 }, `p${process}`)),
  operations.map(operation => bar(operation, places, TOP + rows.indexOf(operation.process) * ROW,
    { end: width - GAP / 2, at: points.get(operation), refused })));
  const about = { class: "over-time", tabindex: 0, role: "region", "aria-label": "The history over time" };
  return [html("div", about, drawn),
    html("details", {}, html("summary", {}, "The same as a list"), html("ol", { class: "told" },
      operations.map(operation => html("li", {}, sentenceOf(operation, refused)))))];
}
