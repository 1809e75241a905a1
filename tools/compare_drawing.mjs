// The drawings of two runs over one axis of events, as one SVG. They are made by the modules of the page, which ask a
// document for their elements: here it is one that has just what they ask for.
import { readFileSync } from "node:fs";
import { join } from "node:path";
import { sentencesOf } from "../page/js/compare.js";
import { svg } from "../page/js/elements.js";
import { stubsOf, takenArrow } from "../page/js/arrows.js";
import { layOut } from "../page/js/layout.js";
import { eventNode, operationBar } from "../page/js/nodes.js";
import { drawPoints } from "../page/js/points.js";
import { Run } from "../page/js/run.js";
import { markDifferences } from "../page/js/differences.js";
import { TOP } from "./programs.mjs";

const LEFT = 54, TOP_ROOM = 34, NAME_ROOM = 26;
const SIGNS = { "&": "&amp;", "<": "&lt;", ">": "&gt;", "\"": "&quot;" };
const escaped = text => text.replace(/[&<>"]/g, sign => SIGNS[sign]);

/** An element of an SVG, as far as the modules of the page use one. */
class Part {
  constructor(tag) {
    Object.assign(this, { tag, attributes: new Map(), kids: [], style: {} });
  }

  setAttribute(name, value) {
    this.attributes.set(name, String(value));
  }

  append(...kids) {
    this.kids.push(...kids);
  }

  get classList() {
    const words = () => (this.attributes.get("class") || "").split(" ").filter(word => word);
    return { toggle: (word, isOn) => this.setAttribute("class",
      [...words().filter(one => one !== word), ...(isOn ? [word] : [])].join(" ")) };
  }

  toString() {
    const style = this.style.cssText ? [["style", this.style.cssText]] : [];
    const attributes = [...this.attributes, ...style].map(([name, value]) => ` ${name}="${escaped(value)}"`).join("");
    const inner = this.kids.map(kid => kid instanceof Part ? String(kid) : escaped(String(kid))).join("");
    return `<${this.tag}${attributes}${inner ? `>${inner}</${this.tag}>` : "/>"}`;
  }
}

/** The style of the page's diagrams, dark where that is asked for. */
function style() {
  const read = name => readFileSync(join(TOP, "page", "css", `${name}.css`), "utf8"), frame = read("frame");
  const diagram = read("diagram"), colours = frame.slice(0, frame.indexOf("\n* {"));
  return colours.replace(/:root\[data-theme=dark\] (\{[^}]*\})/, "@media (prefers-color-scheme:dark) {\n:root $1\n}") +
    diagram.slice(diagram.indexOf("svg text {")) + read("pair");
}

/** One of the runs, with its name above it. */
function groupOf({ name, run, places }, comparison, y) {
  const { ys, width, roomy } = places, g = (...kids) => svg("g", {}, ...kids);
  const nodes = run.events.map(event => eventNode(places, event));
  const bars = new Map(run.operations.map(operation => [operation.key, { element: operationBar(places, operation) }]));
  const lost = run.events.flatMap(event => stubsOf(places, event, event.puts.filter(put => !put.takes.length)));
  const arrows = run.events.filter(({ take }) => take).map(event => takenArrow(places, event, new Map()));
  const points = run.isRealTime ? drawPoints(places) : [];
  const memory = run.isRealTime ? svg("line", { class: "plumb", x1: 0, x2: width, y1: roomy ? 22 : 13,
    y2: roomy ? 22 : 13 }) : null;
  markDifferences({ nodes, bars }, comparison);
  return svg("g", { class: "run", transform: `translate(${LEFT},${y})` }, svg("title", {}, name),
    svg("text", { class: "done", x: 14 - LEFT, y: -8 }, `${name} (${run.front})`), memory,
    g(ys.map((at, p) => [svg("line", { class: "rail", x1: 0, x2: width, y1: at, y2: at }),
      svg("text", { x: 14 - LEFT, y: at + 4, style: "font-weight:700" }, `p${p}`)])),
    g(points.map(({ plumb }) => plumb)), g([...bars.values()].map(({ element }) => element)), g(lost), g(arrows),
    g(nodes), g(points.map(({ group }) => group)));
}

/**
 * One SVG of two runs, whose events have the same place from left to right.
 * @param {{name: string, told: object}[]} sides
 * @param {import("../page/js/compare.js").Comparison} comparison
 */
export function drawingOfTwo(sides, comparison) {
  globalThis.document = { createElementNS: (_, tag) => new Part(tag) };
  const runs = sides.map(({ told }) => new Run(told)), roomy = runs.every(({ processes }) => processes <= 8);
  const drawn = runs.map((run, i) => ({ run, name: sides[i].name,
    places: layOut(run, roomy, 0, 0, { run: runs[1 - i] }) })), [one, other] = drawn.map(({ places }) => places);
  const tops = [TOP_ROOM + NAME_ROOM, TOP_ROOM + 2 * NAME_ROOM + one.height];
  const width = LEFT + Math.max(one.width, other.width), height = tops[1] + other.height;
  const axis = one.xs.map((x, at) => [
    svg("line", { class: "tick", x1: LEFT + x, x2: LEFT + x, y1: TOP_ROOM - 6, y2: height - 4 }),
    svg("text", { class: "rank", style: "fill:var(--soft)", x: LEFT + x, y: TOP_ROOM - 12 }, String(at))]);
  const names = sides.map(({ name }) => name), told = [...sentencesOf(comparison, names),
    ...comparison.operations.map(({ name, told: [a, b] }) => `${name}: ${a}, in the other ${b}.`)].join(" ");
  const band = comparison.at === null ? null :
    svg("rect", { class: "band", x: LEFT + one.xs[comparison.at] - 15, y: 0, width: 30, height });
  return String(svg("svg", { xmlns: "http://www.w3.org/2000/svg", width, height, viewBox: `0 0 ${width} ${height}`,
    role: "img", "aria-labelledby": "pair-title", "aria-describedby": "pair-told" },
  svg("title", { id: "pair-title" }, `Two runs: ${names.join(" and ")}`), svg("desc", { id: "pair-told" }, told),
  svg("style", {}, style()), svg("rect", { style: "fill:var(--page)", width, height }), band, axis,
  drawn.map((side, i) => groupOf(side, comparison, tops[i])))) + "\n";
}
