// Where two runs differ, marked in their diagrams and told beside them.
import { sentencesOf } from "./compare.js";
import { html } from "./elements.js";

/** Marks in a diagram the first event that differs, and the operations that are called or answered otherwise. */
export function markDifferences({ nodes, bars }, { at, operations }) {
  const keys = new Set(operations.map(({ key }) => key));
  nodes.forEach((node, k) => node.classList.toggle("differs", k === at));
  for (const [key, { element }] of bars) element.classList.toggle("differs", keys.has(key));
}

/** What differs between the runs of these names. */
export function differenceNodes(comparison, names) {
  const cell = text => html("td", {}, text), head = text => html("th", { scope: "col" }, text);
  const { operations } = comparison, rows = operations.map(({ name, told }) =>
    html("tr", {}, html("th", { scope: "row" }, name), told.map(cell)));
  return [html("p", { class: "differ" }, sentencesOf(comparison, names).join(" ")),
    rows.length ? html("table", { class: "differing" }, html("thead", {},
      html("tr", {}, head("operation"), names.map(head))), html("tbody", {}, rows)) :
      html("p", { class: "fine" }, "No operation is called or answered otherwise.")];
}
