// An example of a program that lacks one rule: what it answered to the events that stand in the text, which is stored,
// beside what the right program answers to them, and what `awreg check` says of what is stored.
import { html } from "../../page/js/elements.js";
import { ask } from "./api.js";
import { showOutput, verdictLines } from "./output.js";

/**
 * The history of a report: what each operation is and what it was answered, by the operation.
 * @param {string} report @returns {Map<string, {call: string, answer: string}>}
 */
function historyOf(report) {
  const told = new Map();
  for (const line of report.split("\n")) {
    const found = /^ +(\d+) +(p\d+) +(#\d+) +(call|answer) +(.*)$/.exec(line);
    if (!found) continue;
    const [, event, process, number, what, words] = found, key = `${process} ${number}`;
    if (what === "call") told.set(key, { call: words, answer: "not answered" });
    else told.get(key).answer = `${words}, at event ${event}`;
  }
  return told;
}

/** A row for each operation of either history. */
function rowsOf(broken, right) {
  const none = { call: "", answer: "not called" };
  return [...new Set([...broken.keys(), ...right.keys()])].map(key => {
    const one = broken.get(key) || none, other = right.get(key) || none, isOther = one.answer !== other.answer;
    const called = `${key} ${one.call || other.call}`;
    return html("tr", { class: isOther ? "late" : "" }, html("th", { scope: "row" }, called),
      html("td", {}, one.answer), html("td", {}, other.answer));
  });
}

/** Shows what is stored of an example of the group "Without this rule". */
export async function showBroken({ title, lacks, text, report }) {
  const [right, verdict] = await Promise.all([ask("replay", text), ask("check", report)]);
  const rows = rowsOf(historyOf(report), historyOf(right.output));
  showOutput("Without this rule", html("h3", {}, title), html("p", {}, html("b", {}, "Left out. "), lacks),
    html("table", { class: "both" }, html("thead", {}, html("tr", {}, html("th", {}, ""),
      html("th", { scope: "col" }, "without the rule"), html("th", { scope: "col" }, "the right program"))),
    html("tbody", {}, right.status === 0 ? rows : rows.map(withoutLast))),
    right.status === 0 ? "" : html("p", { class: "line bad", id: "right-refuses" },
      "The right program refuses these events: " + right.error.trim()),
    html("p", {}, html("code", {}, "awreg check"), " says of the report without the rule:"), ...verdictLines(verdict),
    html("p", { class: "fine" }, "The answers without the rule are stored: no program without it runs here."));
}

/** A row without what the right program answered: it refused the events. */
function withoutLast(row) {
  row.className = "";
  row.lastChild.textContent = "\u2013";
  return row;
}
