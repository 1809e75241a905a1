// What the judge says of the history of a report, and of one in lines of JSON or EDN, for which a report is made first.
import { byId, html } from "../../page/js/elements.js";
import { ask } from "./api.js";
import { bars } from "./bars.js";
import { reportOf } from "./history.js";

/** The events of the answers that no order explains. @param {string} output */
const refusedIn = output => new Set([...output.matchAll(/^ {2}by event (\d+): /gm)].map(([, at]) => +at));

/** What a line of the judge's answer is: good, bad, or neither. */
const markOf = line => /^(no$|.*: no$|register .*: not |refused: )/.test(line) ? "bad" :
  /^(yes$|.*: yes$|register .*: linearizable$)/.test(line) ? "good" : "more";

const shownLine = line => html("p", { class: "line " + markOf(line) }, line);

/**
 * What the judge answered on a report, line by line, and the history over time.
 * @param {{output: string, error: string}} answer @param {string} report
 * @param {(line: string) => string[]} [told] what is shown of a line
 */
export function judged({ output, error }, report, told = line => [line]) {
  if (!output) return [html("p", { class: "line bad" }, error.trim())];
  return [...output.trimEnd().split("\n").flatMap(told).map(shownLine), ...bars(report, refusedIn(output))];
}

/** Which register and which value stand for what, if they aren't the same. */
function legend({ registers, values }, { words }) {
  const rows = [...registers.map((name, key) => ["register " + name, words.keys[key] ?? "null"]),
    ...[...values].map(([number, told]) => ["value " + told, words.values[number]])]
    .filter(([own, word]) => !own.endsWith(" " + word) && `register ${word}` !== `register "${own.slice(9)}"`);
  return rows.length ? html("details", {}, html("summary", {}, "What stands for what"),
    html("table", { class: "both" }, html("tbody", {}, rows.map(([own, word]) =>
      html("tr", {}, html("th", {}, own), html("td", {}, word)))))) : "";
}

/** A history in lines of JSON or EDN has no run: what is judged of its report stands in the place of one. */
export async function showHistory(text) {
  const { history, report } = reportOf(text), answer = await ask("judge", report.text);
  const told = line => line.startsWith("serial order: ") && !report.isOwn ? [] : [line.replace(/^( {2}.*)event (\d+): /,
    (_, word, at) => `${word}line ${history.events[at].line}: `)];
  byId("no-run").replaceChildren(html("h2", {}, "A history of calls"),
    html("p", { class: "lead" }, "It stands for this report, which ", html("code", {}, "awshow judge"), " judges:"),
    ...judged(answer, report.text, told),
    legend(report, history),
    html("details", {}, html("summary", {}, "The report"), html("pre", {}, report.text)),
    html("p", { class: "fine" }, "A script of this page makes the report, and no proof speaks of it. ",
      html("code", {}, "awshow judge"), " reads the text itself.",
      report.isOwn ? "" : " A process goes on after a call of unknown end, so calls stand under other processes, " +
        "and a serial order isn't judged."));
}
