// What the programs say of the text: below it, and in the place of the run where it has none.
import { byId, html } from "../../page/js/elements.js";
import { ask } from "./api.js";
import { judged } from "./judged.js";
import { verdictLines } from "./output.js";
import { placeOf } from "./texts.js";

/** Says what the text is, or where and why it is refused. @param {{kind: string, why: string, refusal: string}} seen */
export function showVerdict({ kind, why, refusal }, editor) {
  const box = byId("verdict"), isFault = kind === "refused" || / no: /.test(why.split("\n")[0]);
  box.className = "verdict is-" + (isFault ? "refused" : kind);
  byId("workload").hidden = kind !== "workload";
  byId("lines").hidden = kind !== "history";
  byId("own-report").hidden = kind !== "report";
  editor.showRefused(isFault ? placeOf(why) : null);
  if (isFault) {
    const [told, ...rest] = why.trimEnd().split("\n");
    box.replaceChildren(html("b", {}, told || "refused"), rest.length ? html("pre", {}, rest.join("\n")) : "",
      refusal ? html("p", {}, refusal) : "");
    return;
  }
  box.replaceChildren(kind === "empty" ? "Write a schedule here, or choose an example." : why.trim(),
    refusal ? html("p", { class: "no" }, refusal) : "");
}

/** A report has no run: what is judged of it stands in the place of one. */
export async function showReport(text) {
  const [verdict, answer] = await Promise.all([ask("check", text), ask("judge", text)]);
  byId("no-run").replaceChildren(html("h2", {}, "A report"),
    html("p", { class: "lead" }, "It has no run to step through. ", html("code", {}, "awreg check"),
      " judges its order and its points, from this text alone:"), ...verdictLines(verdict),
    html("p", { class: "lead" }, html("code", {}, "awshow judge"),
      " looks at neither. It looks for points of its own, and for the first answer that no order explains:"),
    ...judged(answer, text));
}
