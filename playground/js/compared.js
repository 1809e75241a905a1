// A run that is kept above the one that is shown, and where the two differ.
import { compareRuns } from "../../page/js/compare.js";
import { differenceNodes, markDifferences } from "../../page/js/differences.js";
import { Diagram } from "../../page/js/diagram.js";
import { byId, html } from "../../page/js/elements.js";
import { Run } from "../../page/js/run.js";

const NAMES = ["A", "B"], SAME = { at: null, operations: [] };

export class Compared {
  /** @param {import("./playground.js").Playground} playground */
  constructor(playground) {
    this.playground = playground;
    this.kept = null;
    this.run = null;
    this.diagram = new Diagram(null, byId("kept-diagram"));
    this.shown = playground.view.diagram;
    this.shown.onDrawn = () => this.draw();
    byId("keep").onclick = () => this.keep(playground.seen.told);
    byId("drop").onclick = () => this.keep(null);
  }

  /** Keeps a run, by what is told of it, or none. */
  keep(told) {
    const { playground } = this;
    this.kept = told;
    this.run = told ? new Run(told) : null;
    this.shown.beside = told ? { run: this.run } : null;
    byId("kept").hidden = !told;
    if (told) byId("h-kept").textContent = `Run A is kept: ${byId("title").textContent}`;
    playground.showRun(playground.view.at);
    byId(told ? "drop" : "keep").focus();
  }

  /** Draws the kept run over the axis of the one that is shown, and marks in both where they differ. */
  draw() {
    const { run, shown, diagram, kept, playground: { seen } } = this;
    if (!run) return markDifferences(shown, SAME);
    if (!seen.told) return;
    const comparison = compareRuns(kept, seen.told), { at } = comparison;
    diagram.roomy = shown.roomy;
    diagram.beside = shown.places;
    diagram.draw(run);
    for (const each of [diagram, shown]) markDifferences(each, comparison);
    byId("kept-told").replaceChildren(...differenceNodes(comparison, NAMES), at === null ? "" : this.jump(at));
  }

  jump(at) {
    const button = html("button", { type: "button", class: "act", id: "differing" }, `To event ${at}`);
    button.onclick = () => this.playground.view.go(at);
    return button;
  }

  /** Shows the kept run up to the event up to which the other one is shown. */
  show(at) {
    if (!this.run) return;
    const last = Math.min(at, this.run.last);
    this.diagram.show(last);
    this.diagram.reveal(last);
  }
}
