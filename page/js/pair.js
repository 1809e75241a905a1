// The page of two runs, which stand in it: what `tools/compare --page` prints. One steps through both at once.
import { Run } from "./run.js";
import { byId, html } from "./elements.js";
import { Diagram, KINDS } from "./diagram.js";
import { storyNodes } from "./story.js";
import { Theme } from "./theme.js";
import { compareRuns } from "./compare.js";
import { differenceNodes, markDifferences } from "./differences.js";

const MOST_WITH_TEXTS = 160; // events

/** One of the two runs: its diagram, and what happened at the event that is looked at. */
class Side {
  constructor(run, beside, place) {
    this.run = run;
    this.story = byId("story-" + place);
    this.diagram = new Diagram(null, byId("diagram-" + place));
    this.diagram.beside = { run: beside };
    this.diagram.roomy = Math.max(run.last, beside.last) < MOST_WITH_TEXTS;
  }

  draw(comparison) {
    this.diagram.draw(this.run);
    markDifferences(this.diagram, comparison);
  }

  show(at) {
    const { run, diagram, story } = this, last = Math.min(at, run.last);
    diagram.show(last);
    diagram.reveal(last);
    story.replaceChildren(...(at > run.last ? [html("h2", {}, `Event ${at}`),
      html("p", { class: "lead" }, `This run ended after event ${run.last}.`)] : storyNodes(run, at)));
  }
}

class Pair {
  constructor({ names, runs: told }) {
    const runs = told.map(one => new Run(one));
    this.comparison = compareRuns(told[0], told[1]);
    this.sides = runs.map((run, i) => new Side(run, runs[1 - i], ["one", "other"][i]));
    this.last = Math.max(...runs.map(run => run.last));
    this.at = -1;
    ["one", "other"].forEach((place, i) => byId("name-" + place).textContent = names[i]);
    byId("title").textContent = document.title = names.join(" and ");
    byId("differences").replaceChildren(...differenceNodes(this.comparison, names));
    byId("differing").disabled = this.comparison.at === null;
    byId("slider").max = this.last;
    this.listen();
    this.draw();
  }

  draw() {
    const [one, other] = this.sides;
    one.draw(this.comparison);
    other.diagram.beside = one.diagram.places;
    other.draw(this.comparison);
    this.show(this.at);
  }

  show(at) {
    this.at = at = Math.max(-1, Math.min(this.last, at));
    for (const side of this.sides) side.show(at);
    byId("slider").value = at;
    byId("where").textContent = at < 0 ? `start / ${this.last}` : `event ${at} / ${this.last}`;
    byId("slider").setAttribute("aria-valuetext", at < 0 ? "before the first event" : `event ${at}`);
    byId("first").disabled = byId("back").disabled = at < 0;
    byId("next").disabled = byId("last").disabled = at >= this.last;
  }

  listen() {
    const { comparison } = this, jumps = { first: () => -1, back: () => this.at - 1, next: () => this.at + 1,
      last: () => this.last, differing: () => comparison.at };
    for (const [id, to] of Object.entries(jumps)) byId(id).onclick = () => this.show(to());
    byId("slider").addEventListener("input", ({ target }) => this.show(+target.value));
    for (const kind of KINDS) byId("show-" + kind).onchange = () => this.draw();
    document.addEventListener("click", ({ target }) => this.clicked(target));
    document.addEventListener("keydown", event => this.pressed(event, jumps));
    addEventListener("resize", () => this.draw());
  }

  clicked(target) {
    const event = target.closest("[data-ev]"), chip = target.closest(".story [data-op]");
    const side = chip && this.sides.find(({ story }) => story.contains(chip));
    if (event) this.show(+event.dataset.ev);
    else if (side) this.show(side.run.operationBy.get(chip.dataset.op).call);
  }

  pressed(event, { first, back, next, last, differing }) {
    if (event.ctrlKey || event.metaKey || event.altKey) return;
    const to = { ArrowLeft: back, ArrowRight: next, Home: first, End: last,
      d: this.comparison.at === null ? undefined : differing }[event.key];
    if (!to) return;
    event.preventDefault();
    this.show(to());
  }
}

const pair = new Pair(JSON.parse(byId("data").textContent));
new Theme();
pair.show(pair.comparison.at === null ? -1 : pair.comparison.at);
