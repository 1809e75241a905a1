// What buttons, ends of arrows and keys do: they change the text, or show what the programs make of it.
import { byId, html } from "../../page/js/elements.js";
import { fly } from "./ahead.js";
import { ask } from "./api.js";
import { filesOf } from "./files.js";
import { reportOf } from "./history.js";
import { judged } from "./judged.js";
import { fragmentOf } from "./links.js";
import { Menu } from "./menu.js";
import { takeLine, tickLine } from "./next.js";
import { allOutcomesTable, button, outcomesTable, say, showOutput, verdictLines } from "./output.js";
import { eventLines, upTo, withEvent, withSeed } from "./texts.js";

export class Actions {
  /** @param {import("./playground.js").Playground} playground */
  constructor(playground) {
    this.playground = playground;
    this.menu = new Menu();
  }

  get text() {
    return this.playground.editor.text;
  }

  /* ---------- events ---------- */

  /** Adds an event's line to the text. */
  async add(line) {
    const { playground } = this;
    this.menu.close();
    if (!playground.canClick) return say("The text is refused: mend it first, or undo.");
    await playground.setText(withEvent(this.text, line));
    fly(playground.view.diagram, playground.run, playground.view.at);
  }

  leaveLost(key, isLost) {
    const { playground } = this;
    if (isLost) playground.lost.add(key);
    else playground.lost.delete(key);
    this.menu.close();
    playground.showRun(playground.view.at);
  }

  /** Cuts what stands below the event that is looked at. */
  cut() {
    if (!byId("cut").disabled) return this.playground.setText(upTo(this.text, this.playground.view.at));
  }

  async rest() {
    const { text } = this, rested = await ask("rest", text);
    if (text !== this.text) return;
    if (rested.status !== 0) return say(rested.error.trim());
    const lines = rested.output.trimEnd().split("\n").slice(3 + eventLines(text).length);
    if (!lines.length) return say("The run is at rest: nothing is left to be acknowledged.");
    const at = this.playground.run.last + 1;
    await this.playground.setText((text.endsWith("\n") ? text : text + "\n") + lines.join("\n") + "\n", { at });
    say(lines.length === 1 ? "One event brings it to rest." :
      `${lines.length} events bring it to rest. Step through them with \u2192`);
  }

  /* ---------- what the programs make of the text ---------- */

  /** The report of what the text is, or of its play. */
  async report() {
    const { kind, table } = this.playground.seen;
    if (kind === "report") return { status: 0, output: this.text, error: "" };
    if (kind === "history") return { status: 0, output: reportOf(this.text).report.text, error: "" };
    const replay = table === null ? "replay" : `replay-under ${table}`;
    return ask(kind === "workload" ? "play" : replay, this.text);
  }

  async check() {
    const report = await this.report(), verdict = await ask("check", report.output);
    const own = this.playground.seen.kind === "report" ? "" :
      html("details", {}, html("summary", {}, "The report that it judges"), html("pre", {}, report.output));
    showOutput("awreg check", verdictLines(verdict), own);
  }

  async judge() {
    const report = await this.report(), answer = await ask("judge", report.output);
    showOutput("awshow judge", judged(answer, report.output));
  }

  /** Makes the report of lines of JSON or EDN the text. */
  async asReport() {
    await this.playground.setText((await this.report()).output);
  }

  /** Puts the points that the judge finds into the report. */
  async withPoints() {
    const made = await ask("judge-report", this.text);
    if (made.status !== 0) return say(made.error.trim() || "Its history has no point order.");
    await this.playground.setText(made.output);
  }

  /** Makes the play of a workload the text. */
  async asSchedule(command) {
    const made = await ask(command, this.text);
    if (made.status !== 0) return say(made.error.trim());
    await this.playground.setText(made.output);
  }

  async outcomes() {
    const { output, error } = await ask("outcomes", this.text);
    const choose = seed => this.playground.setText(withSeed(this.text, seed));
    showOutput("1,000 plays", output ? outcomesTable(output, choose) : html("p", { class: "no" }, error),
      html("p", {}, button("All that the scripts can have", "all-outcomes", () => this.allOutcomes())));
  }

  /** All outcomes of a workload's scripts, each with a button that makes a run with it the text. */
  async allOutcomes() {
    const { output, error } = await ask("outcomes-all", this.text);
    const show = number => this.asSchedule(`outcome ${number}`);
    showOutput("All outcomes", output ? allOutcomesTable(output, show) : html("p", { class: "no" }, error));
  }

  async link() {
    const address = location.origin + location.pathname + fragmentOf(this.text);
    history.replaceState(null, "", address);
    const isCopied = await navigator.clipboard?.writeText(address).then(() => true, () => false);
    say("The address holds the text now" + (isCopied ? ", and is copied." : "."));
  }

  /* ---------- menus ---------- */

  openSaves() {
    const items = filesOf(this.text, this.playground.seen.kind).map(({ what, name, write }) =>
      this.menu.item(what, name, async () => {
        const refusal = await write();
        if (refusal) say(refusal);
      }));
    this.menu.open(byId("save"), items);
  }

  /** What may be done with a frame that an event takes. */
  openFrame(element, at) {
    const { run, view } = this.playground, { put } = run.events[at].take;
    this.menu.open(element, [
      this.menu.item("Take it again", takeLine(put), () => this.add(takeLine(put))),
      this.menu.item(`To event ${at}, which takes it`, "", () => view.go(at)),
      this.menu.item(`To event ${put.at}, which put it`, "", () => view.go(put.at))]);
  }

  /** What a process may do: a call, or a tick. */
  openPlus(element, process) {
    const { offers } = this.playground;
    this.menu.open(element, [html("div", { class: "form" }, offers.callForm(process), offers.tickButton(process))]);
  }
}
