// A text, the run that the programs make of it, and what is shown of both. What clicks and keys do to the text stands
// in actions.js.
import { Run } from "../../page/js/run.js";
import { byId, html } from "../../page/js/elements.js";
import { Theme } from "../../page/js/theme.js";
import { View } from "../../page/js/view.js";
import { Actions } from "./actions.js";
import { Ahead, endsOf, roomAhead } from "./ahead.js";
import { EMPTY, look, lookUnder, UNANSWERED } from "./api.js";
import { Choices } from "./choices.js";
import { Compared } from "./compared.js";
import { Editor } from "./editor.js";
import { Exercise } from "./exercise.js";
import { focusOf, refocus } from "./focus.js";
import { FrontTable } from "./front_table.js";
import { numberOf } from "./fronts.js";
import { Input } from "./input.js";
import { showHistory } from "./judged.js";
import { Offers } from "./offers.js";
import { Changes, eventLines, placeOf } from "./texts.js";
import { showReport, showVerdict } from "./verdict.js";

const REST = 300; // milliseconds after the last key: then what was typed is sent

export class Playground {
  constructor(examples, exercises) {
    this.changes = new Changes("");
    this.lost = new Set(); // the keys of the frames that are left lost
    this.asked = 0; // the looks that were asked for: of several that are under way the last one counts
    this.seen = EMPTY;
    this.run = null;
    this.table = null; // where a front end with no name runs the text, in place of the one that it names: its table
    this.lines = [];
    this.canClick = false;
    this.theme = new Theme();
    this.actions = new Actions(this);
    this.exercise = new Exercise(exercises);
    this.offers = new Offers({
      onEvent: line => this.actions.add(line),
      onLost: (key, isLost) => this.actions.leaveLost(key, isLost),
    });
    this.signs = new Ahead();
    this.ends = [];
    this.view = new View({
      drawAhead: places => this.canClick ? this.signs.draw(places, this.ends, this.offers.idle) :
        { lines: [], ends: [] },
      onShow: at => {
        this.showLine(at);
        this.compared.show(at);
      },
    });
    this.compared = new Compared(this);
    this.editor = new Editor({ onType: text => this.typed(text), onLine: line => this.goToLine(line) });
    this.choices = new Choices(this, examples, exercises);
    this.fronts = new FrontTable(this);
    this.input = new Input(this);
  }

  /* ---------- the text and its run ---------- */

  /** Takes a text that was clicked, chosen or undone, and shows its run up to an event, under a table or none. */
  setText(text, { at = Infinity, isNew = true, table = this.table } = {}) {
    this.table = table;
    if (isNew) this.changes.add(text);
    this.editor.set(text);
    return this.refresh(at);
  }

  typed(text) {
    this.changes.add(text, true);
    clearTimeout(this.resting);
    this.asked++; // what is under way is of an older text
    document.body.dataset.state = "asking";
    const isAtEnd = !this.run || this.view.at === this.run.last;
    this.resting = setTimeout(() => this.refresh(isAtEnd ? Infinity : this.view.at), REST);
    this.showButtons();
  }

  /** Asks what the text is, and shows it. */
  async refresh(at) {
    clearTimeout(this.resting);
    const { text } = this.editor, asked = ++this.asked;
    document.body.dataset.state = "asking";
    const seen = text.trim() === "" ? EMPTY : await this.look(text).catch(() => UNANSWERED);
    if (asked !== this.asked) return;
    this.seen = seen;
    const isShown = seen.told !== null || seen.kind === "empty";
    if (isShown) this.takeRun(seen.told ? runOf(seen) : null, at);
    showVerdict(seen, this.editor);
    this.showButtons();
    const written = this.editor.writeAfterPaint();
    if (!isShown) await this.keepRun(text);
    await this.exercise.judge(text, seen.kind, seen.told && seen.table === null ? this.run : null);
    await written;
    if (asked === this.asked) document.body.dataset.state = "shown";
  }

  /** What a text is, and its run, under the table that is chosen or the front end that it names. */
  look(text) {
    return this.table ? lookUnder(text, numberOf(this.table)) : look(text);
  }

  takeRun(run, at) {
    document.body.classList.toggle("no-run", run === null);
    document.body.classList.remove("stale");
    this.canClick = run !== null && this.seen.kind === "schedule";
    byId("no-run").replaceChildren(html("p", { class: "lead" }, run === null ? "There is no text yet." : ""));
    if (run === null) return;
    this.lost = new Set([...this.lost].filter(key => run.putBy.has(key)));
    this.run = run;
    this.lines = this.canClick ? eventLines(this.editor.text) : [];
    this.showRun(at);
  }

  /**
   * What stays where a text has no run: the last good one, or at first that of the lines above the one that is refused.
   */
  async keepRun(text) {
    const { kind, refusal, why } = this.seen;
    this.canClick = false;
    document.body.classList.toggle("no-run", kind === "report" || kind === "history");
    document.body.classList.add("stale");
    if (kind === "report") return showReport(text);
    if (kind === "history") return showHistory(text);
    if (this.run) return;
    byId("no-run").replaceChildren(html("p", { class: "lead" },
      refusal || "The text is refused, so there is no run yet. Why it is stands below it."));
    const place = placeOf(why), above = place ? text.split("\n").slice(0, place.line).join("\n") : "";
    const seen = above ? await this.look(above) : EMPTY;
    this.lines = eventLines(above);
    if (seen.told) this.showRun(Infinity, this.run = runOf(seen));
    else document.body.classList.add("no-run");
  }

  /* ---------- what is shown ---------- */

  /**
   * Draws the run with what may come next, which may have changed without it. What asks for places comes before what
   * changes them.
   */
  showRun(at, run = this.run) {
    const { view, offers } = this, focused = focusOf(document.activeElement);
    view.play(false);
    view.chooseLook(run);
    offers.take(run, this.lost);
    this.chooseEnds();
    view.setRun(run);
    // the line of the event that is shown stands behind the texts of events
    view.diagram.layers.nodes.before(view.diagram.layers.now);
    view.showHead();
    byId("offers").hidden = !this.canClick;
    offers.show();
    byId("title").textContent = run.title || this.exercise.title || "A run of shared registers";
    view.show(Math.min(at, run.last), true);
    if (run.last < 0 && this.canClick) showNothingYet();
    refocus(focused);
  }

  /** The frames that are drawn ahead of the run, and the room for them; what else is never taken is drawn as lost. */
  chooseEnds(isRoomy = this.view.diagram.roomy) {
    const { diagram } = this.view, hidden =
      new Set(["cast", "ack", "count"].filter(kind => !byId("show-" + kind).checked));
    this.ends = this.canClick ? endsOf(this.offers.frames, hidden) : [];
    const ahead = new Set(this.ends.flatMap(({ puts }) => puts));
    diagram.isStub = put => !ahead.has(put);
    diagram.ahead = this.canClick ? roomAhead(this.ends, isRoomy) : 0;
  }

  showButtons() {
    const { kind, table } = this.seen, isSchedule = kind === "schedule";
    byId("undo").disabled = !this.changes.canUndo;
    byId("redo").disabled = !this.changes.canRedo;
    byId("cut").disabled = !isSchedule || !this.run || this.view.at >= this.run.last;
    byId("rest").disabled = !isSchedule || table !== null;
    byId("keep").disabled = !this.seen.told;
    byId("check").disabled = !["schedule", "workload", "report"].includes(kind);
    byId("judge").disabled = !["schedule", "workload", "report", "history"].includes(kind);
  }

  /** Marks the line of the event that is shown. */
  showLine(at) {
    const line = at < 0 ? undefined : this.lines[at];
    this.editor.showCurrent(line === undefined ? -1 : line, document.activeElement !== byId("source"));
    this.showButtons();
  }

  goToLine(line) {
    const at = this.canClick && document.body.dataset.state === "shown" ? this.lines.indexOf(line) : -1;
    if (at >= 0 && at !== this.view.at) this.view.go(at);
  }

  undo(by) {
    return this.setText(this.changes.move(by), { isNew: false });
  }
}

/** @param {import("./api.js").Seen} seen */
const runOf = ({ told, table }) => new Run(told, table === null ? told.front : `table ${table}`);

function showNothingYet() {
  byId("story").replaceChildren(html("h2", {}, "Nothing has happened yet"), html("p", { class: "lead" },
    "Call an operation: by the buttons above, by a + in the diagram, or by a line of the text."));
}
