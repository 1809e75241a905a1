// The form in which one makes a front end of a table, and what is said of it.
import { html } from "../../page/js/elements.js";
import { RUNS_TABLES } from "./api.js";
import { judgeTable, NAMED, numberOf, ROWS, STARTS } from "./fronts.js";
import { showOutput } from "./output.js";
import { withFront } from "./texts.js";

const LABELS = { read: "read", write: "write", swap: "swap, cas" };
const PLACES = ["with no own cast on its way", "with own casts on their way"];
const REAL_TIME = "linear-casts-reads";
const NAMELESS = "It is lawful, and starts some call otherwise than each of the three. The history of each of its " +
  "runs has a serial order. Points it doesn't promise, since those come only where everything is cast. ";
const NOWHERE = "No program here runs it: they choose a front end by its name, and another one is another program. ";
const IS_NO_SCHEDULE = "Schedules are run under it here, and this text is none. ";
const UNREACHED = "No run comes to this: nothing is answered before its delivery here. ";
const ALIKE = ", which the programs run. No operation is called with own casts on their way, since nothing is " +
  "answered before its delivery.";

export class FrontTable {
  /** @param {import("./playground.js").Playground} playground */
  constructor(playground) {
    this.playground = playground;
    this.verdict = html("div", { id: "front-verdict", role: "status" });
  }

  /** Shows the table of the run's front end. */
  open() {
    const { table, run } = this.playground;
    this.table = structuredClone(table || NAMED[run?.front || "linear"]);
    const head = ["", ...PLACES].map(text => html("th", { scope: text ? "col" : null }, text));
    const rows = ROWS.map(kind => html("tr", {}, html("th", { scope: "row" }, LABELS[kind]),
      PLACES.map((_, place) => html("td", {}, this.choice(kind, place)))));
    showOutput("A front end from a table", html("p", {}, "How does an operation start?"),
      html("table", { class: "fronts both" }, html("thead", {}, html("tr", {}, head)), html("tbody", {}, rows)),
      this.verdict);
    this.show();
  }

  choice(kind, place) {
    const name = `${LABELS[kind]}, ${PLACES[place]}`, options = Object.entries(STARTS);
    const list = html("select", { "aria-label": name, "data-start": `${kind} ${place}` },
      options.map(([value, text]) => html("option", { value }, text)));
    list.value = this.table[kind][place];
    list.onchange = () => {
      this.table[kind][place] = list.value;
      this.show();
      this.set();
    };
    return list;
  }

  /** Says what the table comes to. */
  show() {
    const { faults, name, sameAs } = judgeTable(this.table);
    const line = (kind, ...kids) => html("p", { class: "line " + kind }, kids);
    this.verdict.replaceChildren(...faults.map(({ kind, place, law, runs, isReached }) => line("bad",
      html("b", {}, `${LABELS[kind]}, ${PLACES[place]}: `), law, " ",
      isReached ? "" : UNREACHED, this.links(runs))));
    if (name) {
      this.verdict.append(line("good", "It is ", html("code", {}, name), ", which the programs run."));
    } else if (sameAs) {
      this.verdict.append(line("good", faults.length ? "" : "It is lawful. ", "Each of its runs is one of ",
        html("code", {}, sameAs), ALIKE));
    } else if (!faults.length) {
      const castsReads = this.table.read.every(start => start === "cast");
      this.verdict.append(line("good", NAMELESS, this.whereRun(), castsReads ? "" : this.links([REAL_TIME])));
    }
  }

  /** Says who runs a lawful table that is none of the three. */
  whereRun() {
    if (!RUNS_TABLES) return NOWHERE;
    return this.playground.seen.kind !== "schedule" ? IS_NO_SCHEDULE : `The text is run under it, as table ` +
      `${numberOf(this.table)}, whatever its front line says; an event that is refused then is named below it. ` +
      "Check and judge are of the report of this run. ";
  }

  /** Links to the stored runs of programs that lack a rule. */
  links(runs) {
    return runs.flatMap((run, i) => {
      const { choices } = this.playground, found = choices.brokenBy(run);
      if (!found) return [];
      const link = html("a", { href: `#broken=${run}` }, `Break it, section ${found.section}: ${found.example.title}`);
      link.onclick = event => {
        event.preventDefault();
        choices.chooseExample(found.value);
      };
      return [i ? ", " : "", link];
    });
  }

  /**
   * Gives the run the front end that has a name and starts each call as the table does. Where it is lawful and none
   * has, the text stays, and is run under the table itself if that can be.
   */
  set() {
    const { playground } = this, { faults, sameAs } = judgeTable(this.table), { kind } = playground.seen;
    const { text } = playground.editor, changed = sameAs ? withFront(text, sameAs) : text;
    if (kind !== "schedule" && kind !== "workload" || faults.length && !sameAs) return;
    const table = RUNS_TABLES && kind === "schedule" && !sameAs ? structuredClone(this.table) : null;
    if (changed !== text || table || playground.table) playground.setText(changed, { table });
  }
}
