// Which click and which key does what. A click in the diagram comes here before the page's view takes it for a step.
import { byId } from "../../page/js/elements.js";
import { stopRuns } from "./api.js";

const KINDS = ["cast", "ack", "count"];

export class Input {
  /** @param {import("./playground.js").Playground} playground */
  constructor(playground) {
    this.playground = playground;
    this.actions = playground.actions;
    this.listenToButtons();
    this.listenToLook();
    document.addEventListener("click", event => this.clicked(event), true);
    document.addEventListener("keydown", event => this.pressed(event), true);
    for (const [over, isOn] of [["mouseover", true], ["mouseout", false], ["focusin", true], ["focusout", false]]) {
      document.addEventListener(over, ({ target }) => markFrame(target, isOn));
    }
  }

  listenToButtons() {
    const { actions, playground } = this;
    const buttons = {
      undo: () => playground.undo(-1), redo: () => playground.undo(1), cut: () => actions.cut(),
      rest: () => actions.rest(),
      check: () => actions.check(), judge: () => actions.judge(), "as-report": () => actions.asReport(),
      "with-points": () => actions.withPoints(),
      save: () => actions.openSaves(), link: () => actions.link(),
      outcomes: () => actions.outcomes(), "as-seeded": () => actions.asSchedule("schedule"),
      "as-fair": () => actions.asSchedule("schedule-fair"), stop: () => stopRuns(),
      front: () => playground.fronts.open(),
    };
    for (const [id, act] of Object.entries(buttons)) byId(id).onclick = act;
  }

  /** What the view draws anew by itself is told first how much room the ends want. */
  listenToLook() {
    const { playground } = this, redraw = byId("roomy").onchange;
    byId("roomy").onchange = event => {
      playground.chooseEnds(event.target.checked);
      redraw(event);
    };
    for (const kind of KINDS) byId("show-" + kind).addEventListener("change",
      () => playground.showRun(playground.view.at));
  }

  clicked(event) {
    const { actions, playground } = this, end = event.target.closest("[data-offer]");
    const plus = event.target.closest("[data-plus]"), arrow = playground.canClick &&
      event.target.closest("#inner [data-frame]");
    if (!end && !plus && !arrow) return;
    event.stopPropagation();
    if (end && event.shiftKey) actions.leaveLost(end.dataset.put, true);
    else if (end) actions.add(end.dataset.offer);
    else if (plus) actions.openPlus(plus, +plus.dataset.plus);
    else actions.openFrame(arrow, +arrow.dataset.frame);
  }

  pressed(event) {
    const { key, target } = event, isCommand = event.ctrlKey || event.metaKey;
    if (isCommand && !event.altKey && isUndo(key) && !target.closest("input")) {
      event.preventDefault();
      this.playground.undo(key === "y" || event.shiftKey ? 1 : -1);
      return;
    }
    if (target === byId("source") && key === "Escape") target.blur();
    if (isCommand || event.altKey || isTyping(target)) return;
    const act = this.signKey(event) || this.letterKey(key);
    if (!act) return;
    event.preventDefault();
    act();
  }

  /** Enter and the space bar press what stands in the drawing, as they press a button. */
  signKey({ key, target, shiftKey }) {
    const sign = key === "Enter" || key === " " ? target.closest("[data-offer],[data-plus]") : null;
    return sign && (() => sign.dispatchEvent(new MouseEvent("click", { bubbles: true, shiftKey })));
  }

  letterKey(key) {
    const { actions, playground } = this;
    const line = /^[1-9]$/.test(key) && playground.canClick ? playground.offers.numbered[+key - 1] : null;
    if (line) return () => actions.add(line);
    return { u: () => actions.cut(), r: () => byId("rest").click(), c: () => byId("check").click(),
      j: () => byId("judge").click(), k: () => byId("keep").click(), e: () => byId("source").focus() }[key];
  }
}

const isUndo = key => key.toLowerCase() === "z" || key === "y";
const isTyping = target => target.closest("textarea,input,select") !== null && target.type !== "range" &&
  target.type !== "checkbox";

/** The signs of a frame that may be taken, in the diagram and in the list, are marked together. */
function markFrame(target, isOn) {
  const key = target.closest && target.closest("[data-put]")?.dataset.put;
  if (key) document.querySelectorAll(`[data-put="${key}"]`).forEach(element => element.classList.toggle("over", isOn));
}
