// What the playground may begin with: an example, an exercise, or the text of an address.
import { byId, html } from "../../page/js/elements.js";
import { showBroken } from "./broken.js";
import { textOf } from "./links.js";
import { headOfSchedule } from "./texts.js";
import { variantOf } from "./variants.js";

export const START = headOfSchedule(2, "x", "linear");
const option = (value, text, title = null) => html("option", { value, title }, text);

export class Choices {
  /** @param {import("./playground.js").Playground} playground */
  constructor(playground, examples, exercises) {
    this.playground = playground;
    this.examples = examples;
    this.given = exercises;
    this.exercises = exercises; // those given, or their variants
    playground.exercise.onChoose = name => this.chooseExercise(name);
    playground.exercise.onSolved = () => this.fillExercises();
    this.fillExamples();
    this.fillExercises();
    byId("examples").onchange = ({ target }) => this.chooseExample(target.value);
    byId("exercises").onchange = ({ target }) => this.chooseExercise(target.value);
    addEventListener("hashchange", () => this.readAddress());
  }

  fillExamples() {
    const groups = [...new Set(this.examples.map(({ group }) => group))];
    const optionsOf = group => this.examples.map((example, i) =>
      example.group === group ? option(i, example.name, example.title) : null);
    byId("examples").replaceChildren(option("", "choose \u2026"), option("new", "empty: two processes"),
      ...groups.map(group => html("optgroup", { label: group }, optionsOf(group))));
  }

  /** The exercises, of which those that were solved are marked. */
  fillExercises() {
    const list = byId("exercises"), chosen = list.value, { solved } = this.playground.exercise;
    list.replaceChildren(option("", "none"), ...this.exercises.map(({ name, title }, i) =>
      option(name, `${i + 1}. ${title}` + (solved.has(name) ? " \u2713" : ""))));
    list.value = chosen;
  }

  async chooseExample(value) {
    if (value === "") return;
    const example = value === "new" ? { text: START } : this.examples[+value];
    await this.begin(example.text);
    byId("examples").value = value;
    if (example.report) await showBroken(example);
  }

  /** The stored run of a program that lacks a rule, by its folder, with its section of docs/BREAK_IT.md. */
  brokenBy(folder) {
    const value = this.examples.findIndex(({ name, report }) => report && name === folder.replaceAll("-", " "));
    const example = this.examples[value];
    return example && { example, value: String(value),
      section: this.examples.filter(({ report }) => report).indexOf(example) + 1 };
  }

  async chooseExercise(name) {
    const { exercise, editor } = this.playground, known = this.exercises.find(one => one.name === name);
    await this.begin(known ? known.start : editor.text, { exercise: name });
    byId("exercises").value = exercise.name;
  }

  /** Sets an exercise, and has all of them in the variants by the seed of an address, if it has one. */
  chooseVariant(name, address) {
    const seed = address.get("variant") || "";
    this.exercises = this.given.map(exercise => variantOf(exercise, seed));
    this.playground.exercise.list = this.exercises;
    return this.chooseExercise(name);
  }

  /** Begins with a text, and with an exercise or none. */
  async begin(text, { exercise = "", at = Infinity } = {}) {
    const { playground } = this;
    document.body.dataset.state = "asking";
    await playground.exercise.choose(exercise);
    byId("exercises").value = exercise;
    byId("examples").value = "";
    byId("output").hidden = true;
    playground.lost.clear();
    playground.run = null; // the last good run is one of another text
    await playground.setText(text, { at, table: null });
  }

  /** Whether the address has a text or an exercise, with which the playground then begins. */
  async readAddress() {
    const text = textOf(location.hash), theme = /theme=(dark|light)/.exec(location.hash);
    const exercise = /exercise=([\w-]+)/.exec(location.hash);
    if (theme) this.playground.theme.choose(theme[1]);
    const event = /[#&]event=(start|\d+)/.exec(location.hash);
    const broken = this.brokenBy(/[#&]broken=([\w-]+)/.exec(location.hash)?.[1] || "");
    if (text !== null) await this.begin(text, { at: !event ? Infinity : event[1] === "start" ? -1 : +event[1] });
    else if (exercise) await this.chooseVariant(exercise[1], new URLSearchParams(location.hash.slice(1)));
    else if (broken) await this.chooseExample(broken.value);
    return Boolean(text !== null || exercise || broken);
  }
}
