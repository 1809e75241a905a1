// What happened at an event, and why, as elements.
import { html, shown } from "./elements.js";
import { storyOf } from "./sentences.js";

export function storyNodes(run, at) {
  const event = at >= 0 ? run.events[at] : null, story = storyOf(run, at);
  const title = event ? ["Event ", String(at), html("code", { class: "words" }, event.text)] :
    "Before the first event";
  return [html("h2", {}, title), html("p", { class: "lead" }, shown(run, story.lead)),
    event && event.note ? html("p", { class: "note" }, event.note) : "",
    html("ul", { class: "why" }, story.lines.map(({ word, tone, body }) =>
      html("li", { class: tone }, html("span", {}, word), html("div", {}, shown(run, body)))))];
}
