// The linearization points: in the lane of the one memory, and on the bars of their operations.
import { isUpdate } from "./run.js";
import { barTop, shortAnswer, textWidth } from "./layout.js";
import { hue, svg } from "./elements.js";

const diamond = (key, x, top, size) => svg("path", { class: "diamond", "data-op": key,
  d: `M${x} ${top}l${size} ${size}l${-size} ${size}l${-size} ${-size}Z` });

/**
 * Each point in the lane of the one memory and on its bar, the event at which it stands in the order, and the plumb
 * line between both.
 */
export function drawPoints(places) {
  const { run, roomy, xs } = places, lane = roomy ? 22 : 13, size = roomy ? 9 : 4.5, small = roomy ? 6 : 3.5;
  const atEvent = new Map();
  for (const { at } of run.points) atEvent.set(at, (atEvent.get(at) || 0) + 1);
  const had = new Map();
  return run.points.map(({ op, at }, place) => {
    const nth = had.get(at) || 0;
    had.set(at, nth + 1);
    const x = xs[at] + (nth - (atEvent.get(at) - 1) / 2) * (roomy ? 17 : 6),
      bar = barTop(places, op.process) + (roomy ? 3.5 : 2);
    const since = isUpdate(op) ? at : op.answer.at; // a read stands in the order once it is answered
    const group = svg("g", { class: `ev ${hue(op.process)}`, "data-ev": since },
      diamond(op.key, x, lane - size, size), diamond(op.key, xs[at], bar - small, small));
    if (roomy) {
      group.append(svg("text", { class: "rank", x, y: lane + 3.5 }, String(op.first.place)));
      const label = op.wrote ? `${op.register}=${op.value}` : shortAnswer(op.answer ? op.answer.text : "");
      const next = run.points[place + 1], space = next ? xs[next.at] - x - (next.at === at ? 0 : 30) : 99;
      const text = { class: "halo lane", x: x + 13, y: lane + 4, "data-op": op.key };
      if (textWidth(label) < space) group.append(svg("text", text, label));
    }
    return { since, group, plumb: svg("line", { class: "plumb", x1: x, y1: lane + size, x2: xs[at], y2: bar - 6 }) };
  });
}

