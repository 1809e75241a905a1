// @ts-check
// The page from which all others are reached: which exercises were solved here, and whether this browser has what the
// programs need.
import { keptNames } from "../../playground/js/kept.js";
import { listenToTheme } from "./theme.js";
import { NARROW, isWide } from "./wide.js";

listenToTheme();
const solved = keptNames(), exercises = [...document.querySelectorAll("#exercises [data-exercise]")];
const done = exercises.filter(exercise => solved.has(/** @type {HTMLElement} */ (exercise).dataset.exercise));
for (const exercise of done) exercise.classList.add("solved");
/** @type {HTMLElement} */ (document.getElementById("solved")).textContent =
  `${done.length} of ${exercises.length} solved`;
const fault = /** @type {HTMLElement} */ (document.getElementById("fault"));
if (!isWide()) {
  fault.textContent = NARROW;
  fault.hidden = false;
}
