// @ts-check
// A chapter of the lesson: its commands run in this page, and its texts open in the playground beside.
import { ask } from "./server.js";
import { listenToTheme } from "./theme.js";

const byId = (/** @type {string} */ id) => /** @type {HTMLElement} */ (document.getElementById(id));

/** What the commands of a line print, each of what the one before it printed. */
async function printed(/** @type {string[]} */ steps, /** @type {string} */ text) {
  let told = { status: 0, output: text, error: "" };
  for (const step of steps) {
    told = await ask(step, told.output);
    if (told.error) return told.output + told.error;
  }
  return told.output;
}

/** Runs the command of a block, and shows what it prints below what the chapter says that it prints. */
async function run(/** @type {HTMLElement} */ block) {
  const { steps = "", text = "" } = block.dataset;
  const told = await printed(steps.split(" "), text);
  const shown = block.querySelector(".printed") || block.appendChild(document.createElement("pre"));
  shown.className = "printed";
  shown.textContent = told;
}

listenToTheme();
for (const block of /** @type {NodeListOf<HTMLElement>} */ (document.querySelectorAll("[data-steps]"))) {
  /** @type {HTMLElement} */ (block.querySelector("button")).onclick = () => run(block);
}
byId("chapters").onchange = ({ target }) => location.href = /** @type {HTMLSelectElement} */ (target).value;
byId("text").addEventListener("click", ({ target }) => {
  if (/** @type {Element} */ (target).closest(".beside")) byId("run").scrollIntoView({ block: "nearest" });
});
