// What is said while a program runs for long, with a button that stops it.
import { byId } from "../../page/js/elements.js";

const SOON = 700; // milliseconds without an answer: then it is said

let underWay = 0, since = 0, timer = 0;

function show() {
  byId("busy").hidden = false;
  byId("busy-for").textContent = `The program has run for ${Math.round((performance.now() - since) / 1000)} s`;
}

/** Waits for an answer, and says so if it takes long. @template T @param {Promise<T>} answer @returns {Promise<T>} */
export async function waiting(answer) {
  if (!globalThis.document) return answer;
  if (underWay++ === 0) {
    since = performance.now();
    timer = setTimeout(() => {
      show();
      timer = setInterval(show, 1000);
    }, SOON);
  }
  try {
    return await answer;
  } finally {
    if (--underWay === 0) {
      clearInterval(timer);
      byId("busy").hidden = true;
    }
  }
}
