// @ts-check
// Who answers the page where there is no server: the proved programs in this folder, in a thread of their own. What
// playground/js/server.js exports stands here, too.

const SECONDS = 10;
const STOPPED = { status: -1, output: "", error: `stopped: a run has ${SECONDS} s, 1 GB and 32 MB of output` };

/** @typedef {{status: number, output: string, error: string}} Answer */
/** @typedef {{id: number, command: string, text: string, tell: (answer: Answer) => void}} Request */

/** @type {Request[]} */
const queue = [];
/** @type {Worker | null} */
let worker = null;
/** @type {Request | null} */
let underWay = null;
let timer = 0, count = 0;

function begin() {
  const begun = new Worker(new URL("worker.js", import.meta.url), { type: "module" });
  begun.onmessage = ({ data }) => {
    if (data.id === underWay?.id) done(data.answer);
  };
  begun.onerror = event => underWay && stop({ ...STOPPED, error: `stopped: ${event.message || "no worker"}` });
  return begun;
}

/** Ends the run that is under way, and its thread with it: the next run has a new one. @param {Answer} answer */
function stop(answer) {
  worker?.terminate();
  worker = null;
  done(answer);
}

/** @param {Answer} answer */
function done(answer) {
  clearTimeout(timer);
  const ended = underWay;
  underWay = null;
  ended?.tell(answer);
  go();
}

/** Ends the run that is under way, and those that wait for it. */
export function stopRuns() {
  const stopped = { status: -1, output: "", error: "stopped" };
  for (const { tell } of queue.splice(0)) tell(stopped);
  if (underWay) stop(stopped);
}

function go() {
  if (underWay) return;
  const next = queue.shift();
  if (!next) return;
  worker ??= begin();
  underWay = next;
  timer = setTimeout(() => stop(STOPPED), SECONDS * 1000);
  worker.postMessage({ id: next.id, command: next.command, text: next.text });
}

/** What a command makes of a text, after those that were asked for before. @returns {Promise<Answer>} */
export function ask(/** @type {string} */ command, /** @type {string} */ text) {
  return new Promise(tell => {
    queue.push({ id: ++count, command, text, tell });
    go();
  });
}

/** A list: the examples, the exercises; nothing is given on a command line. */
export const list = async name =>
  name === "given" ? "" : (await fetch(new URL(`../../lists/${name}.json`, import.meta.url))).json();

/** Whether a schedule can be run under the table of a front end that has no name. */
export const RUNS_TABLES = true;

export const NO_ANSWER = "The page's own files don't answer.";
