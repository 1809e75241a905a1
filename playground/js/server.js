// @ts-check
// Who answers the page: tools/playground. A page with no server has another file in this one's place (web/js).
// The names of commands are those of COMMANDS in tools/playground.

/** @type {AbortController} */
let stopping = new AbortController();

/**
 * What a command makes of a text. A number may stand behind a command that takes one, as in "outcome 3".
 * @param {string} command @param {string} text @returns {Promise<{status: number, output: string, error: string}>}
 */
export async function ask(command, text) {
  const { signal } = stopping, isStopped = () => signal.aborted;
  try {
    const answer = await fetch("/run/" + command.replace(" ", "/"), {
      method: "POST", body: new Blob([text]), headers: { "Content-Type": "application/octet-stream" }, signal,
    });
    const told = await answer.json();
    return answer.ok ? told : { status: -1, output: "", error: told.error };
  } catch (fault) {
    if (isStopped()) return { status: -1, output: "", error: "stopped" };
    throw fault;
  }
}

/** Waits no more for the runs that are under way. */
export function stopRuns() {
  stopping.abort();
  stopping = new AbortController();
}

/** A list: the examples, the exercises, or the text that the page begins with. */
export const list = async name => (await fetch("/" + name)).json();

/** Whether a schedule can be run under the table of a front end that has no name. */
export const RUNS_TABLES = false;

export const NO_ANSWER = "The playground's server doesn't answer: is tools/playground still running?";
