// @ts-check
// The names of the exercises that were solved, which the browser keeps.

const KEPT = "tellwydar exercises";

/** @returns {Set<string>} */
export function keptNames() {
  try {
    return new Set(JSON.parse(localStorage.getItem(KEPT) || "[]"));
  } catch {
    return new Set(); // what is kept isn't ours, or nothing may be kept
  }
}

/** @param {Set<string>} names */
export function keepNames(names) {
  try {
    localStorage.setItem(KEPT, JSON.stringify([...names]));
  } catch { /* then they are forgotten with the page */ }
}
