// Stepping through a run: what the pages of all examples and the playground have in common.

const ODD = "/undefined|NaN|\\[object|(^|\\n)null(\\n|$)/.exec(document.body.innerText)?.[0]";

/** A piece of text that no page should show, or nothing. */
export const oddText = browser => browser.value(ODD);

/** Moves the slider from the last event to the first; gives the first event with odd text, and the text. */
export const slide = browser => browser.value(`(() => {
  const slider = document.getElementById("slider");
  for (let k = +slider.max; k >= -1; k--) {
    slider.value = k;
    slider.dispatchEvent(new Event("input"));
    const odd = ${ODD};
    if (odd) return k + ": " + odd;
  }
  return null;
})()`);

/** Points at each part of the drawing that tells something; gives odd text. */
export const hover = browser => browser.value(`(() => {
  const parts = document.querySelectorAll("#inner [data-op],#inner [data-frame],#inner [data-lost]");
  for (const part of parts) part.dispatchEvent(new MouseEvent("mouseover",
    { bubbles: true, clientX: 200, clientY: 200 }));
  return ${ODD};
})()`);
