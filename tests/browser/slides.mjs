// The slides that tools/slides makes: they are turned by keys, fit the screen, and can be read from the last row.
import assert from "node:assert/strict";
import { readFileSync } from "node:fs";
import { join } from "node:path";
import { pathToFileURL } from "node:url";
import { TOP } from "../../tools/programs.mjs";

const folder = join(TOP, "docs", "slides"), LEAST_LETTERS = 24;
const DRAWN_LETTERS = 12; // of a drawing at its own size
const source = readFileSync(join(folder, "slides.md"), "utf8"), drawings = source.match(/^!\[/gm).length;
const headings = source.match(/^# .*$/gm).map(line => line.slice(2).replace(/ \{.*\}$/, ""));

/**
 * The slide that is shown: its heading, its smallest letters, how much larger its drawings are than at their own size,
 * and by how much it is higher or wider than the screen.
 */
const SLIDE = `(() => {
  const slide = document.querySelector(".now"), parts = [...slide.querySelectorAll("*")];
  const sizes = parts.filter(part => [...part.childNodes].some(node => node.nodeType === 3 && node.data.trim()) &&
    part.tagName !== "FIGCAPTION").map(part => parseFloat(getComputedStyle(part).fontSize));
  const { scrollHeight, scrollWidth } = document.documentElement;
  const inner = parts.map(part => part.scrollWidth - part.clientWidth).filter((_, i) => parts[i].tagName === "PRE");
  return { heading: slide.querySelector("h1").textContent, letters: Math.min(...sizes),
    drawings: parts.filter(part => part.tagName === "IMG" && part.alt).map(part =>
      Math.min(part.clientWidth / part.naturalWidth, part.clientHeight / part.naturalHeight)),
    over: Math.max(scrollHeight - innerHeight, scrollWidth - innerWidth, ...inner) };
})()`;

export function triesOfSlides({ browser, shots }) {
  return {
    async "the slides, turned by keys on two screens"() {
      for (const [width, height] of [[1280, 720], [1920, 1080]]) {
        await browser.size(width, height);
        await browser.open("about:blank");
        await browser.open(pathToFileURL(join(folder, "slides.html")).href);
        const drawn = [];
        for (const heading of headings) {
          const told = await browser.value(SLIDE), where = `${heading}, ${width}`;
          assert.equal(told.heading, heading);
          assert.ok(told.letters >= LEAST_LETTERS, `${where}: letters of ${told.letters}`);
          assert.ok(told.over <= 0, `${where}: ${told.over} over the edge`);
          for (const scale of told.drawings) drawn.push({ where, letters: scale * DRAWN_LETTERS });
          if (shots) await browser.picture(join(shots, `slide-${width}-${headings.indexOf(heading) + 1}.png`));
          await browser.press("ArrowRight");
        }
        // where a screen is lower, what a drawing says is for those in front, and for whoever has the page
        const small = height < 1080 ? [] : drawn.filter(({ letters }) => letters < LEAST_LETTERS);
        assert.deepEqual([drawn.length, small], [drawings, []]);
        await browser.press("Home");
        assert.equal((await browser.value(SLIDE)).heading, headings[0]);
        await browser.press("End");
        await browser.press("ArrowLeft");
        assert.equal((await browser.value(SLIDE)).heading, headings.at(-2));
      }
      await browser.size(1440, 940);
    },
  };
}
