// What the pages are to those who use no pointer, hear a page read or see little: each control has a name and is
// reached by Tab, each picture has a text, and each text has contrast, in both themes. What is still to come of a run
// is drawn faint on purpose, and what is disabled too: neither is measured.
import assert from "node:assert/strict";
import { execFileSync } from "node:child_process";
import { mkdtempSync, readFileSync, rmSync, writeFileSync } from "node:fs";
import { tmpdir } from "node:os";
import { join } from "node:path";
import { pathToFileURL } from "node:url";
import { example, fragment, schedule, serveFolder } from "./session.mjs";
import { made, TOP } from "../../tools/programs.mjs";

/** What is wrong with the frame of a page: its language, its headings, its order of Tab, its pictures. */
const FRAME = `(() => {
  const seen = element => element.checkVisibility({ visibilityProperty: true, opacityProperty: true });
  const told = element => element.outerHTML.slice(0, 160), all = form => [...document.querySelectorAll(form)];
  const headings = all("h1").filter(seen), faults = [];
  if (!/^[a-z]{2}$/.test(document.documentElement.lang)) faults.push("no language");
  if (headings.length !== 1) faults.push(headings.length + " headings of the first level");
  if (!document.title) faults.push("no title");
  for (const one of all("[tabindex]").filter(one => one.tabIndex > 0)) faults.push("a place in Tab: " + told(one));
  for (const one of all("img,svg,iframe").filter(seen)) {
    if (one.closest("[aria-hidden=true]") || one.parentElement.closest("svg")) continue;
    const text = one.alt || one.title?.baseVal || one.title || one.getAttribute("aria-label") ||
      one.getAttribute("aria-labelledby") || one.querySelector(":scope > title")?.textContent;
    if (!text) faults.push("no text: " + told(one));
  }
  return faults;
})()`;

/** Notes the controls that can be pressed or typed into, and tells their number. */
const CONTROLS = `(() => {
  const form = "a[href],button,input,select,textarea,summary,[role=button],[role=menuitem],[tabindex='0']";
  const isOpen = one => one.checkVisibility({ visibilityProperty: true }) && !one.matches(":disabled");
  window.controls = [...document.querySelectorAll(form)].filter(isOpen);
  window.reached = new Set();
  document.activeElement.blur();
  return controls.length;
})()`;
const REACH = "reached.add(document.activeElement).size";
const UNREACHED = "controls.filter(one => !reached.has(one)).map(one => one.outerHTML.slice(0, 160))";

/** The texts with too little contrast against what is painted below them, and how many texts were measured. */
const CONTRAST = `(() => {
  const canvas = Object.assign(document.createElement("canvas"), { width: 1, height: 1 });
  const pen = canvas.getContext("2d", { willReadFrequently: true }), known = new Map();
  function rgba(colour) {
    if (!known.has(colour)) {
      pen.clearRect(0, 0, 1, 1);
      pen.fillStyle = colour;
      pen.fillRect(0, 0, 1, 1);
      const [r, g, b, a] = pen.getImageData(0, 0, 1, 1).data;
      known.set(colour, [r, g, b, a / 255]);
    }
    return known.get(colour);
  }
  const over = ([r, g, b, a], below) => [...[r, g, b].map((v, i) => v * a + below[i] * (1 - a)), 1];
  const faded = ([r, g, b, a], by) => [r, g, b, a * by];
  const linear = v => v <= .04045 ? v / 12.92 : ((v + .055) / 1.055) ** 2.4;
  const light = rgb => [.2126, .7152, .0722].reduce((sum, part, i) => sum + part * linear(rgb[i] / 255), 0);
  const ratio = (a, b) => (Math.max(light(a), light(b)) + .05) / (Math.min(light(a), light(b)) + .05);
  const opacity = one => one ? +getComputedStyle(one).opacity * opacity(one.parentElement) : 1;
  const isShape = one => one instanceof SVGElement;
  const paint = one => {
    const style = getComputedStyle(one);
    if (!isShape(one)) return rgba(style.backgroundColor);
    if (one.localName === "svg" || style.fill === "none") return [0, 0, 0, 0];
    return faded(rgba(style.fill), style.fillOpacity * style.opacity);
  };
  /** What is painted below a text, from the top down: in HTML its ancestors, in a drawing the shapes at its place. */
  function below(one) {
    if (!isShape(one)) {
      const found = [];
      for (let at = one; at; at = at.parentElement) found.push(at);
      return found;
    }
    one.scrollIntoView({ block: "center", inline: "center", behavior: "instant" });
    const { left, top, width, height } = one.getBoundingClientRect();
    const found = document.elementsFromPoint(left + width / 2, top + height / 2);
    const own = found.indexOf(one);
    return own < 0 ? null : found.slice(own + 1);
  }
  function backgroundOf(one) {
    const layers = below(one);
    if (!layers) return null;
    let base = [255, 255, 255, 1];
    for (const layer of layers.reverse()) base = over(paint(layer), base);
    const style = getComputedStyle(one), hasHalo = isShape(one) && /^stroke/.test(style.paintOrder);
    return hasHalo && style.stroke !== "none" ? over(rgba(style.stroke), base) : base;
  }
  const sheet = new CSSStyleSheet();
  sheet.replaceSync("svg * { pointer-events: visiblePainted !important }" +
    ".veil, .hit { pointer-events: none !important }");
  document.adoptedStyleSheets = [...document.adoptedStyleSheets, sheet];
  const isTold = one => [...one.childNodes].some(node => node.nodeType === 3 && node.data.trim());
  const isMeant = one => one.checkVisibility({ visibilityProperty: true, opacityProperty: true }) && isTold(one) &&
    !one.closest(":disabled,.future,title,desc,style,script,noscript,option") && one.getClientRects().length;
  const faults = new Map();
  let measured = 0;
  for (const one of [...document.body.querySelectorAll("*")].filter(isMeant)) {
    const style = getComputedStyle(one), base = backgroundOf(one), size = parseFloat(style.fontSize);
    if (!base) continue;
    measured++;
    const ink = over(faded(rgba(isShape(one) ? style.fill : style.color), opacity(one)), base);
    const least = size >= 24 || size >= 18.66 && style.fontWeight >= 700 ? 3 : 4.5, found = ratio(ink, base);
    if (found < least) faults.set(one.localName + "." + one.getAttribute("class"), found.toFixed(2) + ": " +
      one.outerHTML.slice(0, 160));
  }
  document.adoptedStyleSheets = document.adoptedStyleSheets.filter(one => one !== sheet);
  return { measured, faults: [...faults.values()] };
})()`;

/** What can have the focus, and has no name for those who hear it. */
async function nameless(browser) {
  const { nodes } = await browser.send("Accessibility.getFullAXTree"), found = [];
  const isFocusable = ({ properties = [] }) => properties.some(({ name }) => name === "focusable");
  for (const node of nodes) {
    if (node.ignored || !isFocusable(node) || node.role.value === "RootWebArea" || node.name?.value.trim()) continue;
    const { node: { nodeName, attributes = [] } } = await browser.send("DOM.describeNode",
      { backendNodeId: node.backendDOMNodeId });
    found.push(`no name: ${node.role.value} ${nodeName} ${attributes.join(" ").slice(0, 120)}`);
  }
  return found;
}

/** What Tab doesn't come to. */
async function unreached(browser) {
  const count = await browser.value(CONTROLS);
  for (let i = 0; i < count + 8; i++) {
    await browser.press("Tab");
    await browser.value(REACH);
  }
  return (await browser.value(UNREACHED)).map(text => "Tab doesn't come to it: " + text);
}

/** What is wrong with a page as it stands. */
async function faultsOf(browser) {
  const faults = [...await browser.value(FRAME), ...await nameless(browser)];
  for (const theme of ["light", "dark"]) {
    await browser.size(1440, 940, theme === "dark");
    const { measured, faults: faint } = await browser.value(CONTRAST);
    assert.ok(measured > 0, "no text was measured");
    faults.push(...faint.map(fault => `${theme}: ${fault}`));
  }
  await browser.size(1440, 940);
  return [...faults, ...await unreached(browser)];
}

async function look(browser) {
  assert.equal((await faultsOf(browser)).join("\n"), "");
}

/** A page with a fault of each kind. Of the two greys #777777 has a contrast of 4.48, and #767676 one of 4.54. */
const WRONG = `<!doctype html><html><body style="background:#fff"><h1>One</h1><h1>Two</h1><p style="color:#777777">a</p>
<p style="color:#767676">b</p><button></button><button tabindex="3">c</button><a href="#" tabindex="-1">d</a><img
src="data:,"><svg width="9" height="9"></svg><svg width="90" height="40"><rect width="90" height="40" fill="#777777"/>
<text x="9" y="20" fill="#ffffff">e</text></svg></body></html>`;
const FOUND = ["no language", "2 headings of the first level", "no title", "a place in Tab: <button", "no text: <img",
  "no text: <svg", "no text: <svg", "no name: button", "light: 4.48: <p", "light: 4.48: <text", "dark: 4.48: <p",
  "dark: 4.48: <text", "Tab doesn't come to it: <a"];

function triesOfFaults({ browser }) {
  return {
    async "for all: a fault of each kind is found"() {
      await browser.open("data:text/html," + encodeURIComponent(WRONG));
      const found = await faultsOf(browser);
      assert.deepEqual(found.map((fault, i) => fault.slice(0, FOUND[i]?.length)), FOUND);
    },
  };
}

/** The first page and the lesson, in a folder; its first chapter without a playground, which would load the module. */
function laidOut(folder) {
  execFileSync(join(TOP, "tools", "web"), [folder, "--page"]);
  const chapter = join(folder, "lesson", "1.html"), text = readFileSync(chapter, "utf8");
  writeFileSync(chapter, text.replace(/src="\.\.\/playground\.html[^"]*"/, 'src="about:blank"'));
}

function triesOfFolder({ browser }, folder) {
  async function visit(path) {
    laidOut(folder);
    const { address, stop } = await serveFolder(folder);
    await browser.open(address + path);
    await look(browser);
    await browser.open("about:blank");
    stop();
  }
  return {
    "for all: the first page": () => visit("index.html"),
    "for all: a chapter of the lesson": () => visit("lesson/1.html"),
  };
}

function triesOfPlayground({ browser, session }) {
  const RUN = fragment(example("new-then-old.sched"));
  const states = {
    "a run": () => session.open(RUN),
    "a run with points, and the menu of a process": async () => {
      await session.open(fragment(example("two-writers.sched")));
      await browser.click('[data-plus="1"]');
    },
    "two runs": async () => {
      await session.open(RUN);
      await session.click("#keep");
      await session.retype(example("stale-read.sched"));
    },
    "the table of a front end": async () => {
      await session.open(RUN);
      await session.clickForOutput("#front");
      await browser.value(`(() => {
        const list = document.querySelector('[data-start="read 1"]');
        list.value = "look";
        list.dispatchEvent(new Event("change"));
      })()`);
    },
    "what a check says": async () => {
      await session.open(RUN);
      await session.clickForOutput("#check");
    },
    "a rule left out": async () => {
      await session.open("#broken=swap-waits");
      await browser.until("!document.getElementById('output').hidden");
    },
    "a text that is refused": async () => {
      await session.open(RUN);
      await session.retype(schedule(2, "linear", "call 0 write x 5", "take 1 0 0"));
    },
    "a workload and its outcomes": async () => {
      await session.open(fragment('front = "linear"\nregisters = ["x"]\nscripts = [["write x 1"], ["read x"]]\n'));
      await browser.click("#outcomes");
      await browser.until("!document.getElementById('output').hidden", 60);
    },
    "a report": () => session.open(fragment(example("stale-linear.report"))),
    "an exercise": () => session.open("#exercise=08-the-lock"),
  };
  return Object.fromEntries(Object.entries(states).map(([name, reach]) => ["for all: the playground, " + name,
    async () => {
      await reach();
      await look(browser);
    }]));
}

function triesOfFiles({ browser }, folder) {
  async function visit(name, text, hash) {
    const path = join(folder, name);
    writeFileSync(path, text);
    await browser.open("about:blank");
    await browser.open(pathToFileURL(path).href + hash);
    await look(browser);
  }
  const data = name => made("awshow", ["data"], example(name)).output;
  const joined = (form, input) => execFileSync(join(TOP, "tools", "page"), [form], { encoding: "utf8", input });
  const page = name => joined("--html", data(name));
  const pair = (...names) => joined("--pair", `{"names":["A","B"],"runs":[${names.map(data).join(",")}]}`);
  return {
    "for all: a run's page": () => visit("stale-read.html", page("stale-read.sched"), "#event=5"),
    "for all: a run's page with points": () => visit("two-writers.html", page("two-writers.sched"), "#event=4"),
    "for all: the page of two runs": () => visit("pair.html", pair("stale-read.sched", "new-then-old.sched"), ""),
    async "for all: each slide"() {
      await browser.open(pathToFileURL(join(TOP, "docs", "slides", "slides.html")).href);
      const count = await browser.value("document.querySelectorAll('section').length");
      for (let slide = 0; slide < count; slide++) {
        await look(browser);
        await browser.press("ArrowRight");
      }
    },
  };
}

/** A try for each page, in Chromium, which tells the names that it gives to what is read. */
export function triesOfAll(context) {
  if (context.browser.untried) return {};
  const folder = mkdtempSync(join(tmpdir(), "for-all-"));
  process.on("exit", () => rmSync(folder, { recursive: true, force: true }));
  return { ...triesOfFaults(context), ...triesOfFolder(context, folder), ...triesOfPlayground(context),
    ...triesOfFiles(context, folder) };
}
