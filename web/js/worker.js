// Runs one command after another, off the page's own thread.
import { Engine } from "./engine.js";
import { NARROW, isWide } from "./wide.js";

async function load() {
  if (!isWide()) throw new Error(NARROW);
  const answer = await fetch(new URL("../tellwydar.wasm", import.meta.url));
  if (!answer.ok) throw new Error("The programs' module is not beside this page.");
  // It is compiled while it loads, if the server says what it is.
  const isNamed = answer.headers.get("Content-Type") === "application/wasm";
  return new Engine(await (isNamed ? WebAssembly.compileStreaming(answer) :
    WebAssembly.compile(await answer.arrayBuffer())));
}

const engine = load();
engine.catch(() => {}); // each command tells it

const NONE = { status: 1, output: "" };

async function answerOf(command, text) {
  const bytes = new TextEncoder().encode(text), decoded = told => new TextDecoder().decode(told);
  const ready = await engine;
  if (!ready.has(command)) return { ...NONE, error: "not in this page: the programs themselves have it\n" };
  const { status, output, error } = ready.run(command, bytes);
  return { status, output: decoded(output), error: decoded(error) };
}

onmessage = async ({ data: { id, command, text } }) => {
  const stopped = error => ({ status: -1, output: "", error: String(error?.message ?? error) });
  postMessage({ id, answer: await answerOf(command, text).catch(stopped) });
};
