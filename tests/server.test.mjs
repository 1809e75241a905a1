// The playground's server: who may ask it for what, and what a run may take. Run by `node --test tests`.
import { after, test } from "node:test";
import assert from "node:assert/strict";
import { chmodSync, mkdtempSync, rmSync, writeFileSync } from "node:fs";
import { request } from "node:http";
import { tmpdir } from "node:os";
import { join } from "node:path";
import { example, startServer } from "./browser/session.mjs";

const server = await startServer();
const { host, port, origin } = new URL(server.address);
const WRITERS = example("two-writers.sched");
after(server.stop);

/** The status and the body of the answer to a request with just these headers. */
const asked = (method, path, headers, body = "") => new Promise((found, failed) => {
  const sent = request({ host: "127.0.0.1", port, method, path, headers, setHost: false }, answer => {
    let told = "";
    answer.on("data", part => told += part);
    answer.on("end", () => found({ status: answer.statusCode, headers: answer.headers, body: told }));
  });
  sent.on("error", failed);
  sent.end(body);
});
const GOOD = { Host: host, Origin: origin, "Content-Type": "application/octet-stream", "Content-Length": 0 };
const statusOf = async (method, path, headers) => (await asked(method, path, headers)).status;

/** What a server makes of a text. */
const run = async (address, command, body) => (await fetch(address + "run/" + command, { method: "POST", body,
  headers: { Origin: address.slice(0, -1), "Content-Type": "application/octet-stream" } })).json();

test("its own page may ask for a run", async () => assert.equal(await statusOf("POST", "/run/why", GOOD), 200));

for (const [what, headers] of Object.entries({
  "another host": { Host: "evil.example" },
  "another host at its port": { Host: `evil.example:${port}` },
  "another origin": { Origin: "http://evil.example" },
  "an origin that is hidden": { Origin: "null" },
  "another port of this host": { Origin: "http://127.0.0.1:1" },
  "a form of another page": { "Content-Type": "text/plain" },
  "another site": { "Sec-Fetch-Site": "cross-site" },
  "another port's page of this site": { "Sec-Fetch-Site": "same-site" },
})) test(`${what} may not`, async () => assert.equal(await statusOf("POST", "/run/why", { ...GOOD, ...headers }), 403));

test("a run without an origin is refused, and so is a page of another host", async () => {
  const { Origin, ...without } = GOOD;
  assert.equal(await statusOf("POST", "/run/why", without), 403);
  assert.equal(await statusOf("GET", "/", { Host: "evil.example" }), 403);
});

test("there are no commands but its own", async () => {
  for (const command of ["rm", "why%20x", "../why", "why/", "why/1", "outcome", "outcome/", "outcome/1x", "outcome/%31",
    "__proto__", ""]) {
    assert.equal(await statusOf("POST", "/run/" + command, GOOD), 404, command);
  }
});

test("a length that is too great, or none, is refused before anything is read", async () => {
  assert.equal(await statusOf("POST", "/run/why", { ...GOOD, "Content-Length": (1 << 20) + 1 }), 413);
  assert.equal(await statusOf("POST", "/run/why", { ...GOOD, "Content-Length": "-1" }), 411);
});

test("no path leads out of its folders", async () => {
  for (const path of ["/page/js/../../tools/playground", "/../README.md", "/page/page.html", "//etc/passwd",
    "/playground/js/%2e%2e/index.html", "/examples/exercises/tries/04-the-shortest.solution"]) {
    assert.equal(await statusOf("GET", path, { Host: host }), 404, path);
  }
});

test("its page loads nothing from elsewhere, runs no script in the page, and is never kept", async () => {
  const { status, headers } = await asked("GET", "/", { Host: host });
  assert.equal(status, 200);
  assert.equal(headers["content-security-policy"], "default-src 'none'; script-src 'self'; style-src 'self'; " +
    "connect-src 'self'; img-src 'self' data:; base-uri 'none'; form-action 'none'; frame-ancestors 'none'; " +
    "require-trusted-types-for 'script'");
  assert.equal(headers["cache-control"], "no-store");
  assert.equal(headers["x-content-type-options"], "nosniff");
});

test("the exercises come without their solutions", async () => {
  const { body } = await asked("GET", "/exercises", { Host: host }), exercises = JSON.parse(body);
  assert.ok(exercises.length >= 10 && exercises.every(exercise => exercise.wants.length && !("solution" in exercise)));
});

test("many runs are answered, four at once", async () => {
  const answers = await Promise.all(Array.from({ length: 30 }, () => run(server.address, "why", WRITERS)));
  assert.ok(answers.every(({ status }) => status === 0));
});

/** A server over programs of a folder of their own, which do what a script says. */
async function serverOver(script) {
  const folder = mkdtempSync(join(tmpdir(), "programs-")), path = process.env.PATH;
  for (const name of ["awreg", "awshow"]) {
    writeFileSync(join(folder, name),
      `#!/usr/bin/python3\nimport sys, time\nword = sys.argv[1]\nsys.stdin.read()\n${script}`);
    chmodSync(join(folder, name), 0o755);
  }
  process.env.PATH = folder + ":" + path;
  const { address, stop } = await startServer();
  process.env.PATH = path;
  return { address, stop: () => {
    stop();
    rmSync(folder, { recursive: true });
  } };
}

test("a run that takes too long, too much memory or too much room is stopped, while others are answered", async t => {
  const hungry = await serverOver(`if word == "outcomes":
    time.sleep(60)
elif word == "data":
    held = bytearray(2 << 30)
elif word == "draw":
    for _ in range(60):
        sys.stdout.write("x" * (1 << 20))
else:
    print("well")
`);
  t.after(hungry.stop);
  const start = Date.now(), long = run(hungry.address, "outcomes", "");
  assert.deepEqual(await run(hungry.address, "why", ""), { status: 0, output: "well\n", error: "" });
  assert.ok(Date.now() - start < 5000);
  assert.notEqual((await run(hungry.address, "data", "")).status, 0);
  assert.match((await run(hungry.address, "draw", "")).error, /File too large|^stopped: /);
  const { status, error } = await long, seconds = (Date.now() - start) / 1000;
  assert.ok(status < 0 && /^stopped: /.test(error) && seconds > 9 && seconds < 14, `${status} ${error} ${seconds} s`);
});
