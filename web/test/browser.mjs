// The page in Chromium: what is shown, what lights up, and that nothing in an input does harm. Its last line is
// 'N passed, M failed'.
//
// usage: node web/test/browser.mjs

import assert from "node:assert/strict";
import { spawn } from "node:child_process";
import { mkdirSync, writeFileSync } from "node:fs";
import { Browser } from "./chromium.mjs";
import { pathOf } from "./data.mjs";
import { checks as pageChecks } from "./browser_checks.mjs";
import { makeChecks } from "./make_checks.mjs";
import { useChecks } from "./use_checks.mjs";

const OUT = pathOf("web/out");
const checks = [...pageChecks, ...useChecks, ...makeChecks];

// The address of web/ by the server of python3, as README has it.
async function serve() {
  const words = ["-u", "-m", "http.server", "--bind", "127.0.0.1", "--directory", pathOf("web"), "0"];
  const server = spawn("python3", words, { stdio: ["ignore", "pipe", "ignore"] });
  const line = await new Promise((resolve, reject) => {
    server.stdout.once("data", (data) => resolve(String(data)));
    server.once("error", reject);
  });
  return { server, address: `http://127.0.0.1:${/port (\d+)/.exec(line)[1]}/` };
}

async function runAll(browser, address) {
  const keep = async (page, name, whole) => writeFileSync(`${OUT}/${name}.png`, await page.screenshot(whole));
  let failed = 0;
  for (const [name, check] of checks) {
    try {
      const said = await check({ browser, address, keep });
      console.log(`ok      ${name}${said ? `: ${said}` : ""}`);
    } catch (error) {
      failed += 1;
      console.log(`FAILED  ${name}\n${error.stack}`);
    }
  }
  return failed;
}

mkdirSync(OUT, { recursive: true });
assert.ok(checks.length > 0);
const { server, address } = await serve();
const browser = await Browser.start();
let failed = checks.length;
try {
  // (where the page doesn't load, none of it can be checked)
  const first = await browser.open(address);
  await first.close();
  failed = await runAll(browser, address);
} catch (error) {
  console.log(error.stack);
} finally {
  await browser.end();
  server.kill();
}
console.log(`${checks.length - failed} passed, ${failed} failed`);
process.exitCode = failed > 0 ? 1 : 0;
