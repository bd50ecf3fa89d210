// The package in Node, by `require` and by `import`.

import assert from "node:assert/strict";
import { spawnSync } from "node:child_process";
import { X509Certificate } from "node:crypto";
import { readFileSync } from "node:fs";
import { createRequire } from "node:module";
import { test } from "node:test";
import * as imported from "cimaroly";
import * as entry from "../cimaroly.mjs";
import { DATA, pathOf, sample, table } from "./data.mjs";

const required = createRequire(import.meta.url)("cimaroly");

// What the types say that the package has.
function declared() {
  const types = readFileSync(pathOf("web/cimaroly.d.ts"), "utf-8");
  return Array.from(types.matchAll(/^export (?:class|const|function) (\w+)/gm), ([, name]) => name).sort();
}

test("each way of loading gives the names that the types have", () => {
  assert.deepEqual(Object.keys(required).sort(), declared());
  assert.deepEqual(Object.keys(imported).sort(), declared());
  assert.deepEqual(Object.keys(entry).sort(), declared());
});

test("what is required and what is imported is the same library", () => {
  for (const name of declared()) assert.equal(imported[name], required[name], name);
});

// In a fresh process, without the loader of ES modules where it can be turned off.
function printed(program) {
  const option = "--no-experimental-require-module";
  const words = process.allowedNodeEnvironmentFlags.has("--experimental-require-module") ? [option] : [];
  const { stdout, stderr } = spawnSync(process.execPath, [...words, "-e", program], { cwd: pathOf("web"), encoding: "utf-8" });
  return stdout + stderr;
}

test("a script that requires it has its answers at once", () => {
  const file = JSON.stringify(`${DATA}/deviation_1_rsa_parameters.pem`);
  const program = `
    const { read } = require("cimaroly");
    const { deviations } = read(require("node:fs").readFileSync(${file}));
    for (const { name, start, end } of deviations) console.log(name, start, end);`;
  assert.equal(printed(program), "RSA parameters absent 13 26\nRSA parameters absent 106 119\n");
});

test("digests are taken where WebCrypto is in a module alone, as in Node 18", () => {
  const file = JSON.stringify(`${DATA}/certificate_ed25519.pem`);
  const program = (front) => `
    Object.defineProperty(globalThis, "crypto", { value: undefined });
    const bytes = require("node:fs").readFileSync(${file});
    const { read } = require("cimaroly");
    ${front}
    read(bytes).fingerprint("SHA-1").then(console.log, (error) => console.log(error.message));`;
  const { fingerprint } = new X509Certificate(sample("certificate_ed25519.pem"));
  assert.equal(printed(program("")).trim(), fingerprint.replaceAll(":", "").toLowerCase());
  const without = `Object.defineProperty(globalThis, "process", { value: undefined });`;
  assert.match(printed(program(without)), /^there is no WebCrypto here/);
});

test("an algorithm that WebCrypto doesn't have is refused", async () => {
  await assert.rejects(required.read(sample("certificate_rsa.pem")).fingerprint("MD5"), { name: "NotSupportedError" });
});

test("what is required has the values that are imported", async () => {
  const [one, two] = [imported, required].map(({ read }) => read(sample("certificate_rsa.pem")));
  for (const it of ["serialNumber", "notAfter", "version", "keyUsage", "isCa", "pathLength"]) assert.deepEqual(one[it], two[it], it);
  assert.equal(String(one.subject), String(two.subject));
  assert.equal(await one.publicKey.pin(), await two.publicKey.pin());
  assert.equal(two.matchesHost("www.example.org"), true);
});

test("a refusal that is thrown by one is caught by the other", () => {
  const bytes = sample("refused_month_13.pem");
  const field = "tbsCertificate.validity.notBefore";
  for (const { read } of [imported, required]) {
    assert.throws(() => read(bytes), (error) => error instanceof imported.Refused && error instanceof required.Refused);
    assert.throws(() => read(bytes), { field, at: 26, kind: "certificate" });
  }
});

test("what is required answers the table of all bindings", () => {
  for (const { input, kind, result, deviations, name } of table()) {
    if (!/^([0-9a-f]{2})*$/.test(input)) continue;
    const der = Buffer.from(input, "hex");
    if (result === "refused") {
      assert.throws(() => required.check(der, kind), required.Refused, name);
      continue;
    }
    const found = required.check(der, kind).deviations.map((it) => `${it.number}@${it.start}..${it.end}`);
    assert.equal(found.join(" ") || "-", deviations, name);
  }
});
