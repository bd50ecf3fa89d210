// The rules that certificates and requests break, compared with what the program says of the same files.

import assert from "node:assert/strict";
import { createRequire } from "node:module";
import { test } from "node:test";
import * as cimaroly from "../cimaroly.mjs";
import { Entry } from "../page/entry.mjs";
import { headingOf } from "../page/findings.mjs";
import { structuresIn } from "../page/input.mjs";
import { RULES } from "../rules.mjs";
import { DATA, PROGRAM, SAMPLES, run, sample } from "./data.mjs";
import { BROKEN, FAULTY } from "./faulty.mjs";

const NOT_HERE = PROGRAM === null;
const { Refused, read } = cimaroly;

const placed = (findings) => findings.map(({ rule, start, end }) => [rule, start, end]);

test("each rule that is broken is told once, in order", () => {
  const certificate = read(FAULTY);
  assert.deepEqual(placed(certificate.findings), BROKEN);
  assert.equal(certificate.findings, certificate.findings);
  const [issuer] = certificate.findings;
  assert.deepEqual(certificate.bytes(issuer), Uint8Array.of(0x30, 0));
  const { start, end, ...told } = issuer;
  assert.deepEqual(told, RULES.find((it) => it.rule === "issuer-empty"));
  const warnings = certificate.findings.filter((it) => it.severity === "warning");
  assert.deepEqual(warnings.map((it) => it.rule), ["authority-without-signing"]);
});

test("what is required tells the same", () => {
  const required = createRequire(import.meta.url)("cimaroly");
  assert.deepEqual(required.read(FAULTY).findings, read(FAULTY).findings);
});

test("only certificates and requests have findings", () => {
  for (const name of SAMPLES.filter((it) => it.endsWith(".pem"))) {
    const [{ kind, bytes }] = structuresIn(sample(name));
    if (kind === null || bytes === undefined) continue;
    try {
      assert.equal(read(bytes, kind).findings !== undefined, ["certificate", "request"].includes(kind), name);
    } catch (error) {
      if (!(error instanceof Refused)) throw error;
    }
  }
  assert.equal(read(FAULTY, "certificate-outline").findings, undefined);
});

test("the rules are those of the program", { skip: NOT_HERE }, () => {
  const lines = run("lint", "--list", "--json").trimEnd().split("\n");
  assert.deepEqual(RULES, lines.map((it) => JSON.parse(it)));
});

test("findings are those of the program", { skip: NOT_HERE }, () => {
  let total = 0;
  for (const name of SAMPLES.filter((it) => it.endsWith(".pem"))) {
    const [line] = run("lint", "--json", `${DATA}/${name}`).split("\n");
    const told = line === "" ? {} : JSON.parse(line);
    if (told.findings === undefined) continue;
    const found = read(sample(name), told.type).findings;
    const stated = told.findings.map(({ at: [start, end], ...it }) => ({ ...it, start, end }));
    assert.deepEqual(found.map(({ reason, ...it }) => it), stated, name);
    total += found.length;
  }
  assert.ok(total > 10, String(total));
});

test("the page has findings of certificates and requests alone", () => {
  const entryOf = (bytes, kind) => new Entry(cimaroly, { file: "it", kind, bytes });
  assert.deepEqual(placed(entryOf(FAULTY, "certificate").findings), BROKEN);
  assert.deepEqual(entryOf(FAULTY, "certificate-outline").findings, []);
  const [request] = structuresIn(sample("request_rsa.pem"));
  assert.deepEqual(new Entry(cimaroly, request).findings.map((it) => it.rule), ["modulus-short", "key-usage-not-critical"]);
  const [refused] = structuresIn(sample("refused_month_13.pem"));
  assert.deepEqual(new Entry(cimaroly, refused).findings, []);
  assert.equal(headingOf(read(FAULTY).findings), "Findings: 6 errors and 1 warning");
  assert.equal(headingOf(read(FAULTY).findings.slice(0, 1)), "Findings: 1 error");
});
