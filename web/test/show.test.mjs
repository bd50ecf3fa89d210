// What the page shows is what the program `cimaroly` tells: the same report, and the same lines.

import assert from "node:assert/strict";
import { mkdtempSync, rmSync, writeFileSync } from "node:fs";
import { tmpdir } from "node:os";
import { join } from "node:path";
import { test } from "node:test";
import { parseReport, report, reportText } from "../cimaroly.mjs";
import { Entry } from "../page/entry.mjs";
import { lineOf } from "../page/fields.mjs";
import { Identifiers } from "../page/identifiers.mjs";
import { structuresIn } from "../page/input.mjs";
import { summaryOf } from "../page/summary.mjs";
import { elementsOf } from "../page/unread.mjs";
import { valueOf } from "../page/values.mjs";
import * as cimaroly from "../cimaroly.mjs";
import { DATA, PROGRAM, SAMPLES, identifiers, run, sample } from "./data.mjs";
import { linesOf, shownOf } from "./shown.mjs";

const NOT_HERE = PROGRAM === null && "the program isn't there: set CIMAROLY, or make dist/ by tools/dist.sh";

// The samples that hold a structure, each with it.
const structures = SAMPLES.map((name) => [name, new Entry(cimaroly, structuresIn(sample(name))[0])]);
const read = structures.filter(([, it]) => it.kind !== null);

// How the program reads a sample as the same type; a revocation list is one by its label.
const wordsFor = (name, { kind }) => [...(kind === "crl" ? [] : ["--type", kind]), `${DATA}/${name}`];

// What the program tells besides of where the bytes come from, and of the outline of what it refuses.
function told(line) {
  const { file, line: number, label, outline, ...rest } = parseReport(line);
  return rest;
}

// The rows of a summary, as the program prints them, but for those of deviations, which the page has elsewhere.
function rowsOf(text) {
  const lines = text.split("\n\n")[0].split("\n").filter((it) => /^ {2}(?!deviation )\S/.test(it));
  return lines.map((it) => [it.slice(2, 14).trimEnd(), it.slice(14)]);
}

// (a program that was built earlier has none of these rows, nor the names that a request asks for)
const LATER = new Set(["serial", "pin", "SHA-256", "SHA-1", "names", "OCSP", "CA issuers", "CRL", "policies"]);
// (the program tells a revocation list's number among its fields alone)
LATER.add("number");

// The rows that the page has, and those that the program prints too.
function assertRows(report, bytes, text) {
  const told = rowsOf(text);
  const isTold = (label) => told.some(([it]) => it === label);
  const rows = summaryOf(report, bytes).map(({ label, text: shown }) => [label, shown]);
  assert.deepEqual(rows.filter(([label]) => isTold(label) || !LATER.has(label)), told);
  return told.length;
}

for (const [name, structure] of read) {
  test(`the report of ${name}`, { skip: NOT_HERE }, () => {
    for (const secrets of [false, true]) {
      const words = ["show", "--json", ...(secrets ? ["--secrets"] : []), ...wordsFor(name, structure)];
      assert.deepEqual(report(structure.bytes, structure.kind, { secrets }), told(run(...words)));
    }
    assert.doesNotMatch(reportText(structure.bytes, structure.kind), /\n/);
  });

  test(`the lines of ${name}`, { skip: NOT_HERE }, () => {
    // (with the entries of a revocation list)
    const text = run("show", ...(structure.kind === "crl" ? ["--full"] : []), ...wordsFor(name, structure));
    if (structure.report.result === "refused") return;
    assert.deepEqual(shownOf(structure.report, structure.bytes), linesOf(text));
  });

  test(`the summary of ${name}`, { skip: NOT_HERE }, () => {
    const text = run("show", ...wordsFor(name, structure));
    assertRows(structure.shownReport, structure.bytes, text);
  });
}

// Structures that are no samples: the extensions of a certificate by themselves, and a key of ML-DSA-44 of 1312 bytes (FIPS
// 204, table 2; RFC 9881, 4).
function* further() {
  const certificate = cimaroly.read(sample("certificate_ed25519.pem"));
  const { start, end } = certificate.fields.extensions;
  yield ["extensions", certificate.bytes({ start: start + 2, end })];
  const head = [0x30, 0x82, 5, 50, 0x30, 11, 6, 9, 0x60, 0x86, 0x48, 1, 0x65, 3, 4, 3, 17, 3, 0x82, 5, 33, 0];
  yield ["public-key", Uint8Array.of(...head, ...new Uint8Array(1312))];
}

test("the summary of further structures", { skip: NOT_HERE }, () => {
  const folder = mkdtempSync(join(tmpdir(), "cimaroly-"));
  for (const [kind, bytes] of further()) {
    writeFileSync(`${folder}/it.der`, bytes);
    assert.ok(assertRows(report(bytes, kind), bytes, run("show", "--type", kind, `${folder}/it.der`)) > 0, kind);
  }
  rmSync(folder, { recursive: true });
});

// The OBJECT IDENTIFIERs that the page shows of what it refuses, each by its place and its text.
function identifiersShown(bytes, names) {
  const fields = elementsOf(bytes, (element) => names.of(element)).filter((it) => it.label === "OBJECT IDENTIFIER");
  return fields.map((it) => {
    const { text, whole } = valueOf(it.label, it.node, bytes);
    assert.equal(lineOf(it, bytes), text);
    return [`${it.start}..${it.end}`, whole];
  });
}

// Those that the program tells of the same bytes, but for those in elements that it enters and the page doesn't.
function identifiersTold(text) {
  const found = text.matchAll(/^ *(\d+\.\.\d+) +OBJECT IDENTIFIER (.*)$/gm);
  return new Map(Array.from(found, ([, place, value]) => [place, value]));
}

for (const [name, structure] of read.filter(([, it]) => it.report.result === "refused")) {
  test(`the identifiers of ${name}`, { skip: NOT_HERE }, () => {
    const told = identifiersTold(run("tree", `${DATA}/${name}`));
    for (const [place, whole] of identifiersShown(structure.bytes, new Identifiers(cimaroly))) {
      assert.equal(told.get(place), whole, place);
    }
  });
}

test("every identifier has the name that its standard gives it", () => {
  const names = new Identifiers(cimaroly);
  for (const { name, element } of identifiers()) {
    const bytes = Uint8Array.of(0x30, element.length, ...element);
    const [[, whole]] = identifiersShown(bytes, names);
    assert.ok(whole.startsWith(`${name} (`), `${name}: ${whole}`);
  }
});

test("what no identifier is stays as it stands", () => {
  const names = new Identifiers(cimaroly);
  const shown = (digits) => {
    const bytes = Uint8Array.from(Buffer.from(digits, "hex"));
    return identifiersShown(Uint8Array.of(0x30, bytes.length, ...bytes), names)[0][1];
  };
  // (X.690, 8.19: {2 999 3} is its example; a last byte never goes on, and there is one at least)
  assert.equal(shown("0603883703"), "2.999.3");
  assert.equal(shown("06028837"), "2.999");
  assert.equal(shown("06028688"), "86:88");
  assert.equal(shown("0600"), "0 bytes");
  assert.equal(shown(`0614${"ff".repeat(19)}7f`), `2.${2n ** 140n - 1n - 80n}`);
});
