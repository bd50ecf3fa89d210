// Outlines of what is of an algorithm that isn't read, and revocation lists: as the module and the page tell them.

import assert from "node:assert/strict";
import { test } from "node:test";
import * as cimaroly from "../cimaroly.mjs";
import { whyNotEdited } from "../page/editing.mjs";
import { Entry } from "../page/entry.mjs";
import { fieldsOf, lineOf } from "../page/fields.mjs";
import { fromFragment, structuresIn } from "../page/input.mjs";
import { summaryOf } from "../page/summary.mjs";
import { PROGRAM, runOn, sample } from "./data.mjs";

function entryOf(file) {
  const [structure] = structuresIn(sample(file));
  return new Entry(cimaroly, structure);
}

function rowsOf(entry) {
  return Object.fromEntries(summaryOf(entry.shownReport, entry.bytes).map(({ label, text }) => [label, text]));
}

// The lines of a summary by the program, by their words.
function summaryByProgram(file) {
  const lines = runOn(sample(file), "show").split("\n").filter((it) => /^ {2}\S/.test(it));
  return Object.fromEntries(lines.map((it) => [it.slice(2, 14).trimEnd(), it.slice(14)]));
}

test("a certificate signed with MD5 shows its names", () => {
  const entry = entryOf("certificate_md5.pem");
  const { report } = entry;
  assert.deepEqual([report.result, report.reason, report.at], ["refused", "unsupported algorithm or choice", 37]);
  assert.equal(entry.outline.type, "certificate-outline");
  const rows = rowsOf(entry);
  assert.match(rows.subject, /^C=DE, O=Example Gründe GmbH, .*CN=example\.org/);
  assert.match(rows.names, /DNS example\.org/);
  assert.equal(rows.key, "RSA, 1024 bits");
  assert.equal(entry.title, "Certificate");
  assert.match(entry.caption, /^C=DE.* \(refused: unsupported algorithm or choice\)$/);
});

test("an outline is read from PEM", () => {
  const outline = cimaroly.read(sample("certificate_md5.pem"), "certificate-outline");
  assert.equal(outline.isDer, true);
  assert.equal(outline.report().Certificate.tbsCertificate.signature.algorithm.read, false);
  assert.deepEqual(outline.signedBytes, outline.bytes(outline.signedPart));
  assert.throws(() => cimaroly.read(sample("certificate_md5.pem")), /unsupported algorithm/);
});

test("what isn't understood is marked", () => {
  const entry = entryOf("certificate_md5.pem");
  const fields = fieldsOf(entry.shownReport);
  const marked = fields.filter((it) => it.node.read === false).map((it) => lineOf(it, entry.bytes));
  assert.deepEqual(marked, new Array(2).fill("1.2.840.113549.1.1.4 (md5WithRSAEncryption), not read"));
});

test("requests and keys have outlines too, and keys stay hidden", () => {
  for (const [file, type] of [
    ["request_md5.pem", "request-outline"],
    ["private_key_dsa.pem", "private-key-outline"],
    ["public_key_dsa.pem", "public-key-outline"],
  ]) {
    const entry = entryOf(file);
    assert.deepEqual([entry.report.result, entry.shownReport.type], ["refused", type]);
    assert.notDeepEqual(rowsOf(entry), {}, file);
  }
  const entry = entryOf("private_key_dsa.pem");
  const secret = fieldsOf(entry.shownReport).find((it) => it.isSecret);
  assert.equal(secret.label, "privateKey");
  assert.equal(entry.isPrivate, true);
  assert.equal(fieldsOf(entry.reportWithSecrets())[secret.index].node.hidden, undefined);
  assert.equal(fromFragment("#private-key-outline=MAA"), null);
});

test("what is refused in its frame has no outline", () => {
  const entry = entryOf("refused_month_13.pem");
  assert.equal(entry.outline, null);
  assert.equal(entry.shownReport, entry.report);
  assert.equal(entry.caption, "refused: malformed time");
});

test("a revocation list is read", () => {
  for (const input of [sample("revocation_list.pem"), structuresIn(sample("revocation_list.pem"))[0].bytes]) {
    const [structure] = structuresIn(input);
    const entry = new Entry(cimaroly, structure);
    assert.deepEqual([entry.kind, entry.report.result], ["crl", "ok"]);
    const rows = rowsOf(entry);
    assert.match(rows.issuer, /^C=DE, O=Example/);
    assert.deepEqual([rows.revoked, rows.number], ["2 entries", "10:01 (4097)"]);
    assert.equal(entry.title, "Certificate revocation list");
    assert.match(whyNotEdited(entry), /can’t be edited/);
  }
  const list = cimaroly.read(structuresIn(sample("revocation_list.pem"))[0].bytes, "crl");
  assert.deepEqual([list.isDer, list.signedPart.start], [true, 4]);
  assert.deepEqual(list.encode(), list.der);
  assert.deepEqual(list.signedBytes, list.bytes(list.signedPart));
  assert.deepEqual([list.issuer.commonName, list.version, list.subject], ["example.org", 2, undefined]);
});

test("the program's summaries say the same", { skip: PROGRAM === null }, () => {
  for (const file of ["certificate_md5.pem", "revocation_list.pem"]) {
    const told = summaryByProgram(file);
    const rows = rowsOf(entryOf(file));
    for (const word of ["subject", "issuer", "serial", "valid", "names", "this update", "next update", "revoked", "signed"]) {
      if (rows[word] !== undefined) assert.equal(rows[word], told[word], word);
    }
  }
});
