// The parts of the page that need no browser.

import assert from "node:assert/strict";
import { test } from "node:test";
import { fromFragment, kindsOf, structuresIn } from "../page/input.mjs";
import { sentenceOn } from "../page/deviations.mjs";
import { elementAt, headerLength, lastElements, tagName, wholeTagName } from "../page/elements.mjs";
import { lineOf } from "../page/fields.mjs";
import { shown } from "../page/text.mjs";
import { elementsOf } from "../page/unread.mjs";
import "../cimaroly.mjs";
import { fromBase64, pemBlocks, toBase64 } from "../pem.mjs";
import { SAMPLES, sample } from "./data.mjs";
import { NESTED } from "./hostile.mjs";

const bytes = (text) => new TextEncoder().encode(text);
const block = (label, body = "MAA=") => `-----BEGIN ${label}-----\n${body}\n-----END ${label}-----\n`;

test("blocks are found between other text, with their lines", () => {
  const text = `before\n${block("CERTIFICATE")}between\r\n${block("PRIVATE KEY").replaceAll("\n", "\r\n")}`;
  const found = [...pemBlocks(text)].map(({ label, line, bytes: der }) => [label, line, [...der]]);
  assert.deepEqual(found, [
    ["CERTIFICATE", 2, [0x30, 0]],
    ["PRIVATE KEY", 6, [0x30, 0]],
  ]);
});

test("faults of blocks are told, with the line where they are met", () => {
  const faults = (text) => [...pemBlocks(text)].map(({ line, reason }) => [line, reason]);
  assert.deepEqual(faults(block("A", "M=A=")), [[3, "invalid base64"]]);
  assert.deepEqual(faults("-----BEGIN A-----\nMAA=\n"), [[2, "the block has no END line"]]);
  assert.deepEqual(faults("-----BEGIN A-----\nProc-Type: 4,ENCRYPTED\n\nMAA=\n"), [
    [2, "the block has headers, as encrypted keys do"],
  ]);
  assert.deepEqual(faults("-----BEGIN A-----\n-----END B-----"), [
    [2, "the labels of the BEGIN and END lines differ"],
  ]);
});

test("base64 is that of RFC 4648, with its padding and no bits left over", () => {
  for (const text of ["", "MAA=", "AAAA", "/+8="]) assert.equal(toBase64(fromBase64(text)), text);
  for (const text of ["M", "MAA", "MA==A", "MB==", "M AA", "=AAA"]) assert.equal(fromBase64(text), null, text);
});

test("each form of input is told", () => {
  const der = [0x30, 3, 2, 1, 5];
  for (const text of ["3003020105", "30 03 02\n01 05", "30:03:02:01:05", "MAMCAQU=", block("CERTIFICATE", "MAMCAQU=")]) {
    assert.deepEqual([...structuresIn(bytes(text))[0].bytes], der, text);
  }
  assert.deepEqual([...structuresIn(Uint8Array.from(der))[0].bytes], der);
  const wide = Uint8Array.from([0xff, 0xfe, ...[...block("CERTIFICATE")].flatMap((it) => [it.charCodeAt(0), 0])]);
  assert.match(structuresIn(wide)[0].reason, /UTF-16/);
  assert.match(structuresIn(bytes("nothing"))[0].reason, /no PEM, DER, hexadecimal or base64/);
  assert.match(structuresIn(new Uint8Array(0))[0].reason, /no PEM, DER, hexadecimal or base64/);
});

test("labels say the type, and others are passed over", () => {
  const kinds = ["X509 CERTIFICATE", "NEW CERTIFICATE REQUEST", "EC PRIVATE KEY", "X509 CRL", "PKCS7"];
  const found = structuresIn(bytes(kinds.map((it) => block(it)).join("")));
  assert.deepEqual(found.map((it) => it.kind), ["certificate", "request", "ec-private-key", "crl", null]);
  assert.deepEqual([found[4].outcome, found[4].reason], ["passed over", "PKCS #7 or CMS, which isn’t read"]);
});

test("every sample holds one structure", () => {
  for (const name of SAMPLES) assert.equal(structuresIn(sample(name)).length, 1, name);
});

test("where no type accepts bytes, that counts which got furthest", () => {
  const at = { request: 7, "public-key": 12 };
  assert.deepEqual(kindsOf(null, (_, kind) => at[kind] ?? 2), { accepting: [], furthest: "public-key" });
  const accepted = kindsOf(null, (_, kind) => (kind.includes("algorithm") ? null : 2));
  assert.deepEqual(accepted.accepting, ["algorithm", "raw-algorithm"]);
});

test("links hold structures, and never private keys", () => {
  assert.deepEqual(fromFragment("#certificate=MAA"), { kind: "certificate", bytes: Uint8Array.from([0x30, 0]) });
  const others = ["private-key=MAA", "ec-private-key=MAA", "certificate=M", "other=MAA", "", "certificate=MA A"];
  for (const it of others) assert.equal(fromFragment(`#${it}`), null, it);
});

test("what has no glyph is escaped", () => {
  assert.equal(shown("\u001b[31m\u202e\u200b"), "\\u{1b}[31m\\u{202e}\\u{200b}");
  assert.equal(shown("\u{e0041}\ue000\ud800"), "\\u{e0041}\\u{e000}\\u{d800}");
  assert.equal(shown("Gründe 中文 😀 <b>"), "Gründe 中文 😀 <b>");
  assert.equal(shown('a"b\\c', "quotes"), 'a\\"b\\\\c');
  assert.equal(shown("a,b+c", "name"), "a\\,b\\+c");
});

test("headers of elements are measured", () => {
  assert.equal(headerLength([0x30, 0x03, 0, 0, 0], 0, 5), 2);
  assert.equal(headerLength([0x30, 0x81, 0x01, 0], 0, 4), 3);
  assert.equal(headerLength([0x30, 0x84, 0, 0, 0, 1, 0], 0, 7), 6);
  assert.equal(headerLength([0x9f, 0x81, 0x01, 0x01, 0], 0, 5), 4);
  assert.equal(headerLength([0x30], 0, 1), 1);
  assert.equal(tagName([0x30], 0), "SEQUENCE");
  assert.equal(tagName([0xa3], 0), "[3]");
  assert.equal(wholeTagName([0x83], 0), "[3], primitive");
  const nested = [0x30, 5, 4, 3, 2, 1, 7];
  assert.deepEqual(lastElements(nested, 0, 7).map((it) => it.content), [2, 4, 6]);
  assert.deepEqual(elementAt(nested, 2, 7), { tag: 4, start: 2, content: 4, end: 7 });
});

test("nested elements are followed to a depth that ends", () => {
  const deep = new Uint8Array(100_000).fill(0x30);
  assert.ok(lastElements(deep, 0, deep.length).length <= 17);
});

test("what isn't read is told by its elements", () => {
  const der = Uint8Array.from([0x30, 12, 0x06, 3, 0x55, 4, 3, 0x0c, 1, 0x61, 0x30, 5, 2, 9]);
  const told = elementsOf(der).map((it) => [it.label, it.start, it.end, lineOf(it, der)]);
  assert.deepEqual(told, [
    ["SEQUENCE", 0, 14, ""],
    ["OBJECT IDENTIFIER", 2, 7, "2.5.4.3"],
    ["UTF8String", 7, 10, '"a"'],
    ["SEQUENCE", 10, 14, ""],
    ["INTEGER", 12, 14, "0 bytes"],
  ]);
  for (const [name, bytes] of NESTED) assert.ok(elementsOf(bytes).length <= 20_000, name);
  assert.deepEqual(elementsOf(new Uint8Array(0)), []);
  assert.deepEqual(elementsOf(Uint8Array.from([0x30])), []);
});

test("each deviation has its sentence", async () => {
  const { DEVIATIONS } = await import("../names.mjs");
  for (const name of DEVIATIONS) assert.match(sentenceOn(name), /the DER encoding/, name);
});
