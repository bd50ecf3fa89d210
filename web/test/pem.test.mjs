// PEM, by the table that the program and Python are tested with too, and inputs that are no data.

import assert from "node:assert/strict";
import { readFileSync } from "node:fs";
import { test } from "node:test";
import { read } from "../cimaroly.mjs";
import { pemBlocks } from "../pem.mjs";
import { pathOf } from "./data.mjs";

const FAULTS = [
  ["labels", "label"],
  ["base64", "base64"],
  ["no END", "end"],
  ["headers", "headers"],
];

// The bytes that escapes of Python stand for.
function unescaped(text) {
  const single = { n: 10, r: 13, t: 9, "\\": 92 };
  const bytes = text.matchAll(/\\x(..)|\\(.)|(.)/g);
  return Uint8Array.from(bytes, ([, hex, letter, plain]) =>
    hex ? parseInt(hex, 16) : letter ? single[letter] : plain.charCodeAt(0),
  );
}

function rows() {
  const lines = readFileSync(pathOf("bindings/tests/pem.tsv"), "ascii").split("\n");
  return lines.filter((line) => line !== "" && !line.startsWith("#")).map((line) => line.split("\t"));
}

function told({ label, line, bytes, reason }) {
  if (bytes) return `${label}@${line}=${Buffer.from(bytes).toString("hex")}`;
  return `${label}!${FAULTS.find(([words]) => reason.includes(words))[1]}`;
}

test("each text of the table has its blocks", () => {
  for (const [name, text, answer] of rows()) {
    const blocks = [...pemBlocks(new TextDecoder().decode(unescaped(text)))];
    assert.equal(blocks.map(told).join(" "), answer, name);
  }
});

test("what is no data is a TypeError, and UTF-16 is named", () => {
  for (const value of [null, undefined, 7, {}]) assert.throws(() => read(value), TypeError);
  const text = "\uFEFF-----BEGIN CERTIFICATE-----\n";
  assert.throws(() => read(Buffer.from(text, "utf16le")), /UTF-16/);
});

test("bare base64 is taken where nothing else fits", () => {
  const lines = readFileSync(pathOf("tools/tests/data/certificate_ec.pem"), "ascii").split("\n");
  const text = lines.slice(1, -2).join("\r\n");
  for (const data of [text, ` \n${text}\n`, Buffer.from(text)]) assert.ok(read(data).isDer);
  for (const data of [text.slice(0, -2), `${text}A`, "AQID"]) assert.throws(() => read(data));
});

test("no text takes long", () => {
  const texts = [
    "-----BEGIN ".repeat(100000),
    `${" ".repeat(1000000)}x -----BEGIN A-----`,
    `-----BEGIN A-----\n${" ".repeat(1000000)}x\n`,
    "-----BEGIN A-----\n".repeat(50000),
  ];
  const start = performance.now();
  for (const text of texts) assert.ok([...pemBlocks(text)].length < 60000);
  assert.ok(performance.now() - start < 5000);
});
