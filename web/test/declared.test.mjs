// Whether there are types for all that a structure has: each property and call, and each field of each type.

import assert from "node:assert/strict";
import { readFileSync } from "node:fs";
import { test } from "node:test";
import { Structure, read } from "../cimaroly.mjs";
import { structuresIn } from "../page/input.mjs";
import { pathOf, sample } from "./data.mjs";

const TYPES = ["cimaroly", "fields"].map((it) => readFileSync(pathOf(`web/${it}.d.ts`), "utf-8")).join("");

// The names that an interface or a class declares.
function declaredIn(head) {
  const [, body] = new RegExp(`^export ${head}[^{]*{\\n(.*?)^}`, "ms").exec(TYPES);
  return new Set([...body.matchAll(/^  (?:get |readonly )?(\w+)[?(:]/gm)].map(([, name]) => name));
}

test("each property and call of a structure has a type", () => {
  const declared = declaredIn("class Structure");
  const reading = read(sample("certificate_rsa.pem"));
  const found = new Set(Object.keys(reading));
  for (let it = Structure.prototype; it !== Object.prototype; it = Object.getPrototypeOf(it)) {
    for (const name of Object.getOwnPropertyNames(it)) found.add(name);
  }
  found.delete("constructor");
  assert.deepEqual([...found].sort(), [...declared].sort());
});

test("each value of a type has one", () => {
  const values = declaredIn("interface CertificateValues");
  for (const it of ["SignedValues", "FrameValues", "ExtensionValues"]) {
    for (const name of declaredIn(`interface ${it}`)) values.add(name);
  }
  const reading = read(sample("certificate_rsa.pem"));
  for (const name of values) assert.notEqual(reading[name], undefined, name);
});

test("each field has a type", () => {
  const samples = [["CertificateFields", "certificate_rsa.pem"], ["RequestFields", "request_rsa.pem"]];
  samples.push(["PrivateKeyFields", "private_key_rsa.pem"], ["PrivateKeyFields", "private_key_ed25519.pem"]);
  for (const [name, file] of samples) {
    const declared = declaredIn(`interface ${name}`);
    const [{ bytes, kind }] = structuresIn(sample(file));
    for (const it of Object.keys(read(bytes, kind).fields)) assert.ok(declared.has(it), it);
  }
});
