// What is edited on the page, without the page: the JSON of each sample makes it again, and where what is wrong stands.

import assert from "node:assert/strict";
import { test } from "node:test";
import * as cimaroly from "../cimaroly.mjs";
import { NotEdited, editableText, madeOfText, whyNotEdited } from "../page/editing.mjs";
import { Entry } from "../page/entry.mjs";
import { structuresIn } from "../page/input.mjs";
import { NotJson, jsonOf, placesIn } from "../page/json.mjs";
import { SAMPLES, sample } from "./data.mjs";
import { furtherExtensions } from "./further.mjs";

const entries = SAMPLES.map((name) => [name, new Entry(cimaroly, structuresIn(sample(name))[0])]);
const { bytes } = furtherExtensions();
entries.push(["further extensions", new Entry(cimaroly, { bytes, kind: "extensions" })]);
const entryOf = (name) => entries.find(([it]) => it === name)[1];

for (const [name, entry] of entries) {
  test(`the JSON of ${name} makes it again`, () => {
    const why = whyNotEdited(entry);
    assert.equal(why === "", !/private_key|refused|raw_algorithm|_md5|_dsa|revocation/.test(name), why);
    if (why !== "") return;
    const text = editableText(entry);
    assert.doesNotMatch(text, /"at"|[\u007f-\u009f\u200b-\u200f\u202a-\u202e\u2066-\u2069]/);
    const { bytes: again, kind } = madeOfText(cimaroly, text);
    assert.equal(kind, entry.kind);
    assert.deepEqual(again, cimaroly.encode(entry.bytes, entry.kind));
  });
}

test("a subject is edited", () => {
  const text = editableText(entryOf("certificate_rsa.pem"));
  const { bytes: der } = madeOfText(cimaroly, text.replace(/"subject": \{\n.*?\n {6}\}/s, '"subject": {"CN": "other.example.org"}'));
  const [before, after] = [cimaroly.read(sample("certificate_rsa.pem")), cimaroly.read(der)];
  assert.equal(after.subject.rfc4514(), "CN=other.example.org");
  assert.equal(after.issuer.rfc4514(), before.issuer.rfc4514());
  assert.deepEqual(after.signature, before.signature);
});

test("a key usage is edited", () => {
  const text = editableText(entryOf("certificate_rsa.pem"));
  const edited = text.replace('["digitalSignature", "keyCertSign", "cRLSign"]', '["decipherOnly"]');
  assert.notEqual(edited, text);
  assert.deepEqual(cimaroly.read(madeOfText(cimaroly, edited).bytes).keyUsage, ["decipherOnly"]);
  // (a bit that isn't set at the end is no fault, nor does it get lost)
  const usage = (digits) => Uint8Array.from(Buffer.from(`300d300b0603551d0f0404${digits}`, "hex"));
  for (const [digits, told] of [["03020780", false], ["03020080", true], ["03020640", false], ["03020600", true]]) {
    const entry = new Entry(cimaroly, { bytes: usage(digits), kind: "extensions" });
    assert.equal(editableText(entry).includes('"bits"'), told, digits);
    assert.deepEqual(madeOfText(cimaroly, editableText(entry)).bytes, entry.bytes, digits);
  }
});

// What is told of a text, and the part of it that is selected.
function faultIn(text) {
  let error;
  assert.throws(() => madeOfText(cimaroly, text), (it) => (error = it) instanceof NotEdited);
  return [error.message, text.slice(error.start, error.end)];
}

test("what is wrong is told with its place", () => {
  const cases = [
    ["", "Line 1, column 1: this isn’t JSON.", ""],
    ['{"type":\n "name" x}', "Line 2, column 9: this isn’t JSON.", "x"],
    ['{"type": "name"}', "Line 1: Name is missing", '{"type": "name"}'],
    ['{"type": "crl"}', /^Line 1: type: not a type that is made/, '"crl"'],
    ['{"type": "name",\n "Name": "Z"}', /^Line 2: Name: not a name/, '"Z"'],
    ['{"type": "name",\n "Name":\n {"2.5.4.3": 3}}', "Line 3: Name.2.5.4.3: not a text", "3"],
    ['{"type": "name", "Name": {"items": [\n{"items": []},\n3]}}', /^Line 3: Name\.items\[1\]: /, "3"],
    ['{"type": "name", "Name": [], "a b": 1}', /^Line 1: a b: /, '{"type": "name", "Name": [], "a b": 1}'],
  ];
  for (const [text, message, selected] of cases) {
    const [told, part] = faultIn(text);
    if (typeof message === "string") assert.equal(told, message);
    else assert.match(told, message);
    assert.equal(part, selected, text);
  }
});

test("JSON is what JSON.parse takes", () => {
  const right = ["0", "-1.5e+3", '"\\u00e9\\n"', "[]", "{}", ' [1, {"a": [true, false, null]}] ', '{"a": {"b": "c"}}'];
  for (const it of right) placesIn(it);
  const wrong = ["", "01", "+1", "1.", ".5", "'a'", '"\n"', '"\\x"', '"\\u12"', "[1,]", "{a: 1}", '{"a" 1}', "[1 2]", "nul", "[] []", "{", "["];
  for (const it of [...right, ...wrong]) {
    let isJson = true;
    try {
      JSON.parse(it);
    } catch {
      isJson = false;
    }
    assert.equal(isJson, right.includes(it), it);
    if (!isJson) assert.throws(() => placesIn(it), NotJson, it);
  }
  assert.throws(() => placesIn("[".repeat(100_000)), NotJson);
});

test("values are written as JSON that can be read", () => {
  const value = { a: ["x".repeat(90), "y\u202e\u{e0041}"], b: { c: 2n ** 64n - 1n }, d: null, e: true };
  const text = jsonOf(value);
  assert.ok(text.split("\n").every((it) => it.length <= 100), text);
  assert.match(text, /"c": 18446744073709551615/);
  assert.deepEqual(JSON.parse(text), { ...value, b: { c: 2 ** 64 } });
});
