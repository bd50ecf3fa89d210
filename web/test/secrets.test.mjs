// What is left of a private key where it was read.

import assert from "node:assert/strict";
import { test } from "node:test";
import { inspect } from "node:util";

// The seed of RFC 8032, 7.1, test 1, and its key in PKCS #8 (RFC 8410, 7).
const SEED = Buffer.from("9d61b19deffd5a60ba844af492ec2cc44449c5697b326919703bac031cae7f60", "hex");
const KEY = Buffer.concat([Buffer.from("302e020100300506032b657004220420", "hex"), SEED]);
const DIGITS = SEED.toString("hex").match(/../g).join(":");

// The memory of each instance of the module that a fresh copy of it makes.
const memories = [];
const { Instance, instantiate } = WebAssembly;
WebAssembly.instantiate = async (...given) => {
  const instance = await instantiate(...given);
  memories.push(instance.exports.memory);
  return instance;
};
WebAssembly.Instance = function (...given) {
  const instance = new Instance(...given);
  memories.push(instance.exports.memory);
  return instance;
};
const { KINDS, Refused, encode, read, report, reportText } = await import("../cimaroly.mjs?fresh");

const isLeft = (bytes) => memories.some(({ buffer }) => Buffer.from(buffer).includes(bytes));

test("what a call on a private key leaves is overwritten, whatever it was taken for", () => {
  assert.equal(memories.length, 1);
  const others = KINDS.filter((it) => it !== "private-key" && it !== "private-key-outline");
  for (const kind of others) assert.throws(() => read(KEY, kind), Refused);
  assert.equal(read(KEY, "private-key-outline").isDer, true);
  const key = read(KEY, "private-key");
  assert.deepEqual(Buffer.from(key.bytes(key.fields.privateKey)), KEY.subarray(12));
  assert.deepEqual(Buffer.from(encode(KEY, "private-key")), KEY);
  assert.ok(reportText(KEY, "private-key", { secrets: true }).includes(DIGITS));
  assert.equal(report(KEY, "certificate").result, "refused");
  assert.equal(isLeft(SEED.subarray(0, 8)), false);
  assert.equal(isLeft(DIGITS.slice(0, 24)), false);
});

test("a private key that is logged shows none of its bytes", () => {
  const key = read(KEY, "private-key");
  assert.equal(key.der.length, 48);
  for (const text of [inspect(key, { showHidden: true, depth: null }), JSON.stringify(key)]) {
    assert.match(text, /private-key/);
    for (const byte of SEED) if (byte > 48) assert.doesNotMatch(text, new RegExp(`\\b${byte}\\b`));
  }
});
