// Numbers of keys of any sign, and keys whose size isn't that of their algorithm: the page says what the program says.

import assert from "node:assert/strict";
import { test } from "node:test";
import * as cimaroly from "../cimaroly.mjs";
import { fieldsOf, lineOf } from "../page/fields.mjs";
import { summaryOf } from "../page/summary.mjs";
import { valueOf } from "../page/values.mjs";
import { PROGRAM, runOn } from "./data.mjs";
import { element, integer } from "./der.mjs";
import { linesOf, shownOf } from "./shown.mjs";

const NOT_HERE = PROGRAM === null && "the program isn't there: set CIMAROLY, or make dist/ by tools/dist.sh";

const rsaKey = (modulus) => element(0x30, integer(modulus), integer(3n));
const identifier = (digits) => element(0x30, Buffer.from(digits, "hex"));
const publicKey = (digits, key, unused = 0) => element(0x30, identifier(digits), element(3, [unused], key));
const privateKey = (digits, key) => element(0x30, integer(0n), identifier(digits), element(4, key));
const zeros = (count) => Buffer.alloc(count);

const ED25519 = "06032b6570";
const P256 = "06072a8648ce3d020106082a8648ce3d030107";
const K233 = "06072a8648ce3d020106052b8104001a";
const ML_DSA_44 = "0609608648016503040311";
const ecKey = (count, curve = []) => element(0x30, integer(1n), element(4, zeros(count)), ...curve);
const NOT_POSITIVE = "RSA, with a modulus that isn't positive";

// Keys, and what is said of each on one line: of RSA as of X.690, 8.3; of the others by RFC 8410, 3; RFC 8032, 5.1.5 and
// 5.2.5; SEC 1, 2.3.3; RFC 5915, 3; FIPS 204, table 2.
const KEYS = [
  [NOT_POSITIVE, "rsa-public-key", rsaKey(0n)],
  [NOT_POSITIVE, "rsa-public-key", rsaKey(-1n)],
  [NOT_POSITIVE, "rsa-public-key", rsaKey(-(2n ** 512n))],
  ["RSA, 2 bits", "rsa-public-key", rsaKey(3n)],
  ["RSA, 65 bits", "rsa-public-key", rsaKey(2n ** 64n)],
  [NOT_POSITIVE, "public-key", publicKey("06092a864886f70d0101010500", rsaKey(-3n))],
  ["Ed25519, 256 bits", "public-key", publicKey(ED25519, zeros(32))],
  ["Ed25519, 0 bits instead of 256", "public-key", publicKey(ED25519, [])],
  ["Ed448, 3 bits instead of 456", "public-key", publicKey("06032b6571", [0x80], 5)],
  ["X25519, 264 bits instead of 256", "public-key", publicKey("06032b656e", zeros(33))],
  ["ML-DSA-44, 10496 bits", "public-key", publicKey(ML_DSA_44, zeros(1312))],
  ["ML-DSA-44, 8 bits instead of 10496", "public-key", publicKey(ML_DSA_44, zeros(1))],
  ["EC, secp256r1, 256 bits", "public-key", publicKey(P256, [4, ...zeros(64)])],
  ["EC, secp256r1, 256 bits", "public-key", publicKey(P256, [3, ...zeros(32)])],
  ["EC, secp256r1, 256 bits, with a point of 264 bits", "public-key", publicKey(P256, [4, ...zeros(32)])],
  ["EC, secp256r1, 256 bits, with a point of 0 bits", "public-key", publicKey(P256, [])],
  ["Ed25519, 16 bits instead of 256", "private-key", privateKey(ED25519, element(4, [1, 2]))],
  ["EC, secp256r1, 256 bits", "private-key", privateKey(P256, ecKey(32))],
  ["EC, secp256r1, 256 bits, with a private key of 24 bits", "private-key", privateKey(P256, ecKey(3))],
  ["EC, sect233k1, 233 bits", "private-key", privateKey(K233, ecKey(29))],
  ["EC, sect233k1, 233 bits, with a private key of 240 bits", "private-key", privateKey(K233, ecKey(30))],
  ["EC", "ec-private-key", ecKey(3)],
  [
    "EC, secp256r1, 256 bits, with a private key of 24 bits",
    "ec-private-key",
    ecKey(3, [element(0xa0, Buffer.from("06082a8648ce3d030107", "hex"))]),
  ],
];

function keyLine(bytes, kind) {
  return summaryOf(cimaroly.report(bytes, kind), bytes).find((it) => it.label === "key").text;
}

for (const [line, kind, bytes] of KEYS) {
  test(`${kind} ${bytes.toString("hex", 0, 40)}: ${line}`, () => {
    assert.equal(keyLine(bytes, kind), line);
    if (PROGRAM === null) return;
    const text = runOn(bytes, "show", "--type", kind);
    assert.ok(text.includes(`\n  key         ${line}\n`), text);
    assert.deepEqual(shownOf(cimaroly.report(bytes, kind), bytes), linesOf(text));
  });
}

test("numbers are shown as what they are", { skip: NOT_HERE }, () => {
  const few = [-32769n, -32768n, -257n, -256n, -129n, -128n, -3n, -1n, 0n, 2n, 127n, 128n, 255n, 256n];
  const edges = [2n ** 64n - 1n, 2n ** 64n, -(2n ** 63n), -(2n ** 63n) - 1n, -(2n ** 64n), 5n - 2n ** 512n];
  for (const number of [...few, ...edges]) {
    const bytes = rsaKey(number);
    const report = cimaroly.report(bytes, "rsa-public-key");
    const modulus = fieldsOf(report).find((it) => it.label === "modulus");
    const isShort = -(2n ** 63n) <= number && number < 2n ** 64n;
    if (isShort) assert.equal(lineOf(modulus, bytes), String(number));
    assert.deepEqual(shownOf(report, bytes), linesOf(runOn(bytes, "show", "--type", "rsa-public-key")));
    const { whole } = valueOf("modulus", modulus.node, bytes);
    assert.equal(whole.startsWith(number < 0n ? (isShort ? "-" : "negative, ") : isShort ? `${number}` : "65 bits\n"), true);
  }
});

test("one bit is one bit", () => {
  assert.equal(keyLine(rsaKey(1n), "rsa-public-key"), "RSA, 1 bit");
  const bytes = publicKey(ED25519, [0x80], 7);
  const report = cimaroly.report(bytes, "public-key");
  assert.equal(summaryOf(report, bytes)[0].text, "Ed25519, 1 bit instead of 256");
  const key = fieldsOf(report).find((it) => it.label === "subjectPublicKey");
  assert.deepEqual(valueOf(key.label, key.node, bytes), { kind: "octets", text: "1 bit, 80", whole: "1 bit\n80" });
});
