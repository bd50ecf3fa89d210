// The check of extensions that a check takes as octets, on values written by hand (X.690; RFC 5280, 4.2).

import assert from "node:assert/strict";
import { createRequire } from "node:module";
import { test } from "node:test";
import * as imported from "../cimaroly.mjs";
import { bytesOf } from "../directory.mjs";
import { sample } from "./data.mjs";

const required = createRequire(import.meta.url)("../node/index.cjs");
const { Refused, checkExtension, read } = imported;

const POLICIES = "2.5.29.32";
const ACCESS = "1.3.6.1.5.5.7.1.1";
const TIMESTAMPS = "1.3.6.1.4.1.11129.2.4.2";
const hex = (digits) => new Uint8Array(Buffer.from(digits, "hex"));
// One policy, 2.23.140.1.2.1: a SEQUENCE in a SEQUENCE, and the OBJECT IDENTIFIER.
const ONE_POLICY = hex("300a3008060667810c010201");
const NONE = new Array(10).fill(0);
const WELL = { isDer: true, counts: NONE, headers: 3 };

test("policies are checked, by the identifier and by its name", () => {
  for (const it of [imported, required]) {
    for (const type of [POLICIES, "id-ce-certificatePolicies"]) assert.deepEqual(it.checkExtension(type, ONE_POLICY), WELL);
  }
});

test("what is refused is told with its reason and its place", () => {
  const rows = [
    [POLICIES, ONE_POLICY.subarray(0, -1), "truncated element", 0],
    [POLICIES, hex("300a3008060667810c010281"), "malformed object identifier", 6],
    [POLICIES, hex("300a3008060667810c01020100"), "bytes left over", 12],
    [POLICIES, new Uint8Array(), "truncated element", 0],
    [TIMESTAMPS, hex("0500"), "wrong tag", 0],
  ];
  for (const [type, value, reason, at] of rows) {
    const error = { name: "Refused", message: `${reason} at byte ${at}`, reason, at, kind: "extension", field: null };
    assert.throws(() => checkExtension(type, value), error);
    assert.throws(() => checkExtension(type, value), Refused);
    assert.throws(() => required.checkExtension(type, value), required.Refused);
  }
});

test("a general name under the other kind of tag is a deviation", () => {
  const { isDer, counts, headers } = checkExtension(ACCESS, hex("3012301006082b06010505073001a6041602613a"));
  assert.deepEqual([isDer, headers], [false, 5]);
  assert.deepEqual(counts, [0, 0, 0, 0, 0, 0, 0, 0, 1, 0]);
});

test("what TLS has in the OCTET STRING of timestamps isn't looked at", () => {
  assert.deepEqual(checkExtension(TIMESTAMPS, hex("040100")), { ...WELL, headers: 1 });
});

test("other extensions aren't checked", () => {
  const types = ["2.5.29.17", "id-ce-subjectAltName", "2.5.29", "1.2.3", "0.39", `2.25.${2n ** 127n}`, `1.2${".3".repeat(200)}`];
  for (const type of types) assert.equal(checkExtension(type, hex("3000")), null, type);
});

test("of a certificate's extensions the policies are checked", () => {
  const { extensions, der } = read(sample("certificate_rsa.pem"));
  // (the octets stand at the end of the extension, behind a tag and a length of one byte or of three)
  const valueOf = ({ extnValue: { start, end } }) => der.subarray(start + (der[start + 1] < 128 ? 2 : der[start + 1] - 126), end);
  const told = extensions.map((it) => [it.id, checkExtension(it.id, valueOf(it))]);
  assert.equal(told.length, 7);
  for (const [id, found] of told) assert.deepEqual(found, id === POLICIES ? WELL : null, id);
  assert.deepEqual(valueOf(extensions.get(POLICIES)), bytesOf(extensions.get(POLICIES).node.der));
});

test("what is no identifier is told", () => {
  const dotted = ["2", "2.", ".5", "3.1", "1.40", "2.5.29.032", "2.5.29.32\n", " 2.5.29.32", "2.5.+29", "2.5.0x1d"];
  for (const type of [...dotted, "", "policies", '"', "\ud800", undefined, null]) {
    assert.throws(() => checkExtension(type, ONE_POLICY), { name: "RangeError", message: /^no object identifier, / }, type);
  }
});

test("a value is bytes", () => {
  const { buffer } = Uint8Array.from(ONE_POLICY);
  for (const value of [Buffer.from(ONE_POLICY), buffer, new DataView(buffer)]) assert.deepEqual(checkExtension(POLICIES, value), WELL);
  for (const [value, name] of [["300a", "string"], [null, "null"], [[48, 10], "Array"], [Promise.resolve(), "Promise: await it first"]]) {
    const message = `the input must be a Uint8Array or an ArrayBuffer, not ${name}`;
    assert.throws(() => checkExtension(POLICIES, value), { name: "TypeError", message });
  }
});
