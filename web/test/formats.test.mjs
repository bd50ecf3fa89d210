// What is recognised and not read is named, and not shown as something that it isn't, as by the program.

import assert from "node:assert/strict";
import { test } from "node:test";
import * as cimaroly from "../cimaroly.mjs";
import { Entry } from "../page/entry.mjs";
import { structuresIn } from "../page/input.mjs";
import { PROGRAM, runOn, sample } from "./data.mjs";
import { element, integer } from "./der.mjs";

const oid = (digits) => element(6, Buffer.from(digits, "hex"));
const sequence = (...parts) => element(0x30, ...parts);
const explicit = (...parts) => element(0xa0, ...parts);
const name = sequence(element(0x31, sequence(oid("550403"), element(0x0c, Buffer.from("a")))));

// 1.2.840.113549.1.7.2, .7.1, .9.16.1.4, .5.13 and .12.1.3; 1.2.840.10045.4.3.2
const [SIGNED, DATA, TIME_STAMP, PBES2, OLD, ECDSA] = [
  "2a864886f70d010702",
  "2a864886f70d010701",
  "2a864886f70d0109100104",
  "2a864886f70d01050d",
  "2a864886f70d010c0103",
  "2a8648ce3d040302",
].map(oid);
const content = (type) => sequence(type, explicit(sequence(integer(1n))));
const pem = (label) => `-----BEGIN ${label}-----\nMAA=\n-----END ${label}-----\n`;

// By RFC 5652, 3 (a BER length too), RFC 7292, 4, RFC 5958, 3, RFC 6960, 4.2.1 and RFC 7468; the numbers that
// keystores of Java begin with; keys of OpenSSH by their algorithms.
const FORMATS = {
  "PKCS #7 or CMS": [
    content(SIGNED),
    sequence(DATA),
    content(TIME_STAMP),
    Buffer.concat([Buffer.of(0x30, 0x80), SIGNED, Buffer.of(0xa0, 0x80, 0, 0, 0, 0)]),
    pem("PKCS7"),
    pem("CMS"),
  ],
  "PKCS #12": [sequence(integer(3n), content(DATA))],
  "an encrypted private key": [
    sequence(sequence(PBES2, sequence()), element(4, [1])),
    sequence(sequence(OLD, sequence()), element(4, [1])),
    pem("ENCRYPTED PRIVATE KEY"),
  ],
  "an OCSP response": [sequence(element(0x0a, [6])), sequence(element(0x0a, [0]), explicit(sequence()))],
  "a Java keystore": [Buffer.from("feedfeed0000000200000000", "hex"), Buffer.from("cececece0000000200000000", "hex")],
  "an OpenSSH key": ["ssh-ed25519 AAAAC3NzaC1lZDI1NTE5AAAAI me@example\n", pem("OPENSSH PRIVATE KEY")],
};

function entryOf(input) {
  const [structure] = structuresIn(new Uint8Array(Buffer.from(input)));
  return new Entry(cimaroly, structure);
}

for (const [format, inputs] of Object.entries(FORMATS)) {
  test(`${format} is passed over`, () => {
    for (const input of inputs) {
      const entry = entryOf(input);
      assert.deepEqual(entry.report, { result: "passed over", reason: `${format}, which isn’t read` });
      assert.equal(entry.isPrivate, /key|PKCS #12/.test(format), format);
      assert.notEqual(entry.title, "Unrecognized input");
      if (PROGRAM === null) continue;
      const told = runOn(input, "check");
      assert.ok(told.endsWith(`passed over: ${format}, which isn't read\n`), told);
    }
  });
}

test("what is read as another type isn't passed over", () => {
  for (const file of ["certificate_rsa.pem", "request_rsa.pem", "private_key_rsa.pem", "public_key_rsa.pem"]) {
    const [{ bytes }] = structuresIn(sample(file));
    assert.equal(entryOf(bytes).report.result, "ok", file);
  }
});

test("what could be something else is said to be so", () => {
  for (const [bytes, isUncertain] of [[name, true], [sequence(ECDSA), true], [structuresIn(sample("request_rsa.pem"))[0].bytes, false]]) {
    const entry = entryOf(bytes);
    assert.equal(entry.report.result === "ok" || entry.report.result === "deviations", true);
    assert.equal(entry.isUncertain, isUncertain);
  }
});

test("it can still be read as a type that is chosen", () => {
  const entry = entryOf(content(SIGNED));
  assert.equal(entry.kind, null);
  entry.readAs("raw-algorithm");
  assert.equal(entry.report.result, "ok");
});
