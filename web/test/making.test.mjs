// What is made: requests and certificates that Web Cryptography signs, and Node's own X.509 reads and verifies; and faults.

import assert from "node:assert/strict";
import { X509Certificate, createPublicKey, verify, webcrypto } from "node:crypto";
import { createRequire } from "node:module";
import { test } from "node:test";
import * as cimaroly from "../cimaroly.mjs";

const { NotMade, assemble, make, pem, read, signatureAlgorithm } = cimaroly;
const { subtle } = webcrypto;
const ECDSA = { name: "ECDSA", namedCurve: "P-256", hash: "SHA-256" };

async function newKey() {
  const { privateKey, publicKey } = await subtle.generateKey(ECDSA, true, ["sign", "verify"]);
  const spki = new Uint8Array(await subtle.exportKey("spki", publicKey));
  const sign = async (data) => new Uint8Array(await subtle.sign(ECDSA, privateKey, data));
  return { sign, spki, text: pem("PUBLIC KEY", spki) };
}

async function authority(key) {
  const part = make({
    type: "tbs-certificate",
    serialNumber: "1a2b",
    signature: "ecdsa-with-SHA256",
    issuer: "subject",
    notBefore: "2026-11-01T00:00:00Z",
    notAfter: "2056-11-01T00:00:00Z",
    subject: { C: "DE", CN: "Example Root" },
    key: key.text,
    basicConstraints: { ca: true },
    keyUsage: ["keyCertSign"],
    subjectKeyIdentifier: "hash",
  });
  return assemble("certificate", part, "ecdsa-with-SHA256", await key.sign(part), { rawEcdsa: true });
}

test("a certificate is signed by Web Cryptography", async () => {
  const key = await newKey();
  const der = await authority(key);
  const theirs = new X509Certificate(der);
  assert.ok(theirs.verify(createPublicKey(key.text)));
  assert.ok(theirs.ca);
  assert.equal(theirs.subject, "C=DE\nCN=Example Root");
  assert.equal(theirs.serialNumber, "1A2B");
  assert.equal(pem("CERTIFICATE", der), theirs.toString());
  assert.ok(read(der).isDer);
});

test("a request is signed by Web Cryptography", async () => {
  const key = await newKey();
  const part = make({ type: "request-info", subject: "CN=a.example", key: key.text, names: ["DNS:a.example", "IP:192.0.2.7"] });
  const request = read(assemble("request", part, "ecdsa-with-SHA256", await key.sign(part), { rawEcdsa: true }), "request");
  assert.ok(request.isDer);
  assert.deepEqual(request.bytes(request.fields.certificationRequestInfo), part);
  assert.deepEqual(request.bytes(request.fields.subjectPKInfo), key.spki);
  // (the signature is the content of the last BIT STRING, in which no bit is unused)
  const { start, end } = request.fields.signature;
  const signature = request.der.slice(start + 3, end);
  assert.ok(verify("sha256", part, createPublicKey(key.text), signature));
});

test("a key of a request and an issuer are taken byte for byte", async () => {
  const key = await newKey();
  const issuer = pem("CERTIFICATE", await authority(key));
  const info = make({ type: "request-info", subject: { O: "Gründe" }, key: key.text });
  const request = pem("CERTIFICATE REQUEST", assemble("request", info, "ecdsa-with-SHA256", await key.sign(info), { rawEcdsa: true }));
  const description = { type: "tbs-certificate", serialNumber: 1, signature: "ecdsa-with-SHA256", issuer, subject: request };
  Object.assign(description, { key: request, notBefore: "2026-11-01T00:00:00Z", notAfter: "2056-11-01T00:00:00Z" });
  const part = make(JSON.stringify({ ...description, authorityKeyIdentifier: "keyid" }));
  const leaf = new X509Certificate(assemble("certificate", part, "ecdsa-with-SHA256", await key.sign(part), { rawEcdsa: true }));
  assert.ok(leaf.checkIssued(new X509Certificate(issuer)));
  assert.equal(leaf.subject, "O=Gründe");
});

test("what is wrong is told", () => {
  for (const [description, message] of [
    [{ type: "name" }, "Name is missing"],
    ["{", "not JSON"],
    [{ type: "name", Name: { CN: "a", foo: "b" } }, 'Name.foo: not an object identifier, by a name that is known or with dots: "b"'],
  ]) {
    assert.throws(() => make(description), (error) => error instanceof NotMade && error.message === message);
  }
  assert.throws(() => signatureAlgorithm("sha1"), RangeError);
  assert.throws(() => assemble("name", new Uint8Array(), "Ed25519", new Uint8Array()), TypeError);
  assert.throws(() => assemble("request", new Uint8Array(2), "Ed25519", new Uint8Array(64)), RangeError);
  assert.throws(() => assemble("request", new Uint8Array(2), "Ed25519", new Uint8Array(3), { rawEcdsa: true }), RangeError);
});

test("algorithms have their bytes", () => {
  assert.deepEqual([...signatureAlgorithm("Ed25519")], [0x30, 5, 6, 3, 0x2b, 0x65, 0x70]);
});

test("more is made than there is room for at first", () => {
  const names = Array.from({ length: 20000 }, (_, index) => `DNS:${index}.example.org`);
  const der = make({ type: "extensions", Extensions: [{ id: "2.5.29.17", items: names }] });
  assert.ok(read(der, "extensions").isDer);
});

test("all entries have the same calls", async () => {
  const required = createRequire(import.meta.url)("../node/index.cjs");
  const imported = await import("../node/index.mjs");
  const names = Object.keys(cimaroly).sort();
  assert.deepEqual(Object.keys(required).sort(), names);
  assert.deepEqual(Object.keys(imported).sort(), names);
});
