// Where the status of a certificate is asked for, its policies and the timestamps of logs, as values.

import assert from "node:assert/strict";
import { test } from "node:test";
import { read } from "../cimaroly.mjs";
import { Policy, addressesOf, pointAddresses, policiesOf, timestampsOf } from "../services.mjs";
import { sample } from "./data.mjs";
import { furtherExtensions } from "./further.mjs";

const { bytes, report } = furtherExtensions();
const byId = Object.fromEntries(report.Extensions.items.map((it) => [it.id, it]));
const MALFORMED = byId["2.5.29.46"];

test("what extensions say of services, points, policies and timestamps", () => {
  const list = read(bytes, "extensions");
  assert.deepEqual([list.ocspAddresses, list.issuerAddresses], [["ocsp:one"], ["ldap:two"]]);
  assert.deepEqual(list.crlAddresses, ["crl:one", "crl:two"]);
  assert.deepEqual(list.policies.map(String), ["domain-validated", "1.3.5.8"]);
  const [, { id, name, statements, notices }] = list.policies;
  assert.deepEqual([id, name, statements, notices], ["1.3.5.8", null, ["cps:one"], ["Gründe", "Org"]]);
  const [{ logId, time, signature }] = list.certificateTimestamps;
  assert.deepEqual([...logId], Array.from({ length: 32 }, (_, index) => 16 + index));
  assert.equal(time.toISOString(), "2025-11-28T10:00:00.000Z");
  assert.equal(signature.length, 40);
});

test("what isn't there is null, and undefined where a type has no extensions", () => {
  const certificate = read(sample("certificate_ed25519.pem"));
  const { ocspAddresses, issuerAddresses, crlAddresses, policies, certificateTimestamps } = certificate;
  assert.deepEqual([ocspAddresses, issuerAddresses, crlAddresses, policies, certificateTimestamps], new Array(5).fill(null));
  assert.equal(certificate.publicKey.der.length > 0, true);
  assert.equal(read(certificate.publicKey.der, "public-key").policies, undefined);
});

test("what is malformed is told with its place", () => {
  const { at } = MALFORMED.malformed;
  const error = { message: `id-ce-freshestCRL is malformed: wrong tag at byte ${at}` };
  for (const take of [pointAddresses, policiesOf, timestampsOf]) assert.throws(() => take(MALFORMED), error);
  assert.throws(() => addressesOf(MALFORMED, ""), error);
  const qualifier = { id: "1.3.6.1.5.5.7.2.1", name: "id-qt-cps", malformed: { reason: "wrong tag", at: 7 } };
  assert.throws(() => new Policy({ id: "1.2", items: [qualifier] }), { message: "id-qt-cps is malformed: wrong tag at byte 7" });
});

test("timestamps of another version aren't told", () => {
  assert.deepEqual(timestampsOf({ items: [{ at: [0, 3], field: "SignedCertificateTimestamp", length: 1, value: "01" }] }), []);
});
