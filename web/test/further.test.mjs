// How the page shows extensions whose octets are read further (docs/JSON.md): as the program prints them.

import assert from "node:assert/strict";
import { test } from "node:test";
import { check, read, report } from "../cimaroly.mjs";
import { fieldOver, fieldsOf } from "../page/fields.mjs";
import { previewOf, summaryOf } from "../page/summary.mjs";
import { valueOf } from "../page/values.mjs";
import { sample } from "./data.mjs";
import { furtherExtensions } from "./further.mjs";
import { shownOf } from "./shown.mjs";

const { bytes, report: told } = furtherExtensions();
const fields = fieldsOf(told);

const LOG = Array.from({ length: 32 }, (_, index) => (16 + index).toString(16)).join(":");

// A certificate's report with these extensions in the place of its own, and bytes with both.
function furtherCertificate() {
  const certificate = sample("certificate_ec.pem");
  const whole = read(certificate).der;
  const at = whole.length;
  const shifted = (value) => (Array.isArray(value) ? value.map((it) => it + at) : value + at);
  const moved = JSON.parse(JSON.stringify(told.Extensions), (key, value) => (key === "at" ? shifted(value) : value));
  const report = read(certificate).report();
  report.Certificate.tbsCertificate.extensions = moved;
  return { bytes: Uint8Array.from([...whole, ...bytes]), report };
}

// What a report tells besides of values, which the page doesn't need.
const BESIDE = new Set(["asn1", "der", "bits"]);

// Depth, label and value of each line, as x509_report_further tells them to a text.
const LINES = [
  [0, "Extensions", ""],
  [1, "id-pe-authorityInfoAccess", ""],
  [2, "id-ad-ocsp", 'uniformResourceIdentifier "ocsp:one"'],
  [2, "id-ad-caIssuers", 'uniformResourceIdentifier "ldap:two"'],
  [1, "id-ce-cRLDistributionPoints", ""],
  [2, "DistributionPoint", ""],
  [3, "fullName", ""],
  [4, "uniformResourceIdentifier", '"crl:one"'],
  [3, "reasons", "keyCompromise, cACompromise"],
  [2, "DistributionPoint", ""],
  [3, "fullName", ""],
  [4, "uniformResourceIdentifier", '"crl:two"'],
  [1, "id-ce-certificatePolicies", ""],
  [2, "policyIdentifier", "domain-validated"],
  [2, "1.3.5.8", ""],
  [3, "id-qt-cps", '"cps:one"'],
  [3, "id-qt-unotice", '"Gründe"'],
  [3, "id-qt-unotice", '"Org"'],
  [1, "signedCertificateTimestampList", ""],
  [
    2,
    "SignedCertificateTimestamp",
    `logID ${LOG}, timestamp 1764324000000, signature 40 bytes, c8:c7:c6:c5:c4:c3:c2:c1:c0:bf:be:bd:bc:bb:ba:b9:..`,
  ],
  [1, "id-ce-policyConstraints", "requireExplicitPolicy 3"],
  [1, "id-pe-tlsfeature", ""],
  [2, "feature", "5"],
  [1, "id-ce-nameConstraints", ""],
  [2, "permittedSubtrees", ""],
  [3, "GeneralSubtree", 'dNSName "example.org"'],
  [1, "id-ce-policyMappings", ""],
  [2, "PolicyMapping", "1.2.3, 1.5.6"],
  [1, "id-pkix-ocsp-nocheck", "NULL"],
  [1, "id-ce-inhibitAnyPolicy", "2"],
  [1, "id-ce-freshestCRL", `malformed: wrong tag at byte ${told.Extensions.items[10].malformed.at}, 2 bytes, 31:00`],
  [1, "id-ce-issuingDistributionPoint", ""],
  [2, "nameRelativeToCRLIssuer", ""],
  [3, "commonName", '"list"'],
  [3, "organizationalUnitName", '"unit"'],
  [2, "onlyContainsUserCerts", "true"],
  [1, "id-pe-qcStatements", ""],
  [2, "statementId", "id-etsi-qcs-QcCompliance"],
  [2, "id-etsi-qcs-QcRetentionPeriod", "02:01:0a"],
  [1, "id-ce-subjectDirectoryAttributes", ""],
  [2, "id-pda-countryOfCitizenship", ""],
  [3, "AttributeValue", '"DE"'],
  [1, "netscape-cert-type", "sslClient, smime, sslCA"],
  [1, "netscape-comment", '"A comment"'],
  [1, "ENROLL_CERTTYPE_EXTENSION", '"Gü"'],
  [1, "CERTIFICATE_TEMPLATE", "1.3.6.1.4.1.311.21.8, templateMajorVersion 100"],
];

test("the library reads these extensions, and tells them at these places", () => {
  assert.deepEqual(check(bytes, "extensions").deviations, []);
  const own = report(bytes, "extensions").Extensions.items;
  assert.deepEqual(own.map((it) => [it.id, it.at]), told.Extensions.items.map((it) => [it.id, it.at]));
  assert.equal(read(bytes, "extensions").extensions.length, 18);
  // (a module that was built before it told these has their octets, and a later one has these nodes)
  if (own[10].malformed === undefined) return;
  const plain = JSON.parse(JSON.stringify(report(bytes, "extensions").Extensions, (key, it) => (BESIDE.has(key) ? undefined : it)));
  assert.deepEqual(plain, told.Extensions);
});

test("each line is that of the program", () => {
  assert.deepEqual(shownOf(told, bytes).map(({ depth, label, value }) => [depth, label, value]), LINES);
});

test("what is folded says what is in it", () => {
  const previews = fields.filter((it) => it.depth === 1).map((it) => previewOf(it, bytes));
  assert.deepEqual(previews.slice(0, 4), [
    "OCSP URI ocsp:one, CA issuers URI ldap:two",
    "URI crl:one, URI crl:two",
    "domain-validated, 1.3.5.8",
    "2025-11-28T10:00:00.000Z",
  ]);
});

test("the summary of a certificate says where its status is asked for", () => {
  const { bytes: whole, report: certificate } = furtherCertificate();
  const rows = summaryOf(certificate, whole).map(({ label, text }) => [label, text]);
  assert.deepEqual(rows.filter(([label]) => ["OCSP", "CA issuers", "CRL", "policies"].includes(label)), [
    ["OCSP", "ocsp:one"],
    ["CA issuers", "ldap:two"],
    ["CRL", "crl:one, crl:two"],
    ["policies", "domain-validated, 1.3.5.8"],
  ]);
});

test("numbers that stand for something are told with it", () => {
  const wholeOf = (label) => {
    const field = fields.find((it) => it.label === label);
    return valueOf(label, field.node, bytes).whole;
  };
  assert.equal(wholeOf("timestamp"), "1764324000000 (2025-11-28T10:00:00.000Z)");
  assert.equal(wholeOf("feature"), "5 (status_request)");
});

test("a place in a timestamp is the timestamp's", () => {
  const stamp = fields.find((it) => it.label === "SignedCertificateTimestamp");
  assert.equal(fieldOver(fields, stamp.start, stamp.end), stamp);
  assert.equal(fieldOver(fields, stamp.start + 5, stamp.start + 6), stamp);
  const address = fields.find((it) => it.label === "uniformResourceIdentifier");
  assert.equal(fieldOver(fields, address.start + 3, address.start + 4), address);
});
