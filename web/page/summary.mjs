// What a structure is, in a few lines: whose it is, how long it is valid, which key it has. tools/make_tables.py writes the
// titles and short names.

import { standingAt } from "../values.mjs";
import { digestsIn } from "./digests.mjs";
import { ecLine, privateLine, publicLine, rsaLine, unreadLine } from "./key.mjs";
import { clipped, counted, grouped, shown } from "./text.mjs";
import { isNode, valueOf } from "./values.mjs";

const TITLES = new Map([
  ["certificate", "Certificate"],
  ["request", "Certification request"],
  ["private-key", "Private key"],
  ["public-key", "Public key"],
  ["rsa-private-key", "RSA private key"],
  ["rsa-public-key", "RSA public key"],
  ["ec-private-key", "EC private key"],
  ["name", "Name"],
  ["extensions", "Extensions"],
  ["algorithm", "Algorithm identifier"],
  ["raw-algorithm", "Algorithm identifier with any parameters"],
  ["request-info", "Certification request information"],
  ["tbs-certificate", "To-be-signed certificate"],
  ["certificate-outline", "Certificate in outline"],
  ["request-outline", "Certification request in outline"],
  ["private-key-outline", "Private key in outline"],
  ["public-key-outline", "Public key in outline"],
  ["crl", "Certificate revocation list"],
]);

// Attributes by the short names that names are written with (RFC 4514, 3; OpenSSL).
const SHORT = new Map([
  ["2.5.4.3", "CN"],
  ["2.5.4.4", "SN"],
  ["2.5.4.6", "C"],
  ["2.5.4.7", "L"],
  ["2.5.4.8", "ST"],
  ["2.5.4.9", "street"],
  ["2.5.4.10", "O"],
  ["2.5.4.11", "OU"],
  ["2.5.4.42", "GN"],
  ["0.9.2342.19200300.100.1.1", "UID"],
  ["0.9.2342.19200300.100.1.25", "DC"],
]);

const FORMS = new Map([
  ["dNSName", "DNS"],
  ["rfc822Name", "email"],
  ["uniformResourceIdentifier", "URI"],
  ["iPAddress", "IP"],
  ["registeredID", "registered"],
]);

const OCSP = "1.3.6.1.5.5.7.48.1";
const ISSUERS = "1.3.6.1.5.5.7.48.2";
const MOST_SERVICES = 12;
const EXTENSION_REQUEST = "1.2.840.113549.1.9.14";

// How many bytes a number may have that is told in decimal.
const LONGEST_DECIMAL = 64;

// How services are asked (RFC 5280, 4.2.2).
const ACCESS = new Map([
  ["id-ad-ocsp", "OCSP"],
  ["id-ad-caIssuers", "CA issuers"],
  ["id-ad-caRepository", "CA repository"],
  ["id-ad-timeStamping", "time stamping"],
]);

/** What a type is called. */
export function titleOf(kind) {
  return TITLES.get(kind) ?? kind;
}

/** Whether a type holds secrets. */
export function isPrivate(kind) {
  return kind.includes("private-key");
}

// A value as it stands in a name on one line: bytes in hexadecimal, and not too many of them.
function inLine(label, node, bytes) {
  const value = valueOf(label, node, bytes);
  if (value?.kind === "text") return shown(clipped(node.value), "name");
  return value?.kind === "octets" ? `#${clipped(value.whole)}` : (value?.text ?? "");
}

function attributeLine(node, bytes) {
  const short = SHORT.get(node.id) ?? node.name ?? node.id;
  return `${short}=${inLine("", node, bytes)}`;
}

/** A name on one line, as in `C=DE, CN=example.org`; at most so many of its sets. */
export function nameLine(node, bytes, most = 40) {
  const sets = node.items ?? [];
  const parts = sets.slice(0, most).map((set) => set.items.map((it) => attributeLine(it, bytes)).join(" + "));
  if (sets.length > most) parts.push(`and ${counted(sets.length - most, "more")}`.replace(/s$/, ""));
  return parts.length > 0 ? parts.join(", ") : "(empty)";
}

function alternativeLine(node, bytes) {
  if (node.field === "directoryName") return `directory (${nameLine(node, bytes)})`;
  if (node.field === "ediPartyName") return `EDI party ${inLine("", node.partyName, bytes)}`;
  if (node.field !== "otherName") return `${FORMS.get(node.field)} ${inLine(node.field, node, bytes)}`;
  const form = node["type-id"].value;
  return `other ${form.name ?? form.id} ${inLine("", node.value, bytes)}`;
}

/** Alternative names on one line; at most so many of them. */
export function namesLine(node, bytes, most = 12) {
  const parts = node.items.slice(0, most).map((it) => alternativeLine(it, bytes));
  const others = node.items.length - most;
  if (others > 0) parts.push(`and ${grouped(others)} more`);
  return parts.join(", ");
}

// A serial number in hexadecimal, and in decimal unless it is too long for that.
function serialLine(value) {
  const count = Math.ceil(value.length / 3);
  if (count > LONGEST_DECIMAL || count === 0) return value;
  return `${value} (${BigInt.asIntN(8 * count, BigInt(`0x${value.replaceAll(":", "")}`))})`;
}

function certificateRows(fields, bytes) {
  const subject = nameLine(fields.subject, bytes);
  const issuer = nameLine(fields.issuer, bytes);
  const { notBefore, notAfter } = fields.validity;
  const rows = [
    ["subject", subject, fields.subject],
    ["issuer", issuer === subject ? "the same" : issuer, fields.issuer],
    ["serial", serialLine(fields.serialNumber.value), fields.serialNumber],
    ["valid", `${notBefore.value} to ${notAfter.value}`, fields.validity],
  ];
  const names = fields.extensions?.items.find((it) => it.id === "2.5.29.17");
  if (names) rows.push(["names", namesLine(names, bytes), names]);
  const key = fields.subjectPublicKeyInfo;
  rows.push(...serviceRows(fields.extensions?.items ?? [], bytes));
  rows.push(["key", publicLine(key.algorithm, key.subjectPublicKey), key]);
  return rows;
}

// What is said of a list that a report may count: all entries, or their number alone.
function entriesLine({ items, value }) {
  const count = items?.length ?? value;
  return count === 1 ? "1 entry" : `${grouped(count)} entries`;
}

// The number of a list, if it has one (RFC 5280, 5.2.3).
function listRows(fields, bytes) {
  const { issuer, thisUpdate, nextUpdate, revokedCertificates: entries } = fields;
  const number = fields.crlExtensions?.items.find((it) => it.id === "2.5.29.20");
  return [
    ["issuer", nameLine(issuer, bytes), issuer],
    ["this update", thisUpdate.value, thisUpdate],
    ...(nextUpdate === undefined ? [] : [["next update", nextUpdate.value, nextUpdate]]),
    ["revoked", entries === undefined ? "0 entries" : entriesLine(entries), entries ?? fields.issuer],
    ...(number?.value === undefined ? [] : [["number", serialLine(number.value), number]]),
  ];
}

const identified = ({ id, name }) => name ?? id;

// A name on one line: an address as it is.
function addressLine(node, bytes) {
  return node.field === "uniformResourceIdentifier" ? inLine(node.field, node, bytes) : alternativeLine(node, bytes);
}

// What the summary tells of extensions, by their identifiers: rows, each with the items in them and how one of these is told.
const SERVICES = new Map([
  [
    "1.3.6.1.5.5.7.1.1",
    [
      ["OCSP", (items) => items.filter((it) => it.id === OCSP).map(locationOf), addressLine],
      ["CA issuers", (items) => items.filter((it) => it.id === ISSUERS).map(locationOf), addressLine],
    ],
  ],
  ["2.5.29.31", [["CRL", (items) => items.flatMap((it) => it.fullName?.items ?? []), addressLine]]],
  ["2.5.29.32", [["policies", (items) => items, (it) => identified(it.value ?? it)]]],
]);

// Where the status of a certificate is asked for, where its issuer's certificates and revocation lists are, and under which
// policies it was issued, as far as the report tells what these extensions hold.
function serviceRows(extensions, bytes) {
  return extensions.flatMap((it) => (SERVICES.get(it.id) ?? []).map((row) => serviceRow(it, row, bytes)).filter((row) => row !== null));
}

// One of these rows, with not too many words; null where there is none to be told.
function serviceRow(node, [label, itemsOf, textOf], bytes) {
  const items = itemsOf(node.items ?? []);
  if (items.length === 0) return null;
  const words = items.slice(0, MOST_SERVICES).map((it) => textOf(it, bytes));
  const others = items.length - words.length;
  return [label, [...words, ...(others > 0 ? [`and ${grouped(others)} more`] : [])].join(", "), node];
}

// The name that a service has in the description of its access.
function locationOf(node) {
  const [field, location] = Object.entries(node).find(([, it]) => isNode(it));
  return { ...location, field };
}

// The extensions that a request asks for.
function requested({ attributes }) {
  const lists = (attributes?.items ?? []).filter((it) => it.id === EXTENSION_REQUEST).flatMap((it) => it.items ?? []);
  return lists.flatMap((it) => it.items ?? []);
}

function requestRows(fields, bytes) {
  const key = fields.subjectPKInfo;
  const extensions = requested(fields);
  const names = extensions.find((it) => it.id === "2.5.29.17");
  return [
    ["subject", nameLine(fields.subject, bytes), fields.subject],
    ...(names === undefined ? [] : [["names", namesLine(names, bytes), names]]),
    ...serviceRows(extensions, bytes),
    ["key", publicLine(key.algorithm, key.subjectPublicKey), key],
  ];
}

function extensionsRows(list, bytes) {
  const names = list.items.filter((it) => it.id === "2.5.29.17");
  const rows = names.map((it) => ["names", namesLine(it, bytes), it]);
  return [["extensions", String(list.items.length), list], ...rows, ...serviceRows(list.items, bytes)];
}

// How an outline is signed, if that isn't read.
function signatureRows({ signatureAlgorithm: it }) {
  return it.algorithm.read === false ? [["signature", unreadLine(it), it]] : [];
}

const ROWS = {
  Certificate: (it, bytes) => [...certificateRows(it.tbsCertificate, bytes), ...signatureRows(it)],
  CertificationRequest: (it, bytes) => [...requestRows(it.certificationRequestInfo, bytes), ...signatureRows(it)],
  PrivateKeyInfo: (it) => [["key", privateLine(it.privateKeyAlgorithm, it.privateKey), it.privateKeyAlgorithm]],
  SubjectPublicKeyInfo: (it) => [["key", publicLine(it.algorithm, it.subjectPublicKey), it]],
  RSAPrivateKey: (it) => [["key", rsaLine(it.modulus), it.modulus]],
  RSAPublicKey: (it) => [["key", rsaLine(it.modulus), it.modulus]],
  ECPrivateKey: (it) => [["key", ecLine(it), it]],
  Name: (it, bytes) => [["name", nameLine(it, bytes), it]],
  Extensions: extensionsRows,
  CertificationRequestInfo: requestRows,
  TBSCertificate: certificateRows,
  CertificateList: (it, bytes) => [...listRows(it.tbsCertList, bytes), ...signatureRows(it)],
  AlgorithmIdentifier: (it) => [["algorithm", valueOf("", it.algorithm, new Uint8Array(1)).whole, it]],
};

// The words for digests, and where they stand among the rows: that of the key right behind it.
const DIGESTS = [
  ["pin", "pin"],
  ["signed", "signed"],
  ["SHA-256", "sha256"],
  ["SHA-1", "sha1"],
];

/** The rows of a summary: a word, a text, and the place that it tells of; of a digest none. The report may tell the digests. */
export function summaryOf(report, bytes, digests = digestsIn(report)) {
  const [name, root] = Object.entries(report).find(([, it]) => isNode(it)) ?? [];
  const rows = (ROWS[name]?.(root, bytes) ?? []).map(([label, text, node]) => ({ label, text, at: node.at }));
  const further = { ...digests, signed: report.signed?.join("..") };
  for (const [label, key] of DIGESTS) {
    if (further[key] !== undefined) rows.push({ label, text: further[key], at: key === "signed" ? report.signed : null });
  }
  return rows;
}

/** Whether a certificate is expired or not yet valid at a time; `valid` where it is neither, and null of other structures. */
export function standingOf({ Certificate: root }, time) {
  if (root === undefined) return null;
  const { notBefore, notAfter } = root.tbsCertificate.validity;
  return standingAt(time, Date.parse(notBefore.value), Date.parse(notAfter.value));
}

/** Whose a structure is, in a few words, for a list of several. */
export function captionOf(report, bytes) {
  const [row] = summaryOf(report, bytes);
  return row === undefined ? "" : row.text;
}

/** What stands in a field that others stand in, for where these aren't shown. */
export function previewOf(field, bytes) {
  const { node } = field;
  if (node.isElement) return counted(field.inner.length, "element");
  if (node.items === undefined) return field.label === "validity" ? validityLine(node) : "";
  if (node.items.length > 0 && node.items.every((it) => it.field === "RelativeDistinguishedName")) {
    return nameLine(node, bytes, 8);
  }
  if (node.id === "2.5.29.17" || node.id === "2.5.29.18") return namesLine(node, bytes, 4);
  const lines = field.inner.slice(0, 4).map((it) => innerLine(it, bytes));
  if (node.critical !== undefined && lines.length > 0 && !lines.includes("")) return joinedLine(lines, field.inner.length);
  return counted(node.items.length, "item");
}

function validityLine({ notBefore, notAfter }) {
  return `${notBefore.value} to ${notAfter.value}`;
}

function joinedLine(lines, count) {
  return count > lines.length ? `${lines.join(", ")}, and ${grouped(count - lines.length)} more` : lines.join(", ");
}

// The time of a timestamp, as it can be read.
function timeOf(node, bytes) {
  return /\((.*)\)/.exec(valueOf("timestamp", node, bytes).whole)?.[1] ?? "";
}

// An item of an extension in a few words: how a service is asked and where, a policy, the names of a point; "" where there is
// nothing short to be said.
function innerLine(field, bytes) {
  const { node, label } = field;
  if (field.isAccess) return `${ACCESS.get(label) ?? label} ${alternativeLine(locationOf(node), bytes)}`;
  if (label === "SignedCertificateTimestamp") return node.timestamp === undefined ? "" : timeOf(node.timestamp, bytes);
  if (label === "DistributionPoint") return node.fullName === undefined ? "" : namesLine(node.fullName, bytes, 2);
  if (node.id !== undefined) return identified(node);
  if (label === "policyIdentifier" || label === "KeyPurposeId") return valueOf(label, node, bytes).text;
  return "";
}
