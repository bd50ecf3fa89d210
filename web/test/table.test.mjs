// The module over the table that the tests of every binding go over.

import assert from "node:assert/strict";
import { test } from "node:test";
import { runInNewContext } from "node:vm";
import { KINDS, Refused, check, encode, isLowered, parseReport, read, report, reportText } from "../cimaroly.mjs";
import { structuresIn } from "../page/input.mjs";
import { sample, table } from "./data.mjs";

// The fields that cimaroly.h calls by other words than the RFCs.
const WORDS = {
  subjectPKInfo: "subject_public_key_info",
  issuerUniqueID: "issuer_unique_id",
  subjectUniqueID: "subject_unique_id",
};

const snake = (name) => WORDS[name] ?? name.replace(/[A-Z]/g, (it) => `_${it.toLowerCase()}`);
const span = ({ start, end }) => `${start}..${end}`;
const fromHex = (digits) => Uint8Array.from(digits.match(/../g) ?? [], (it) => parseInt(it, 16));
const toHex = (bytes) => Buffer.from(bytes).toString("hex");

function inputOf({ input }) {
  if (/\.(pem|hex)$/.test(input)) return structuresIn(sample(input))[0].bytes;
  return fromHex(input === "-" ? "" : input);
}

const deviationsOf = (reading) => reading.deviations.map((it) => `${it.number}@${span(it)}`).join(" ") || "-";

function fieldsOf({ fields }) {
  return Object.entries(fields).map(([name, place]) => `${snake(name)}=${span(place)}`).sort().join(" ");
}

function extensionsOf({ extensions }) {
  return extensions.map(({ whole, extnID, critical, extnValue }) =>
    [whole, extnID, critical ?? { start: 0, end: 0 }, extnValue].map(span).join(","),
  );
}

// The places in the column of extensions, without the identifiers.
const placesIn = (column) => column.split(" ").map((it) => it.split("=")[1]);

function accepted(row, der) {
  const reading = read(der, row.kind);
  assert.equal(reading.isDer, row.result === "ok");
  assert.equal(deviationsOf(reading), row.deviations);
  assert.deepEqual(deviationsOf(check(der, row.kind)), row.deviations);
  const encoding = row.encoding === "same" ? toHex(der) : row.encoding;
  if (row.encoding !== "-") assert.equal(toHex(reading.encode()), encoding);
  assert.deepEqual(encode(der, row.kind), reading.encode());
  if (row.signed !== "-") assert.equal(span(reading.signedPart), row.signed);
  if (row.fields !== "-") assert.equal(fieldsOf(reading), row.fields.split(" ").sort().join(" "));
  if (row.extensions === "none") assert.deepEqual(reading.extensions, []);
  else if (row.extensions !== "-") assert.deepEqual(extensionsOf(reading), placesIn(row.extensions));
}

function refused(row, der) {
  const number = Number(row.error.split("@")[0]);
  const isThis = (error) =>
    error instanceof Refused && (row.error === "-" || `${error.number}@${error.at}` === row.error);
  for (const call of [check, read, encode]) assert.throws(() => call(der, row.kind), isThis);
  if (row.field !== "-") {
    const field = row.field === "none" ? null : row.field;
    for (const call of [check, read, encode]) assert.throws(() => call(der, row.kind), { field });
  }
  const told = report(der, row.kind);
  assert.equal(told.result, "refused");
  if (number) assert.equal(`${number}@${told.at}`, row.error);
}

const numberOf = (digits) => BigInt(`0x${digits}`);
const nameOf = (node) => node.items.map((set) => set.items.map((it) => [it.name ?? it.id, it.value]));

// What people ask of a certificate first.
function assertAsked(row, { subject, serialNumber, notBefore, notAfter, alternativeNames, publicKey }) {
  assert.equal(subject.commonName ?? "none", row.common_name);
  assert.equal(subject.rfc4514(), row.rfc4514);
  assert.equal(serialNumber.toString(), row.serial_number);
  assert.equal([notBefore, notAfter].map((it) => it.getTime() / 1000).join(".."), row.unix_times);
  const names = (alternativeNames ?? []).filter((it) => it.type === "dNSName").map((it) => it.value);
  assert.equal(names.join(" ") || "none", row.dns_names);
  assert.equal([publicKey.algorithm, publicKey.curve, publicKey.bits].filter((it) => it !== null).join(" "), row.key);
}

// Its signature's algorithm, and which keys it names.
function assertKeys(row, { signatureAlgorithm, subjectKeyIdentifier, authorityKeyIdentifier }) {
  assert.equal(signatureAlgorithm.id, row.signature.split(" ")[0]);
  const identifiers = [subjectKeyIdentifier, authorityKeyIdentifier];
  const told = identifiers.map((it) => (it === null ? "none" : Buffer.from(it).toString("hex")));
  assert.equal(told.join(" "), row.key_identifiers);
}

// The same as properties of what is read.
function assertValues(row, reading) {
  const seconds = (date) => date.toISOString().replace(".000Z", "Z");
  if (row.not_before !== "-") assert.equal(seconds(reading.notBefore), row.not_before);
  if (row.not_after !== "-") assert.equal(seconds(reading.notAfter), row.not_after);
  if (row.signed !== "-") assert.deepEqual(reading.signedBytes, reading.bytes(reading.signedPart));
  if (/^[0-9]/.test(row.extensions)) {
    assert.deepEqual(reading.extensions.map((it) => it.id), row.extensions.split(" ").map((it) => it.split("=")[0]));
  }
  if (row.serial_number !== "-") assertAsked(row, reading);
  if (row.key_identifiers !== "-") assertKeys(row, reading);
  if (row.values === "-") return;
  const { serialNumber, ...names } = JSON.parse(row.values);
  if (serialNumber) assert.equal(reading.serialNumber, numberOf(serialNumber));
  for (const it of ["subject", "issuer"]) {
    if (names[it]) assert.deepEqual([...reading[it]].map(({ name, id, value }) => [name ?? id, value]), names[it].flat());
  }
}

function reported(row, der) {
  const told = report(der, row.kind);
  assert.equal(told.type, row.kind);
  assert.equal(told.result, row.result);
  assert.equal(told.length, der.length);
  if (row.signed !== "-") assert.equal(told.signed.join(".."), row.signed);
  if (row.not_before !== "-") assert.equal(told.Certificate.tbsCertificate.validity.notBefore.value, row.not_before);
  if (row.not_after !== "-") assert.equal(told.Certificate.tbsCertificate.validity.notAfter.value, row.not_after);
  assertValues(row, read(der, row.kind));
  if (row.values === "-") return;
  const values = JSON.parse(row.values);
  const fields = told.Certificate.tbsCertificate;
  if (values.serialNumber) assert.equal(numberOf(fields.serialNumber.value.replaceAll(":", "")), numberOf(values.serialNumber));
  for (const name of ["subject", "issuer"]) if (values[name]) assert.deepEqual(nameOf(fields[name]), values[name]);
}

for (const row of table()) {
  test(`${row.name} as ${row.kind}`, () => {
    const der = inputOf(row);
    if (row.result === "refused") refused(row, der);
    else {
      accepted(row, der);
      reported(row, der);
    }
  });
}

test("the module is taken that this engine has memories for", () => {
  const hasMemory64 = WebAssembly.validate(new Uint8Array([0, 97, 115, 109, 1, 0, 0, 0, 5, 3, 1, 4, 1]));
  assert.equal(isLowered, !hasMemory64);
});

test("PEM is taken as text and as bytes", () => {
  const bytes = sample("certificate_rsa.pem");
  const text = new TextDecoder().decode(bytes);
  const behindAnother = new TextDecoder().decode(sample("private_key_ec.pem")) + text;
  for (const input of [bytes, text, bytes.buffer, behindAnother]) assert.equal(check(input).isDer, true);
  assert.throws(() => check("no block"), SyntaxError);
  assert.throws(() => check("-----BEGIN CERTIFICATE-----\nM\n-----END CERTIFICATE-----\n"), SyntaxError);
});

test("a refusal reads as the program's does", () => {
  const message = "malformed time at byte 26 (in tbsCertificate, validity, notBefore)";
  assert.throws(() => read(sample("refused_month_13.pem")), { message });
  assert.throws(() => read(fromHex("1f0100")), { message: "wrong tag at byte 0" });
});

test("what is no input is a TypeError, and no empty input", () => {
  const wrong = [null, undefined, 7, true, {}, [48, 0], new URL("file:///cert.pem"), Symbol("pem"), () => ""];
  for (const call of [check, read, encode, report, reportText]) {
    for (const data of wrong) assert.throws(() => call(data, "name"), { name: "TypeError", message: /^the input must be a Uint8Array/ });
  }
  assert.throws(() => read(null), /not null$/);
  assert.throws(() => read(Promise.resolve("")), /not Promise: await it first$/);
});

test("bytes are taken from every view of a buffer", () => {
  const { buffer } = Uint8Array.of(1, 0x30, 0, 1);
  const elsewhere = runInNewContext("Uint8Array.of(0x30, 0)");
  const views = [new Uint8Array(buffer, 1, 2), new DataView(buffer, 1, 2), Buffer.from(buffer, 1, 2), elsewhere, elsewhere.buffer];
  for (const view of views) assert.equal(toHex(read(view, "name").der), "3000");
});

test("a type that isn't there is told", () => {
  assert.throws(() => check(new Uint8Array(0), "ocsp-response"), TypeError);
  assert.equal(KINDS.length, 18);
});

test("a reading keeps its bytes", () => {
  const der = structuresIn(sample("certificate_rsa.pem"))[0].bytes;
  for (const given of [der.slice(), Buffer.from(der)]) {
    const reading = read(given);
    given.fill(0);
    assert.deepEqual(reading.encode(), der);
    assert.deepEqual(reading.bytes(reading.fields.version), fromHex("a003020102"));
  }
});

test("secret numbers are told only where they are asked for", () => {
  const key = sample("private_key_ed25519.pem");
  const secret = report(key, "private-key", { secrets: true }).PrivateKeyInfo.privateKey.value;
  assert.equal(secret.length, 3 * 32 - 1);
  assert.equal(reportText(key, "private-key").includes(secret), false);
  assert.equal(report(key, "private-key").PrivateKeyInfo.privateKey.hidden, 32);
});

test("a salt length is exact", () => {
  const told = report(sample("deviation_4_salt.pem"));
  assert.equal(told.Certificate.tbsCertificate.signature.parameters.saltLength.value, 2n ** 64n - 1n);
  const small = parseReport('{"a":{"saltLength":{"at":[1,2],"value":32}}}');
  assert.equal(small.a.saltLength.value, 32);
});

test("every number is exact", () => {
  const text = `{"a":{"value":1,"b":{"value":"\\"value\\":99999999999999999"}},"c":[{"value":18446744073709551615},{"value":[7]},{"value":9007199254740991}]}`;
  const { a, c } = parseReport(text);
  assert.deepEqual([a.value, a.b.value], [1, '"value":99999999999999999']);
  assert.deepEqual(c.map((it) => it.value), [18446744073709551615n, [7], 9007199254740991]);
  // (an RSA key of version 2^64 - 2)
  const der = fromHex("3023020900fffffffffffffffe02012102010302010502010b020103020101020101020102");
  assert.equal(report(der, "rsa-private-key").RSAPrivateKey.version.value, 2n ** 64n - 2n);
});

test("large and hostile inputs are answered", () => {
  for (const kind of KINDS) {
    const nested = new Uint8Array(1 << 20);
    for (let at = 0; at + 4 < nested.length; at += 4) nested.set([0x30, 0x82, 0xff, 0xff], at);
    assert.throws(() => check(nested, kind), Refused);
    assert.throws(() => check(new Uint8Array(1 << 20).fill(0x30), kind), Refused);
    assert.throws(() => check(new Uint8Array(0), kind), Refused);
  }
});

test("many extensions and many deviations are all told", () => {
  const extension = fromHex("300c0603551d130101000402300" + "0");
  const body = new Uint8Array(extension.length * 5000);
  for (let at = 0; at < body.length; at += extension.length) body.set(extension, at);
  const size = body.length;
  const list = Uint8Array.from([0x30, 0x83, size >> 16, (size >> 8) & 255, size & 255, ...body]);
  const reading = read(list, "extensions");
  assert.equal(reading.deviations.length, 5000);
  assert.equal(reading.extensions.length, 5000);
  assert.equal(reading.report().deviations.length, 5000);
  assert.equal(reading.encode().length, size - 3 * 5000 + 4 + (size - 15000 < 65536 ? 0 : 1));
});
