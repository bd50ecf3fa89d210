// The values of structures, compared with what OpenSSL says of the same files.

import assert from "node:assert/strict";
import { spawnSync } from "node:child_process";
import { createHash, X509Certificate } from "node:crypto";
import { test } from "node:test";
import { rootCertificates } from "node:tls";
import { Refused, read } from "../cimaroly.mjs";
import { structuresIn } from "../page/input.mjs";
import { DATA, SAMPLES, sample } from "./data.mjs";
import { LARGE, keyCertificate } from "./hostile.mjs";

function openssl(...words) {
  const { stdout, status } = spawnSync("openssl", words, { encoding: "utf-8" });
  return status === 0 ? stdout : null;
}

const NOT_HERE = openssl("version") === null && "openssl isn't installed";

// The samples with a label of a type that are read, each with what is read.
function* samplesOf(kind) {
  for (const name of SAMPLES.filter((it) => it.endsWith(".pem"))) {
    const [{ kind: labelled, bytes }] = structuresIn(sample(name));
    if (labelled !== kind) continue;
    try {
      yield [name, read(bytes, kind)];
    } catch (error) {
      if (!(error instanceof Refused)) throw error;
    }
  }
}

const certificates = [...samplesOf("certificate")];
const requests = [...samplesOf("request")];
const ask = (name, ...words) => openssl("x509", "-in", `${DATA}/${name}`, "-noout", ...words);

// A name as OpenSSL writes it by RFC 2253, but for the types that have no short name in RFC 4514, which stand in hexadecimal,
// and for the order in a set, which OpenSSL reverses too.
function nameBy(text) {
  const value = text.replace(/^(?:subject|issuer)= ?/, "").trimEnd().replace(/(O=b)\+(CN=a)/, "$2+$1");
  return value.replace(/emailAddress=([^,+]*)/g, (_, it) => {
    const bytes = Buffer.from(it);
    return `1.2.840.113549.1.9.1=#16${bytes.length.toString(16).padStart(2, "0")}${bytes.toString("hex")}`;
  });
}

const dateOf = (line) => new Date(line.replace(/^\w+=/, "").trim().replace(" ", "T")).getTime();
const digits = (line) => line.split("=")[1].trim().replaceAll(":", "").toLowerCase();

test("there are certificates that OpenSSL reads too", { skip: NOT_HERE }, () => {
  assert.ok(certificates.filter(([name]) => ask(name, "-serial") !== null).length >= 8);
});

for (const [name, certificate] of certificates) {
  test(`the values of ${name}`, { skip: NOT_HERE }, async () => {
    const serial = ask(name, "-serial");
    if (serial === null) return;
    assert.equal(certificate.serialNumber, BigInt(`0x${digits(serial).replace("-", "")}`) * (serial.includes("-") ? -1n : 1n));
    const [from, to] = ask(name, "-dates", "-dateopt", "iso_8601").split("\n");
    assert.equal(certificate.notBefore.getTime(), dateOf(from));
    assert.equal(certificate.notAfter.getTime(), dateOf(to));
    for (const [algorithm, option] of [["SHA-256", "-sha256"], ["SHA-1", "-sha1"], ["SHA-512", "-sha512"]]) {
      assert.equal(await certificate.fingerprint(algorithm), digits(ask(name, "-fingerprint", option)));
    }
    const text = ask(name, "-text");
    assert.equal(certificate.version, Number(/Version: (\d)/.exec(text)[1]));
    assert.equal(certificate.isCa, text.includes("CA:TRUE"));
    assert.equal(certificate.pathLength, Number(/pathlen:(\d+)/.exec(text)?.[1] ?? NaN) || null);
    const identifiers = ["subjectKeyIdentifier", "authorityKeyIdentifier"].map((it) => certificate[it]);
    const stated = ["Subject", "Authority"].map((it) => {
      const found = new RegExp(`${it} Key Identifier: *\\n\\s+(?:keyid:)?([0-9A-F:]+)\\n`).exec(text);
      return found && Buffer.from(found[1].replaceAll(":", ""), "hex").toString("hex");
    });
    // (OpenSSL reads no fields in another order)
    if (certificate.isDer) assert.deepEqual(identifiers.map((it) => it && Buffer.from(it).toString("hex")), stated);
    // (others of the samples have strings that OpenSSL shows in another way)
    if (!name.startsWith("hostile")) {
      for (const it of ["subject", "issuer"]) {
        const told = ask(name, `-${it}`, "-nameopt", "RFC2253,-esc_msb");
        assert.equal(certificate[it].rfc4514(), nameBy(told), it);
        assert.equal(String(certificate[it]), certificate[it].rfc4514());
      }
    }
  });

  test(`the key and the signature of ${name}`, { skip: NOT_HERE }, async () => {
    const pem = openssl("x509", "-in", `${DATA}/${name}`, "-noout", "-pubkey");
    if (pem === null) return;
    const [{ bytes }] = structuresIn(new TextEncoder().encode(pem));
    const { publicKey } = certificate;
    assert.deepEqual(publicKey.der, bytes);
    assert.equal(await publicKey.pin(), createHash("sha256").update(bytes).digest("base64"));
    const text = ask(name, "-text");
    const bits = /Public-Key: \((\d+) bit\)/.exec(text);
    if (bits !== null) assert.equal(publicKey.bits, Number(bits[1]));
    const [, signature] = /Signature Value:\n([\s0-9a-f:]*)/.exec(text) ?? [];
    if (signature !== undefined) assert.equal(Buffer.from(certificate.signature).toString("hex"), signature.replace(/[\s:]/g, ""));
    const signed = openssl("asn1parse", "-in", `${DATA}/${name}`, "-strparse", String(certificate.signedPart.start), "-noout");
    assert.notEqual(signed, null);
    assert.deepEqual(certificate.signedBytes, certificate.bytes(certificate.signedPart));
  });

  test(`the extensions of ${name}`, () => {
    const told = certificate.report().Certificate.tbsCertificate.extensions?.items ?? [];
    assert.deepEqual(certificate.extensions.map((it) => it.id), told.map((it) => it.id));
    for (const [index, it] of certificate.extensions.entries()) {
      assert.deepEqual([it.whole.start, it.whole.end], told[index].at);
      assert.equal(it.isCritical, told[index].critical);
      assert.equal(certificate.extensions.get(it.id).id, it.id);
      if (it.name !== null) assert.equal(certificate.extensions.get(it.name), certificate.extensions.get(it.id));
    }
    assert.equal(certificate.extensions.get("1.2.3"), undefined);
  });
}

test("the values of root certificates are those that Node tells", async () => {
  let count = 0;
  for (const pem of rootCertificates) {
    const told = new X509Certificate(pem);
    let certificate;
    try {
      certificate = read(pem);
    } catch (error) {
      // (a teletexString, which isn't read)
      assert.equal(error.reason, "wrong tag");
      continue;
    }
    count += 1;
    assert.equal(certificate.serialNumber, BigInt(`0x${told.serialNumber}`), told.subject);
    assert.equal(certificate.notBefore.getTime(), new Date(told.validFrom).getTime(), told.subject);
    assert.equal(certificate.notAfter.getTime(), new Date(told.validTo).getTime(), told.subject);
    assert.equal(await certificate.fingerprint(), told.fingerprint256.replaceAll(":", "").toLowerCase(), told.subject);
    assert.equal(certificate.isCa, told.ca, told.subject);
    assert.equal(certificate.subject.commonName ?? undefined, /^CN=(.*)$/m.exec(told.subject)?.[1], told.subject);
    const key = told.publicKey.export({ type: "spki", format: "der" });
    assert.deepEqual(Buffer.from(certificate.publicKey.der), key, told.subject);
    const { modulusLength, namedCurve } = told.publicKey.asymmetricKeyDetails;
    if (modulusLength !== undefined) assert.equal(certificate.publicKey.bits, modulusLength, told.subject);
    else assert.equal(certificate.publicKey.curve, namedCurve.replace("prime256v1", "secp256r1"), told.subject);
  }
  assert.ok(count >= 100, String(count));
});

test("the alternative names of a certificate are those that Node tells", () => {
  const [, certificate] = certificates.find(([name]) => name === "certificate_rsa.pem");
  const { subjectAltName } = new X509Certificate(sample("certificate_rsa.pem"));
  const told = { dNSName: "DNS:", rfc822Name: "email:", uniformResourceIdentifier: "URI:" };
  const plain = certificate.alternativeNames.filter((it) => it.type in told).map((it) => told[it.type] + it.value);
  assert.equal(plain.length, 4);
  for (const it of plain) assert.ok(subjectAltName.split(", ").includes(it), it);
  const [one, two] = certificate.alternativeNames.filter((it) => it.type === "iPAddress").map((it) => [it.value, ...it.bytes]);
  assert.deepEqual(one, ["192.0.2.7", 192, 0, 2, 7]);
  assert.deepEqual(two, ["2001:db8::1", 0x20, 1, 0x0d, 0xb8, ...new Array(11).fill(0), 1]);
  const [directory, other, registered] = certificate.alternativeNames.slice(-3);
  assert.equal(directory.value.commonName, "example.org");
  assert.equal(`${other.id} ${other.value}`, "NT_PRINCIPAL_NAME someone@example.org");
  assert.equal(String(registered.value), "1.2.3.4");
});

test("an address has its bytes, whatever its text looks like", () => {
  const addresses = [
    [10, 11, 22, 33, 44, 55, 66, 77].map((it) => parseInt(String(it), 16)),
    [0, 0x10, 0, 0x11, 0, 0x22, 0, 0x33, 0, 0x44, 0, 0x55, 0, 0x66, 0, 0x77],
    [1, 2, 3, 4],
    [0xab],
    [],
    Array.from({ length: 16 }, (_, at) => at),
    Array.from({ length: 32 }, (_, at) => at),
    Array.from({ length: 200 }, () => 0x11),
  ];
  for (const bytes of addresses) {
    const header = bytes.length < 128 ? [0x87, bytes.length] : [0x87, 0x81, bytes.length];
    const explicit = [0x04, ...header.slice(1), ...bytes];
    const size = explicit.length < 128 ? [explicit.length] : [0x81, explicit.length];
    for (const name of [[...header, ...bytes], [0xa7, ...size, ...explicit]]) {
      const [found] = read(keyCertificate(Buffer.from("3000", "hex"), [Uint8Array.from(name)])).alternativeNames;
      assert.deepEqual([...found.bytes], bytes, found.value);
    }
  }
});

test("what extensions say", () => {
  const values = Object.fromEntries(certificates);
  const { keyUsage, extendedKeyUsage, isCa, pathLength } = values["certificate_rsa.pem"];
  assert.deepEqual(keyUsage, ["digitalSignature", "keyCertSign", "cRLSign"]);
  assert.deepEqual(extendedKeyUsage.map(String), ["id-kp-serverAuth", "id-kp-clientAuth", "1.3.6.1.4.1.99999.1"]);
  assert.deepEqual([isCa, pathLength], [true, 2]);
  const bare = read(keyCertificate(Buffer.from("3000", "hex"), []));
  assert.deepEqual([bare.alternativeNames, bare.keyUsage, bare.isCa, bare.pathLength], [null, null, false, null]);
  assert.equal(bare.extensions.length, 0);
  assert.equal(bare.subject.commonName, null);
});

// A name of attributes: the sets, each of attributes, which are an identifier and a value's element in hexadecimal.
function nameOf(...sets) {
  const element = (tag, content) => tag + Buffer.from([content.length / 2]).toString("hex") + content;
  const attribute = ([type, value]) => element("30", `${type}${value}`);
  return Buffer.from(element("30", sets.map((it) => element("31", it.map(attribute).join(""))).join("")), "hex");
}

const CN = "0603550403";
const text = (value, tag = "0c") => {
  const content = Buffer.from(value);
  return `${tag}${Buffer.from([content.length]).toString("hex")}${content.toString("hex")}`;
};

test("names are written as RFC 4514 writes them", () => {
  const DC = "060a0992268993f22c640119";
  const written = (...sets) => read(nameOf(...sets), "name").subject.rfc4514();
  // (its examples, 4)
  const domains = [[[DC, text("net", "16")]], [[DC, text("example", "16")]]];
  assert.equal(written(...domains, [["0603550403", text("Steve Kille")]]), "CN=Steve Kille,DC=example,DC=net");
  const two = [["060355040b", text("Sales")], [CN, text("J.  Smith")]];
  assert.equal(written(...domains, two), "OU=Sales+CN=J.  Smith,DC=example,DC=net");
  assert.equal(written([[CN, text('James "Jim" Smith, III')]]), 'CN=James \\"Jim\\" Smith\\, III');
  assert.equal(written([[CN, text("Before\rAfter")]]), "CN=Before\\0dAfter");
  assert.equal(written([["06082b060104018b3a00", "04024869"]]), "1.3.6.1.4.1.1466.0=#04024869");
  assert.equal(written([["0603550404", text("Lučić")]]), "2.5.4.4=#0c074c75c48d69c487");
  // (each character that 2.4 names, and what can't be seen)
  const cases = [
    ["#a", "\\#a"],
    ["a#", "a#"],
    [" a ", "\\ a\\ "],
    [" ", "\\ "],
    ["  ", "\\ \\ "],
    ["a b", "a b"],
    ['"+,;<>\\=', '\\"\\+\\,\\;\\<\\>\\\\='],
    ["\0", "\\00"],
    ["\u202e\u200b", "\\e2\\80\\ae\\e2\\80\\8b"],
    ["", ""],
  ];
  for (const [value, expected] of cases) assert.equal(written([[CN, text(value)]]), `CN=${expected}`);
  assert.equal(written(), "");
});

test("attributes are told in their order, each with its set and its element", () => {
  const { subject } = read(nameOf([["060355040a", text("Org")]], [[CN, text("b", "13")], [CN, text("c")]]), "name");
  const told = [...subject].map((it) => [it.id, it.name, it.value, it.set, Buffer.from(it.der).toString("hex")]);
  assert.deepEqual(told, [
    ["2.5.4.10", "organizationName", "Org", 0, text("Org")],
    ["2.5.4.3", "commonName", "b", 1, text("b", "13")],
    ["2.5.4.3", "commonName", "c", 1, text("c")],
  ]);
  assert.equal(subject.commonName, "c");
  assert.deepEqual(subject.values("organizationName"), ["Org"]);
  assert.deepEqual(subject.values("2.5.4.3"), ["b", "c"]);
  // (what isn't looked into has no text; elements of each length of header are found)
  const others = [...certificates.find(([name]) => name === "hostile_others.pem")[1].subject];
  assert.deepEqual(others.map((it) => it.value), ["\u001b]0;title\u0007", null, null]);
  for (const length of [1, 100, 115, 116, 117, 118, 119, 120, 121, 122, 123, 124, 125, 126, 127, 128, 200, 255, 256, 300]) {
    const long = Buffer.alloc(length, "x");
    const header = length < 128 ? [length] : length < 256 ? [0x81, length] : [0x82, length >> 8, length & 255];
    const value = Buffer.concat([Buffer.from([0x0c, ...header]), long]);
    const wrapped = [0x30, 0x31, 0x30].reduce((content, tag) => sized(tag, content), Buffer.concat([Buffer.from(CN, "hex"), value]));
    const [found] = read(wrapped, "name").subject;
    assert.deepEqual(Buffer.from(found.der), value);
    assert.equal(found.value, long.toString());
  }
});

function sized(tag, content) {
  const { length } = content;
  const header = length < 128 ? [length] : length < 256 ? [0x81, length] : [0x82, length >> 8, length & 255];
  return Buffer.concat([Buffer.from([tag, ...header]), content]);
}

for (const [name, request] of requests) {
  test(`the values of ${name}`, { skip: NOT_HERE }, async () => {
    const told = openssl("req", "-in", `${DATA}/${name}`, "-noout", "-subject", "-nameopt", "RFC2253,-esc_msb");
    assert.equal(request.subject.rfc4514(), nameBy(told));
    const pem = openssl("req", "-in", `${DATA}/${name}`, "-noout", "-pubkey");
    assert.deepEqual(request.publicKey.der, structuresIn(new TextEncoder().encode(pem))[0].bytes);
    assert.equal(request.version, 1);
    assert.equal(request.serialNumber, undefined);
    assert.equal(request.validity(), undefined);
    const { Certificate: _, CertificationRequest: root } = request.report();
    const items = root.certificationRequestInfo.attributes.items.flatMap((it) => it.items[0].items ?? []);
    assert.deepEqual(request.extensions.map((it) => [it.id, it.whole.start, it.whole.end]), items.map((it) => [it.id, ...it.at]));
    for (const it of request.extensions) assert.equal(request.bytes(it.extnID)[0], 6);
    for (const it of request.extensions) assert.equal(request.bytes(it.extnValue)[0], 4);
    assert.equal(request.matchesHost("request.example.org"), name === "request_rsa.pem");
  });
}

for (const kind of ["private-key", "rsa-private-key", "ec-private-key", "public-key", "rsa-public-key"]) {
  test(`public keys of type ${kind}`, { skip: NOT_HERE }, async () => {
    for (const [name, key] of samplesOf(kind)) {
      const isPublic = kind.endsWith("public-key");
      const form = kind === "rsa-public-key" ? ["rsa", "-RSAPublicKey_in", "-pubout"] : ["pkey", isPublic ? "-pubin" : "-pubout"];
      const pem = openssl(...form, "-in", `${DATA}/${name}`);
      if (key.publicKey === null) assert.equal(name, "private_key_ed25519.pem");
      else assert.deepEqual(key.publicKey.der, structuresIn(new TextEncoder().encode(pem))[0].bytes, name);
    }
  });
}

test("a key matches the certificate that has its pin", async () => {
  const pinOf = (name, kind) => read(sample(name), kind).publicKey.pin();
  assert.equal(await pinOf("private_key_rsa.pem", "private-key"), await pinOf("request_rsa.pem", "request"));
  assert.notEqual(await pinOf("private_key_rsa.pem", "private-key"), await pinOf("certificate_rsa.pem", "certificate"));
});

test("a pin is that of the DER encoding, also where the input deviates from it", async () => {
  const [, clean] = certificates.find(([name]) => name === "certificate_rsa.pem");
  const { start, end } = clean.fields.subjectPublicKeyInfo;
  const info = clean.bytes({ start, end });
  assert.deepEqual(clean.publicKey.der, info);
  const bare = Buffer.from(info).toString("hex").replace("30820122300d06092a864886f70d0101010500", "30820120300b06092a864886f70d010101");
  const deviant = read(Buffer.from(bare, "hex"), "public-key");
  assert.equal(deviant.isDer, false);
  assert.equal(await deviant.publicKey.pin(), await clean.publicKey.pin());
});

test("what a type hasn't is undefined", () => {
  const named = read(structuresIn(sample("name.hex"))[0].bytes, "name");
  assert.ok(named.subject.rfc4514().length > 0);
  for (const it of ["issuer", "serialNumber", "notBefore", "version", "alternativeNames", "isCa", "signature", "signedBytes"]) {
    assert.equal(named[it], undefined, it);
  }
  assert.equal(named.publicKey, null);
  assert.equal(named.matchesHost("example.org"), false);
  const list = read(structuresIn(sample("extensions.hex"))[0].bytes, "extensions");
  assert.deepEqual([list.alternativeNames, list.isCa, list.subject], [null, false, undefined]);
  assert.equal(list.extensions.get("2.5.29.14").name, "id-ce-subjectKeyIdentifier");
});

test("validity has both of its seconds in it", () => {
  const [, certificate] = certificates.find(([name]) => name === "certificate_rsa.pem");
  const at = (date, more) => certificate.validity(new Date(date.getTime() + more));
  assert.equal(at(certificate.notBefore, -1), "not yet valid");
  assert.equal(at(certificate.notBefore, 0), "valid");
  assert.equal(at(certificate.notAfter, 999), "valid");
  assert.equal(at(certificate.notAfter, 1000), "expired");
});

test("many names and hostile ones are answered", () => {
  const certificate = read(LARGE);
  assert.equal(certificate.alternativeNames.length, 2700);
  assert.equal(certificate.matchesHost("HOST-0003.department-3.example.org"), true);
  for (const [name, it] of certificates) {
    assert.equal(typeof `${it.subject}${it.issuer}${it.serialNumber}`, "string", name);
    assert.doesNotMatch(`${it.subject}${it.issuer}`, /[\u0000-\u001f\u007f-\u009f\u200b-\u200f\u2028-\u202e\u2066-\u2069]/, name);
  }
});
