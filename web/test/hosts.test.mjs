// Which hosts a certificate is for: RFC 9525, 6, each clause of it, and OpenSSL where it agrees.

import assert from "node:assert/strict";
import { spawnSync } from "node:child_process";
import { mkdtempSync, rmSync, writeFileSync } from "node:fs";
import { tmpdir } from "node:os";
import { join } from "node:path";
import { test } from "node:test";
import { read } from "../cimaroly.mjs";
import { addressOf } from "../hosts.mjs";
import { DATA, sample } from "./data.mjs";
import { keyCertificate } from "./hostile.mjs";

const NONE = Buffer.from("3000", "hex");
const dns = (name) => Buffer.from([0x82, name.length, ...Buffer.from(name)]);
const ip = (...bytes) => Buffer.from([0x87, bytes.length, ...bytes]);
const withNames = (...names) => read(keyCertificate(NONE, names));

// A presented name, a host, and whether they match.
const DOMAINS = [
  ["example.org", "example.org", true],
  ["example.org", "EXAMPLE.oRG", true],
  ["Example.ORG", "example.org", true],
  ["example.org", "example.org.", true],
  ["example.org", "www.example.org", false],
  ["example.org", "example.com", false],
  ["example.org", "xample.org", false],
  ["example.org", "", false],
  ["example.org", ".example.org", false],
  ["example.org", "example.org..", false],
  ["example.org", "example.org\0.example.com", false],
  ["example.org\0", "example.org", false],
  [".example.org", "www.example.org", false],
  // the wildcard is the whole left-most label, and stands for one label
  ["*.example.org", "www.example.org", true],
  ["*.example.org", "WWW.Example.org", true],
  ["*.example.org", "xn--bcher-kva.example.org", true],
  ["*.example.org", "example.org", false],
  ["*.example.org", "a.b.example.org", false],
  ["*.example.org", ".example.org", false],
  ["*.example.org", "*.example.org", false],
  ["w*.example.org", "www.example.org", false],
  ["*w.example.org", "www.example.org", false],
  ["w*w.example.org", "www.example.org", false],
  ["www.*.org", "www.example.org", false],
  ["*.*.org", "www.example.org", false],
  ["**.example.org", "www.example.org", false],
  ["*.org", "example.org", true],
  ["*", "localhost", false],
  ["*", "example.org", false],
  // other forms of names
  ["localhost", "localhost", true],
  ["a_b.example.org", "a_b.example.org", true],
  ["xn--bcher-kva.example", "bücher.example", true],
  ["xn--bcher-kva.example", "BÜCHER.example", true],
  ["example.org", "example.org:443", false],
  ["example.org", "x@example.org", false],
  ["example.org", "example.org/", false],
  ["example.org", "example.org#é", false],
  // an address is no domain name, and a domain name no address
  ["192.0.2.7", "192.0.2.7", false],
  ["*.0.2.7", "192.0.2.7", false],
  ["1.2.3", "1.2.3", false],
  ["example.0x1", "example.0x1", false],
  ["1.2.3.4", "１.２.３.４", false],
];

for (const [name, host, isMatch] of DOMAINS) {
  test(`${JSON.stringify(name)} for ${JSON.stringify(host)}`, () => {
    assert.equal(withNames(dns(name)).matchesHost(host), isMatch);
    assert.equal(withNames(dns("other.example"), dns(name)).matchesHost(host), isMatch);
  });
}

test("addresses are compared as bytes", () => {
  const certificate = withNames(ip(192, 0, 2, 7), ip(0x20, 1, 0x0d, 0xb8, ...new Array(11).fill(0), 1), dns("example.org"));
  for (const it of ["192.0.2.7", "2001:db8::1", "2001:0DB8:0:0::0:1", "[2001:db8::1]", "2001:db8::0.0.0.1"]) {
    assert.equal(certificate.matchesHost(it), true, it);
  }
  for (const it of ["192.0.2.8", "192.0.2.07", "192.0.2", "[192.0.2.7]", "::ffff:192.0.2.7", "2001:db8::2", "3221226503", "2001:db8::1%eth0"]) {
    assert.equal(certificate.matchesHost(it), false, it);
  }
});

test("addresses are those of RFC 4291, 2.2", () => {
  const hex = (text) => addressOf(text) && Buffer.from(addressOf(text)).toString("hex");
  const zeros = (count) => "00".repeat(count);
  assert.equal(hex("::"), zeros(16));
  assert.equal(hex("::1"), `${zeros(15)}01`);
  assert.equal(hex("1::"), `0001${zeros(14)}`);
  assert.equal(hex("1:2:3:4:5:6:7:8"), "00010002000300040005000600070008");
  assert.equal(hex("::13.1.68.3"), `${zeros(12)}0d014403`);
  assert.equal(hex("::FFFF:129.144.52.38"), `${zeros(10)}ffff81903426`);
  assert.equal(hex("0.0.0.0"), zeros(4));
  assert.equal(hex("255.255.255.255"), "ffffffff");
  const none = ["", ":", ":::", "1", "1:2:3:4:5:6:7", "1:2:3:4:5:6:7:8:9", "1:2:3:4:5:6:7:8::", "1::2::3", "12345::", "g::", "1.2.3.4::"];
  for (const it of [...none, "1.2.3", "1.2.3.4.5", "256.1.1.1", "01.1.1.1", "1.1.1.-1", "[::1", "::1]", "[]"]) assert.equal(hex(it), null, it);
});

test("the common name doesn't count, nor do names of other forms", () => {
  const name = Buffer.from("3016311430120603550403130b6578616d706c652e6f7267", "hex");
  const address = Buffer.from([0x86, 19, ...Buffer.from("ftp://example.org/x")]);
  const mail = Buffer.from([0x81, 11, ...Buffer.from("example.org")]);
  for (const names of [[], [address], [mail], [address, mail]]) {
    const certificate = read(keyCertificate(name, names));
    assert.equal(certificate.subject.commonName, "example.org");
    assert.equal(certificate.matchesHost("example.org"), false);
  }
});

test("a host is text", () => {
  for (const it of [undefined, null, 7, {}, ["example.org"]]) assert.throws(() => withNames().matchesHost(it), TypeError);
});

// Where OpenSSL has another answer: it takes a wildcard beside other characters, and names of numbers; it takes no wildcard in
// front of a single label, and no dot at the end. (Those in which characters aren't ASCII or stand at an end aren't asked.)
const OTHERWISE = new Set([
  "example.org example.org.",
  "*.org example.org",
  "*.example.org *.example.org",
  "w*.example.org www.example.org",
  "*w.example.org www.example.org",
  "192.0.2.7 192.0.2.7",
  "*.0.2.7 192.0.2.7",
  "1.2.3 1.2.3",
  "example.0x1 example.0x1",
]);
const isAsked = (name, host) => /^[\x21-\x7e]+$/.test(name + host) && host !== "" && !host.startsWith(".");

const HAS_OPENSSL = spawnSync("openssl", ["version"]).status === 0;

test("OpenSSL has the same answers", { skip: !HAS_OPENSSL && "openssl isn't installed" }, () => {
  const folder = mkdtempSync(join(tmpdir(), "cimaroly-"));
  const file = `${folder}/it.der`;
  let compared = 0;
  for (const [name, host, isMatch] of DOMAINS) {
    if (!isAsked(name, host)) continue;
    writeFileSync(file, withNames(dns(name)).der);
    const { stdout } = spawnSync("openssl", ["x509", "-in", file, "-noout", "-checkhost", host], { encoding: "utf-8" });
    const isSame = !OTHERWISE.has(`${name} ${host}`);
    assert.equal(stdout.includes("does match"), isMatch === isSame, `${name} for ${host}: ${stdout}`);
    compared += 1;
  }
  rmSync(folder, { recursive: true });
  assert.ok(compared >= 28, String(compared));
});

test("certificate_rsa is for the names that OpenSSL finds in it", { skip: !HAS_OPENSSL && "openssl isn't installed" }, () => {
  const path = `${DATA}/certificate_rsa.pem`;
  const certificate = read(sample("certificate_rsa.pem"));
  const asked = [["-checkhost", "example.org"], ["-checkhost", "a.example.org"], ["-checkhost", "a.b.example.org"]];
  asked.push(["-checkip", "192.0.2.7"], ["-checkip", "192.0.2.8"], ["-checkip", "2001:db8::1"], ["-checkip", "2001:db8::2"]);
  for (const [option, host] of asked) {
    const { stdout } = spawnSync("openssl", ["x509", "-in", path, "-noout", option, host], { encoding: "utf-8" });
    assert.equal(certificate.matchesHost(host), stdout.includes("does match"), host);
  }
});
