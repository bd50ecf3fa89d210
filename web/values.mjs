// SPDX-License-Identifier: MIT OR Apache-2.0

// What people ask of a structure, as values: all of it is what the library's report tells (docs/JSON.md), or the bytes at
// the places that it tells; but for hosts and findings there are calls of their own.

import { Identifier, Name, alternativeName, bytesOf, hexadecimal } from "./directory.mjs";
import { digestOf } from "./digests.mjs";
import { hostText, isForHost } from "./hosts.mjs";
import { publicKeyIn } from "./keys.mjs";
import { toBase64 } from "./pem.mjs";
import { ISSUERS, OCSP, addressesOf, pointAddresses, policiesOf, timestampsOf } from "./services.mjs";

// The members of a report that have the fields of each type.
const ROOTS = ["Certificate", "CertificationRequest", "PrivateKeyInfo", "SubjectPublicKeyInfo", "RSAPrivateKey"];
ROOTS.push("RSAPublicKey", "ECPrivateKey", "Name", "Extensions", "AlgorithmIdentifier", "CertificationRequestInfo");
ROOTS.push("TBSCertificate", "CertificateList");

const EXTENSION_REQUEST = "1.2.840.113549.1.9.14";
const SUBJECT_KEY = "2.5.29.14";
const KEY_USAGE = "2.5.29.15";
const ALTERNATIVE_NAMES = "2.5.29.17";
const ISSUER_NAMES = "2.5.29.18";
const BASIC_CONSTRAINTS = "2.5.29.19";
const AUTHORITY_KEY = "2.5.29.35";
const EXTENDED_KEY_USAGE = "2.5.29.37";
const ISSUER_SERVICES = "1.3.6.1.5.5.7.1.1";
const DISTRIBUTION_POINTS = "2.5.29.31";
const POLICIES = "2.5.29.32";
const TIMESTAMPS = "1.3.6.1.4.1.11129.2.4.2";

/** A public key: what it is called, how large it is, and its SubjectPublicKeyInfo. */
export class PublicKey {
  #der;

  constructor({ algorithm, curve, bits }, der) {
    Object.assign(this, { algorithm, curve, bits });
    this.#der = der;
    Object.freeze(this);
  }

  /** The DER encoding of its SubjectPublicKeyInfo. */
  get der() {
    return this.#der.slice();
  }

  /** The SHA-256 of that in base64 (RFC 7469, 2.4). */
  async pin() {
    return toBase64(await digestOf("SHA-256", this.#der));
  }
}

/**
 * Whether something is valid at a time that is so from one time to another, both included (RFC 5280, 4.1.2.5): `valid`,
 * `not yet valid` or `expired`.
 */
export function standingAt(time, notBefore, notAfter) {
  const second = Math.floor(time / 1000);
  if (second < notBefore / 1000) return "not yet valid";
  return second > notAfter / 1000 ? "expired" : "valid";
}

// The lists of extensions in a certificate, a request or a list of them.
function extensionLists(kind, root) {
  if (kind === "extensions") return [root];
  if (kind === "certificate") return [root.tbsCertificate.extensions ?? {}];
  if (kind !== "request") return [];
  const attributes = root.certificationRequestInfo.attributes?.items ?? [];
  return attributes.filter((it) => it.id === EXTENSION_REQUEST).flatMap((it) => it.items ?? []);
}

const shifted = ({ start, end }, by) => ({ start: start + by, end: end + by });

// An extension: where it and its fields stand, and what is told of it.
function extension({ whole, extnID, critical, extnValue }, node, by) {
  return {
    whole: shifted(whole, by),
    extnID: shifted(extnID, by),
    critical: critical && shifted(critical, by),
    extnValue: shifted(extnValue, by),
    id: node.id,
    name: node.name ?? null,
    isCritical: node.critical,
    node,
  };
}

const utc = (node) => new Date(node.value);

/** What people ask of a structure. What a type doesn't have is `undefined`, and what is left out of an input `null`. */
export class Values {
  #calls;
  #root;
  #extensions;
  #findings;
  #publicKey;

  /**
   * `encoded(bytes, kind)` gives the DER encoding of bytes, `extensionsOf(bytes, kind)` where their extensions stand,
   * `findingsOf(bytes, kind)` the rules that they break, and `isForHostText(bytes, text)` whether a certificate is for a
   * host.
   */
  constructor(calls) {
    this.#calls = calls;
  }

  // The member of its report that has the fields.
  get #fields() {
    if (this.#root === undefined) {
      const report = this.report();
      this.#root = report[ROOTS.find((it) => report[it] !== undefined)] ?? {};
    }
    return this.#root;
  }

  // The fields of a certificate, a request or a revocation list that are signed.
  get #signed() {
    const { tbsCertificate, certificationRequestInfo, tbsCertList } = this.#fields;
    return tbsCertificate ?? certificationRequestInfo ?? tbsCertList;
  }

  #named(node) {
    return node === undefined ? undefined : new Name(node, this.der);
  }

  #extension(id) {
    const lists = extensionLists(this.kind, this.#fields);
    return lists.flatMap((it) => it.items ?? []).find((it) => it.id === id);
  }

  // What an extension says; `undefined` where the type has no extensions, and `null` where it isn't there.
  #told(id, take) {
    if (!["certificate", "request", "extensions"].includes(this.kind)) return undefined;
    const found = this.#extension(id);
    return found === undefined ? null : take(found);
  }

  /** Whose it is. */
  get subject() {
    return this.#named(this.kind === "name" ? this.#fields : this.#signed?.subject);
  }

  get issuer() {
    return this.#named(this.#signed?.issuer);
  }

  /** The serial number of a certificate, as a BigInt. */
  get serialNumber() {
    const node = this.#signed?.serialNumber;
    if (node === undefined) return undefined;
    const bytes = bytesOf(node.value);
    return BigInt.asIntN(8 * bytes.length, BigInt(`0x${hexadecimal(bytes)}`));
  }

  /** The first second in which a certificate is valid. */
  get notBefore() {
    const { validity } = this.#signed ?? {};
    return validity && utc(validity.notBefore);
  }

  /** The last second in which it is. */
  get notAfter() {
    const { validity } = this.#signed ?? {};
    return validity && utc(validity.notAfter);
  }

  /** Whether a certificate is `valid`, `not yet valid` or `expired` by its own dates. */
  validity(time = new Date()) {
    const { notBefore, notAfter } = this;
    return notBefore && standingAt(time.getTime(), notBefore.getTime(), notAfter.getTime());
  }

  /** The version as people count it: 3 of a certificate that says v3. */
  get version() {
    if (this.#signed === undefined) return undefined;
    return Number((this.#signed.version?.value ?? "v1").slice(1));
  }

  get alternativeNames() {
    return this.#told(ALTERNATIVE_NAMES, (it) => (it.items ?? []).map((one) => alternativeName(one, this.der)));
  }

  get issuerAlternativeNames() {
    return this.#told(ISSUER_NAMES, (it) => (it.items ?? []).map((one) => alternativeName(one, this.der)));
  }

  /** What names the subject's key. */
  get subjectKeyIdentifier() {
    return this.#told(SUBJECT_KEY, (it) => bytesOf(it.value));
  }

  /** What names the issuer's key. */
  get authorityKeyIdentifier() {
    return this.#told(AUTHORITY_KEY, ({ keyIdentifier }) => (keyIdentifier ? bytesOf(keyIdentifier.value) : null));
  }

  /** What the key may be used for, by the names of the bits that are set. */
  get keyUsage() {
    return this.#told(KEY_USAGE, (it) => it.value);
  }

  get extendedKeyUsage() {
    return this.#told(EXTENDED_KEY_USAGE, (it) => (it.items ?? []).map((one) => new Identifier(one.value)));
  }

  /** Whether the basic constraints say that it is that of an authority. */
  get isCa() {
    const found = this.#told(BASIC_CONSTRAINTS, (it) => it.cA?.value ?? false);
    return found === null ? false : found;
  }

  /** How many authorities may stand below it. */
  get pathLength() {
    return this.#told(BASIC_CONSTRAINTS, (it) => it.pathLenConstraint?.value ?? null);
  }

  /** Where the status is asked for by OCSP. It throws if the extension is malformed, and so do the following. */
  get ocspAddresses() {
    return this.#told(ISSUER_SERVICES, (it) => addressesOf(it, OCSP));
  }

  /** Where the issuer's certificates are found. */
  get issuerAddresses() {
    return this.#told(ISSUER_SERVICES, (it) => addressesOf(it, ISSUERS));
  }

  /** Where revocation lists are found. */
  get crlAddresses() {
    return this.#told(DISTRIBUTION_POINTS, pointAddresses);
  }

  /** Under which policies it was issued. */
  get policies() {
    return this.#told(POLICIES, policiesOf);
  }

  /** The timestamps of logs of certificates, in version 1. */
  get certificateTimestamps() {
    return this.#told(TIMESTAMPS, timestampsOf);
  }

  /** The public key; of a private one that which it has in it. */
  get publicKey() {
    if (this.#publicKey === undefined) {
      const found = publicKeyIn(this.kind, this.#fields, this.der);
      this.#publicKey = found && new PublicKey(found[0], this.#calls.encoded(found[1], "public-key"));
    }
    return this.#publicKey;
  }

  get signatureAlgorithm() {
    const node = this.#signed && this.#fields.signatureAlgorithm;
    return node && new Identifier(node.algorithm.value);
  }

  /** The bytes of the signature. */
  get signature() {
    const node = this.#signed && (this.#fields.signatureValue ?? this.#fields.signature);
    return node && this.der.slice(node.at[1] - Math.ceil(node.bits / 8), node.at[1]);
  }

  /** The bytes that it covers. */
  get signedBytes() {
    return this.#signed && this.der.slice(...this.#signed.at);
  }

  /** The digest of the structure's bytes in hexadecimal, by an algorithm of WebCrypto. */
  async fingerprint(algorithm = "SHA-256") {
    return hexadecimal(await digestOf(algorithm, this.der));
  }

  /** The rules that a certificate or a request breaks, each once and in their order (docs/FINDINGS.md). */
  get findings() {
    if (this.kind !== "certificate" && this.kind !== "request") return undefined;
    this.#findings ??= this.#calls.findingsOf(this.der, this.kind);
    return this.#findings;
  }

  /** Whether one of its alternative names is that of a host (RFC 9525, 6). */
  matchesHost(host) {
    const text = hostText(host);
    if (this.kind === "certificate") return text !== null && this.#calls.isForHostText(this.der, text);
    return isForHost(this.alternativeNames ?? [], host);
  }

  /**
   * The extensions of a certificate or of a list of extensions, and those that a request asks for, in the order of the
   * input. `extensions.get(type)` gives the first of a type, by its identifier with dots or its name.
   */
  get extensions() {
    this.#extensions ??= this.#listed();
    return this.#extensions;
  }

  #listed() {
    const found = extensionLists(this.kind, this.#fields).flatMap((it) => this.#inList(it));
    const get = (type) => found.find((it) => it.id === type || it.name === type);
    return Object.defineProperty(found, "get", { value: get });
  }

  // (of a request the library tells where its lists stand, and of such a list where the extensions do)
  #inList({ at, items = [] }) {
    if (items.length === 0) return [];
    const isAsked = this.kind === "request";
    const [start, bytes, kind] = isAsked ? [at[0], this.der.subarray(...at), "extensions"] : [0, this.der, this.kind];
    return this.#calls.extensionsOf(bytes, kind).map((it, index) => extension(it, items[index], start));
  }
}
