// SPDX-License-Identifier: MIT OR Apache-2.0

import type { FieldsOf, Kind, Span } from "./fields.js";

export type { CertificateFields, FieldName, FieldsByKind, FieldsOf, Kind } from "./fields.js";
export type { CrlFields, PrivateKeyFields, RequestFields, Span } from "./fields.js";

/** DER, or PEM or bare base64 as text or bytes; of PEM the first block of the type is read. */
export type Input = Uint8Array | ArrayBuffer | string;

/** A deviation from the one DER encoding that is written. */
export interface Deviation extends Span {
  /** Its name, as in the table of deviations in README. */
  name: string;
  /** Its number in that table, from 1. */
  number: number;
}

export interface Verdict {
  /** Whether the input is the DER encoding of its value. */
  isDer: boolean;
  /** The deviations, by start and then by number. */
  deviations: Deviation[];
  /** How many deviations there are of each of the ten kinds. */
  counts: number[];
  /** How many element headers were decoded. */
  headers: number;
}

export interface SignedPart extends Span {
  /** How many deviations of each kind are inside: if there are none, the part is in DER. */
  inside: number[];
  /** How many are outside. */
  outside: number[];
}

/** Where an extension and its fields are. */
export interface ExtensionPlaces {
  whole: Span;
  extnID: Span;
  /** `null` if the input leaves it out. */
  critical: Span | null;
  extnValue: Span;
}

/** A node of a report; docs/JSON.md describes its members. */
export interface ReportNode {
  at: [number, number];
  [member: string]: unknown;
}

/** The contents of a structure; docs/JSON.md describes its members. */
export interface Report {
  type: Kind;
  length: number;
  result: "ok" | "deviations" | "refused";
  deviations?: { name: string; at: [number, number]; field?: string }[];
  signed?: [number, number];
  sha256?: string;
  sha1?: string;
  pin?: string;
  reason?: string;
  at?: number;
  field?: string;
  Certificate?: ReportNode;
  CertificationRequest?: ReportNode;
  PrivateKeyInfo?: ReportNode;
  SubjectPublicKeyInfo?: ReportNode;
  RSAPrivateKey?: ReportNode;
  RSAPublicKey?: ReportNode;
  ECPrivateKey?: ReportNode;
  Name?: ReportNode;
  Extensions?: ReportNode;
  AlgorithmIdentifier?: ReportNode;
  CertificationRequestInfo?: ReportNode;
  TBSCertificate?: ReportNode;
  OneAsymmetricKey?: ReportNode;
  CertificateList?: ReportNode;
}

export interface ReportOptions {
  /** Whether to include the secret numbers of private keys. */
  secrets?: boolean;
}

/** An object identifier. */
export interface Identifier {
  /** With dots. */
  readonly id: string;
  /** `null` if the library has no name for it. */
  readonly name: string | null;
  /** The name, or else the dots. */
  toString(): string;
}

/** An attribute of a distinguished name. */
export interface Attribute extends Identifier {
  /** The text; `null` if the value is none, or its type isn't known and its string isn't looked into. */
  readonly value: string | null;
  /** In which of the name's sets it stands, from 0. */
  readonly set: number;
  /** The element of the value. */
  readonly der: Uint8Array;
  /** As RFC 4514 writes it. */
  rfc4514(): string;
  /** The same. */
  toString(): string;
}

/** A distinguished name. */
export interface Name extends Iterable<Attribute> {
  /** In the order of the input. */
  readonly attributes: readonly Attribute[];
  /** The text of the last common name; `null` if there is none. */
  readonly commonName: string | null;
  /** The texts of the attributes of a type, by its identifier with dots or its name, as `organizationName`. */
  values(type: string): string[];
  /** As RFC 4514 writes it: the last set first. Attributes without a short name there have dots, and their values in hexadecimal. */
  rfc4514(): string;
  /** The same. */
  toString(): string;
}

/** An alternative name, by its form (RFC 5280, 4.2.1.6). */
export type AlternativeName =
  | { type: "dNSName" | "rfc822Name" | "uniformResourceIdentifier"; value: string }
  | { type: "iPAddress"; value: string; bytes: Uint8Array }
  | { type: "directoryName"; value: Name }
  | { type: "registeredID"; value: Identifier }
  | { type: "otherName"; id: Identifier; value: string }
  | { type: "ediPartyName"; nameAssigner: string | null; partyName: string };

/** The bits of a key usage (RFC 5280, 4.2.1.3). */
export type KeyUsage =
  | "digitalSignature"
  | "nonRepudiation"
  | "keyEncipherment"
  | "dataEncipherment"
  | "keyAgreement"
  | "keyCertSign"
  | "cRLSign"
  | "encipherOnly"
  | "decipherOnly";

/** An extension: what it is, where it stands, and its node in the report. */
export interface Extension extends ExtensionPlaces {
  /** Its identifier with dots. */
  id: string;
  /** Its name; `null` if the library has none for it. */
  name: string | null;
  isCritical: boolean;
  node: ReportNode;
}

/** Extensions in the order of the input. */
export interface Extensions extends Array<Extension> {
  /** The first of a type, by its identifier with dots or its name, as `id-ce-keyUsage`. */
  get(type: string): Extension | undefined;
}

/** A public key. */
export interface PublicKey {
  /** `RSA`, `EC`, `Ed25519` and the like. */
  readonly algorithm: string;
  /** The name of its curve, or else the curve's identifier with dots; `null` if it names none. */
  readonly curve: string | null;
  /** Its size; `null` if the curve isn't known. */
  readonly bits: number | null;
  /** The DER encoding of its SubjectPublicKeyInfo. */
  readonly der: Uint8Array;
  /** The SHA-256 of that in base64 (RFC 7469, 2.4), by WebCrypto. */
  pin(): Promise<string>;
}

/** A policy under which a certificate was issued (RFC 5280, 4.2.1.4). */
export interface Policy {
  /** With dots. */
  readonly id: string;
  /** Its name, as `domain-validated`; `null` if the library has none for it. */
  readonly name: string | null;
  /** Where statements of practices are found. */
  readonly statements: readonly string[];
  /** What is to be shown to whoever relies on the certificate. */
  readonly notices: readonly string[];
  /** Its name, or else its dots. */
  toString(): string;
}

/** A log's promise to have a certificate among its own (RFC 6962, 3.2). */
export interface Timestamp {
  /** Which log it is: the SHA-256 of its public key. */
  logId: Uint8Array;
  /** When it was issued. */
  time: Date;
  /** The log's signature. */
  signature: Uint8Array;
}

/** What extensions say; `null` if the extension isn't there. `Structure` says what each value is. */
export interface ExtensionValues {
  alternativeNames: AlternativeName[] | null;
  issuerAlternativeNames: AlternativeName[] | null;
  subjectKeyIdentifier: Uint8Array | null;
  authorityKeyIdentifier: Uint8Array | null;
  keyUsage: KeyUsage[] | null;
  extendedKeyUsage: Identifier[] | null;
  isCa: boolean;
  pathLength: number | null;
  ocspAddresses: string[] | null;
  issuerAddresses: string[] | null;
  crlAddresses: string[] | null;
  policies: Policy[] | null;
  certificateTimestamps: Timestamp[] | null;
}

/** A rule that a certificate breaks, and the field that it is about; of one that isn't there, what is signed. */
export interface Finding extends Span {
  /** Its name, as `serial-not-positive` (docs/FINDINGS.md). */
  rule: string;
  /** `error` if the clause forbids it; `warning` if it is allowed, or was, and mostly a mistake. */
  severity: "error" | "warning";
  /** What is wrong. */
  text: string;
  /** The clause that the rule is from, as `RFC 5280, 4.1.2.2`. */
  clause: string;
  /** Why it matters. */
  reason: string;
}

/** What all that is signed has. */
export interface FrameValues {
  /** As people count: 3 of a certificate that says `v3`. */
  version: number;
  signatureAlgorithm: Identifier;
  signature: Uint8Array;
  /** The bytes that the signature covers. */
  signedBytes: Uint8Array;
}

/** What a certificate and a request have. */
export interface SignedValues extends FrameValues, ExtensionValues {
  subject: Name;
  publicKey: PublicKey;
  findings: Finding[];
}

export interface CertificateValues extends SignedValues {
  issuer: Name;
  serialNumber: bigint;
  /** The first second in which it is valid. */
  notBefore: Date;
  /** The last second in which it is. */
  notAfter: Date;
}

/** What each type has; what it hasn't is `undefined`. Of a request it is what is asked for. */
export interface ValuesByKind {
  certificate: CertificateValues;
  request: SignedValues;
  "private-key": {
    /** `null` if it has no public key in it. */
    publicKey: PublicKey | null;
  };
  "public-key": { publicKey: PublicKey };
  "rsa-private-key": { publicKey: PublicKey };
  "rsa-public-key": { publicKey: PublicKey };
  "ec-private-key": { publicKey: PublicKey | null };
  name: { subject: Name };
  extensions: ExtensionValues;
  "certificate-outline": FrameValues &
    Pick<CertificateValues, "subject" | "issuer" | "serialNumber" | "notBefore" | "notAfter">;
  "request-outline": FrameValues & Pick<SignedValues, "subject">;
  crl: FrameValues & Pick<CertificateValues, "issuer">;
}

type Missing<V> = V extends "publicKey" ? null : undefined;

/** A value of a type; of one that isn't known before the program runs, of any. */
export type ValueOf<K extends Kind, V extends keyof CertificateValues> = K extends keyof ValuesByKind
  ? ValuesByKind[K] extends { [Name in V]: infer Value }
    ? Value
    : Missing<V>
  : Missing<V>;

/** Input that isn't a valid encoding of the type it was read as. */
export class Refused extends Error {
  /** The type it was read as; `extension` where it was refused by `checkExtension`. */
  readonly kind: Kind | "extension";
  /** Why it was refused, as in `wrong tag`. */
  readonly reason: string;
  /** The number of the reason in cimaroly.h. */
  readonly number: number;
  /** The first byte that couldn't be read, counted from 0. */
  readonly at: number;
  /** The fields around that byte, outermost first, joined by dots; `null` if none has a name. */
  readonly field: string | null;
}

/** A structure that was read. Logging it or turning it into JSON doesn't show its bytes, which may be a private key. */
export class Structure<K extends Kind = Kind> implements Verdict {
  private constructor();
  readonly kind: K;
  /** Its bytes. */
  get der(): Uint8Array;
  readonly isDer: boolean;
  readonly deviations: Deviation[];
  readonly counts: number[];
  readonly headers: number;
  /** The part that the signature covers; `null` if the type has none. */
  get signedPart(): SignedPart | null;
  /** Where each field of a certificate, request or private key is, by its name in the RFCs. */
  get fields(): FieldsOf<K>;
  /** The extensions of a certificate or of a list of extensions, and those that a request asks for. */
  get extensions(): Extensions;
  /** Whose it is; of a name the name itself. */
  get subject(): ValueOf<K, "subject">;
  get issuer(): ValueOf<K, "issuer">;
  get serialNumber(): ValueOf<K, "serialNumber">;
  /** The first second in which a certificate is valid. */
  get notBefore(): ValueOf<K, "notBefore">;
  /** The last second in which it is. */
  get notAfter(): ValueOf<K, "notAfter">;
  /** Whether a certificate is valid at a time, which is now if none is given, by its own dates alone. */
  validity(time?: Date): K extends "certificate" ? "valid" | "not yet valid" | "expired" : undefined;
  /** As people count: 3 of a certificate that says `v3`. */
  get version(): ValueOf<K, "version">;
  get alternativeNames(): ValueOf<K, "alternativeNames">;
  get issuerAlternativeNames(): ValueOf<K, "issuerAlternativeNames">;
  /** What names the subject's key. */
  get subjectKeyIdentifier(): ValueOf<K, "subjectKeyIdentifier">;
  /** What names the issuer's key. */
  get authorityKeyIdentifier(): ValueOf<K, "authorityKeyIdentifier">;
  get keyUsage(): ValueOf<K, "keyUsage">;
  get extendedKeyUsage(): ValueOf<K, "extendedKeyUsage">;
  /** Whether the basic constraints say that it is that of an authority. */
  get isCa(): ValueOf<K, "isCa">;
  /** How many authorities may stand below it. */
  get pathLength(): ValueOf<K, "pathLength">;
  /** Where the status is asked for by OCSP. It throws if the extension is malformed, and so do the following. */
  get ocspAddresses(): ValueOf<K, "ocspAddresses">;
  /** Where the issuer's certificates are found. */
  get issuerAddresses(): ValueOf<K, "issuerAddresses">;
  /** Where revocation lists are found. */
  get crlAddresses(): ValueOf<K, "crlAddresses">;
  get policies(): ValueOf<K, "policies">;
  /** The timestamps of logs of certificates, in version 1. */
  get certificateTimestamps(): ValueOf<K, "certificateTimestamps">;
  /** The public key; of a private key that which it has in it. */
  get publicKey(): ValueOf<K, "publicKey">;
  get signatureAlgorithm(): ValueOf<K, "signatureAlgorithm">;
  get signature(): ValueOf<K, "signature">;
  /** The bytes that the signature covers. */
  get signedBytes(): ValueOf<K, "signedBytes">;
  /** The digest of its bytes in hexadecimal, by an algorithm of WebCrypto: `SHA-256` by default. */
  fingerprint(algorithm?: string): Promise<string>;
  /** The rules of RFC 5280, X.690 and RFC 8017 that a certificate or a request breaks, each once and in their order. */
  get findings(): ValueOf<K, "findings">;
  /**
   * Whether one of its alternative names is that of a host, a domain name or an IP address (RFC 9525, 6). A wildcard stands
   * for one whole label, the left-most; the common name doesn't count.
   */
  matchesHost(host: string): boolean;
  /** Returns the bytes of a span. */
  bytes(span: Span): Uint8Array;
  /** Returns the DER encoding. */
  encode(): Uint8Array;
  /** Reports its contents. */
  report(options?: ReportOptions): Report;
}

/** The types, in the order of their numbers in cimaroly.h. */
export const KINDS: readonly Kind[];

/** The names of the deviations, in the order of their numbers. */
export const DEVIATIONS: readonly string[];

/** Whether the 32-bit translation of the module is in use, for lack of 64-bit memories: the proofs don't cover it. */
export const isLowered: boolean;

/**
 * Checks whether the input is a valid encoding of the type (`certificate` by default), and where it deviates from DER.
 * @throws {Refused} It isn't a valid encoding.
 * @throws {SyntaxError} It is PEM without a block of the type, or that block can't be decoded.
 * @throws {TypeError} It isn't an `Input`, or the type is unknown.
 */
export function check(data: Input, kind?: Kind): Verdict;

/**
 * Checks the value of an extension that `check` takes as octets, such as the policies (RFC 5280, 4.2.1.4): by its identifier
 * with dots, or its name, as `id-ce-certificatePolicies`. `null` if there is no such extension of the type. It isn't told where
 * deviations are, and of certificate timestamps (RFC 6962, 3.3) the OCTET STRING is checked, and not what TLS has in it.
 * @throws {Refused} The value doesn't encode what the type says: `at` counts from its first byte, and `kind` is `extension`.
 * @throws {RangeError} The type is neither an identifier with dots nor a name that is known.
 * @throws {TypeError} The value isn't bytes.
 */
export function checkExtension(type: string, value: Uint8Array | ArrayBuffer): Omit<Verdict, "deviations"> | null;

/**
 * Reads the input as the type.
 * @throws {Refused} It isn't a valid encoding.
 */
export function read<K extends Kind = "certificate">(data: Input, kind?: K): Structure<K>;

/**
 * Returns the DER encoding of the input's value: the input's own bytes if it has no deviations.
 * @throws {Refused} It isn't a valid encoding.
 */
export function encode(data: Input, kind?: Kind): Uint8Array;

/** Reports the input's contents; if it is refused, reports why and where. */
export function report(data: Input, kind?: Kind, options?: ReportOptions): Report;

/** Returns the same report as JSON text on one line. */
export function reportText(data: Input, kind?: Kind, options?: ReportOptions): string;

/** Parses a report's JSON. A value too large for an exact JavaScript number, such as a salt length, becomes a BigInt. */
export function parseReport(text: string): Report;

/** Nothing is made of a description: where in it, and why. */
export class NotMade extends Error {}

/**
 * Makes the DER encoding of what a description says (docs/MAKE.md): an object, or JSON text.
 * @throws {NotMade} Something is wrong with it.
 */
export function make(description: string | object): Uint8Array;

/**
 * Returns the AlgorithmIdentifier of a signature algorithm in DER, by a name such as `ecdsa-with-SHA256`, or in dotted form.
 * @throws {RangeError} No signature algorithm whose parameters are known has it.
 */
export function signatureAlgorithm(name: string): Uint8Array;

/**
 * Puts a certificate or a request together: of the bytes that were signed, which stand in it as they are, the algorithm, by
 * its name or in DER, and the signature. With `rawEcdsa`, this is r and s, as Web Cryptography gives them.
 * @throws {RangeError} Part, algorithm or signature isn't in its form.
 */
export function assemble(
  kind: "certificate" | "request",
  part: Uint8Array,
  algorithm: string | Uint8Array,
  signature: Uint8Array,
  options?: { rawEcdsa?: boolean },
): Uint8Array;

/** Returns bytes as PEM (RFC 7468), with a label such as `CERTIFICATE REQUEST`. */
export function pem(label: string, der: Uint8Array): string;
