// SPDX-License-Identifier: MIT OR Apache-2.0

/** The types that a structure can be read as. */
export type Kind =
  | "certificate"
  | "request"
  | "private-key"
  | "public-key"
  | "rsa-private-key"
  | "rsa-public-key"
  | "ec-private-key"
  | "name"
  | "extensions"
  | "algorithm"
  | "raw-algorithm"
  | "request-info"
  | "tbs-certificate"
  | "certificate-outline"
  | "request-outline"
  | "private-key-outline"
  | "public-key-outline"
  | "crl";

/** Bytes of the input, from `start` up to but not including `end`. */
export interface Span {
  start: number;
  end: number;
}

/** Where the fields of a certificate are (RFC 5280, 4.1). Optional ones are missing if the input leaves them out. */
export interface CertificateFields {
  tbsCertificate: Span;
  version?: Span;
  serialNumber: Span;
  signature: Span;
  issuer: Span;
  validity: Span;
  subject: Span;
  subjectPublicKeyInfo: Span;
  issuerUniqueID?: Span;
  subjectUniqueID?: Span;
  extensions?: Span;
  signatureAlgorithm: Span;
  signatureValue: Span;
}

/** Where the fields of a certification request are (RFC 2986, 4). */
export interface RequestFields {
  certificationRequestInfo: Span;
  version: Span;
  subject: Span;
  subjectPKInfo: Span;
  attributes: Span;
  signatureAlgorithm: Span;
  signature: Span;
}

/** Where the fields of a private key are (RFC 5958, 2). Optional ones are missing if the input leaves them out. */
export interface PrivateKeyFields {
  version: Span;
  privateKeyAlgorithm: Span;
  privateKey: Span;
  /** An element that isn't understood, such as `attributes [0]`. */
  skipped?: Span;
  publicKey?: Span;
}

/** Where the fields of a revocation list are (RFC 5280, 5.1). Optional ones are missing if the input leaves them out. */
export interface CrlFields {
  tbsCertList: Span;
  version?: Span;
  signature: Span;
  issuer: Span;
  thisUpdate: Span;
  nextUpdate?: Span;
  revokedCertificates?: Span;
  crlExtensions?: Span;
  signatureAlgorithm: Span;
  signatureValue: Span;
}

/** The types that have named fields: an outline has those of what it is the outline of. */
export interface FieldsByKind {
  certificate: CertificateFields;
  request: RequestFields;
  "private-key": PrivateKeyFields;
  crl: CrlFields;
  "certificate-outline": CertificateFields;
  "request-outline": RequestFields;
  "private-key-outline": PrivateKeyFields;
}

type KeyOfEach<T> = T extends unknown ? keyof T : never;

/** The name of a field of any type. */
export type FieldName = KeyOfEach<FieldsByKind[keyof FieldsByKind]>;

/** The fields of a type; of one that isn't known before the program runs, any that there may be. */
export type FieldsOf<K extends Kind> = [K] extends [keyof FieldsByKind]
  ? FieldsByKind[K]
  : { [Name in FieldName]?: Span };
