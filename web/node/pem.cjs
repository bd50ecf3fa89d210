// This file is written by tools/make_commonjs.py from web/pem.mjs.

"use strict";

// The forms of inputs: PEM, the textual encodings of RFC 7468, the types that its labels say, and DER.

/** The types that a structure is read as, in the order of their numbers in cimaroly.h. */
const KINDS = Object.freeze([
  "certificate",
  "request",
  "private-key",
  "public-key",
  "rsa-private-key",
  "rsa-public-key",
  "ec-private-key",
  "name",
  "extensions",
  "algorithm",
  "raw-algorithm",
  "request-info",
  "tbs-certificate",
  "certificate-outline",
  "request-outline",
  "private-key-outline",
  "public-key-outline",
  "crl",
]);

// The label that is written comes first (RFC 7468, 4; the others are OpenSSL's).
const LABELS = new Map([
  ["CERTIFICATE", "certificate"],
  ["X509 CERTIFICATE", "certificate"],
  ["CERTIFICATE REQUEST", "request"],
  ["NEW CERTIFICATE REQUEST", "request"],
  ["PRIVATE KEY", "private-key"],
  ["PUBLIC KEY", "public-key"],
  ["RSA PRIVATE KEY", "rsa-private-key"],
  ["RSA PUBLIC KEY", "rsa-public-key"],
  ["EC PRIVATE KEY", "ec-private-key"],
  ["X509 CRL", "crl"],
]);

/** The type that a PEM label says, or undefined. */
function kindOfLabel(label) {
  return LABELS.get(label);
}

// What something is, for who took it for an input.
function nameOf(value) {
  if (value === null || typeof value !== "object") return String(value === null ? value : typeof value);
  return value.constructor?.name || "object";
}

/** The bytes of an input that is no text; `forms` are those that it may have. */
function bytesIn(data, forms = "a Uint8Array, an ArrayBuffer or a string") {
  if (ArrayBuffer.isView(data)) return new Uint8Array(data.buffer, data.byteOffset, data.byteLength);
  // (also one of another realm, such as a frame's)
  if (Object.prototype.toString.call(data) === "[object ArrayBuffer]") return new Uint8Array(data);
  const hint = typeof data?.then === "function" ? ": await it first" : "";
  throw new TypeError(`the input must be ${forms}, not ${nameOf(data)}${hint}`);
}

/** Whether bytes begin as text in UTF-16 does that has a byte order mark. */
function isUtf16(bytes) {
  return (bytes[0] === 0xff && bytes[1] === 0xfe) || (bytes[0] === 0xfe && bytes[1] === 0xff);
}

/** Whether bytes begin as a SEQUENCE whose length takes several bytes, as no text does, or is that of the whole. */
function isSequence(bytes) {
  const length = bytes[1];
  return bytes[0] === 0x30 && ((length >= 0x80 && length <= 0x88) || length === bytes.length - 2);
}

// The calls of the module that stands behind what follows.
let calls;

/** Takes the calls by which text is gone through: `blocks` and `decoded` of core.mjs. */
function use(given) {
  calls = given;
}

/** The bytes of base64 text (RFC 4648, 4), white space among its symbols, or null where it is none. */
function fromBase64(symbols) {
  return calls.decoded(new TextEncoder().encode(symbols));
}

/** The base64 text of bytes, on one line. */
function toBase64(bytes) {
  let characters = "";
  for (let at = 0; at < bytes.length; at += 8192) {
    characters += String.fromCharCode(...bytes.subarray(at, at + 8192));
  }
  return btoa(characters);
}

// What is wrong with a block, by the numbers of cimaroly.h.
const FAULTS = {
  2: "the labels of the BEGIN and END lines differ",
  3: "the block has no END line",
  4: "the block has headers, as encrypted keys do",
};

/**
 * The blocks of a text, in its order: the label, the number of the BEGIN line, and the bytes; or under `reason` why there
 * are none, with the number of the line where that was met. Text around the blocks is passed over.
 */
function* pemBlocks(text) {
  const bytes = new TextEncoder().encode(text);
  const decoder = new TextDecoder();
  for (const { answer, label, first, last, decoded } of calls.blocks(bytes)) {
    const name = decoder.decode(bytes.subarray(label.start, label.end));
    const reason = FAULTS[answer] ?? (decoded === null ? "invalid base64" : undefined);
    if (reason === undefined) yield { label: name, line: first, bytes: decoded };
    else yield { label: name, line: last, reason };
  }
}

module.exports = {
  KINDS,
  bytesIn,
  fromBase64,
  isSequence,
  isUtf16,
  kindOfLabel,
  pemBlocks,
  toBase64,
  use,
};
