// Formats that are recognised and not read, by a PEM label or by the first bytes.

import { headerLength, lengthAt } from "./elements.mjs";

const CMS = { name: "PKCS #7 or CMS", holdsKeys: false };
const PKCS_12 = { name: "PKCS #12", holdsKeys: true };
const ENCRYPTED_KEY = { name: "an encrypted private key", holdsKeys: true };
const OCSP_RESPONSE = { name: "an OCSP response", holdsKeys: false };
const JAVA_KEYSTORE = { name: "a Java keystore", holdsKeys: true };
const OPENSSH_KEY = { name: "an OpenSSH key", holdsKeys: true };

// RFC 7468, 8, 9 and 11; the last is OpenSSH's.
const BY_LABEL = new Map([
  ["CMS", CMS],
  ["PKCS7", CMS],
  ["ENCRYPTED PRIVATE KEY", ENCRYPTED_KEY],
  ["OPENSSH PRIVATE KEY", OPENSSH_KEY],
]);

const SSH = /^(?:openssh-key-v1\0|ssh-rsa |ssh-dss |ssh-ed25519 |ecdsa-sha2-|sk-)/;

// The content of an OBJECT IDENTIFIER under 1.2.840.113549.1, of which the rest is captured.
const PKCS = /^2a864886f70d01((?:..)*)$/;

/** The format that a PEM label names, or null. */
export function formatOfLabel(label) {
  return BY_LABEL.get(label) ?? null;
}

/** The format of bytes, as far as their beginning tells, or null. */
export function formatOf(bytes) {
  const [first, second, third, fourth] = bytes;
  const magic = [first, second, third, fourth].join();
  if (magic === "254,237,254,237" || magic === "206,206,206,206") return JAVA_KEYSTORE;
  if (first === 0x30) return inSequence(partOf(bytes).inside);
  return SSH.test(new TextDecoder("latin1").decode(bytes.subarray(0, 16))) ? OPENSSH_KEY : null;
}

// The tag of the first element, its content and what stands behind it, as far as these are there.
function partOf(bytes) {
  if (bytes.length === 0) return { tag: 0, inside: bytes, behind: bytes };
  const content = headerLength(bytes, 0, bytes.length);
  const isIndefinite = bytes[1] === 0x80;
  const stop = isIndefinite ? bytes.length : Math.min(content + lengthAt(bytes, 0, content), bytes.length);
  return { tag: bytes[0], inside: bytes.subarray(content, stop), behind: bytes.subarray(stop) };
}

// The content of the first element in hexadecimal behind 1.2.840.113549.1, or "".
function pkcsArcs(bytes) {
  const { tag, inside } = partOf(bytes);
  const digits = Array.from(inside.subarray(0, 16), (it) => it.toString(16).padStart(2, "0")).join("");
  return tag === 6 && inside.length <= 16 ? (PKCS.exec(digits)?.[1] ?? "") : "";
}

function inSequence(inside) {
  if (isCms(inside)) return CMS;
  if (isPkcs12(inside)) return PKCS_12;
  if (isEncryptedKey(inside)) return ENCRYPTED_KEY;
  return isOcspResponse(inside) ? OCSP_RESPONSE : null;
}

// ContentInfo (RFC 2315, 7; RFC 5652, 3): its type, and behind it what is explicitly tagged.
function isCms(inside) {
  const { behind } = partOf(inside);
  return /^(?:07..|091001..)$/.test(pkcsArcs(inside)) && (behind.length === 0 || behind[0] === 0xa0);
}

// PFX (RFC 7292, 4): version 3, and a ContentInfo.
function isPkcs12(inside) {
  const isVersion3 = inside[0] === 2 && inside[1] === 1 && inside[2] === 3;
  return isVersion3 && isCms(partOf(inside.subarray(3)).inside);
}

// EncryptedPrivateKeyInfo (RFC 5958, 3): an algorithm of PKCS #5 or PKCS #12, and an OCTET STRING.
function isEncryptedKey(inside) {
  const algorithm = partOf(inside);
  const isAlgorithm = /^(?:05..|0c01..)$/.test(pkcsArcs(algorithm.inside));
  return algorithm.tag === 0x30 && isAlgorithm && algorithm.behind[0] === 4;
}

// OCSPResponse (RFC 6960, 4.2.1): an ENUMERATED, and behind it [0] or nothing.
function isOcspResponse(inside) {
  const isStatus = inside[0] === 0x0a && inside[1] === 1 && inside.length >= 3;
  return isStatus && (inside.length === 3 || inside[3] === 0xa0);
}
