// SPDX-License-Identifier: MIT OR Apache-2.0

// Keys: what their algorithms are called and how large they are, as tools/make_tables.py writes it, and the
// SubjectPublicKeyInfo (RFC 5280, 4.1.2.7) of the public key that a private key has in it.

import { element, identifierElement } from "./der.mjs";

/** The words for the algorithms of keys. */
export const ALGORITHMS = new Map([
  ["1.2.840.113549.1.1.1", "RSA"],
  ["1.2.840.10045.2.1", "EC"],
  ["1.3.101.110", "X25519"],
  ["1.3.101.111", "X448"],
  ["1.3.101.112", "Ed25519"],
  ["1.3.101.113", "Ed448"],
  ["2.16.840.1.101.3.4.3.17", "ML-DSA-44"],
  ["2.16.840.1.101.3.4.3.18", "ML-DSA-65"],
  ["2.16.840.1.101.3.4.3.19", "ML-DSA-87"],
]);

/** The sizes in bits of the keys of curves and of algorithms (RFC 5480, 2.1.1.1; RFC 7748; RFC 8032; FIPS 204, table 2). */
export const SIZES = new Map([
  ["1.2.840.10045.3.1.1", 192],
  ["1.2.840.10045.3.1.7", 256],
  ["1.3.132.0.1", 163],
  ["1.3.132.0.10", 256],
  ["1.3.132.0.15", 163],
  ["1.3.132.0.16", 283],
  ["1.3.132.0.17", 283],
  ["1.3.132.0.26", 233],
  ["1.3.132.0.27", 233],
  ["1.3.132.0.33", 224],
  ["1.3.132.0.34", 384],
  ["1.3.132.0.35", 521],
  ["1.3.132.0.36", 409],
  ["1.3.132.0.37", 409],
  ["1.3.132.0.38", 571],
  ["1.3.132.0.39", 571],
  ["1.3.101.110", 256],
  ["1.3.101.111", 448],
  ["1.3.101.112", 256],
  ["1.3.101.113", 456],
  ["2.16.840.1.101.3.4.3.17", 10496],
  ["2.16.840.1.101.3.4.3.18", 15616],
  ["2.16.840.1.101.3.4.3.19", 20736],
]);

const RSA = "1.2.840.113549.1.1.1";
const EC = "1.2.840.10045.2.1";

const NULL = Uint8Array.of(5, 0);

const named = ({ id, name }) => name ?? id;

// What is told of a key by the identifier of its algorithm, that of its curve, and the node of its numbers.
function described(algorithm, curve, key) {
  const bits = key?.modulus?.bits ?? SIZES.get(curve?.id ?? algorithm.id);
  return {
    algorithm: ALGORITHMS.get(algorithm.id) ?? named(algorithm),
    curve: curve === undefined ? null : named(curve),
    bits: bits ?? (algorithm.id === EC ? null : (key?.bits ?? null)),
  };
}

// The identifiers of an algorithm and of the curve that its parameters name.
function identifiersIn({ algorithm, parameters }) {
  const curve = parameters?.value?.id === undefined ? undefined : parameters.value;
  return [algorithm.value, curve];
}

// The content of a BIT STRING of whole bytes, which ends where its element does.
function bitsOf(node, der) {
  const size = Math.ceil(node.bits / 8);
  return der.subarray(node.at[1] - size, node.at[1]);
}

const sliced = (node, der) => der.subarray(...node.at);

const info = (algorithm, key) => element(0x30, algorithm, element(3, Uint8Array.of(0), key));

function rsaInfo(algorithm, key, der) {
  return info(algorithm, element(0x30, sliced(key.modulus, der), sliced(key.publicExponent, der)));
}

function rsaKey(key, der) {
  const algorithm = element(0x30, identifierElement(RSA), NULL);
  return [described({ id: RSA }, undefined, key), rsaInfo(algorithm, key, der)];
}

function ofInfo({ algorithm, subjectPublicKey }, at, der) {
  return [described(...identifiersIn(algorithm), subjectPublicKey), der.subarray(...at)];
}

// The public key that a private one has in it: its numbers, or a BIT STRING in it or behind it; null where it has none.
function ofPrivate({ privateKeyAlgorithm, privateKey, publicKey }, der) {
  const [algorithm, curve] = identifiersIn(privateKeyAlgorithm);
  const identifier = sliced(privateKeyAlgorithm, der);
  if (privateKey.modulus !== undefined) {
    return [described(algorithm, curve, privateKey), rsaInfo(identifier, privateKey, der)];
  }
  const point = privateKey.publicKey ?? publicKey;
  if (point === undefined) return null;
  return [described(algorithm, curve, point), info(identifier, bitsOf(point, der))];
}

function ofEc({ parameters, publicKey }, der) {
  const curve = parameters?.value;
  if (curve?.id === undefined || publicKey === undefined) return null;
  const algorithm = element(0x30, identifierElement(EC), identifierElement(curve.id));
  return [described({ id: EC }, curve, publicKey), info(algorithm, bitsOf(publicKey, der))];
}

const READERS = {
  certificate: ({ tbsCertificate: { subjectPublicKeyInfo: it } }, der) => ofInfo(it, it.at, der),
  request: ({ certificationRequestInfo: { subjectPKInfo: it } }, der) => ofInfo(it, it.at, der),
  "public-key": (it, der) => ofInfo(it, it.at, der),
  "rsa-public-key": rsaKey,
  "rsa-private-key": rsaKey,
  "private-key": ofPrivate,
  "ec-private-key": ofEc,
};

/** What is told of the public key in a structure, and its SubjectPublicKeyInfo; null where there is none. */
export function publicKeyIn(kind, root, der) {
  return READERS[kind]?.(root, der) ?? null;
}
