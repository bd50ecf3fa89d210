// SPDX-License-Identifier: MIT OR Apache-2.0
// This file is written by tools/make_commonjs.py from web/making.mjs.

"use strict";

// What is to be signed, made of descriptions (docs/MAKE.md), and put together with its signature.

/** What a call answers. */
const STATUS = { ok: 0, refused: 1, outOfMemory: 2, bufferTooShort: 3, unknownKind: 4, tooLong: 5 };

const KIND_NUMBERS = { certificate: 1, request: 2 };

// The rooms that calls work in, as core.mjs has them.
let Room;

/** Takes them, before any other call. */
function useRoom(theirs) {
  Room = theirs;
}

/** Nothing is made of a description: where in it, and why. */
class NotMade extends Error {
  constructor(message) {
    super(message);
    this.name = "NotMade";
  }
}

const encoder = new TextEncoder();

function joined(parts) {
  const whole = new Uint8Array(parts.reduce((sum, part) => sum + part.length, 0));
  let at = 0;
  for (const part of parts) {
    whole.set(part, at);
    at += part.length;
  }
  return whole;
}

// Where parts stand that are one behind the other in a room, as calls take them.
function placesIn(room, parts) {
  let at = room.der;
  return parts.flatMap(({ length }) => {
    at += length;
    return [BigInt(at - length), BigInt(length)];
  });
}

/** Does something in a room with parts of an input, whose places it is told as calls take them. */
function inRoom(parts, act) {
  const room = new Room(joined(parts), 0, 0);
  try {
    return act(room, placesIn(room, parts));
  } finally {
    room.leave();
  }
}

// What a call makes of bytes, and of the numbers before them; null where they are refused.
function made(name, parts, ...numbers) {
  const whole = joined(parts);
  let outSize = 2 * whole.length + 4096;
  let workSize = 16 * whole.length + 65536;
  for (;;) {
    const room = new Room(whole, outSize, workSize);
    const status = room.callLent(name, ...numbers, ...placesIn(room, parts), ...room.output);
    const size = room.word(0);
    const answer = status === STATUS.ok ? room.bytes.slice(room.out, room.out + size) : null;
    room.leave();
    if (status === STATUS.tooLong) throw new RangeError("the encoding is too long");
    if (status === STATUS.outOfMemory) workSize *= 4;
    else if (status === STATUS.bufferTooShort) outSize = size;
    else return answer;
  }
}

/**
 * Makes the DER encoding of what a description says: an object, or JSON text.
 * @throws {NotMade} Something is wrong with it.
 */
function make(description) {
  const text = encoder.encode(typeof description === "string" ? description : JSON.stringify(description));
  const der = made("cimaroly_make", [text]);
  if (der !== null) return der;
  throw new NotMade(new TextDecoder().decode(made("cimaroly_why_not_made", [text]) ?? new Uint8Array()));
}

/** The content of an object identifier by the name that the library has for it, or null. */
function namedIdentifier(name) {
  const description = { type: "raw-algorithm", AlgorithmIdentifier: { algorithm: name } };
  const der = made("cimaroly_make", [encoder.encode(JSON.stringify(description))]);
  // (the identifiers that have names are so short that each of the two lengths before is one byte)
  return der === null ? null : der.subarray(4, 4 + der[3]);
}

/**
 * The AlgorithmIdentifier of a signature algorithm in DER, by a name such as `ecdsa-with-SHA256`, or in dotted form.
 * @throws {RangeError} No signature algorithm whose parameters are known has it.
 */
function signatureAlgorithm(name) {
  const der = made("cimaroly_signature_algorithm", [encoder.encode(name)]);
  if (der === null) throw new RangeError(`no signature algorithm whose parameters are known: ${name}`);
  return der;
}

/**
 * Puts a certificate or a request together: of the bytes that were signed, which stand in it as they are, the algorithm,
 * by its name or in DER, and the signature. With `rawEcdsa`, this is r and s, as Web Cryptography gives them. Whether the
 * signature is right isn't looked at.
 * @throws {RangeError} Part, algorithm or signature isn't in its form.
 */
function assemble(kind, part, algorithm, signature, { rawEcdsa = false } = {}) {
  const number = KIND_NUMBERS[kind];
  if (number === undefined) throw new TypeError(`neither certificate nor request: ${kind}`);
  const identifier = typeof algorithm === "string" ? signatureAlgorithm(algorithm) : algorithm;
  const given = rawEcdsa ? made("cimaroly_ecdsa_signature", [signature]) : signature;
  const der = given === null ? null : made("cimaroly_assemble", [part, identifier, given], number);
  if (der === null) throw new RangeError("no signed part, no algorithm in DER, or no signature of this algorithm's form");
  return der;
}

/** Bytes as PEM (RFC 7468), with a label such as `CERTIFICATE REQUEST`. */
function pem(label, der) {
  return new TextDecoder().decode(made("cimaroly_pem_encode", [encoder.encode(label), der]));
}

module.exports = {
  NotMade,
  STATUS,
  assemble,
  inRoom,
  make,
  namedIdentifier,
  pem,
  signatureAlgorithm,
  useRoom,
};
