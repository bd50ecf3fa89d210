// What is said of a key on one line: its algorithm, its curve, and its own size beside the one that these ask for.

import { ALGORITHMS, SIZES } from "../keys.mjs";
import { measured } from "./text.mjs";

const EC = "1.2.840.10045.2.1";

// The curves whose order, and with it a private key, is a byte shorter than their field.
const SHORT_ORDERS = new Set(["1.3.132.0.26", "1.3.132.0.36"]);

/** Whether the content of an INTEGER in hexadecimal is that of a number below 0. */
export function isNegative(value) {
  return /^[89a-f]/.test(value);
}

/** An RSA key by its modulus. */
export function rsaLine(modulus) {
  return `RSA, ${modulusSize(modulus)}`;
}

function modulusSize({ bits, value }) {
  return bits === 0 || isNegative(value) ? "with a modulus that isn't positive" : measured(bits);
}

const coordinate = (size) => 8 * Math.ceil(size / 8);

// Whether a string of bits is a point of a curve whose field has elements of so many bits (SEC 1, 2.3.3).
function isPoint(size, { bits, value }) {
  if (/^0[23]/.test(value)) return bits === 8 + coordinate(size);
  return /^0[467]/.test(value) && bits === 8 + 2 * coordinate(size);
}

// How many bits the OCTET STRING of a secret has.
function secretBits({ hidden, value }) {
  return 8 * (hidden ?? Math.ceil(value.length / 3));
}

// The size of a key of a curve, with that of its point or its private key where these are none of that curve.
function curveSize(size, isRight, part, own) {
  if (size === undefined) return undefined;
  return isRight ? measured(size) : `${measured(size)}, with a ${part} of ${measured(own)}`;
}

function pointSize(size, point) {
  return curveSize(size, isPoint(size, point), "point", point.bits);
}

function secretSize(size, secret, curve) {
  const own = secretBits(secret);
  // (RFC 5915, 3: as many bytes as the order has)
  const right = coordinate(size) - (SHORT_ORDERS.has(curve) ? 8 : 0);
  return curveSize(size, own === right, "private key", own);
}

function stringSize(size, own) {
  return size === undefined || size === own ? measured(own) : `${measured(own)} instead of ${size}`;
}

function joined(...parts) {
  return parts.filter((it) => it !== undefined).join(", ");
}

function named(identifier) {
  return identifier && (identifier.name ?? identifier.id);
}

// The algorithm and its curve, where its parameters name one.
function parted({ algorithm, parameters }) {
  const { id, name } = algorithm.value;
  const curve = parameters?.value?.id === undefined ? undefined : parameters.value;
  return { algorithm: ALGORITHMS.get(id) ?? name ?? id, id, curve, size: SIZES.get(curve?.id ?? id) };
}

/** An algorithm that isn't read, as an outline tells it. */
export function unreadLine({ algorithm: { value } }) {
  const { id, name } = value;
  return `${name === undefined ? id : `${id} (${name})`}, not read by this library`;
}

/** A public key with its algorithm. */
export function publicLine(identifier, key) {
  if (identifier.algorithm.read === false) return unreadLine(identifier);
  const { algorithm, id, curve, size } = parted(identifier);
  if (key.modulus !== undefined) return joined(algorithm, named(curve), modulusSize(key.modulus));
  return joined(algorithm, named(curve), id === EC ? pointSize(size, key) : stringSize(size, key.bits));
}

/** A private key with its algorithm. */
export function privateLine(identifier, key) {
  if (identifier.algorithm.read === false) return unreadLine(identifier);
  const { algorithm, curve, size } = parted(identifier);
  if (key.modulus !== undefined) return joined(algorithm, named(curve), modulusSize(key.modulus));
  if (key.privateKey === undefined) return joined(algorithm, named(curve), stringSize(size, secretBits(key)));
  return joined(algorithm, named(curve), secretSize(size, key.privateKey, curve?.id));
}

/** An elliptic curve private key by itself. */
export function ecLine(key) {
  return privateLine({ algorithm: { value: { id: EC } }, parameters: key.parameters }, key);
}
