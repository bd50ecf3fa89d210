// SPDX-License-Identifier: MIT OR Apache-2.0
// This file is written by tools/make_commonjs.py from web/der.mjs.

"use strict";

// How elements are written (X.690, 8.1 and 8.19). What is read is read by the library alone.

/** How many bytes stand in front of a content of so many. */
function headerSize(size) {
  return size < 128 ? 2 : 2 + base256(size).length;
}

function base256(number) {
  const bytes = [];
  for (let rest = number; rest > 0; rest = Math.floor(rest / 256)) bytes.unshift(rest % 256);
  return bytes;
}

/** An element with a tag of one byte. */
function element(tag, ...parts) {
  const size = parts.reduce((sum, it) => sum + it.length, 0);
  const digits = base256(size);
  const header = size < 128 ? [tag, size] : [tag, 128 + digits.length, ...digits];
  const whole = new Uint8Array(header.length + size);
  whole.set(header);
  let at = header.length;
  for (const it of parts) {
    whole.set(it, at);
    at += it.length;
  }
  return whole;
}

// One arc in base 128 (X.690, 8.19.2).
function base128(arc) {
  const digits = [Number(arc & 127n)];
  for (let rest = arc >> 7n; rest > 0n; rest >>= 7n) digits.unshift(Number(rest & 127n) | 128);
  return digits;
}

/** The content of the OBJECT IDENTIFIER that an identifier with dots is. */
function identifierContent(id) {
  const [first, second, ...rest] = id.split(".").map(BigInt);
  return Uint8Array.from([40n * first + second, ...rest].flatMap(base128));
}

/** The OBJECT IDENTIFIER that an identifier with dots is. */
function identifierElement(id) {
  return element(6, identifierContent(id));
}

module.exports = {
  element,
  headerSize,
  identifierContent,
  identifierElement,
};
