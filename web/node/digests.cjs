// SPDX-License-Identifier: MIT OR Apache-2.0
// This file is written by tools/make_commonjs.py from web/digests.mjs.

"use strict";

// Digests by WebCrypto, which browsers and Node have.

async function webCrypto() {
  const found = globalThis.crypto?.subtle;
  if (found !== undefined) return found;
  // (Node 18 has it in a module alone)
  if (globalThis.process?.versions?.node !== undefined) return (await import("node:crypto")).webcrypto.subtle;
  throw new Error("there is no WebCrypto here: browsers have it for pages from HTTPS or localhost");
}

/** Whether a digest can be asked for. */
const hasDigests = globalThis.crypto?.subtle !== undefined || globalThis.process?.versions?.node !== undefined;

/** The digest of bytes by an algorithm that WebCrypto knows, such as `SHA-256`. */
async function digestOf(algorithm, bytes) {
  const subtle = await webCrypto();
  return new Uint8Array(await subtle.digest(algorithm, bytes));
}

module.exports = {
  digestOf,
  hasDigests,
};
