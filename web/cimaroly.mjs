// SPDX-License-Identifier: MIT OR Apache-2.0

// Cimaroly as a module for browsers and for Node: it is ready once it is imported.

import { isLowered, start } from "./core.mjs";

export {
  DEVIATIONS,
  KINDS,
  Refused,
  Structure,
  check,
  encode,
  isLowered,
  parseReport,
  read,
  report,
  reportText,
} from "./core.mjs";
export { NotMade, assemble, make, pem, signatureAlgorithm } from "./making.mjs";
export { checkExtension } from "./services.mjs";

// (bundlers find files that are named in this way)
const file = isLowered ? new URL("cimaroly32.wasm", import.meta.url) : new URL("cimaroly.wasm", import.meta.url);

async function bytesOf(url) {
  if (url.protocol === "file:") {
    const { readFile } = await import("node:fs/promises");
    return readFile(url);
  }
  const answer = await fetch(url);
  if (!answer.ok) throw new Error(`couldn't load ${url.pathname}: status ${answer.status}`);
  return answer.arrayBuffer();
}

const compiled = await WebAssembly.compile(await bytesOf(file));
start(compiled, await WebAssembly.instantiate(compiled, {}));
