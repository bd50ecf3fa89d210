// SPDX-License-Identifier: MIT OR Apache-2.0

// Cimaroly for Node, by `require`: it is ready once it is required. `import` takes the same library (index.mjs).

"use strict";

const { readFileSync } = require("node:fs");
const { join } = require("node:path");
const core = require("./core.cjs");

const file = join(__dirname, "..", core.isLowered ? "cimaroly32.wasm" : "cimaroly.wasm");
const compiled = new WebAssembly.Module(readFileSync(file));
core.start(compiled, new WebAssembly.Instance(compiled, {}));

const { start, ...library } = core;
const { NotMade, assemble, make, pem, signatureAlgorithm } = require("./making.cjs");
const { checkExtension } = require("./services.cjs");
module.exports = { ...library, NotMade, assemble, checkExtension, make, pem, signatureAlgorithm };
