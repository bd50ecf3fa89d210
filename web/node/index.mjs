// SPDX-License-Identifier: MIT OR Apache-2.0

// Cimaroly for Node, by `import`: the library that `require` takes too, so that both have the same classes.

import library from "./index.cjs";

export const {
  DEVIATIONS,
  KINDS,
  NotMade,
  Refused,
  Structure,
  assemble,
  check,
  checkExtension,
  encode,
  isLowered,
  make,
  parseReport,
  pem,
  read,
  report,
  reportText,
  signatureAlgorithm,
} = library;
