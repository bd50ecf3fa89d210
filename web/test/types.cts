// The same of the types where the package is required.

import cimaroly = require("cimaroly");
import { Refused, read } from "cimaroly";

export function issuerOf(pem: string): cimaroly.Span | string | null {
  try {
    return read(pem).fields.issuer;
  } catch (error) {
    if (error instanceof Refused) return error.field;
    throw error;
  }
}
