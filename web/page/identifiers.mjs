// The names of object identifiers: the library has them, and tells them of the identifiers that it reads.

import { hex } from "./text.mjs";

const LONGEST = 100;

/** The identifiers of what isn't read, by the names that they have where it is. */
export class Identifiers {
  constructor(cimaroly) {
    this.cimaroly = cimaroly;
    this.known = new Map();
  }

  /** The `id` with dots and the `name`, if it has one, of an OBJECT IDENTIFIER's element; null where the library takes none. */
  of(element) {
    if (element.length > LONGEST) return null;
    const digits = hex(element, "");
    if (!this.known.has(digits)) this.known.set(digits, this.asked(element));
    return this.known.get(digits);
  }

  // An algorithm identifier may have any identifier.
  asked(element) {
    const whole = Uint8Array.of(0x30, element.length, ...element);
    try {
      return this.cimaroly.report(whole, "raw-algorithm").AlgorithmIdentifier?.algorithm.value ?? null;
    } catch (error) {
      if (error instanceof RangeError || error instanceof WebAssembly.RuntimeError) return null;
      throw error;
    }
  }
}
