// What a file or a text holds: PEM blocks, DER, or hexadecimal or base64 digits.

import { formatOf, formatOfLabel } from "./formats.mjs";
import { KINDS, fromBase64, isSequence, isUtf16, kindOfLabel, pemBlocks } from "../pem.mjs";

/** How many bytes an input may have. */
export const LONGEST = 1 << 25;

const OTHER = "this type of PEM block isn’t read";
const UTF_16 = "UTF-16 text: save it as UTF-8";
const NOTHING = "no PEM, DER, hexadecimal or base64 that can be read";

function fromHex(digits) {
  return Uint8Array.from(digits.match(/../g), (it) => parseInt(it, 16));
}

/** What is said of bytes in a format that isn't read; without one, of a PEM block with another label. */
export function passedOver(format) {
  const reason = format === null ? OTHER : `${format.name}, which isn’t read`;
  return { outcome: "passed over", reason, format };
}

function pemStructures(text) {
  const found = [];
  for (const block of pemBlocks(text)) {
    const kind = kindOfLabel(block.label) ?? null;
    const { label, line } = block;
    if (block.reason) found.push({ label, line, kind: null, outcome: "refused", reason: block.reason });
    else if (kind === null) found.push({ ...block, kind, ...passedOver(formatOfLabel(label)) });
    else found.push({ ...block, kind });
  }
  return found;
}

/**
 * The structures of an input, in its order: the bytes, and the PEM block's label, its line and the type that it says;
 * or under `reason` why there are none.
 */
export function structuresIn(bytes) {
  if (bytes.length > LONGEST) return [{ kind: null, outcome: "refused", reason: "larger than 32 MiB" }];
  if (isSequence(bytes)) return [{ bytes, kind: null }];
  if (isUtf16(bytes)) return [{ kind: null, outcome: "refused", reason: UTF_16 }];
  const text = new TextDecoder().decode(bytes);
  if (text.includes("-----BEGIN ")) {
    const found = pemStructures(text);
    if (found.length > 0) return found;
  }
  const digits = text.replace(/[\s:]+/g, "");
  if (digits.length > 0 && digits.length % 2 === 0 && /^[0-9A-Fa-f]*$/.test(digits)) {
    return [{ bytes: fromHex(digits), kind: null }];
  }
  const decoded = fromBase64(digits);
  if (decoded !== null && decoded[0] === 0x30) return [{ bytes: decoded, kind: null }];
  if (bytes[0] === 0x30) return [{ bytes, kind: null }];
  const format = formatOf(bytes);
  return [{ kind: null, ...(format ? passedOver(format) : { outcome: "refused", reason: NOTHING }) }];
}

/** The types as which other structures are read too. */
export const LOOSE_KINDS = ["name", "algorithm", "raw-algorithm"];

// (whatever is read whole is read in outline too, and the report of what is refused tells its outline)
const TRIED = KINDS.filter((it) => !it.endsWith("-outline"));

/**
 * Which types accept bytes, by a function that answers null or where it refuses them as one; and of those that don't, the
 * one whose reading got furthest.
 */
export function kindsOf(bytes, report) {
  const accepting = [];
  let furthest = { kind: KINDS[0], at: -1 };
  for (const kind of TRIED) {
    const at = report(bytes, kind);
    if (at === null) accepting.push(kind);
    else if (at > furthest.at) furthest = { kind, at };
  }
  return { accepting, furthest: furthest.kind };
}

/** The type and the bytes that the part of a link behind `#` holds, or null. */
export function fromFragment(fragment) {
  const found = /^#([a-z-]+)=([A-Za-z0-9_-]+)$/.exec(fragment);
  if (found === null || !KINDS.includes(found[1]) || found[1].includes("private-key")) return null;
  const symbols = found[2].replaceAll("-", "+").replaceAll("_", "/");
  const bytes = fromBase64(symbols.padEnd(Math.ceil(symbols.length / 4) * 4, "="));
  return bytes === null ? null : { kind: found[1], bytes };
}
