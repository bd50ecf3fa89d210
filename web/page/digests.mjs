// The digests of a structure: its fingerprints, and the pin of the public key in it.

import { hasDigests } from "../digests.mjs";

const WAITING = "\u2026";

const SIGNED = ["certificate", "request", "certificate-outline", "request-outline", "crl"];
const isSigned = (kind) => SIGNED.includes(kind);

/** The digests that a report tells; none where it tells none. */
export function digestsIn({ sha256, sha1, pin }) {
  return Object.fromEntries(Object.entries({ sha256, sha1, pin }).filter(([, it]) => it !== undefined));
}

// Whether they are to be taken here: the structure was read, its report doesn't tell them, and the page has WebCrypto.
function areMissing(report) {
  const isRead = report.result === "ok" || report.result === "deviations";
  return isRead && hasDigests && Object.keys(digestsIn(report)).length === 0;
}

/** What stands in the place of digests until they are taken. */
export function digestsToCome(report) {
  if (!areMissing(report)) return digestsIn(report);
  return isSigned(report.type) ? { sha256: WAITING, sha1: WAITING, pin: WAITING } : {};
}

/** The digests of a structure by WebCrypto; null where its report tells them, or they can't be taken. */
export async function digestsOf(cimaroly, bytes, report) {
  if (!areMissing(report)) return null;
  const structure = cimaroly.read(bytes, report.type);
  const prints = isSigned(report.type) ? ["SHA-256", "SHA-1"] : [];
  const [pin, sha256, sha1] = await Promise.all([
    structure.publicKey?.pin(),
    ...prints.map((algorithm) => structure.fingerprint(algorithm)),
  ]);
  return digestsIn({ sha256, sha1, pin });
}
