// What each deviation is, and what the DER encoding has in its place (README's table of ten), as tools/make_tables.py writes
// it.

const SENTENCES = new Map([
  [
    "RSA parameters absent",
    "The algorithm identifier of an RSA key or signature ends right after its object identifier; the DER encoding has " +
      "NULL (05 00) there.",
  ],
  [
    "algorithm parameters absent",
    "The algorithm identifier ends right after its object identifier; the DER encoding has NULL (05 00) there.",
  ],
  [
    "hash parameters absent",
    "The hash algorithm’s identifier ends right after its object identifier; the DER encoding has NULL (05 00) there.",
  ],
  [
    "salt length too large",
    "The salt length is above 2^64 − 1 and is read as that number; the DER encoding has 2^64 − 1.",
  ],
  ["default version encoded", "Version 1 is spelled out, although it is the default; the DER encoding leaves it out."],
  ["empty extensions encoded", "There is an empty list of extensions; the DER encoding leaves the whole field out."],
  [
    "default criticality encoded",
    "The extension says that it isn’t critical, although that is the default; the DER encoding leaves FALSE out.",
  ],
  [
    "authority key fields repeated or out of order",
    "A field appears twice, or after one with a higher tag; the DER encoding has each field once, by ascending tag, " +
      "with its last value.",
  ],
  [
    "general name under the other kind of tag",
    "The name has an explicit tag where the standard calls for an implicit one, or vice versa; the DER encoding " +
      "follows the standard.",
  ],
  [
    "element skipped behind a private key",
    "An element that isn’t understood follows the key and was skipped; the DER encoding leaves it out.",
  ],
]);

/** One sentence on a deviation, by its name. */
export function sentenceOn(name) {
  return SENTENCES.get(name) ?? "";
}
