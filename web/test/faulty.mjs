// A certificate that breaks rules, by hand (RFC 5280, 4.1).

/**
 * Its issuer is empty, it has unique identifiers, and as an authority it has a path length, but no key identifier
 * and no key usage.
 */
export const FAULTY = Buffer.from(
  "3078306ca003020102020101300506032b65703000301e170d3139313031373137343132385a170d3232313031363137343132385a" +
    "300d310b300906035504031302" +
    "6162300a300506032b65700301008102070082020780a31630143012" +
    "0603551d130101ff040830060101ff020105300506032b6570030100",
  "hex",
);

/** The rules that it breaks, each with its place. */
export const BROKEN = [
  ["issuer-empty", 19, 21],
  ["issuer-unique-id", 80, 84],
  ["subject-unique-id", 84, 88],
  ["authority-key-missing", 88, 112],
  ["subject-key-missing", 88, 112],
  ["authority-without-signing", 88, 112],
  ["path-length-without-signing", 88, 112],
];
