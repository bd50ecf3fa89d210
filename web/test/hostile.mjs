// Inputs that are large, or made to do harm.

const MEGABYTE = 1 << 20;

/** An element with a tag of one byte (X.690, 8.1). */
function element(tag, ...contents) {
  const content = Buffer.concat(contents.map((it) => Buffer.from(it)));
  const size = content.length;
  if (size < 128) return Buffer.concat([Buffer.from([tag, size]), content]);
  let digits = size.toString(16);
  if (digits.length % 2) digits = `0${digits}`;
  return Buffer.concat([Buffer.from([tag, 128 + digits.length / 2]), Buffer.from(digits, "hex"), content]);
}

const hex = (digits) => Buffer.from(digits, "hex");
const ED25519 = hex("300506032b6570");
const TIMES = hex("301e170d3139313031373137343132385a170d3232313031363137343132385a");
const COMMON_NAME = hex("0603550403");
const ALTERNATIVE_NAMES = hex("0603551d11");

function name(...texts) {
  return element(0x30, ...texts.map((it) => element(0x31, element(0x30, COMMON_NAME, element(0x0c, it)))));
}

/** A certificate whose signature is nothing, with a subject and alternative names. */
export function keyCertificate(subject, names) {
  const key = element(0x30, ED25519, element(3, Buffer.alloc(33)));
  const extension = element(0x30, ALTERNATIVE_NAMES, element(4, element(0x30, ...names)));
  const held = names.length > 0 ? element(0xa3, element(0x30, extension)) : Buffer.alloc(0);
  const fields = element(0x30, hex("a003020102"), hex("020101"), ED25519, name(), TIMES, subject, key, held);
  return element(0x30, fields, ED25519, element(3, Buffer.alloc(65)));
}

const alternative = (text) => element(0x82, text);

/** A certificate of 100 KB. */
export const LARGE = keyCertificate(
  name("a certificate of 100 KB"),
  Array.from({ length: 2700 }, (_, index) =>
    alternative(`host-${String(index).padStart(4, "0")}.department-${index % 17}.example.org`),
  ),
);

/** Names that are markup. */
export const MARKUP = keyCertificate(
  name(
    "<img src=x onerror=\"document.title='taken'\">",
    "<script>document.title='taken'</script>",
    "</span><iframe src=//example.org>",
  ),
  ['"><svg onload=alert(1)>', "javascript:alert(1)", "${alert(1)}"].map(alternative),
);

// Lists in lists, each with the length that is left.
function nested(tag) {
  const bytes = Buffer.alloc(MEGABYTE);
  for (let at = 0; at + 5 <= bytes.length; at += 5) {
    bytes[at] = tag;
    bytes[at + 1] = 0x83;
    bytes.writeUIntBE(bytes.length - at - 5, at + 2, 3);
  }
  return bytes;
}

const MANY = Array.from({ length: 100_000 }, (_, index) => alternative(`n${index}`));

/** Inputs of a megabyte. */
export const NESTED = [
  ["lists in lists", nested(0x30)],
  ["sets in sets", nested(0x31)],
  ["lists of no length", Buffer.alloc(MEGABYTE, "3080", "hex")],
  ["empty lists", element(0x30, Buffer.alloc(MEGABYTE - 5, "3000", "hex"))],
  ["zeros", element(0x30, Buffer.alloc(MEGABYTE))],
  ["many names", keyCertificate(name("many"), MANY)],
  ["a long name", keyCertificate(name("\u202e\u0007<b>".repeat(130_000)), [])],
  ["deep names", keyCertificate(nested(0x30), [])],
];
