// Elements of X.690 as far as the page tells of them: how long a header is, and what the tag is called. What is read is
// decided by the library alone.

const UNIVERSAL = new Map([
  [1, "BOOLEAN"],
  [2, "INTEGER"],
  [3, "BIT STRING"],
  [4, "OCTET STRING"],
  [5, "NULL"],
  [6, "OBJECT IDENTIFIER"],
  [10, "ENUMERATED"],
  [12, "UTF8String"],
  [16, "SEQUENCE"],
  [17, "SET"],
  [18, "NumericString"],
  [19, "PrintableString"],
  [20, "TeletexString"],
  [22, "IA5String"],
  [23, "UTCTime"],
  [24, "GeneralizedTime"],
  [26, "VisibleString"],
  [28, "UniversalString"],
  [30, "BMPString"],
]);

const CLASSES = ["UNIVERSAL ", "APPLICATION ", "", "PRIVATE "];

/** The identifier octets' and the length octets' number at a place (X.690, 8.1.2 and 8.1.3). */
export function headerLength(bytes, start, end) {
  let at = start + 1;
  if ((bytes[start] & 0x1f) === 0x1f) {
    while (at < end && bytes[at] & 0x80) at += 1;
    at += 1;
  }
  const length = bytes[at] ?? 0;
  at += length > 0x80 ? 1 + (length & 0x7f) : 1;
  return Math.min(at, end) - start;
}

/** What the tag at a place is called, as in `SEQUENCE` and `[0]`. */
export function tagName(bytes, start) {
  const first = bytes[start];
  const number = first & 0x1f;
  if (number === 0x1f) return "high tag number";
  if (first < 0x40 && UNIVERSAL.has(number)) return UNIVERSAL.get(number);
  return `[${CLASSES[first >> 6]}${number}]`;
}

/** The same, with its form where the name doesn't say it. */
export function wholeTagName(bytes, start) {
  const name = tagName(bytes, start);
  if (!name.startsWith("[")) return name;
  return `${name}, ${bytes[start] & 0x20 ? "constructed" : "primitive"}`;
}

/** The element that begins at a place and ends at another at the latest. */
export function elementAt(bytes, start, end) {
  const content = start + headerLength(bytes, start, end);
  return { tag: bytes[start], start, content, end };
}

/** The last element in some bytes that are elements one after another; null where they aren't. */
function lastIn(bytes, start, end) {
  let at = start;
  while (at < end) {
    const content = at + headerLength(bytes, at, end);
    const next = content + lengthAt(bytes, at, content);
    if (next === end) return { tag: bytes[at], start: at, content, end };
    if (!(next > at && next < end)) return null;
    at = next;
  }
  return null;
}

/** The length that a header gives; 0 where that isn't said (X.690, 8.1.3.6). */
export function lengthAt(bytes, start, content) {
  let at = start + 1;
  if ((bytes[start] & 0x1f) === 0x1f) {
    while (at < content && bytes[at] & 0x80) at += 1;
    at += 1;
  }
  if (bytes[at] < 0x80) return bytes[at];
  let length = 0;
  for (at += 1; at < content; at += 1) length = length * 256 + bytes[at];
  return length;
}

/** An element, the last one inside of it, and so on down to one that has none: also through an OCTET STRING. */
export function lastElements(bytes, start, end) {
  const found = [elementAt(bytes, start, end)];
  for (let depth = 0; depth < 16; depth += 1) {
    const { tag, content } = found[found.length - 1];
    const inner = tag & 0x20 || tag === 4 ? lastIn(bytes, content, end) : null;
    if (inner === null) break;
    found.push(inner);
  }
  return found;
}
