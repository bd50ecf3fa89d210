// Values of the report as they are shown: as `cimaroly show` prints them, and whole.

import { elementAt, lastElements } from "./elements.mjs";
import { isNegative } from "./key.mjs";
import { clipped, counted, hex, hexOf, measured, quoted, shown } from "./text.mjs";

const WHOLE = 32;
const FRONT = 16;
const TEXT_TAGS = new Set([0x0c, 0x12, 0x13, 0x16, 0x1a, 0x1e]);
const TIME_TAGS = new Set([0x17, 0x18]);
const MOST_BYTES = 4000;
const LONGEST_IDENTIFIER = 200;
const TEXT_FIELDS = new Set(["dNSName", "rfc822Name", "uniformResourceIdentifier"]);
// What qualifies a policy (RFC 5280, 4.2.1.4), whose text may stand in front of others, and extensions that are text.
const TEXTS = new Set(["id-qt-cps", "id-qt-unotice", "netscape-comment", "ENROLL_CERTTYPE_EXTENSION"]);
// What isn't ASN.1: in a timestamp (RFC 6962, 3.2).
const OPAQUE = new Set(["logID", "signature"]);
// Features of TLS that servers are bound to (RFC 7633, 4; IANA, TLS ExtensionType Values).
const FEATURES = new Map([
  [5, "status_request"],
  [17, "status_request_v2"],
]);

// Whether a text is the bytes in hexadecimal with colons.
function isHexOf(text, bytes, start, end) {
  if (text.length !== Math.max(0, 3 * (end - start) - 1)) return false;
  for (let at = start, to = 0; at < end; at += 1, to += 3) {
    if (text.slice(to, to + 2) !== hexOf(bytes[at])) return false;
  }
  return true;
}

function decoded(bytes, { tag, content, end }) {
  const encoding = tag === 0x1e ? "utf-16be" : "utf-8";
  return new TextDecoder(encoding, { ignoreBOM: true }).decode(bytes.subarray(content, end));
}

// Whether a string of the report is text of the input: it is then the content of the innermost element.
function isText(label, text, bytes, elements) {
  const innermost = elements[elements.length - 1];
  if (text === "") return TEXT_TAGS.has(innermost.tag) || TEXT_FIELDS.has(label);
  if (innermost.end - innermost.content < text.length) return false;
  return decoded(bytes, innermost) === text;
}

// Bytes as they are printed on one line: behind their number where they are too many.
function shortHex(text) {
  return text.length <= 3 * WHOLE ? text : `${text.slice(0, 3 * FRONT - 1)}:..`;
}

function octets(text) {
  const count = Math.ceil(text.length / 3);
  if (count === 0) return { kind: "octets", text: "0 bytes", whole: "0 bytes" };
  const front = count > WHOLE ? `${count} bytes, ` : "";
  return { kind: "octets", text: front + shortHex(text), whole: text };
}

// What an extension holds that isn't known: always with its length; and where it is malformed, why and where.
function kept({ length, value, malformed }) {
  const size = counted(length, "byte");
  const text = length === 0 ? size : `${size}, ${shortHex(value)}`;
  if (malformed === undefined) return { kind: "octets", text, whole: value || size };
  const why = `malformed: ${malformed.reason} at byte ${malformed.at}`;
  return { kind: "octets", text: `${why}, ${text}`, whole: `${why}\n${value || size}` };
}

// The tag of the element whose content a string of the report has in hexadecimal, 0 where it has a whole element, and
// null where it has none.
function heldTag(text, bytes, elements) {
  for (const { tag, start, content, end } of elements) {
    if (isHexOf(text, bytes, content, end)) return tag;
    if (isHexOf(text, bytes, start, end)) return 0;
  }
  return null;
}

function stringValue(label, text, bytes, { start, end }) {
  if (OPAQUE.has(label)) return octets(text);
  const elements = lastElements(bytes, start, end);
  if (isText(label, text, bytes, elements)) return textValue(text);
  const tag = heldTag(text, bytes, elements);
  if (tag === null && TEXTS.has(label)) return textValue(text);
  if (tag === null || label === "iPAddress") return word(text);
  return tag === 2 || label === "authorityCertSerialNumber" ? { kind: "integer", text, whole: text } : octets(text);
}

function textValue(text) {
  return {
    kind: "text",
    text: quoted(clipped(text)),
    get whole() {
      return quoted(text);
    },
  };
}

function word(text) {
  return { kind: "word", text: shown(text), whole: shown(text) };
}

// A number of bits, and their bytes in hexadecimal.
function bitsValue(bits, digits, sign = "") {
  const size = sign + measured(bits);
  const text = digits === "" ? size : `${size}, ${shortHex(digits)}`;
  return { kind: "octets", text, whole: digits === "" ? size : `${sign}${counted(bits, "bit")}\n${digits}` };
}

// The number of a key, by its content in hexadecimal: in decimal where it has at most 64 bits.
function sizedNumber(bits, value) {
  const below = isNegative(value);
  const count = Math.ceil(value.length / 3);
  if (below ? count > 8 : bits > 64) return bitsValue(bits, value.replace(/^00:/, ""), below ? "negative, " : "");
  const number = BigInt.asIntN(below ? 8 * count : 72, BigInt(`0x${value.replaceAll(":", "")}`));
  return { kind: "number", text: String(number), whole: String(number) };
}

function identifier({ id, name }) {
  return { kind: "identifier", text: name ?? id, whole: name === undefined ? id : `${name} (${id})` };
}

// The identifier of an algorithm that is read no further, in an outline.
function unread({ id, name }) {
  const text = `${name === undefined ? id : `${id} (${name})`}, not read`;
  return { kind: "identifier", text, whole: text };
}

/** Whether a member of a node is a node too. */
export function isNode(it) {
  return typeof it === "object" && it !== null && Array.isArray(it.at);
}

// The content of an object identifier with dots (X.690, 8.19).
function dotted(content) {
  const arcs = [];
  let arc = 0n;
  for (const byte of content) {
    arc = arc * 128n + BigInt(byte & 0x7f);
    if (byte & 0x80) continue;
    if (arcs.length === 0) {
      const first = arc < 80n ? arc / 40n : 2n;
      arcs.push(first, arc - 40n * first);
    } else arcs.push(arc);
    arc = 0n;
  }
  return arcs.join(".");
}

// The same by its name, where the library knows it.
function identified(identify, element, content) {
  if (content.length === 0 || content[content.length - 1] & 0x80) return null;
  const known = identify(element);
  if (known !== null) return identifier(known);
  return content.length <= LONGEST_IDENTIFIER ? word(dotted(content)) : null;
}

// The content of an element of what isn't read: text where its tag says so.
function elementValue({ at: [start, end], identify }, bytes) {
  const element = elementAt(bytes, start, end);
  if (element.tag & 0x20) return null;
  if (TEXT_TAGS.has(element.tag) || TIME_TAGS.has(element.tag)) return textValue(decoded(bytes, element));
  const content = bytes.subarray(element.content, end);
  if (element.tag === 5 && content.length === 0) return null;
  const named = element.tag === 6 ? identified(identify, bytes.subarray(start, end), content) : null;
  if (named !== null) return named;
  const value = octets(hex(content.subarray(0, MOST_BYTES)));
  return content.length > WHOLE ? { ...value, text: `${content.length} bytes, ${shortHex(value.whole)}` } : value;
}

// A number, whole with what it stands for: a time in milliseconds since 1970 (RFC 6962, 3.2), or a feature of TLS.
function number(label, value) {
  const feature = label === "feature" ? FEATURES.get(value) : undefined;
  const isTime = label === "timestamp" && Math.abs(value) <= 8.64e15;
  const meaning = isTime ? new Date(value).toISOString() : feature;
  const text = String(value);
  return { kind: "word", text, whole: meaning === undefined ? text : `${text} (${meaning})` };
}

/** The value of a node under a label, or null where it has none of its own. */
export function valueOf(label, node, bytes) {
  const { value } = node;
  if (node.isElement) return elementValue(node, bytes);
  if (node.hidden !== undefined) {
    const text = `${counted(node.hidden, "byte")}, not shown`;
    return { kind: "secret", text, whole: text };
  }
  if (value === undefined || isNode(value)) return null;
  if (Array.isArray(value)) return word(value.join(", "));
  if (node.bits !== undefined) {
    return bytes[node.at[0]] === 2 ? sizedNumber(node.bits, value) : bitsValue(node.bits, value);
  }
  if (node.length !== undefined && node.field !== "iPAddress" && label !== "iPAddress") return kept(node);
  if (value === null) return word("NULL");
  if (typeof value === "object") return node.read === false ? unread(value) : identifier(value);
  if (typeof value === "number") return number(label, value);
  if (typeof value !== "string") return word(String(value));
  return stringValue(label, value, bytes, { start: node.at[0], end: node.at[1] });
}
