// The report of a structure as a list of fields, in the order of the input: each behind the field that it stands in.

import { headerLength } from "./elements.mjs";
import { isNode, valueOf } from "./values.mjs";

// The extensions whose fields stand on one line if each has a value of its own: basicConstraints, authorityKeyIdentifier,
// privateKeyUsagePeriod, policyConstraints, and Microsoft's template; and the fields, also of other extensions, of which that holds.
const LINES = new Set(["2.5.29.19", "2.5.29.35", "2.5.29.16", "2.5.29.36", "1.3.6.1.4.1.311.21.7"]);
const LINE_FIELDS = new Set(["GeneralSubtree", "PolicyMapping", "SignedCertificateTimestamp", "revokedCertificate"]);
const BASIC_CONSTRAINTS = "2.5.29.19";

/** A field of the report. */
export class Field {
  constructor(node, label, parent, ordinal) {
    this.node = node;
    this.label = label;
    this.parent = parent;
    /** How many stand before it in the field around it. */
    this.ordinal = ordinal;
    this.depth = parent === null ? 0 : parent.depth + 1;
    [this.start, this.end] = node.at;
    /** The fields right inside of it. */
    this.inner = [];
    this.isOpen = false;
    this.isMarked = false;
  }

  get isSecret() {
    return this.node.hidden !== undefined;
  }

  /** The fields around it, from the outermost in, with it. */
  get path() {
    return this.parent === null ? [this] : [...this.parent.path, this];
  }

  /** Whether its fields are told on its own line too. */
  get isLine() {
    if (this.inner.some((it) => it.inner.length > 0 || !hasValue(it.node))) return false;
    const { id, field } = this.node;
    const first = this.inner[0]?.label;
    return first === "algorithm" || first === "aes-nonce" || LINES.has(id) || LINE_FIELDS.has(field) || this.isAccess;
  }

  /** Whether the fields in it have no places of their own, as in a timestamp, which isn't in DER (RFC 6962, 3.3). */
  get isWhole() {
    const { start, end, inner } = this;
    return inner.length > 1 && inner.every((it) => it.start === start && it.end === end);
  }

  /** Whether it says where a service is: it has an identifier, as an item of an extension, and one name (RFC 5280, 4.2.2). */
  get isAccess() {
    const { id, critical, items, value } = this.node;
    return id !== undefined && critical === undefined && items === undefined && value === undefined && this.inner.length === 1;
  }
}

// Whether a node has a value of its own, which may be NULL, or hides one.
function hasValue({ value, hidden }) {
  return hidden !== undefined || (value !== undefined && !isNode(value));
}

// What a node is called: its name as an item, the member that it is, or which attribute or extension it is.
function labelOf(node, key) {
  return node.field ?? key ?? node.name ?? node.id ?? "";
}

// The nodes right inside of a node, each with its label. A set of one attribute is that attribute.
function* innerNodes(node) {
  for (const it of node.items ?? []) {
    const isOnly = it.field === "RelativeDistinguishedName" && it.items.length === 1;
    const only = isOnly ? it.items[0] : it;
    yield [only, labelOf(only)];
  }
  for (const [key, it] of Object.entries(node)) {
    if (isNode(it)) yield [it, labelOf(it, key)];
  }
}

/** The member of a report that has the fields, and its name. */
export function rootOf(report) {
  return Object.entries(report).find(([, it]) => isNode(it)) ?? null;
}

/** The fields of a report; none where the structure is refused. */
export function fieldsOf(report) {
  const root = rootOf(report);
  if (root === null) return [];
  const fields = [];
  const waiting = [new Field(root[1], root[0], null, 0)];
  while (waiting.length > 0) {
    const field = waiting.pop();
    field.index = fields.length;
    fields.push(field);
    for (const [node, label] of innerNodes(field.node)) {
      field.inner.push(new Field(node, label, field, field.inner.length));
    }
    // (members of an object stand in its order, which is that of the input but for fields out of order)
    for (let at = field.inner.length - 1; at >= 0; at -= 1) waiting.push(field.inner[at]);
  }
  return fields;
}

/** What stands behind a field's label on its line, as `cimaroly show` prints it; "" where it stands over others. */
export function lineOf(field, bytes) {
  const value = valueOf(field.label, field.node, bytes);
  if (value !== null) return value.text;
  return field.isLine ? joined(field, bytes) : "";
}

function joined(field, bytes) {
  const isLeftOut = field.node.id === BASIC_CONSTRAINTS && field.node.cA === undefined;
  const parts = isLeftOut ? ["cA false"] : [];
  for (const it of field.inner) {
    const value = valueOf(it.label, it.node, bytes);
    if (it.node.value === null) continue;
    const isPlain = value.kind === "identifier" || isHash(it, value);
    parts.push(isPlain ? value.text : `${it.label} ${value.text}`);
  }
  return parts.length > 0 ? parts.join(", ") : "empty";
}

/** What stands on the line of several fields, each on a line of its own and whole. */
export function wholeLinesOf(field, bytes) {
  return field.inner.map((it) => `${it.label} ${valueOf(it.label, it.node, bytes)?.whole ?? ""}`).join("\n");
}

// Whether a mask generation function's parameters are told, which are a hash function's name.
function isHash(field, value) {
  return field.parent.label === "maskGenAlgorithm" && value.kind === "word";
}

// The field right inside of one that covers a place. They stand in order but for those of an authority key identifier.
function innerOver({ inner }, start, end) {
  let from = 0;
  let to = inner.length;
  while (to - from > 8) {
    const middle = (from + to) >> 1;
    if (inner[middle].start <= start) from = middle;
    else to = middle;
  }
  const near = inner.length > 8 ? inner.slice(from, to) : inner;
  return near.find((it) => it.start <= start && end <= it.end);
}

/** The innermost field that covers a place; null where there is none. */
export function fieldOver(fields, start, end) {
  let found = fields[0];
  if (found === undefined || start < found.start || end > found.end) return null;
  for (;;) {
    const inner = found.isWhole ? undefined : innerOver(found, start, end);
    if (inner === undefined) return found;
    found = inner;
  }
}

/** The field of a place: the innermost that covers it, or that which fills it but for an explicit tag at its front. */
export function fieldOf(fields, bytes, [start, end]) {
  const field = fieldOver(fields, start, end);
  if (field === null || field.start === start) return field;
  const content = start + headerLength(bytes, start, end);
  return field.inner.find((it) => it.start === content && it.end === end) ?? field;
}
