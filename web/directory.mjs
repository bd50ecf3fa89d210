// SPDX-License-Identifier: MIT OR Apache-2.0

// Distinguished names and alternative names, as the nodes of a report tell them (docs/JSON.md).

import { headerSize, identifierElement } from "./der.mjs";

// The names that RFC 4514, 3, has for attributes. Others stand with dots.
const SHORT = new Map([
  ["2.5.4.3", "CN"],
  ["2.5.4.6", "C"],
  ["2.5.4.7", "L"],
  ["2.5.4.8", "ST"],
  ["2.5.4.9", "STREET"],
  ["2.5.4.10", "O"],
  ["2.5.4.11", "OU"],
  ["0.9.2342.19200300.100.1.1", "UID"],
  ["0.9.2342.19200300.100.1.25", "DC"],
]);

const COMMON_NAME = "2.5.4.3";

const DIGITS = Array.from({ length: 256 }, (_, byte) => byte.toString(16).padStart(2, "0"));

/** Bytes in hexadecimal, with a separator between them. */
export function hexadecimal(bytes, separator = "") {
  return Array.from(bytes, (it) => DIGITS[it]).join(separator);
}

/** The bytes that stand in a report in hexadecimal with colons. */
export function bytesOf(text) {
  return text === "" ? new Uint8Array(0) : Uint8Array.from(text.split(":"), (it) => parseInt(it, 16));
}

/** An object identifier: with dots, and by its name, which is `null` if the library has none for it. */
export class Identifier {
  constructor({ id, name }) {
    this.id = id;
    this.name = name ?? null;
    Object.freeze(this);
  }

  /** Its name, or else its dots. */
  toString() {
    return this.name ?? this.id;
  }
}

// What isn't to be written as it is: controls, and what has no width or turns the direction of text.
const UNSEEN = /[\p{Cc}\p{Cf}\p{Zl}\p{Zp}]/gu;

const escapedBytes = (text) => hexadecimal(new TextEncoder().encode(text)).replace(/../g, "\\$&");

// A value as RFC 4514, 2.4, writes it.
function escaped(text) {
  return text
    .replace(/["+,;<>\\]/g, "\\$&")
    .replace(/ $/, "\\ ")
    .replace(/^[ #]/, "\\$&")
    .replace(UNSEEN, escapedBytes);
}

// How many bytes of content an element of so many has, since its length stands in as few bytes as can be (X.690, 10.1).
function contentSize(whole) {
  let header = 2;
  while (headerSize(whole - header) > header) header += 1;
  return whole - header;
}

/** An attribute of a distinguished name. */
export class Attribute {
  #element;

  constructor({ id, name, value, at: [start, end] }, set, der) {
    const content = end - contentSize(end - start);
    this.#element = der.subarray(content + identifierElement(id).length, end);
    this.id = id;
    this.name = name ?? null;
    // (of what isn't looked into the whole element stands in the report)
    this.value = value === hexadecimal(this.#element, ":") ? null : value;
    this.set = set;
    Object.freeze(this);
  }

  /** The element of its value. */
  get der() {
    return this.#element.slice();
  }

  /** As RFC 4514 writes it: its value in hexadecimal if its type has no short name there, or it is no text. */
  rfc4514() {
    const short = SHORT.get(this.id);
    if (short === undefined || this.value === null) return `${short ?? this.id}=#${hexadecimal(this.#element)}`;
    return `${short}=${escaped(this.value)}`;
  }

  toString() {
    return this.rfc4514();
  }
}

/** A distinguished name: its attributes in the order of the input. */
export class Name {
  constructor(node, der) {
    const sets = node.items ?? [];
    this.attributes = Object.freeze(sets.flatMap((it, set) => it.items.map((one) => new Attribute(one, set, der))));
    Object.freeze(this);
  }

  [Symbol.iterator]() {
    return this.attributes[Symbol.iterator]();
  }

  /** The texts of the attributes of a type, by its identifier with dots or its name, as `organizationName`. */
  values(type) {
    return this.attributes.filter((it) => it.value !== null && (it.id === type || it.name === type)).map((it) => it.value);
  }

  /** The text of the last common name; `null` if there is none. */
  get commonName() {
    return this.values(COMMON_NAME).at(-1) ?? null;
  }

  /** The name as RFC 4514 writes it: its last set first. What can't be seen is escaped. */
  rfc4514() {
    const sets = [];
    for (const it of this.attributes) (sets[it.set] ??= []).push(it.rfc4514());
    return sets.reverse().map((it) => it.join("+")).join(",");
  }

  toString() {
    return this.rfc4514();
  }
}

// How many bytes an address has, by its text and how long its element is: what is neither of 4 nor of 16 bytes stands in
// hexadecimal with colons, which may look as an address of version 6 does.
function addressSize(text, whole) {
  if (text.includes(".")) return 4;
  const pairs = /^(?:[0-9a-f]{2}(?::(?!$)|$))*$/.test(text) ? Math.ceil(text.length / 3) : null;
  // (a header, or two if the tag is explicit)
  const isIn = (size) => size + headerSize(size) === whole || contentSize(contentSize(whole)) === size;
  return pairs !== null && isIn(pairs) ? pairs : 16;
}

function addressBytes({ value, at: [start, end] }, der) {
  return der.slice(end - addressSize(value, end - start), end);
}

/** An alternative name, by its node: its form, as RFC 5280, 4.2.1.6, calls it, and what it says. */
export function alternativeName(node, der) {
  const { field: type, value } = node;
  if (type === "directoryName") return { type, value: new Name(node, der) };
  if (type === "iPAddress") return { type, value, bytes: addressBytes(node, der) };
  if (type === "registeredID") return { type, value: new Identifier(value) };
  if (type === "otherName") return { type, id: new Identifier(node["type-id"].value), value: value.value };
  if (type === "ediPartyName") return { type, nameAssigner: node.nameAssigner?.value ?? null, partyName: node.partyName.value };
  return { type, value };
}
