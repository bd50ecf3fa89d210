// JSON text (RFC 8259) that people edit: what is short stands on one line, and where each value stands is known.

import { asJson } from "./text.mjs";

const WIDTH = 100;

/** A value as JSON text. */
export function jsonOf(value, indent = "") {
  const line = lineOf(value);
  if (typeof value !== "object" || value === null || indent.length + line.length <= WIDTH) return line;
  const inner = `${indent}  `;
  const [open, close] = Array.isArray(value) ? "[]" : "{}";
  const parts = Array.isArray(value)
    ? value.map((it) => jsonOf(it, inner))
    : Object.entries(value).map(([name, it]) => `${asJson(name)}: ${jsonOf(it, inner)}`);
  return `${open}\n${parts.map((it) => inner + it).join(",\n")}\n${indent}${close}`;
}

function lineOf(value) {
  if (typeof value === "string") return asJson(value);
  if (typeof value === "bigint") return String(value);
  if (Array.isArray(value)) return `[${value.map(lineOf).join(", ")}]`;
  if (typeof value !== "object" || value === null) return JSON.stringify(value);
  return `{${Object.entries(value).map(([name, it]) => `${asJson(name)}: ${lineOf(it)}`).join(", ")}}`;
}

/** Text that isn't JSON, from a place on. */
export class NotJson extends Error {
  constructor(place) {
    super("not JSON");
    this.place = place;
  }
}

const SPACE = /[ \t\n\r]*/y;
const STRING = /"(?:[^"\\\u0000-\u001f]|\\(?:["\\/bfnrt]|u[0-9a-fA-F]{4}))*"/y;
const OTHER = /-?(?:0|[1-9]\d*)(?:\.\d+)?(?:[eE][+-]?\d+)?|true|false|null/y;
// (no structure's JSON is as deep)
const DEEPEST = 200;

// Goes over a text, and notes where each value stands.
class Scanner {
  constructor(text) {
    Object.assign(this, { text, at: 0, depth: 0, places: new Map() });
  }

  // What a form matches here; null where it doesn't, and nothing is passed.
  match(form) {
    form.lastIndex = this.at;
    const found = form.exec(this.text);
    if (found === null) return null;
    this.at = form.lastIndex;
    return found[0];
  }

  passes(mark) {
    this.match(SPACE);
    if (this.text[this.at] !== mark) return false;
    this.at += 1;
    return true;
  }

  need(isThere) {
    if (!isThere) throw new NotJson(this.at);
  }

  value(path) {
    this.match(SPACE);
    const start = this.at;
    this.need(this.depth < DEEPEST);
    this.depth += 1;
    if (this.passes("{")) this.inner("}", () => this.member(path));
    else if (this.passes("[")) this.inner("]", (index) => this.value(`${path}[${index}]`));
    else this.need(this.match(STRING) !== null || this.match(OTHER) !== null);
    this.depth -= 1;
    this.places.set(path, { start, end: this.at });
  }

  inner(close, part) {
    if (this.passes(close)) return;
    for (let index = 0; ; index += 1) {
      part(index);
      if (this.passes(close)) return;
      this.need(this.passes(","));
    }
  }

  member(path) {
    this.match(SPACE);
    const name = this.match(STRING);
    this.need(name !== null && this.passes(":"));
    this.value(path === "" ? JSON.parse(name) : `${path}.${JSON.parse(name)}`);
  }
}

/**
 * Where the values of a JSON text stand, each by its path as the library tells it, such as `Name.items[0]`.
 * @throws {NotJson} It isn't JSON.
 */
export function placesIn(text) {
  const scanner = new Scanner(text);
  scanner.value("");
  scanner.match(SPACE);
  scanner.need(scanner.at === text.length);
  return scanner.places;
}

/** The number of the line that a place of a text is on, and that of its column, both from 1. */
export function positionIn(text, place) {
  const before = text.slice(0, place).split("\n");
  return { line: before.length, column: before[before.length - 1].length + 1 };
}
