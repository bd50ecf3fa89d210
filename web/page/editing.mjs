// A structure as JSON that can be edited, and made again of it (docs/MAKE.md).

import { lastElements } from "./elements.mjs";
import { NotJson, jsonOf, placesIn, positionIn } from "./json.mjs";
import { hex, shown } from "./text.mjs";
import { isNode } from "./values.mjs";

// Above this size, what is edited would be too long for a text area.
const LONGEST = 200_000;

/** Why a structure can't be edited; "" if it can. */
export function whyNotEdited({ kind, bytes, report, isPrivate }) {
  if (isPrivate) return "Private keys can’t be edited.";
  if (report.result !== "ok" && report.result !== "deviations") return "Only what is read can be edited.";
  if (kind === "raw-algorithm" || kind === "crl" || kind.endsWith("-outline")) return "This type can’t be edited.";
  return bytes.length > LONGEST ? "This is too large to be edited." : "";
}

// Extensions that are made of the fields that a report tells (under 2.5.29); others are made of their octets.
const MADE_OF_FIELDS = new Set([14, 15, 17, 18, 19, 20, 35, 37].map((it) => `2.5.29.${it}`));

// An extension with its octets instead of its fields.
function withOctets({ at: [start, end], id, name, critical }, bytes) {
  const [, octets] = lastElements(bytes, start, end);
  return { id, ...(name === undefined ? {} : { name }), critical, value: hex(bytes.subarray(octets.content, octets.end)) };
}

// A list of bits by their names without its number of bits, if this is the one that the names ask for.
function withoutBits(node, bytes) {
  const { bits, ...rest } = node;
  const isNamed = Array.isArray(node.value) && bits > 0 && node.der === undefined;
  return isNamed && (bytes[node.at[1] - 1] >> (-bits & 7)) & 1 ? rest : node;
}

// A node as it can be made again: without its place, which an edit may shift.
function madeOf(node, bytes) {
  if (Array.isArray(node)) return node.map((it) => madeOf(it, bytes));
  if (typeof node !== "object" || node === null) return node;
  const isOctets = typeof node.critical === "boolean" && !MADE_OF_FIELDS.has(node.id);
  const { at: _, ...members } = isOctets ? withOctets(node, bytes) : withoutBits(node, bytes);
  return Object.fromEntries(Object.entries(members).map(([name, it]) => [name, madeOf(it, bytes)]));
}

/** The JSON of which a structure is made again: of its report the type and the fields. */
export function editableText({ bytes, report }) {
  const [title, root] = Object.entries(report).find(([, it]) => isNode(it));
  return jsonOf({ type: report.type, [title]: madeOf(root, bytes) });
}

/** Why nothing is made of a text, and where in it that is. */
export class NotEdited extends Error {
  constructor(message, { start, end }) {
    super(message);
    Object.assign(this, { start, end });
  }
}

// The value that a refusal names, or the one around it.
function placeOf(message, places) {
  let path = /^(\S+?): /.exec(message)?.[1] ?? "";
  while (!places.has(path)) path = path.slice(0, Math.max(0, path.search(/(?:\.[^.]*|\[\d+\])$/)));
  return places.get(path);
}

function notMade(text, message, places) {
  const { start, end } = placeOf(message, places);
  return new NotEdited(`Line ${positionIn(text, start).line}: ${shown(message)}`, { start, end });
}

function placesOf(text) {
  try {
    return placesIn(text);
  } catch (error) {
    if (!(error instanceof NotJson)) throw error;
    const { line, column } = positionIn(text, error.place);
    throw new NotEdited(`Line ${line}, column ${column}: this isn’t JSON.`, { start: error.place, end: error.place + 1 });
  }
}

/**
 * Makes a structure of JSON: its bytes and its type.
 * @throws {NotEdited} The JSON, or what it says, is wrong.
 */
export function madeOfText(cimaroly, text) {
  const places = placesOf(text);
  try {
    return { bytes: cimaroly.make(text), kind: JSON.parse(text).type };
  } catch (error) {
    throw error instanceof cimaroly.NotMade ? notMade(text, error.message, places) : error;
  }
}
