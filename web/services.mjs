// SPDX-License-Identifier: MIT OR Apache-2.0

// Where the status of a certificate is asked for, under which policies it was issued, and which logs have it, by the nodes of
// their extensions in a report (docs/JSON.md); and the check of what such extensions hold.

import { identifierContent } from "./der.mjs";
import { bytesOf } from "./directory.mjs";
import { STATUS, inRoom, namedIdentifier } from "./making.mjs";
import { Refused } from "./names.mjs";
import { bytesIn } from "./pem.mjs";

// Services of an issuer (RFC 5280, 4.2.2.1).
export const OCSP = "1.3.6.1.5.5.7.48.1";
export const ISSUERS = "1.3.6.1.5.5.7.48.2";
// What qualifies a policy (RFC 5280, 4.2.1.4).
const STATEMENT = "1.3.6.1.5.5.7.2.1";
const NOTICE = "1.3.6.1.5.5.7.2.2";
// An object identifier with dots (X.690, 8.19.4).
const DOTTED = /^(?:[01]\.[1-3]?\d|2\.(?:0|[1-9]\d*))(?:\.(?:0|[1-9]\d*))*$/;

// A node whose octets encode what they should; throws if they don't.
function well(node) {
  const { malformed, name, field } = node;
  if (malformed !== undefined) throw new Error(`${name ?? field} is malformed: ${malformed.reason} at byte ${malformed.at}`);
  return node;
}

const itemsOf = (node) => well(node).items ?? [];

/** Where services of one kind are found: addresses alone. */
export function addressesOf(node, method) {
  const found = itemsOf(node).filter((it) => it.id === method && it.uniformResourceIdentifier !== undefined);
  return found.map((it) => it.uniformResourceIdentifier.value);
}

/** Where revocation lists are found: addresses alone. */
export function pointAddresses(node) {
  const names = itemsOf(node).flatMap((it) => it.fullName?.items ?? []);
  return names.filter((it) => it.field === "uniformResourceIdentifier").map((it) => it.value);
}

/** A policy under which a certificate was issued. */
export class Policy {
  constructor(node) {
    // (one that says nothing of itself is a value)
    const { id, name } = node.value ?? node;
    const said = (node.items ?? []).map(well);
    const valuesOf = (kind) => Object.freeze(said.filter((it) => it.id === kind).map((it) => it.value));
    this.id = id;
    this.name = name ?? null;
    this.statements = valuesOf(STATEMENT);
    this.notices = valuesOf(NOTICE);
    Object.freeze(this);
  }

  /** Its name, or else its dots. */
  toString() {
    return this.name ?? this.id;
  }
}

export function policiesOf(node) {
  return itemsOf(node).map((it) => new Policy(it));
}

/** The timestamps of version 1. */
export function timestampsOf(node) {
  const found = itemsOf(node).map(well).filter((it) => it.logID !== undefined);
  return found.map(({ logID, timestamp, signature }) => ({
    logId: bytesOf(logID.value),
    time: new Date(timestamp.value),
    signature: bytesOf(signature.value),
  }));
}

// The content of a type's identifier, which is given with dots or by its name.
function contentOf(type) {
  const content = DOTTED.test(type) ? identifierContent(type) : namedIdentifier(type);
  if (content === null) throw new RangeError(`no object identifier, by a name that is known or with dots: ${type}`);
  return content;
}

/**
 * Checks the value of an extension that `check` takes as octets: whether it encodes what its type says, and how often it
 * deviates from the DER encoding of that, but not where. `null` if there is no such extension of the type.
 * @throws {Refused} The value doesn't encode what the type says.
 */
export function checkExtension(type, value) {
  const parts = [contentOf(type), bytesIn(value, "a Uint8Array or an ArrayBuffer")];
  return inRoom(parts, (room, places) => {
    const status = room.call("cimaroly_check_extension", ...places, BigInt(room.result));
    if (status === STATUS.unknownKind) return null;
    if (status !== STATUS.ok) throw new Refused("extension", room.word(11), room.word(12));
    const counts = room.words(0, 10);
    return { isDer: counts.every((count) => count === 0), counts, headers: room.word(10) };
  });
}
