// SPDX-License-Identifier: MIT OR Apache-2.0
// This file is written by tools/make_commonjs.py from web/core.mjs.

"use strict";

// The calls of Cimaroly in JavaScript, over the module that an entry (cimaroly.mjs, node/index.cjs) has loaded: cimaroly.wasm,
// or cimaroly32.wasm where there are no 64-bit memories, with the calls of bindings/c/cimaroly.h.

const { STATUS, useRoom } = require("./making.cjs");
const { DEVIATIONS, FIELDS, Refused } = require("./names.cjs");
const { KINDS, bytesIn, fromBase64, isSequence, isUtf16, kindOfLabel, pemBlocks, use } = require("./pem.cjs");
const { findingOf } = require("./rules.cjs");
const { Values } = require("./values.cjs");

// What the search for a PEM block answers where there is no more.
const NO_MORE = 1;
const PAGE = 65536;
// Where the module's memory goes on being used for inputs, it is given back above this size.
const LARGE = 1 << 26;

// A module whose one memory has 64-bit addresses.
const WITH_MEMORY64 = new Uint8Array([0, 97, 115, 109, 1, 0, 0, 0, 5, 3, 1, 4, 1]);

/** Whether the 32-bit translation of the module is in use, for lack of 64-bit memories: the proofs don't cover it. */
const isLowered = !WebAssembly.validate(WITH_MEMORY64);

// The compiled module, and the instance of it that answers calls.
let compiled;
let instance;

/** Takes the compiled module and an instance of it, before any other call. */
function start(code, fresh) {
  compiled = code;
  instance = fresh;
}

const aligned = (size) => Math.ceil(size / 16) * 16;

/**
 * The memory of one call, behind what the module itself has there: a slot for what the call is lent, a slot for its
 * result, the input, room for what it writes, and room to work in.
 */
class Room {
  constructor(der, outSize, workSize) {
    const { memory, __heap_base: base } = instance.exports;
    this.lent = aligned(Number(base.value));
    this.result = this.lent + 16;
    this.der = this.result + 512;
    this.derSize = der.length;
    this.out = aligned(this.der + der.length);
    this.outSize = outSize;
    this.work = aligned(this.out + outSize);
    this.end = this.work + workSize;
    grow(memory, this.end);
    this.bytes = new Uint8Array(memory.buffer);
    this.view = new DataView(memory.buffer);
    this.bytes.set(der, this.der);
    this.view.setBigUint64(this.lent, BigInt(this.work), true);
    this.view.setBigUint64(this.lent + 8, BigInt(workSize), true);
  }

  /** Calls an export that is lent memory. */
  callLent(name, ...words) {
    return this.call(name, BigInt(this.lent), ...words);
  }

  /** Calls an export; numbers that stand for places and sizes go in as BigInt. */
  call(name, ...words) {
    try {
      return instance.exports[name](...words) >>> 0;
    } catch (error) {
      // (what stands in the module after a trap isn't to be relied on)
      instance = new WebAssembly.Instance(compiled, {});
      throw error;
    }
  }

  get input() {
    return [BigInt(this.der), BigInt(this.derSize)];
  }

  get output() {
    return [BigInt(this.out), BigInt(this.outSize), BigInt(this.result)];
  }

  word(index, at = this.result) {
    return Number(this.view.getBigUint64(at + 8 * index, true));
  }

  words(from, count) {
    return Array.from({ length: count }, (_, index) => this.word(from + index));
  }

  span(index, at = this.result) {
    return { start: this.word(2 * index, at), end: this.word(2 * index + 1, at) };
  }

  /** Takes back what a call has used, so that no secret stays there, not even of a key that was taken for something else. */
  leave() {
    if (this.bytes.length > LARGE) instance = new WebAssembly.Instance(compiled, {});
    else this.bytes.fill(0, this.lent, this.end);
  }
}

// (a 64-bit memory takes a BigInt, and took a number before that was settled)
const counts = isLowered ? [Number] : [BigInt, Number];

function grow(memory, size) {
  const missing = Math.ceil((size - memory.buffer.byteLength) / PAGE);
  if (missing <= 0) return;
  for (const count of counts) {
    try {
      memory.grow(count(missing));
      return;
    } catch (error) {
      if (!(error instanceof TypeError)) break;
    }
  }
  throw new RangeError("out of memory");
}

// How much memory a call is lent at first.
const workSizeFor = (der) => aligned(16 * der.length + 16384);

/**
 * Makes a call on an input, with more memory where it was too little, and hands its room to `take`.
 * `call` answers a status; a room has at first `outSize` bytes for what is written, and `workSize` that are lent.
 */
function run(kind, der, outSize, call, take, workSize = 0) {
  for (;;) {
    const room = new Room(der, outSize, workSize);
    const status = call(room);
    if (status === STATUS.bufferTooShort) outSize = aligned(room.word(0) * (room.unit ?? 1));
    else if (status === STATUS.outOfMemory) workSize *= 4;
    const isDone = status !== STATUS.bufferTooShort && status !== STATUS.outOfMemory;
    const answer = status === STATUS.ok ? take(room) : null;
    room.leave();
    if (status === STATUS.refused) throw refusal(kind, der);
    if (status === STATUS.tooLong) throw new RangeError("the encoding is too long");
    if (isDone) return answer;
  }
}

function numberOf(kind) {
  const index = KINDS.indexOf(kind);
  if (index < 0) throw new TypeError(`unknown type ${kind}: use one of ${KINDS.join(", ")}`);
  return index + 1;
}

// The bytes of base64 text that stands so many bytes behind the front of a room's input, or null.
function decodedIn(room, start, end) {
  const symbols = [BigInt(room.der + start), BigInt(end - start)];
  const status = room.call("cimaroly_pem_decode", ...symbols, ...room.output);
  return status === STATUS.ok ? room.bytes.slice(room.out, room.out + room.word(0)) : null;
}

// The PEM blocks of a text: what the search for each answers, its places and lines, and its bytes, or null.
function* blocksIn(room) {
  let [at, line] = [0, 0];
  for (;;) {
    const answer = room.call("cimaroly_pem_next", ...room.input, BigInt(at), BigInt(line), BigInt(room.result));
    if (answer === NO_MORE) return;
    const [label, text] = [room.span(0), room.span(1)];
    const [, first, last, next, nextLine] = room.words(4, 5);
    yield { answer, label, first, last, decoded: answer === STATUS.ok ? decodedIn(room, text.start, text.end) : null };
    [at, line] = [next, nextLine];
  }
}

// Does something with a text in the module's memory, where there is room for all that it can stand for.
function withText(text, act) {
  const room = new Room(text, aligned(text.length), 0);
  try {
    return act(room);
  } finally {
    room.leave();
  }
}

useRoom(Room);
use({
  blocks: (text) => withText(text, (room) => [...blocksIn(room)]),
  decoded: (text) => withText(text, (room) => decodedIn(room, 0, text.length)),
});

// The error to throw for what is refused.
function refusal(kind, der) {
  try {
    verdictOf(der, kind);
  } catch (error) {
    return error;
  }
  return new Error("internal error: refused, but not by a check");
}

/** The DER of an input: bytes as they are, or those of a text's first PEM block of the type. */
function derOf(data, kind) {
  numberOf(kind);
  if (typeof data === "string") return derOfText(data, kind);
  const bytes = bytesIn(data);
  if (isUtf16(bytes)) throw new SyntaxError("UTF-16 text: decode it, and pass the string");
  const text = isSequence(bytes) ? "" : new TextDecoder().decode(bytes);
  return text.includes("-----BEGIN ") ? derOfText(text, kind) : (bareBase64(text) ?? bytes);
}

// What base64 without a BEGIN line stands for, where that begins as a SEQUENCE does (which is M and one of A to P).
function bareBase64(text) {
  const found = /^\s*M/.test(text) ? fromBase64(text) : null;
  return found?.[0] === 0x30 ? found : null;
}

function derOfText(text, kind) {
  // (what an outline is the frame of)
  const whole = kind.replace(/-outline$/, "");
  for (const block of pemBlocks(text)) {
    if (kindOfLabel(block.label) !== whole) continue;
    if (block.bytes === undefined) throw new SyntaxError(`line ${block.line}: ${block.reason}`);
    return block.bytes;
  }
  const bare = text.includes("-----BEGIN ") ? null : bareBase64(text);
  if (bare !== null) return bare;
  throw new SyntaxError(`no PEM block of type ${kind} in the text`);
}

function verdictOf(der, kind) {
  const room = new Room(der, 0, 0);
  const status = room.call("cimaroly_check", numberOf(kind), ...room.input, BigInt(room.result));
  const [error, at] = [room.word(11), room.word(12)];
  const verdict = { counts: room.words(0, 10), headers: room.word(10) };
  room.leave();
  if (status !== STATUS.ok) throw new Refused(kind, error, at, refusedIn(der, kind));
  return verdict;
}

function placesOf(der, kind, total) {
  if (total === 0) return [];
  const call = (room) => {
    room.unit = 24;
    const [out, , result] = room.output;
    const count = BigInt(Math.floor(room.outSize / 24));
    return room.callLent("cimaroly_places", numberOf(kind), ...room.input, out, count, result);
  };
  const take = (room) =>
    Array.from({ length: room.word(0) }, (_, index) => {
      const at = room.out + 24 * index;
      const number = room.word(0, at);
      return { name: DEVIATIONS[number - 1], number, start: room.word(1, at), end: room.word(2, at) };
    });
  return run(kind, der, 24 * total, call, take, workSizeFor(der));
}

function checked(der, kind) {
  const { counts, headers } = verdictOf(der, kind);
  const total = counts.reduce((sum, count) => sum + count, 0);
  return { isDer: total === 0, deviations: placesOf(der, kind, total), counts, headers };
}

function encoded(der, kind) {
  const call = (room) => room.callLent("cimaroly_encode", numberOf(kind), ...room.input, ...room.output);
  return run(kind, der, der.length + 64, call, (room) => room.bytes.slice(room.out, room.out + room.word(0)), workSizeFor(der));
}

function told(der, kind, secrets, outSize = 12 * der.length + 4096) {
  const call = (room) => {
    room.unit = 1;
    return room.callLent("cimaroly_report", numberOf(kind), ...room.input, secrets ? 1 : 0, ...room.output);
  };
  const take = (room) => new TextDecoder().decode(room.bytes.subarray(room.out, room.out + room.word(0)));
  return run(kind, der, outSize, call, take, workSizeFor(der));
}

// The field in which an input is refused: the report of one is short.
function refusedIn(der, kind) {
  return JSON.parse(told(der, kind, false, 1024)).field ?? null;
}

// The types whose first field is what a signature covers.
const SIGNED = ["certificate", "request", "certificate-outline", "request-outline", "crl"];

function signedPartOf(der, kind) {
  if (!SIGNED.includes(kind)) return null;
  const call = (room) => room.call("cimaroly_signed_part", numberOf(kind), ...room.input, BigInt(room.result));
  const take = (room) => ({ ...room.span(0), inside: room.words(2, 10), outside: room.words(12, 10) });
  return run(kind, der, 0, call, take);
}

function fieldsOf(der, kind) {
  const { call, names } = FIELDS[kind] ?? { names: [] };
  if (names.length === 0) return {};
  return run(
    kind,
    der,
    0,
    (room) => room.call(call, ...room.input, BigInt(room.result)),
    (room) => Object.fromEntries(names.map((name, index) => [name, room.span(index)]).filter(([, { end }]) => end > 0)),
  );
}

function extensionsOf(der, kind) {
  if (kind !== "certificate" && kind !== "extensions") return [];
  const call = (room) => {
    room.unit = 64;
    const [out, , result] = room.output;
    const count = BigInt(Math.floor(room.outSize / 64));
    return room.call("cimaroly_extensions", numberOf(kind), ...room.input, out, count, result);
  };
  return run(kind, der, 64 * 32, call, (room) =>
    Array.from({ length: room.word(0) }, (_, index) => {
      const at = room.out + 64 * index;
      const [whole, extnID, critical, extnValue] = [0, 1, 2, 3].map((field) => room.span(field, at));
      return { whole, extnID, critical: critical.end > 0 ? critical : null, extnValue };
    }),
  );
}

// Which rules a certificate or a request breaks, and where. (The number of a rule has 32 bits.)
function findingsOf(der, kind) {
  const name = kind === "request" ? "cimaroly_request_findings" : "cimaroly_findings";
  const call = (room) => {
    room.unit = 24;
    const [out, , result] = room.output;
    return room.callLent(name, ...room.input, out, BigInt(Math.floor(room.outSize / 24)), result);
  };
  const take = (room) =>
    Array.from({ length: room.word(0) }, (_, index) => {
      const at = room.out + 24 * index;
      return findingOf(room.view.getUint32(at, true), room.word(1, at), room.word(2, at));
    });
  return run(kind, der, 24 * 32, call, take, workSizeFor(der));
}

/** Whether a certificate is for a host, which is a domain name in ASCII or an IP address. */
function isForHostText(der, host) {
  const text = new TextEncoder().encode(host);
  const room = new Room(der, aligned(text.length), 0);
  room.bytes.set(text, room.out);
  room.call("cimaroly_host_matches", ...room.input, BigInt(room.out), BigInt(text.length), BigInt(room.result));
  const matches = room.bytes[room.result] !== 0;
  room.leave();
  return matches;
}

// A number, and one that JSON.parse may not tell exactly. (In a string the quotation marks would stand behind backslashes.)
const NUMBERS = /"value":(\d+)/g;
const LARGE_NUMBER = /"value":\d{16}/;

/** Parses a report's JSON. A value too large for an exact JavaScript number, such as a salt length, becomes a BigInt. */
function parseReport(text) {
  if (!LARGE_NUMBER.test(text)) return JSON.parse(text);
  const numbers = text.matchAll(NUMBERS);
  return JSON.parse(text, (key, value) => {
    if (key !== "value" || typeof value !== "number") return value;
    const [, digits] = numbers.next().value;
    return Number.isSafeInteger(value) ? value : BigInt(digits);
  });
}

/**
 * Checks whether the input is a valid encoding of the type, and where it deviates from DER.
 * @throws {Refused} It isn't a valid encoding.
 */
function check(data, kind = "certificate") {
  return checked(derOf(data, kind), kind);
}

/**
 * Returns the DER encoding of the input's value: the input's own bytes if it has no deviations.
 * @throws {Refused} It isn't a valid encoding.
 */
function encode(data, kind = "certificate") {
  return encoded(derOf(data, kind), kind);
}

/** Reports the input's contents as JSON text (docs/JSON.md); if it is refused, reports why and where. */
function reportText(data, kind = "certificate", { secrets = false } = {}) {
  return told(derOf(data, kind), kind, secrets);
}

/** Returns the same report as an object. */
function report(data, kind = "certificate", options = {}) {
  return parseReport(reportText(data, kind, options));
}

/** A structure that was read. Logging it or turning it into JSON doesn't show its bytes, which may be a private key. */
class Structure extends Values {
  #der;
  #signedPart;
  #fields;

  constructor(der, kind) {
    super({ encoded, extensionsOf, findingsOf, isForHostText });
    this.#der = der;
    Object.assign(this, { kind }, checked(der, kind));
  }

  /** Its bytes. */
  get der() {
    return this.#der;
  }

  /** The part that the signature of a certificate, request or CRL covers, with the deviations inside and outside it. */
  get signedPart() {
    this.#signedPart ??= signedPartOf(this.der, this.kind);
    return this.#signedPart;
  }

  /** Where each field of a certificate, request or private key is, by its name in the RFCs. */
  get fields() {
    this.#fields ??= fieldsOf(this.der, this.kind);
    return this.#fields;
  }

  /** Returns the bytes of a span. */
  bytes({ start, end }) {
    return this.der.subarray(start, end);
  }

  /** Returns the DER encoding. */
  encode() {
    return encoded(this.der, this.kind);
  }

  /** Reports its contents. */
  report(options = {}) {
    return parseReport(told(this.der, this.kind, options.secrets ?? false));
  }
}

/**
 * Reads the input as the type.
 * @throws {Refused} It isn't a valid encoding.
 */
function read(data, kind = "certificate") {
  return new Structure(derOf(data, kind).slice(), kind);
}

module.exports = {
  DEVIATIONS,
  KINDS,
  Refused,
  Structure,
  check,
  encode,
  isLowered,
  parseReport,
  read,
  report,
  reportText,
  start,
};
