// A certificate request of what a form says: its key is made and its signature taken by WebCrypto, all else by the library.

import { shown } from "./text.mjs";

const ecdsa = (namedCurve, hash) => ({ name: "ECDSA", namedCurve, hash });
const rsa = (modulusLength) => ({
  name: "RSASSA-PKCS1-v1_5",
  modulusLength,
  publicExponent: Uint8Array.of(1, 0, 1),
  hash: "SHA-256",
});

// The keys that can be made: what WebCrypto is asked for, and the algorithm of the signature.
const KEY_TYPES = [
  { name: "ECDSA P-256", algorithm: ecdsa("P-256", "SHA-256"), signature: "ecdsa-with-SHA256" },
  { name: "ECDSA P-384", algorithm: ecdsa("P-384", "SHA-384"), signature: "ecdsa-with-SHA384" },
  { name: "RSA 2048", algorithm: rsa(2048), signature: "sha256WithRSAEncryption" },
  { name: "RSA 3072", algorithm: rsa(3072), signature: "sha256WithRSAEncryption" },
  { name: "RSA 4096", algorithm: rsa(4096), signature: "sha256WithRSAEncryption" },
];
const ED25519 = { name: "Ed25519", algorithm: { name: "Ed25519" }, signature: "Ed25519" };

const USES = ["sign", "verify"];

/** The types of keys that a WebCrypto makes: Ed25519 isn't in every one. */
export async function keyTypesOf(subtle) {
  const hasEd25519 = await subtle.generateKey(ED25519.algorithm, false, USES).then(
    () => true,
    () => false,
  );
  return hasEd25519 ? [...KEY_TYPES, ED25519] : KEY_TYPES;
}

/** Why no request is made: the field of the form that is wrong, if it is one, and a sentence. */
export class Unusable extends Error {
  constructor(field, message) {
    super(message);
    this.field = field;
  }
}

const LISTS = ["domains", "addresses", "emails"];
const PREFIXES = { domains: "DNS", addresses: "IP", emails: "email" };
const TITLES = { name: "Common name", organization: "Organization", country: "Country" };

/** The values of the form's texts: without the spaces around them, and the lists taken apart. */
export function valuesOf(texts) {
  const values = { name: texts.name.trim(), organization: texts.organization.trim(), country: texts.country.trim().toUpperCase() };
  for (const it of LISTS) values[it] = texts[it].split(/[\s,;]+/).filter((name) => name !== "");
  return values;
}

// RFC 5280, appendix A: ub-common-name and ub-organization-name.
const MOST_CHARACTERS = 64;

function checkText(field, value) {
  if ([...value].length > MOST_CHARACTERS) throw new Unusable(field, `${TITLES[field]}: at most ${MOST_CHARACTERS} characters.`);
  if (/[\u0000-\u001f\u007f]/.test(value)) throw new Unusable(field, `${TITLES[field]}: control characters aren’t allowed.`);
}

const LABEL = "[a-z0-9](?:[a-z0-9-]{0,61}[a-z0-9])?";
const DOMAIN = new RegExp(`^(?:\\*\\.)?(?:${LABEL}\\.)*${LABEL}$`, "i");
const LONGEST_DOMAIN = 253;

// What is taken for a domain name by mistake, and what is said of it.
const MISTAKEN = [
  [/\/|^[^:]*:\d*$/, "leave out the scheme, the port and the path"],
  [/^[\d.]+$|:/, "IP addresses have a field of their own"],
  [/@/, "e-mail addresses have a field of their own"],
  [/[^\0-\x7f]/, "write its labels in their xn-- form"],
];

const quoted = (value) => `“${shown(value)}”`;

// Domain names by RFC 1034, 3.5, of which the first label may be an asterisk.
function checkDomain(value) {
  const hint = MISTAKEN.find(([form]) => form.test(value))?.[1];
  const isDomain = hint === undefined && DOMAIN.test(value) && value.length <= LONGEST_DOMAIN;
  if (!isDomain) throw new Unusable("domains", `${quoted(value)} isn’t a domain name${hint === undefined ? "" : `: ${hint}`}.`);
}

function checkEmail(value) {
  if (!/^[^@]+@[^@]+$/.test(value)) throw new Unusable("emails", `${quoted(value)} isn’t an e-mail address.`);
}

/** Checks what the library takes as it is. */
export function checkValues(values) {
  const isEmpty = values.name === "" && LISTS.every((it) => values[it].length === 0);
  if (isEmpty) throw new Unusable("name", "Enter a common name, or at least one domain name, IP address or e-mail address.");
  checkText("name", values.name);
  checkText("organization", values.organization);
  if (!/^(?:[A-Z]{2})?$/.test(values.country)) throw new Unusable("country", "Country: use its two-letter code, such as DE or US.");
  for (const it of values.domains) checkDomain(it);
  for (const it of values.emails) checkEmail(it);
}

// The alternative names, each by the field that it is from.
function namesOf(values) {
  return LISTS.flatMap((field) => values[field].map((value) => ({ field, value })));
}

/** The description of the part to be signed, with the public key in PEM. */
export function descriptionOf(values, key) {
  const subject = {};
  if (values.country !== "") subject.C = values.country;
  if (values.organization !== "") subject.O = values.organization;
  if (values.name !== "") subject.CN = values.name;
  const names = namesOf(values).map(({ field, value }) => `${PREFIXES[field]}:${value}`);
  return { type: "request-info", subject, key, ...(names.length > 0 ? { names } : {}) };
}

const FIELDS = { CN: "name", O: "organization", C: "country" };

// What the library's refusal of a description says of the form.
function unusableFor(message, values) {
  const [, path, index, reason] = /^(?:([\w.]+)(?:\[(\d+)\])?: )?(.*?)(?:: ".*")?$/s.exec(message);
  const attribute = FIELDS[path?.replace("subject.", "")];
  if (attribute !== undefined) return new Unusable(attribute, `${TITLES[attribute]}: ${reason}.`);
  const name = path === "names" ? namesOf(values)[index] : undefined;
  if (name === undefined) return new Unusable(null, `The request can’t be made: ${message}.`);
  if (name.field === "addresses") return new Unusable(name.field, `${quoted(name.value)} isn’t an IPv4 or IPv6 address.`);
  return new Unusable(name.field, `${quoted(name.value)} can’t be in a request: ${reason}.`);
}

// A key of Ed25519 that is nobody's (RFC 8410, 4): with it, a description is tried before a key is made.
const NOBODYS = Uint8Array.of(0x30, 42, 0x30, 5, 6, 3, 0x2b, 0x65, 0x70, 3, 33, ...new Uint8Array(33));

function partOf(cimaroly, values, key) {
  try {
    return cimaroly.make(descriptionOf(values, cimaroly.pem("PUBLIC KEY", key)));
  } catch (error) {
    throw error instanceof cimaroly.NotMade ? unusableFor(error.message, values) : error;
  }
}

/**
 * Makes a key and a request with it: the request's bytes, and the private key if it may be saved, or null.
 * @throws {Unusable} Something in the form can't be in a request.
 */
export async function makeRequest({ cimaroly, subtle }, values, { keyType, mayBeSaved }) {
  const { algorithm, signature } = keyType;
  checkValues(values);
  partOf(cimaroly, values, NOBODYS);
  const { publicKey, privateKey } = await subtle.generateKey(algorithm, mayBeSaved, USES);
  const part = partOf(cimaroly, values, new Uint8Array(await subtle.exportKey("spki", publicKey)));
  const signed = new Uint8Array(await subtle.sign(algorithm, privateKey, part));
  const bytes = cimaroly.assemble("request", part, signature, signed, { rawEcdsa: algorithm.name === "ECDSA" });
  return { bytes, privateKey: mayBeSaved ? privateKey : null };
}

/** A private key that may be saved, as PKCS #8 in PEM. */
export async function privateKeyText({ cimaroly, subtle }, privateKey) {
  const bytes = new Uint8Array(await subtle.exportKey("pkcs8", privateKey));
  const text = cimaroly.pem("PRIVATE KEY", bytes);
  bytes.fill(0);
  return text;
}
