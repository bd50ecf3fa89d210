// SPDX-License-Identifier: MIT OR Apache-2.0

// Whether a certificate is for a host, by its alternative names alone (RFC 9525, 6).

const LABEL = /^[a-z0-9_-]{1,63}$/;
const NUMBER = /^(?:\d+|0x[0-9a-f]*)$/;

// (no letters but those of ASCII are the same in both cases)
const lowered = (text) => text.replace(/[A-Z]/g, (it) => it.toLowerCase());

function ipv4(text) {
  const parts = text.split(".");
  const isAddress = parts.length === 4 && parts.every((it) => /^(?:0|[1-9]\d{0,2})$/.test(it) && Number(it) < 256);
  return isAddress ? parts.map(Number) : null;
}

// The bytes of the groups on one side of `::`; the last two groups may stand as an IPv4 address (RFC 4291, 2.2).
function groups(text, isLast) {
  const bytes = [];
  const parts = text === "" ? [] : text.split(":");
  for (const [index, it] of parts.entries()) {
    const last = isLast && index === parts.length - 1 ? ipv4(it) : null;
    if (last !== null) bytes.push(...last);
    else if (/^[0-9a-f]{1,4}$/i.test(it)) bytes.push(parseInt(it, 16) >> 8, parseInt(it, 16) & 255);
    else return null;
  }
  return bytes;
}

function ipv6(text) {
  const sides = text.split("::");
  if (!text.includes(":") || sides.length > 2) return null;
  const [front, back = []] = sides.map((it, index) => groups(it, index === sides.length - 1));
  if (front === null || back === null) return null;
  const missing = 16 - front.length - back.length;
  const isWhole = sides.length === 1 ? missing === 0 : missing >= 2;
  return isWhole ? [...front, ...new Array(missing).fill(0), ...back] : null;
}

/** The bytes of an IP address, also of one of version 6 in brackets; null where a text is none. */
export function addressOf(text) {
  const inside = /^\[(.*)\]$/.exec(text)?.[1];
  const bytes = inside === undefined ? (ipv4(text) ?? ipv6(text)) : ipv6(inside);
  return bytes === null ? null : Uint8Array.from(bytes);
}

// A domain name in ASCII: its U-labels as A-labels (RFC 9525, 6.3); null where it is none.
function asciiOf(host) {
  if (/^[\x21-\x7e]*$/.test(host)) return lowered(host);
  if (/[\x00-\x20/:?#@%[\]\\]/.test(host)) return null;
  try {
    return new URL(`ws://${host}`).hostname;
  } catch {
    return null;
  }
}

// The labels of a domain name, of which the first may be the wildcard; null where it is none.
function labelsOf(name, { hasWildcard }) {
  const labels = name.split(".");
  const isWild = hasWildcard && labels[0] === "*" && labels.length > 1;
  const areLabels = labels.every((it, index) => LABEL.test(it) || (isWild && index === 0));
  const isName = areLabels && name.length <= 253 && !NUMBER.test(labels[labels.length - 1]);
  return isName ? labels : null;
}

// The labels of the name that is asked for. A dot at its end, which stands for the root, isn't one of them.
function askedFor(host) {
  const name = asciiOf(host);
  return name === null ? null : labelsOf(name.replace(/\.$/, ""), { hasWildcard: false });
}

// The wildcard stands for one whole label, the left-most (RFC 9525, 6.3).
function isNameOf(asked, presented) {
  const labels = labelsOf(lowered(presented), { hasWildcard: true });
  if (labels === null || labels.length !== asked.length) return false;
  return labels.every((it, index) => it === asked[index] || (it === "*" && index === 0));
}

const areSame = (one, two) => one.length === two.length && one.every((it, index) => it === two[index]);

/** A host as the library takes it: an IP address, or a domain name in ASCII; null where a text is neither. */
export function hostText(host) {
  if (typeof host !== "string") throw new TypeError("the host must be a string");
  return addressOf(host) !== null ? host : (askedFor(host)?.join(".") ?? null);
}

/** Whether one of the alternative names is that of a host: a domain name, or an IP address. */
export function isForHost(names, host) {
  const address = addressOf(host);
  if (address !== null) return names.some((it) => it.type === "iPAddress" && areSame(it.bytes, address));
  const asked = askedFor(host);
  return asked !== null && names.some((it) => it.type === "dNSName" && isNameOf(asked, it.value));
}
