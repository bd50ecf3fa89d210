// A list of extensions whose octets are read further, with the report that docs/JSON.md describes of it: made by hand, so that
// it tells what the page does with such nodes whether or not the module tells them.

import { identifierElement } from "../der.mjs";

// Elements with their parts, which learn their places once all are put together.
const part = (tag, ...inner) => ({ tag, inner });
const sequence = (...inner) => part(0x30, ...inner);
const bytes = (...content) => ({ content: Uint8Array.from(content) });
const raw = (content) => ({ content });
const oid = (id) => raw(identifierElement(id));
const text = (tag, content) => part(tag, raw(new TextEncoder().encode(content)));
const uri = (content) => text(0x86, content);

const sizeOf = (it) => it.content?.length ?? headerOf(it).length + innerSize(it);
const innerSize = ({ inner }) => inner.reduce((sum, it) => sum + sizeOf(it), 0);

function headerOf(it) {
  if (it.tag === undefined) return [];
  const size = innerSize(it);
  if (size < 128) return [it.tag, size];
  return size < 256 ? [it.tag, 0x81, size] : [it.tag, 0x82, size >> 8, size & 255];
}

// Writes an element and its parts, and tells each where it stands.
function write(it, out) {
  const start = out.length;
  out.push(...(it.content ?? headerOf(it)));
  for (const one of it.inner ?? []) write(one, out);
  it.at = [start, out.length];
}

const extension = (id, value) => {
  const whole = sequence(oid(id), part(4, value));
  return { id, value, whole };
};

const LOG = Uint8Array.from({ length: 32 }, (_, index) => 16 + index);
const TIME = 1_764_324_000_000;
const signature = Uint8Array.from({ length: 40 }, (_, index) => 200 - index);

// A timestamp as TLS has it (RFC 6962, 3.2): version, log, time, no extensions, the algorithm, and a signature.
function timestamp() {
  const time = new Uint8Array(8);
  new DataView(time.buffer).setBigUint64(0, BigInt(TIME));
  const body = [0, ...LOG, ...time, 0, 0, 4, 3, 0, signature.length, ...signature];
  return bytes(0, body.length, ...body);
}

/** The bytes, and the report. */
export function furtherExtensions() {
  const services = [
    [sequence(oid("1.3.6.1.5.5.7.48.1"), uri("ocsp:one")), "1.3.6.1.5.5.7.48.1", "id-ad-ocsp", "ocsp:one"],
    [sequence(oid("1.3.6.1.5.5.7.48.2"), uri("ldap:two")), "1.3.6.1.5.5.7.48.2", "id-ad-caIssuers", "ldap:two"],
  ];
  const access = extension("1.3.6.1.5.5.7.1.1", sequence(...services.map(([it]) => it)));
  const [first, second] = [uri("crl:one"), uri("crl:two")];
  const [full, reasons] = [part(0xa0, first), part(0x81, bytes(5, 0x60))];
  const other = part(0xa0, second);
  const points = [sequence(part(0xa0, full), reasons), sequence(part(0xa0, other))];
  const lists = extension("2.5.29.31", sequence(...points));
  const cps = sequence(oid("1.3.6.1.5.5.7.2.1"), text(0x16, "cps:one"));
  const shown = sequence(oid("1.3.6.1.5.5.7.2.2"), sequence(text(0x0c, "Gründe")));
  const numbers = sequence(part(2, bytes(1)));
  const referred = sequence(oid("1.3.6.1.5.5.7.2.2"), sequence(sequence(text(0x0c, "Org"), numbers)));
  const bare = sequence(oid("2.23.140.1.2.1"));
  const qualified = sequence(oid("1.3.5.8"), sequence(cps, shown, referred));
  const policies = extension("2.5.29.32", sequence(bare, qualified));
  const item = timestamp();
  const size = sizeOf(item);
  const stamps = extension("1.3.6.1.4.1.11129.2.4.2", part(4, bytes(size >> 8, size & 255), item));
  const required = part(0x80, bytes(3));
  const constraints = extension("2.5.29.36", sequence(required));
  const feature = part(2, bytes(5));
  const features = extension("1.3.6.1.5.5.7.1.24", sequence(feature));
  const base = text(0x82, "example.org");
  const tree = sequence(base);
  const permitted = part(0xa0, tree);
  const names = extension("2.5.29.30", sequence(permitted));
  const [from, to] = [oid("1.2.3"), oid("1.5.6")];
  const mapping = sequence(from, to);
  const mappings = extension("2.5.29.33", sequence(mapping));
  const noCheck = extension("1.3.6.1.5.5.7.48.1.5", part(5));
  const inhibit = extension("2.5.29.54", part(2, bytes(2)));
  const wrong = extension("2.5.29.46", part(0x31));
  const attribute = (id, value) => sequence(oid(id), text(0x0c, value));
  const [one, two] = [attribute("2.5.4.3", "list"), attribute("2.5.4.11", "unit")];
  const relative = part(0xa1, one, two);
  const onlyUsers = part(0x81, bytes(255));
  const covered = extension("2.5.29.28", sequence(part(0xa0, relative), onlyUsers));
  const compliance = sequence(oid("0.4.0.1862.1.1"));
  const retention = sequence(oid("0.4.0.1862.1.3"), part(2, bytes(10)));
  const statements = extension("1.3.6.1.5.5.7.1.3", sequence(compliance, retention));
  const country = text(0x13, "DE");
  const citizenship = sequence(oid("1.3.6.1.5.5.7.9.4"), part(0x31, country));
  const attributes = extension("2.5.29.9", sequence(citizenship));
  const uses = extension("2.16.840.1.113730.1.1", part(3, bytes(2, 0xa4)));
  const comment = extension("2.16.840.1.113730.1.13", text(0x16, "A comment"));
  const template = extension("1.3.6.1.4.1.311.20.2", part(0x1e, bytes(0, 0x47, 0, 0xfc)));
  const [major, identifier] = [part(2, bytes(100)), oid("1.3.6.1.4.1.311.21.8")];
  const versioned = extension("1.3.6.1.4.1.311.21.7", sequence(identifier, major));
  const first10 = [access, lists, policies, stamps, constraints, features, names, mappings, noCheck, inhibit];
  const all = [...first10, wrong, covered, statements, attributes, uses, comment, template, versioned];
  const list = sequence(...all.map((it) => it.whole));
  const out = [];
  write(list, out);

  const head = ({ id, whole }, name) => ({ at: whole.at, id, name, critical: false });
  const listed = (it, field, rest) => ({ at: it.at, field, ...rest });
  const known = (id, name) => ({ id, name });
  const items = [
    {
      ...head(access, "id-pe-authorityInfoAccess"),
      items: services.map(([it, id, name, value]) => ({
        at: it.at,
        id,
        name,
        uniformResourceIdentifier: { at: it.inner[1].at, value },
      })),
    },
    {
      ...head(lists, "id-ce-cRLDistributionPoints"),
      items: [
        listed(points[0], "DistributionPoint", {
          fullName: { at: full.at, items: [listed(first, "uniformResourceIdentifier", { value: "crl:one" })] },
          reasons: { at: reasons.at, value: ["keyCompromise", "cACompromise"] },
        }),
        listed(points[1], "DistributionPoint", {
          fullName: { at: other.at, items: [listed(second, "uniformResourceIdentifier", { value: "crl:two" })] },
        }),
      ],
    },
    {
      ...head(policies, "id-ce-certificatePolicies"),
      items: [
        listed(bare, "policyIdentifier", { value: known("2.23.140.1.2.1", "domain-validated") }),
        {
          at: qualified.at,
          id: "1.3.5.8",
          items: [
            { at: cps.at, ...known("1.3.6.1.5.5.7.2.1", "id-qt-cps"), value: "cps:one" },
            { at: shown.at, ...known("1.3.6.1.5.5.7.2.2", "id-qt-unotice"), value: "Gründe" },
            { at: referred.at, ...known("1.3.6.1.5.5.7.2.2", "id-qt-unotice"), value: "Org" },
          ],
        },
      ],
    },
    {
      ...head(stamps, "signedCertificateTimestampList"),
      items: [
        listed(item, "SignedCertificateTimestamp", {
          logID: { at: item.at, value: hex(LOG) },
          timestamp: { at: item.at, value: TIME },
          signature: { at: item.at, value: hex(signature) },
        }),
      ],
    },
    { ...head(constraints, "id-ce-policyConstraints"), requireExplicitPolicy: { at: required.at, value: 3 } },
    { ...head(features, "id-pe-tlsfeature"), items: [listed(feature, "feature", { value: 5 })] },
    {
      ...head(names, "id-ce-nameConstraints"),
      permittedSubtrees: {
        at: permitted.at,
        items: [listed(tree, "GeneralSubtree", { dNSName: { at: base.at, value: "example.org" } })],
      },
    },
    {
      ...head(mappings, "id-ce-policyMappings"),
      items: [
        listed(mapping, "PolicyMapping", {
          issuerDomainPolicy: { at: from.at, value: { id: "1.2.3" } },
          subjectDomainPolicy: { at: to.at, value: { id: "1.5.6" } },
        }),
      ],
    },
    { ...head(noCheck, "id-pkix-ocsp-nocheck"), value: null },
    { ...head(inhibit, "id-ce-inhibitAnyPolicy"), value: 2 },
    {
      ...head(wrong, "id-ce-freshestCRL"),
      malformed: { reason: "wrong tag", at: wrong.value.at[0] },
      length: 2,
      value: "31:00",
    },
    {
      ...head(covered, "id-ce-issuingDistributionPoint"),
      nameRelativeToCRLIssuer: {
        at: relative.at,
        items: [
          { at: one.at, ...known("2.5.4.3", "commonName"), value: "list" },
          { at: two.at, ...known("2.5.4.11", "organizationalUnitName"), value: "unit" },
        ],
      },
      onlyContainsUserCerts: { at: onlyUsers.at, value: true },
    },
    {
      ...head(statements, "id-pe-qcStatements"),
      items: [
        listed(compliance, "statementId", { value: known("0.4.0.1862.1.1", "id-etsi-qcs-QcCompliance") }),
        { at: retention.at, ...known("0.4.0.1862.1.3", "id-etsi-qcs-QcRetentionPeriod"), value: "02:01:0a" },
      ],
    },
    {
      ...head(attributes, "id-ce-subjectDirectoryAttributes"),
      items: [
        {
          at: citizenship.at,
          ...known("1.3.6.1.5.5.7.9.4", "id-pda-countryOfCitizenship"),
          items: [listed(country, "AttributeValue", { value: "DE" })],
        },
      ],
    },
    { ...head(uses, "netscape-cert-type"), value: ["sslClient", "smime", "sslCA"] },
    { ...head(comment, "netscape-comment"), value: "A comment" },
    { ...head(template, "ENROLL_CERTTYPE_EXTENSION"), value: "Gü" },
    {
      ...head(versioned, "CERTIFICATE_TEMPLATE"),
      templateID: { at: identifier.at, value: { id: "1.3.6.1.4.1.311.21.8" } },
      templateMajorVersion: { at: major.at, value: 100 },
    },
  ];
  const report = { type: "extensions", length: out.length, result: "ok", deviations: [], Extensions: { at: list.at, items } };
  return { bytes: Uint8Array.from(out), report };
}

function hex(content) {
  return Array.from(content, (it) => it.toString(16).padStart(2, "0")).join(":");
}
