// The names of errors, deviations and fields, in the order of bindings/c/cimaroly.h, as tools/make_tables.py writes them, and
// what is thrown with the name of an error.

/** Why an input is refused; there is no number 0. */
export const ERRORS = Object.freeze([
  "",
  "out of memory",
  "truncated element",
  "bytes left over",
  "wrong tag",
  "malformed length",
  "malformed number",
  "malformed boolean",
  "malformed bit string",
  "malformed object identifier",
  "character not allowed",
  "malformed time",
  "unknown version",
  "unsupported algorithm or choice",
  "unique identifier without version 2",
  "extensions without version 3",
]);

/** How an input that is read deviates from the one form that is written; the first has the number 1. */
export const DEVIATIONS = Object.freeze([
  "RSA parameters absent",
  "algorithm parameters absent",
  "hash parameters absent",
  "salt length too large",
  "default version encoded",
  "empty extensions encoded",
  "default criticality encoded",
  "authority key fields repeated or out of order",
  "general name under the other kind of tag",
  "element skipped behind a private key",
]);

/** The types that have named fields, with the calls that tell where these are. */
export const FIELDS = {
  certificate: {
    call: "cimaroly_certificate_fields",
    names: [
      "tbsCertificate",
      "version",
      "serialNumber",
      "signature",
      "issuer",
      "validity",
      "subject",
      "subjectPublicKeyInfo",
      "issuerUniqueID",
      "subjectUniqueID",
      "extensions",
      "signatureAlgorithm",
      "signatureValue",
    ],
  },
  request: {
    call: "cimaroly_request_fields",
    names: [
      "certificationRequestInfo",
      "version",
      "subject",
      "subjectPKInfo",
      "attributes",
      "signatureAlgorithm",
      "signature",
    ],
  },
  "private-key": {
    call: "cimaroly_private_key_fields",
    names: ["version", "privateKeyAlgorithm", "privateKey", "skipped", "publicKey"],
  },
  crl: {
    call: "cimaroly_crl_fields",
    names: [
      "tbsCertList",
      "version",
      "signature",
      "issuer",
      "thisUpdate",
      "nextUpdate",
      "revokedCertificates",
      "crlExtensions",
      "signatureAlgorithm",
      "signatureValue",
    ],
  },
};

// An outline has the fields of what it is the outline of.
for (const kind of ["certificate", "request", "private-key"]) {
  const { call, names } = FIELDS[kind];
  FIELDS[`${kind}-outline`] = { call: call.replace(/fields$/, "outline_fields"), names };
}

/** Input that isn't a valid encoding of the type it was read as. */
export class Refused extends Error {
  constructor(kind, number, at, field = null) {
    super(`${ERRORS[number]} at byte ${at}${field === null ? "" : ` (in ${field.split(".").join(", ")})`}`);
    this.name = "Refused";
    /** The type it was read as; `extension` where it was refused by `checkExtension`. */
    this.kind = kind;
    /** Why it was refused, as in `wrong tag`. */
    this.reason = ERRORS[number];
    /** The number of the reason in cimaroly.h. */
    this.number = number;
    /** The first byte that couldn't be read, counted from 0. */
    this.at = at;
    /** The fields around that byte, outermost first, joined by dots; `null` if none has a name. */
    this.field = field;
  }
}
