/* SPDX-License-Identifier: MIT OR Apache-2.0 */
/*
 * cimaroly.h: check, encode, look into and make X.509 structures in DER.
 *
 * Every call that looks reads the whole of its input as one structure of a kind, and answers a status, and so do those
 * that make. What the calls promise is proved (docs/PROVED.md). Tested, not proved: that a call leaves memory->block
 * and memory->size as they were, what the texts of cimaroly_report and cimaroly_why_not_made say, and that what
 * cimaroly_make makes says what the description does. Measured: the sizes of memory and of the stack that are given
 * here.
 *
 * Rules for every call:
 *
 * - No pointer may be NULL, even if the size beside it is 0; only memory->block may, if memory->size is 0.
 * - What is written may overlap neither the input nor anything else that the call is given.
 * - Nothing is kept between calls, so any number of threads may call at once, each with memory of its own.
 * - A call never calls malloc. Calls that only look take no memory: cimaroly_check works in less than 2 KB of the stack,
 *   whatever the size of the input. Calls that make, cimaroly_encode, cimaroly_findings, cimaroly_request_findings,
 *   cimaroly_report and, if the input has deviations, cimaroly_places work in memory that they are lent (struct
 *   cimaroly_memory), which is the caller's again when they return. Where the environment is hosted, their forms whose
 *   names end in _malloc take what is needed from malloc, ask for more if it was too little, and free it.
 * - A result, a size or a count is written whatever the status, and is all zeros unless stated otherwise. A buffer is
 *   written with CIMAROLY_OK alone; with every other status it is unchanged, unless stated otherwise.
 * - Places count bytes of the input from 0. A span covers the bytes start..end, without the one at end.
 *
 * Link with -lcimaroly. libcimaroly.a needs memcpy, memmove and memset, and nothing else. It is built for x86-64
 * processors with SSE4.2 (x86-64-v2) and for aarch64.
 */
#ifndef CIMAROLY_H
#define CIMAROLY_H

#include <stdbool.h>
#include <stddef.h>
#include <stdint.h>
#if __STDC_HOSTED__
#include <stdlib.h>
#endif

/* The version of this header, by Semantic Versioning; cimaroly_version() answers that of the library. */
#define CIMAROLY_VERSION "0.1.0"
#define CIMAROLY_VERSION_MAJOR 0
#define CIMAROLY_VERSION_MINOR 1
#define CIMAROLY_VERSION_PATCH 0
#define CIMAROLY_VERSION_NUMBER                                                                                      \
    (CIMAROLY_VERSION_MAJOR * 0x10000U + CIMAROLY_VERSION_MINOR * 0x100U + CIMAROLY_VERSION_PATCH)

#ifdef __cplusplus
extern "C" {
#endif

/*
 * What an input can be read as. Of the outlines and of CIMAROLY_CRL the frame is read: algorithms have any identifier and
 * any parameters, keys and signatures are bits, names have strings of any type, and extensions are octets.
 */
enum cimaroly_kind {
    CIMAROLY_CERTIFICATE = 1,          /* Certificate (RFC 5280, 4.1) */
    CIMAROLY_REQUEST = 2,              /* CertificationRequest (RFC 2986, 4) */
    CIMAROLY_PRIVATE_KEY = 3,          /* PrivateKeyInfo, or OneAsymmetricKey (RFC 5958, 2) */
    CIMAROLY_PUBLIC_KEY = 4,           /* SubjectPublicKeyInfo (RFC 5280, 4.1.2.7) */
    CIMAROLY_RSA_PRIVATE_KEY = 5,      /* RSAPrivateKey (RFC 8017, A.1.2) */
    CIMAROLY_RSA_PUBLIC_KEY = 6,       /* RSAPublicKey (RFC 8017, A.1.1) */
    CIMAROLY_EC_PRIVATE_KEY = 7,       /* ECPrivateKey (RFC 5915, 3) */
    CIMAROLY_NAME = 8,                 /* Name (RFC 5280, 4.1.2.4) */
    CIMAROLY_EXTENSIONS = 9,           /* Extensions (RFC 5280, 4.1) */
    CIMAROLY_ALGORITHM = 10,           /* AlgorithmIdentifier (RFC 5280, 4.1.1.2), of an algorithm that is known */
    CIMAROLY_RAW_ALGORITHM = 11,       /* AlgorithmIdentifier with any parameters */
    CIMAROLY_REQUEST_INFO = 12,        /* CertificationRequestInfo (RFC 2986, 4.1) */
    CIMAROLY_TBS_CERTIFICATE = 13,     /* TBSCertificate (RFC 5280, 4.1.2) */
    CIMAROLY_CERTIFICATE_OUTLINE = 14, /* Certificate (RFC 5280, 4.1), of any algorithm */
    CIMAROLY_REQUEST_OUTLINE = 15,     /* CertificationRequest (RFC 2986, 4), of any algorithm */
    CIMAROLY_PRIVATE_KEY_OUTLINE = 16, /* OneAsymmetricKey (RFC 5958, 2), of any algorithm */
    CIMAROLY_PUBLIC_KEY_OUTLINE = 17,  /* SubjectPublicKeyInfo (RFC 5280, 4.1.2.7), of any algorithm */
    CIMAROLY_CRL = 18                  /* CertificateList (RFC 5280, 5.1), of any algorithm */
};

/* What a call answers. */
enum cimaroly_status {
    CIMAROLY_OK = 0,               /* the input encodes a value of the kind, and all is done */
    CIMAROLY_REFUSED = 1,          /* the input encodes no value of the kind; cimaroly_check says why and where */
    CIMAROLY_OUT_OF_MEMORY = 2,    /* the memory was too little: nothing is known of the input */
    CIMAROLY_BUFFER_TOO_SHORT = 3, /* the size or count needed is told; the buffer is as it was, unless said otherwise */
    CIMAROLY_UNKNOWN_KIND = 4,     /* the number is that of no kind, or of none that the call is for */
    CIMAROLY_TOO_LONG = 5          /* what is to be written has 2^64 bytes or more */
};

/* Why an input is refused. */
enum cimaroly_error {
    CIMAROLY_ERROR_OUT_OF_MEMORY = 1,
    CIMAROLY_ERROR_TRUNCATED = 2,
    CIMAROLY_ERROR_LEFT_OVER = 3,
    CIMAROLY_ERROR_WRONG_TAG = 4,
    CIMAROLY_ERROR_BAD_LENGTH = 5,
    CIMAROLY_ERROR_BAD_NUMBER = 6,
    CIMAROLY_ERROR_BAD_BOOLEAN = 7,
    CIMAROLY_ERROR_BAD_BITS = 8,
    CIMAROLY_ERROR_BAD_OID = 9,
    CIMAROLY_ERROR_BAD_TEXT = 10,
    CIMAROLY_ERROR_BAD_TIME = 11,
    CIMAROLY_ERROR_BAD_VERSION = 12,
    CIMAROLY_ERROR_UNSUPPORTED = 13,
    CIMAROLY_ERROR_UNIQUE_ID_NEEDS_V2 = 14,
    CIMAROLY_ERROR_EXTENSIONS_NEED_V3 = 15
};

/* How an input that is read deviates from the one form that is written; README's table has a line for each. */
enum cimaroly_deviation {
    CIMAROLY_RSA_PARAMETERS_ABSENT = 1,
    CIMAROLY_ALGORITHM_PARAMETERS_ABSENT = 2,
    CIMAROLY_HASH_PARAMETERS_ABSENT = 3,
    CIMAROLY_SALT_TOO_LARGE = 4,
    CIMAROLY_DEFAULT_VERSION_ENCODED = 5,
    CIMAROLY_EMPTY_EXTENSIONS_ENCODED = 6,
    CIMAROLY_DEFAULT_CRITICALITY_ENCODED = 7,
    CIMAROLY_AUTHORITY_KEY_FIELD_ORDER = 8,
    CIMAROLY_GENERAL_NAME_FORM = 9,
    CIMAROLY_SKIPPED_KEY_ELEMENT = 10
};

/* Rules that a certificate may break though it is read; docs/FINDINGS.md says more of each. */
enum cimaroly_rule {
    CIMAROLY_RULE_SERIAL_NOT_POSITIVE = 1,
    CIMAROLY_RULE_SERIAL_TOO_LONG = 2,
    CIMAROLY_RULE_ALGORITHMS_DIFFER = 3,
    CIMAROLY_RULE_SALT_LENGTH_SPELLED = 4,
    CIMAROLY_RULE_ISSUER_EMPTY = 5,
    CIMAROLY_RULE_ISSUER_SET_EMPTY = 6,
    CIMAROLY_RULE_ISSUER_SET_ORDER = 7,
    CIMAROLY_RULE_ISSUER_TEXT_EMPTY = 8,
    CIMAROLY_RULE_ISSUER_TEXT_LONG = 9,
    CIMAROLY_RULE_ISSUER_COUNTRY = 10,
    CIMAROLY_RULE_ISSUER_STRING_TYPE = 11,
    CIMAROLY_RULE_VALIDITY_REVERSED = 12,
    CIMAROLY_RULE_NOT_BEFORE_FORM = 13,
    CIMAROLY_RULE_NOT_AFTER_FORM = 14,
    CIMAROLY_RULE_SUBJECT_EMPTY = 15,
    CIMAROLY_RULE_AUTHORITY_UNNAMED = 16,
    CIMAROLY_RULE_SUBJECT_SET_EMPTY = 17,
    CIMAROLY_RULE_SUBJECT_SET_ORDER = 18,
    CIMAROLY_RULE_SUBJECT_TEXT_EMPTY = 19,
    CIMAROLY_RULE_SUBJECT_TEXT_LONG = 20,
    CIMAROLY_RULE_SUBJECT_COUNTRY = 21,
    CIMAROLY_RULE_SUBJECT_STRING_TYPE = 22,
    CIMAROLY_RULE_SUBJECT_MAILBOX_UNNAMED = 23,
    CIMAROLY_RULE_MODULUS_NOT_POSITIVE = 24,
    CIMAROLY_RULE_MODULUS_EVEN = 25,
    CIMAROLY_RULE_MODULUS_SHORT = 26,
    CIMAROLY_RULE_EXPONENT_LOW = 27,
    CIMAROLY_RULE_EXPONENT_EVEN = 28,
    CIMAROLY_RULE_ISSUER_UNIQUE_ID = 29,
    CIMAROLY_RULE_SUBJECT_UNIQUE_ID = 30,
    CIMAROLY_RULE_EXTENSION_REPEATED = 31,
    CIMAROLY_RULE_CRITICAL_UNKNOWN = 32,
    CIMAROLY_RULE_AUTHORITY_KEY_CRITICAL = 33,
    CIMAROLY_RULE_AUTHORITY_KEY_MISSING = 34,
    CIMAROLY_RULE_AUTHORITY_KEY_PARTIAL = 35,
    CIMAROLY_RULE_SUBJECT_KEY_CRITICAL = 36,
    CIMAROLY_RULE_SUBJECT_KEY_MISSING = 37,
    CIMAROLY_RULE_KEY_USAGE_EMPTY = 38,
    CIMAROLY_RULE_KEY_USAGE_PADDED = 39,
    CIMAROLY_RULE_KEY_USAGE_NOT_CRITICAL = 40,
    CIMAROLY_RULE_SIGNING_WITHOUT_AUTHORITY = 41,
    CIMAROLY_RULE_AUTHORITY_WITHOUT_SIGNING = 42,
    CIMAROLY_RULE_POLICY_MAPPINGS_NOT_CRITICAL = 43,
    CIMAROLY_RULE_SUBJECT_NAMES_EMPTY = 44,
    CIMAROLY_RULE_SUBJECT_NAMES_CRITICAL = 45,
    CIMAROLY_RULE_ALTERNATIVE_NAME_EMPTY = 46,
    CIMAROLY_RULE_ADDRESS_LENGTH = 47,
    CIMAROLY_RULE_MAILBOX_WITHOUT_AT = 48,
    CIMAROLY_RULE_HOST_NAME = 49,
    CIMAROLY_RULE_URI_WITHOUT_SCHEME = 50,
    CIMAROLY_RULE_ISSUER_NAMES_EMPTY = 51,
    CIMAROLY_RULE_ISSUER_NAMES_CRITICAL = 52,
    CIMAROLY_RULE_DIRECTORY_ATTRIBUTES_CRITICAL = 53,
    CIMAROLY_RULE_AUTHORITY_NOT_CRITICAL = 54,
    CIMAROLY_RULE_PATH_LENGTH_IDLE = 55,
    CIMAROLY_RULE_PATH_LENGTH_WITHOUT_SIGNING = 56,
    CIMAROLY_RULE_AUTHORITY_DEFAULT_SPELLED = 57,
    CIMAROLY_RULE_NAME_CONSTRAINTS_NOT_CRITICAL = 58,
    CIMAROLY_RULE_NAME_CONSTRAINTS_WITHOUT_AUTHORITY = 59,
    CIMAROLY_RULE_POLICY_CONSTRAINTS_NOT_CRITICAL = 60,
    CIMAROLY_RULE_PURPOSES_EMPTY = 61,
    CIMAROLY_RULE_ANY_PURPOSE_CRITICAL = 62,
    CIMAROLY_RULE_REVOCATION_POINTS_CRITICAL = 63,
    CIMAROLY_RULE_ANY_POLICY_NOT_CRITICAL = 64,
    CIMAROLY_RULE_FRESHEST_LIST_CRITICAL = 65,
    CIMAROLY_RULE_AUTHORITY_ACCESS_CRITICAL = 66,
    CIMAROLY_RULE_SUBJECT_ACCESS_CRITICAL = 67
};

/* What cimaroly_pem_next answers. */
enum cimaroly_pem {
    CIMAROLY_PEM_BLOCK = 0,          /* a block */
    CIMAROLY_PEM_NO_MORE = 1,        /* no further line begins one */
    CIMAROLY_PEM_LABEL_MISMATCH = 2, /* a block whose END line has another label than its BEGIN line */
    CIMAROLY_PEM_NO_END = 3,         /* one without END line: another block begins, or the text ends, before */
    CIMAROLY_PEM_HAS_HEADERS = 4     /* one with headers (RFC 1421, 4.6), as keys have that a password encrypts */
};

/*
 * Memory that a call works in. `block` is aligned to 16, as what malloc returns. `size` is in bytes; those past the
 * last multiple of 16 aren't used. The call writes both fields, and restores them before it returns. A certificate needs
 * some 15 times its size and a few thousand bytes, a list of many small items up to 120 times its size, and
 * cimaroly_report up to three times as much.
 */
struct cimaroly_memory {
    void *block;
    size_t size;
};

/* Bytes of the input, from `start` up to `end`. Both are 0 for what the input doesn't have. */
struct cimaroly_span {
    size_t start;
    size_t end;
};

/* What a check finds. */
struct cimaroly_verdict {
    size_t counts[10]; /* how many deviations there are of each kind, from number 1 on */
    size_t headers;    /* how many headers of elements were decoded: at most half the input's size plus one */
    size_t error;      /* the cimaroly_error, or 0 */
    size_t at;         /* the byte at which the input is refused */
};

/* A deviation, and what it covers. */
struct cimaroly_place {
    size_t deviation; /* the cimaroly_deviation */
    size_t start;
    size_t end;
};

/* What the signature of a certificate or a request covers. */
struct cimaroly_signed {
    struct cimaroly_span part; /* the bytes over which the signature is verified */
    size_t inside[10];         /* how many deviations stand in them: if there are none, they are in DER */
    size_t outside[10];        /* how many stand outside of them */
};

/* Where the fields of a certificate stand, each with its tag and its length (RFC 5280, 4.1). */
struct cimaroly_certificate {
    struct cimaroly_span tbs_certificate;
    struct cimaroly_span version; /* or none */
    struct cimaroly_span serial_number;
    struct cimaroly_span signature;
    struct cimaroly_span issuer;
    struct cimaroly_span validity;
    struct cimaroly_span subject;
    struct cimaroly_span subject_public_key_info;
    struct cimaroly_span issuer_unique_id;  /* or none */
    struct cimaroly_span subject_unique_id; /* or none */
    struct cimaroly_span extensions;        /* or none */
    struct cimaroly_span signature_algorithm;
    struct cimaroly_span signature_value;
};

/* Where the fields of a request stand, each with its tag and its length (RFC 2986, 4). */
struct cimaroly_request {
    struct cimaroly_span certification_request_info;
    struct cimaroly_span version;
    struct cimaroly_span subject;
    struct cimaroly_span subject_public_key_info;
    struct cimaroly_span attributes;
    struct cimaroly_span signature_algorithm;
    struct cimaroly_span signature;
};

/* Where the fields of a private key stand, each with its tag and its length (RFC 5958, 2). */
struct cimaroly_private_key {
    struct cimaroly_span version;
    struct cimaroly_span private_key_algorithm;
    struct cimaroly_span private_key;
    struct cimaroly_span skipped;    /* an element that isn't understood, such as attributes [0], or none */
    struct cimaroly_span public_key; /* or none */
};

/* Where the fields of a revocation list stand, each with its tag and its length (RFC 5280, 5.1). */
struct cimaroly_crl {
    struct cimaroly_span tbs_cert_list;
    struct cimaroly_span version; /* or none */
    struct cimaroly_span signature;
    struct cimaroly_span issuer;
    struct cimaroly_span this_update;
    struct cimaroly_span next_update;          /* or none */
    struct cimaroly_span revoked_certificates; /* or none */
    struct cimaroly_span crl_extensions;       /* or none */
    struct cimaroly_span signature_algorithm;
    struct cimaroly_span signature_value;
};

/* Where an extension and its fields stand, each with its tag and its length (RFC 5280, 4.1). */
struct cimaroly_extension {
    struct cimaroly_span whole;
    struct cimaroly_span extn_id;
    struct cimaroly_span critical; /* or none, where it is left out */
    struct cimaroly_span extn_value;
};

/* A second in UTC, in the Gregorian calendar. */
struct cimaroly_time {
    int64_t unix_time; /* seconds since 1970-01-01 00:00:00, leap seconds not counted; below 0 before that */
    uint16_t year;     /* 0 to 9999 */
    uint8_t month;     /* 1 to 12 */
    uint8_t day;       /* 1 to 31 */
    uint8_t hour;      /* 0 to 23 */
    uint8_t minute;    /* 0 to 59 */
    uint8_t second;    /* 0 to 59 */
};

/* Where an attribute of a name stands (RFC 5280, 4.1.2.4), without tags and lengths. */
struct cimaroly_attribute {
    size_t set;                      /* the number of its set, a RelativeDistinguishedName, from 0 */
    struct cimaroly_span identifier; /* of its type: 55 04 03 is the common name's (X.520) */
    uint8_t tag;                     /* of its value: 0x0C UTF8String, 0x13 PrintableString, 0x1E BMPString .. */
    struct cimaroly_span value;      /* what stands in that */
};

/*
 * Where a general name stands (RFC 5280, 4.2.1.6). Its form is tag & 31: 0 otherName, 1 rfc822Name, 2 dNSName,
 * 4 directoryName, 5 ediPartyName, 6 uniformResourceIdentifier, 7 iPAddress, 8 registeredID. The tags 0x82 and 0x87 are
 * those of a dNSName and an iPAddress in DER; under 0xA1, 0xA2, 0xA6, 0xA7 and 0xA8, which are deviations, an element
 * stands in place of the content.
 */
struct cimaroly_general_name {
    uint8_t tag;
    struct cimaroly_span content; /* what stands under the tag */
};

/* Where an attribute of a request stands (RFC 2986, 4.1). */
struct cimaroly_request_attribute {
    struct cimaroly_span identifier; /* the content of its type, an OBJECT IDENTIFIER */
    uint8_t tag;                     /* 0x31, but of a type that isn't known perhaps another */
    struct cimaroly_span values;     /* the content of its SET: the values, one behind another */
};

/* Where the numbers of an RSA private key stand (RFC 8017, A.1.2): the contents of INTEGERs, in two's complement. */
struct cimaroly_rsa_numbers {
    struct cimaroly_span version;
    struct cimaroly_span modulus;
    struct cimaroly_span public_exponent;
    struct cimaroly_span private_exponent;
    struct cimaroly_span prime1;
    struct cimaroly_span prime2;
    struct cimaroly_span exponent1;
    struct cimaroly_span exponent2;
    struct cimaroly_span coefficient;
};

/* Where a service of an authority or a subject is found (RFC 5280, 4.2.2). */
struct cimaroly_access {
    struct cimaroly_span method;           /* the content of accessMethod, an OBJECT IDENTIFIER */
    struct cimaroly_general_name location; /* accessLocation */
};

/* Where revocation lists are found (RFC 5280, 4.2.1.13). What is absent is 0..0. */
struct cimaroly_point {
    struct cimaroly_span name;    /* the content of distributionPoint, as cimaroly_point_names takes it */
    struct cimaroly_span reasons; /* the content of reasons: the number of unused bits, and the bits */
    struct cimaroly_span issuer;  /* the content of cRLIssuer: general names, one behind another */
};

/* A rule that a certificate or request breaks. */
struct cimaroly_finding {
    uint32_t rule;           /* the enum cimaroly_rule */
    struct cimaroly_span at; /* where the field stands that the rule is about; of an absent one, what is signed */
};

/* What basic constraints say (RFC 5280, 4.2.1.9). */
struct cimaroly_constraints {
    bool is_ca;           /* false where cA is absent */
    bool has_path_length; /* whether pathLenConstraint is there */
    uint8_t path_length;  /* 0 where it isn't */
};

/* What a key may be used for (RFC 5280, 4.2.1.3). */
struct cimaroly_usage {
    bool digital_signature;
    bool content_commitment; /* nonRepudiation */
    bool key_encipherment;
    bool data_encipherment;
    bool key_agreement;
    bool key_cert_sign;
    bool crl_sign;
    bool encipher_only;
    bool decipher_only;
};

/* Where the parts of a public key stand (RFC 5280, 4.1.2.7), without tags and lengths. */
struct cimaroly_key {
    struct cimaroly_span algorithm; /* of its identifier: 2A 86 48 CE 3D 02 01 is that of elliptic curves */
    struct cimaroly_span curve;     /* of that of a named curve (RFC 5480, 2.1.1), or none */
    size_t bits; /* the size of the modulus of RSA, of a curve's field, or of Ed25519, Ed448, X25519 and X448; or 0 */
    struct cimaroly_span modulus;  /* of an RSA key: a number in two's complement, the highest byte first; or none */
    struct cimaroly_span exponent; /* the same of its exponent */
    struct cimaroly_span key;      /* of another key: a point, or the key itself; or none */
};

/* The hash functions of signatures. */
enum cimaroly_digest {
    CIMAROLY_DIGEST_NONE = 0, /* none is said: the algorithm has its own, as Ed25519, or isn't one of signatures */
    CIMAROLY_DIGEST_SHA1 = 1,
    CIMAROLY_DIGEST_SHA224 = 2,
    CIMAROLY_DIGEST_SHA256 = 3,
    CIMAROLY_DIGEST_SHA384 = 4,
    CIMAROLY_DIGEST_SHA512 = 5,
    CIMAROLY_DIGEST_SHA3_224 = 6,
    CIMAROLY_DIGEST_SHA3_256 = 7,
    CIMAROLY_DIGEST_SHA3_384 = 8,
    CIMAROLY_DIGEST_SHA3_512 = 9
};

/* The algorithm of a signature (RFC 5280, 4.1.1.2). */
struct cimaroly_signature {
    struct cimaroly_span algorithm; /* the content of its identifier: 2B 65 70 is that of Ed25519 */
    uint32_t digest;                /* the cimaroly_digest */
};

/* Where a block of a PEM text stands. */
struct cimaroly_pem_block {
    struct cimaroly_span label; /* what stands between `-----BEGIN ` and `-----` */
    struct cimaroly_span text;  /* the lines up to the END line, or up to what is wrong, for cimaroly_pem_decode */
    size_t room;                /* how many bytes a buffer must have room for, so that they are decoded to it */
    uint64_t first_line;        /* the number of the BEGIN line, from 1; CR, LF, or CR and LF end a line */
    uint64_t last_line;         /* that of the END line, or of the line where the fault was met */
    size_t next;                /* where the next block is looked for, further on than `at` was, */
    uint64_t next_line;         /* and how many lines stand before that */
};

/*
 * The version of the library that the program runs with, to compare with CIMAROLY_VERSION_NUMBER: 0x100 for 0.1.0.
 */
uint32_t cimaroly_version(void);

/*
 * Whether the input encodes a value of the kind, and how it deviates from the value's DER encoding.
 *
 * CIMAROLY_OK: it does; it is the DER encoding exactly if all ten counts are 0.
 * CIMAROLY_REFUSED: it doesn't; `error` and `at` say why and where, `headers` how many were decoded until then, and the
 * counts are 0.
 * CIMAROLY_UNKNOWN_KIND.
 */
uint32_t cimaroly_check(uint32_t kind, const uint8_t *der, size_t der_size, struct cimaroly_verdict *verdict);

/*
 * Writes the DER encoding of the value that the input encodes to the front of `out`, which has room for `out_size`
 * bytes. If the input has no deviations, these are its own bytes.
 *
 * CIMAROLY_OK, CIMAROLY_BUFFER_TOO_SHORT: *size is the encoding's.
 * CIMAROLY_REFUSED, CIMAROLY_OUT_OF_MEMORY, CIMAROLY_UNKNOWN_KIND, CIMAROLY_TOO_LONG.
 */
uint32_t cimaroly_encode(struct cimaroly_memory *memory, uint32_t kind, const uint8_t *der, size_t der_size,
                         uint8_t *out, size_t out_size, size_t *size);

/*
 * Writes where each deviation stands to the front of `places`, which has room for `room` of them: by start, and then by
 * deviation.
 *
 * CIMAROLY_OK, CIMAROLY_BUFFER_TOO_SHORT: *count is how many there are.
 * CIMAROLY_REFUSED, CIMAROLY_UNKNOWN_KIND.
 * CIMAROLY_OUT_OF_MEMORY: never if the input has no deviations.
 */
uint32_t cimaroly_places(struct cimaroly_memory *memory, uint32_t kind, const uint8_t *der, size_t der_size,
                         struct cimaroly_place *places, size_t room, size_t *count);

/*
 * What the signature of a certificate, a request or a revocation list covers.
 *
 * CIMAROLY_OK, CIMAROLY_REFUSED.
 * CIMAROLY_UNKNOWN_KIND: `kind` is none of CIMAROLY_CERTIFICATE, CIMAROLY_REQUEST, their outlines and CIMAROLY_CRL.
 */
uint32_t cimaroly_signed_part(uint32_t kind, const uint8_t *der, size_t der_size, struct cimaroly_signed *part);

/*
 * Where the fields of a certificate, a request or a private key stand.
 *
 * CIMAROLY_OK, CIMAROLY_REFUSED.
 */
uint32_t cimaroly_certificate_fields(const uint8_t *der, size_t der_size, struct cimaroly_certificate *fields);
uint32_t cimaroly_request_fields(const uint8_t *der, size_t der_size, struct cimaroly_request *fields);
uint32_t cimaroly_private_key_fields(const uint8_t *der, size_t der_size,
                                     struct cimaroly_private_key *fields);

/*
 * The same for outlines, whose algorithms, names and extensions may be of any kind (`skipped` is the attributes of a
 * private key), and for a revocation list of any algorithm.
 *
 * CIMAROLY_OK, CIMAROLY_REFUSED.
 */
uint32_t cimaroly_certificate_outline_fields(const uint8_t *der, size_t der_size, struct cimaroly_certificate *fields);
uint32_t cimaroly_request_outline_fields(const uint8_t *der, size_t der_size, struct cimaroly_request *fields);
uint32_t cimaroly_private_key_outline_fields(const uint8_t *der, size_t der_size,
                                             struct cimaroly_private_key *fields);
uint32_t cimaroly_crl_fields(const uint8_t *der, size_t der_size, struct cimaroly_crl *fields);

/*
 * Between which times a certificate is valid, both included (RFC 5280, 4.1.2.5). It takes no memory.
 *
 * CIMAROLY_OK, CIMAROLY_REFUSED.
 */
uint32_t cimaroly_validity(const uint8_t *der, size_t der_size, struct cimaroly_time *not_before,
                           struct cimaroly_time *not_after);

/*
 * Writes where the attributes of a certificate's subject (RFC 5280, 4.1.2.6) or issuer (4.1.2.4) stand to the front of
 * `attributes`, which has room for `room` of them, in order. They take no memory.
 *
 * CIMAROLY_OK: *count is how many there are.
 * CIMAROLY_BUFFER_TOO_SHORT: so too, and as many are written as there is room for.
 * CIMAROLY_REFUSED.
 */
uint32_t cimaroly_subject_attributes(const uint8_t *der, size_t der_size, struct cimaroly_attribute *attributes,
                                     size_t room, size_t *count);
uint32_t cimaroly_issuer_attributes(const uint8_t *der, size_t der_size, struct cimaroly_attribute *attributes,
                                    size_t room, size_t *count);

/*
 * Where the content of a certificate's serial number stands (RFC 5280, 4.1.2.2): a number in two's complement, the
 * highest byte first. It takes no memory.
 *
 * CIMAROLY_OK, CIMAROLY_REFUSED.
 */
uint32_t cimaroly_serial_number(const uint8_t *der, size_t der_size, struct cimaroly_span *serial_number);

/*
 * Where the value stands of a certificate's first extension with an identifier (RFC 5280, 4.2): what its OCTET STRING
 * holds. The identifier is given by the content of its OBJECT IDENTIFIER: 55 1D 11 is that of subjectAltName. It takes
 * no memory.
 *
 * CIMAROLY_OK: *value is 0..0 where no extension has the identifier.
 * CIMAROLY_REFUSED: the input encodes no certificate.
 */
uint32_t cimaroly_find_extension(const uint8_t *der, size_t der_size, const uint8_t *identifier, size_t identifier_size,
                                 struct cimaroly_span *value);

/*
 * Writes where the general names of a list stand (RFC 5280, 4.2.1.6), such as that in the value of subjectAltName, to
 * the front of `names`, which has room for `room` of them, in order. Places count from the list's first byte. It takes
 * no memory.
 *
 * CIMAROLY_OK: *count is how many there are.
 * CIMAROLY_BUFFER_TOO_SHORT: so too, and as many are written as there is room for.
 * CIMAROLY_REFUSED: the input encodes no such list.
 */
uint32_t cimaroly_general_names(const uint8_t *list, size_t list_size, struct cimaroly_general_name *names, size_t room,
                                size_t *count);

/*
 * What basic constraints say (RFC 5280, 4.2.1.9), whose value is that of the extension 55 1D 13. It takes no memory.
 *
 * CIMAROLY_OK.
 * CIMAROLY_REFUSED: the input encodes no basic constraints; a path length above 255 is refused too.
 */
uint32_t cimaroly_basic_constraints(const uint8_t *value, size_t value_size,
                                    struct cimaroly_constraints *constraints);

/*
 * What a key usage says (RFC 5280, 4.2.1.3), whose value is that of the extension 55 1D 0F. It takes no memory.
 *
 * CIMAROLY_OK.
 * CIMAROLY_REFUSED: the input encodes no key usage.
 */
uint32_t cimaroly_key_usage(const uint8_t *value, size_t value_size, struct cimaroly_usage *usage);

/*
 * Writes where the purposes of an extended key usage stand (RFC 5280, 4.2.1.12), whose value is that of the extension
 * 55 1D 25, to the front of `purposes`, which has room for `room` of them, in order: the contents of their identifiers,
 * as cimaroly_oid_text and cimaroly_oid_name take them. It takes no memory.
 *
 * CIMAROLY_OK: *count is how many there are.
 * CIMAROLY_BUFFER_TOO_SHORT: so too, and as many are written as there is room for.
 * CIMAROLY_REFUSED: the input encodes no such list.
 */
uint32_t cimaroly_purposes(const uint8_t *value, size_t value_size, struct cimaroly_span *purposes, size_t room,
                           size_t *count);

/*
 * Whether a certificate is for a host, which is a DNS name in ASCII, or an address of version 4 or 6, the latter with or
 * without brackets (RFC 9525, 6). It is where one of the names of its first subjectAltName is the host's: a dNSName, in
 * any case of letters and with `*` for the whole left-most label, or an iPAddress of the same bytes. The common name is
 * never looked at, nor are names in a form that deviates from DER. It takes no memory, and is no check of a signature or
 * of a chain.
 *
 * CIMAROLY_OK: *matches is false too where `host` is neither a DNS name nor an address.
 * CIMAROLY_REFUSED: the input encodes no certificate, and *matches is false.
 */
uint32_t cimaroly_host_matches(const uint8_t *der, size_t der_size, const uint8_t *host, size_t host_size,
                               bool *matches);

/*
 * Where the parts of the public key of a certificate, of a request, or of a public key by itself stand. It takes no
 * memory.
 *
 * CIMAROLY_OK, CIMAROLY_REFUSED.
 * CIMAROLY_UNKNOWN_KIND: `kind` is none of CIMAROLY_CERTIFICATE, CIMAROLY_REQUEST and CIMAROLY_PUBLIC_KEY.
 */
uint32_t cimaroly_public_key(uint32_t kind, const uint8_t *der, size_t der_size, struct cimaroly_key *key);

/*
 * With which algorithm a certificate or a request is signed, or which one an AlgorithmIdentifier by itself says. The
 * digest of RSASSA-PSS is that of its parameters. It takes no memory.
 *
 * CIMAROLY_OK, CIMAROLY_REFUSED.
 * CIMAROLY_UNKNOWN_KIND: `kind` is none of CIMAROLY_CERTIFICATE, CIMAROLY_REQUEST and CIMAROLY_ALGORITHM.
 */
uint32_t cimaroly_signed_with(uint32_t kind, const uint8_t *der, size_t der_size,
                              struct cimaroly_signature *signature);

/*
 * As cimaroly_subject_attributes, of the subject of a request (RFC 2986, 4.1).
 */
uint32_t cimaroly_request_subject_attributes(const uint8_t *der, size_t der_size,
                                             struct cimaroly_attribute *attributes, size_t room, size_t *count);

/*
 * Writes where the attributes of a request stand (RFC 2986, 4.1), to the front of `attributes`, which has room for `room`
 * of them, in order. Under 2A 86 48 86 F7 0D 01 09 0E stand the extensions that are asked for (RFC 2985, 5.4.2): the
 * value is what cimaroly_extensions takes as CIMAROLY_EXTENSIONS. It takes no memory.
 *
 * CIMAROLY_OK: *count is how many there are.
 * CIMAROLY_BUFFER_TOO_SHORT: so too, and as many are written as there is room for.
 * CIMAROLY_REFUSED: the input encodes no request.
 */
uint32_t cimaroly_request_attributes(const uint8_t *der, size_t der_size,
                                     struct cimaroly_request_attribute *attributes, size_t room, size_t *count);

/*
 * Where the numbers of an RSA private key by itself stand (RFC 8017, A.1.2), which is also the content of `privateKey` in
 * a private key with its algorithm. It takes no memory, and copies no number.
 *
 * CIMAROLY_OK.
 * CIMAROLY_REFUSED: the input encodes no such key, and all spans are 0..0.
 */
uint32_t cimaroly_rsa_private_key(const uint8_t *der, size_t der_size, struct cimaroly_rsa_numbers *numbers);

/*
 * Where the octets stand that identify a certificate's key (RFC 5280, 4.2.1.2), in the value of the extension 55 1D 0E;
 * or those that identify its issuer's (4.2.1.1), in that of 55 1D 23. They take no memory.
 *
 * CIMAROLY_OK: *identifier is 0..0 where an authority key identifier has none.
 * CIMAROLY_REFUSED: the input encodes no such value.
 */
uint32_t cimaroly_subject_key_identifier(const uint8_t *value, size_t value_size, struct cimaroly_span *identifier);
uint32_t cimaroly_authority_key_identifier(const uint8_t *value, size_t value_size, struct cimaroly_span *identifier);

/*
 * Checks the value of an extension that cimaroly_check passes over, as of authorityInfoAccess, cRLDistributionPoints or
 * certificatePolicies: whether it encodes what the extension's identifier says, and how it deviates from the DER encoding
 * of that. The identifier is given by the content of its OBJECT IDENTIFIER. It takes no memory. Of the list of
 * certificate timestamps (RFC 6962, 3.3) the OCTET STRING is checked, and not what TLS has in it.
 *
 * CIMAROLY_OK, CIMAROLY_REFUSED: as of cimaroly_check.
 * CIMAROLY_UNKNOWN_KIND: no such extension has the identifier.
 */
uint32_t cimaroly_check_extension(const uint8_t *identifier, size_t identifier_size, const uint8_t *value,
                                  size_t value_size, struct cimaroly_verdict *verdict);

/*
 * Writes where the access descriptions stand of authorityInfoAccess or subjectInfoAccess (RFC 5280, 4.2.2), whose values
 * are those of the extensions 2B 06 01 05 05 07 01 01 and 2B 06 01 05 05 07 01 0B, to the front of `accesses`, which has
 * room for `room` of them, in order. An OCSP responder's address is the location of the method
 * 2B 06 01 05 05 07 30 01, and that of the issuer's certificate of 2B 06 01 05 05 07 30 02. It takes no memory.
 *
 * CIMAROLY_OK: *count is how many there are.
 * CIMAROLY_BUFFER_TOO_SHORT: so too, and as many are written as there is room for.
 * CIMAROLY_REFUSED: the input encodes no such list.
 */
uint32_t cimaroly_access_descriptions(const uint8_t *value, size_t value_size, struct cimaroly_access *accesses,
                                      size_t room, size_t *count);

/*
 * Writes where the identifiers stand of the policies under which a certificate is issued (RFC 5280, 4.2.1.4), whose
 * value is that of the extension 55 1D 20, to the front of `policies`, which has room for `room` of them, in order: their
 * contents, as cimaroly_oid_text and cimaroly_oid_name take them. It takes no memory.
 *
 * CIMAROLY_OK, CIMAROLY_BUFFER_TOO_SHORT, CIMAROLY_REFUSED: as of cimaroly_access_descriptions.
 */
uint32_t cimaroly_policies(const uint8_t *value, size_t value_size, struct cimaroly_span *policies, size_t room,
                           size_t *count);

/*
 * Writes where the distribution points stand of cRLDistributionPoints or freshestCRL (RFC 5280, 4.2.1.13 and 4.2.1.15),
 * whose values are those of the extensions 55 1D 1F and 55 1D 2E, to the front of `points`, which has room for `room` of
 * them, in order. It takes no memory.
 *
 * CIMAROLY_OK, CIMAROLY_BUFFER_TOO_SHORT, CIMAROLY_REFUSED: as of cimaroly_access_descriptions.
 */
uint32_t cimaroly_distribution_points(const uint8_t *value, size_t value_size, struct cimaroly_point *points,
                                      size_t room, size_t *count);

/*
 * Writes where the general names of a distribution point's name stand, to the front of `names`, which has room for `room`
 * of them, in order. A name that is relative to the list's issuer has none. Places count from the name's first byte. It
 * takes no memory.
 *
 * CIMAROLY_OK, CIMAROLY_BUFFER_TOO_SHORT, CIMAROLY_REFUSED: as of cimaroly_general_names.
 */
uint32_t cimaroly_point_names(const uint8_t *name, size_t name_size, struct cimaroly_general_name *names, size_t room,
                              size_t *count);

/*
 * Writes where each extension stands, in the order of the input, to the front of `extensions`, which has room for
 * `room` of them.
 *
 * CIMAROLY_OK, CIMAROLY_BUFFER_TOO_SHORT: *count is how many there are.
 * CIMAROLY_REFUSED.
 * CIMAROLY_UNKNOWN_KIND: `kind` is neither CIMAROLY_CERTIFICATE nor CIMAROLY_EXTENSIONS.
 */
uint32_t cimaroly_extensions(uint32_t kind, const uint8_t *der, size_t der_size, struct cimaroly_extension *extensions,
                             size_t room, size_t *count);

/*
 * Writes which rules of RFC 5280, X.690 and RFC 8017 a certificate breaks to the front of `findings`, which has room for
 * `room` of them, in the order of the rules: each that it breaks, once, and no other. No signature is checked, and no
 * clock is read.
 *
 * CIMAROLY_OK, CIMAROLY_BUFFER_TOO_SHORT: *count is how many there are.
 * CIMAROLY_REFUSED, CIMAROLY_OUT_OF_MEMORY.
 */
uint32_t cimaroly_findings(struct cimaroly_memory *memory, const uint8_t *der, size_t der_size,
                           struct cimaroly_finding *findings, size_t room, size_t *count);

/*
 * The same of a request: the rules about its subject, its key, the algorithm of its signature, and the extensions that it
 * asks for, which stand in its attributes. What isn't there breaks no rule, since an authority adds it.
 *
 * CIMAROLY_OK, CIMAROLY_BUFFER_TOO_SHORT: *count is how many there are.
 * CIMAROLY_REFUSED, CIMAROLY_OUT_OF_MEMORY.
 */
uint32_t cimaroly_request_findings(struct cimaroly_memory *memory, const uint8_t *der, size_t der_size,
                                   struct cimaroly_finding *findings, size_t room, size_t *count);

/*
 * Writes what stands in the input to the front of `out`, which has room for `out_size` bytes: one JSON object in UTF-8,
 * without a line feed or a zero behind it. docs/JSON.md describes its members; `file`, `line` and `label` are left out,
 * and so are the secret numbers of private keys unless `secrets` is true.
 *
 * CIMAROLY_OK, CIMAROLY_BUFFER_TOO_SHORT: *size is the object's. If the input is refused, the object says why and
 * where.
 * CIMAROLY_OUT_OF_MEMORY, CIMAROLY_UNKNOWN_KIND.
 */
uint32_t cimaroly_report(struct cimaroly_memory *memory, uint32_t kind, const uint8_t *der, size_t der_size,
                         bool secrets, uint8_t *out, size_t out_size, size_t *size);

/*
 * Where the next block of a PEM text stands (RFC 7468), from byte `at` on, before which stand `line` lines: begin with
 * 0 and 0, and go on with block->next and block->next_line. A boundary stands alone in its line but for white space,
 * and a byte order mark before it; text around blocks is passed over. Neither this call nor the next takes memory.
 *
 * An enum cimaroly_pem; with CIMAROLY_PEM_NO_MORE *block is all zeros. A block that has a fault is told as far as it
 * goes, and the text behind it can be read on.
 */
uint32_t cimaroly_pem_next(const uint8_t *text, size_t text_size, size_t at, uint64_t line,
                           struct cimaroly_pem_block *block);

/*
 * Decodes base64 text (RFC 4648, 4), white space among its symbols, to the front of `out`, which has room for
 * `out_size` bytes: the text of a block, or bare base64.
 *
 * CIMAROLY_OK: *size is how many bytes it stands for; the others of the buffer are as they were.
 * CIMAROLY_BUFFER_TOO_SHORT: *size bytes of room are needed, three for four symbols.
 * CIMAROLY_REFUSED: it is the encoding of no bytes: another symbol, padding that is missing or in the middle, or bits
 * set behind the last byte. The buffer may hold bytes of the text before.
 */
uint32_t cimaroly_pem_decode(const uint8_t *text, size_t text_size, uint8_t *out, size_t out_size, size_t *size);

/*
 * Makes the structure that a description says, to the front of `out`, which has room for `out_size` bytes. The
 * description is JSON in UTF-8 (docs/MAKE.md); most are of the part of a request or certificate that is to be signed.
 * What is made is the DER encoding of a value of the type that the description names, with no deviation.
 *
 * CIMAROLY_OK, CIMAROLY_BUFFER_TOO_SHORT: *size is the encoding's.
 * CIMAROLY_REFUSED: nothing is made; cimaroly_why_not_made says why.
 * CIMAROLY_OUT_OF_MEMORY.
 */
uint32_t cimaroly_make(struct cimaroly_memory *memory, const uint8_t *text, size_t text_size, uint8_t *out,
                       size_t out_size, size_t *size);

/*
 * Writes why nothing is made of a description to the front of `out`: a line in UTF-8 without a line feed or a zero
 * behind it, which says where in the description and why, and shows at most 40 characters of what stands there, nothing
 * of a private key.
 *
 * CIMAROLY_OK, CIMAROLY_BUFFER_TOO_SHORT: *size is the line's.
 * CIMAROLY_REFUSED: something is made.
 * CIMAROLY_OUT_OF_MEMORY.
 */
uint32_t cimaroly_why_not_made(struct cimaroly_memory *memory, const uint8_t *text, size_t text_size, uint8_t *out,
                               size_t out_size, size_t *size);

/*
 * Puts a certificate or a request together, to the front of `out`: of `part`, the TBSCertificate or
 * CertificationRequestInfo that was signed, which stands in the result byte for byte, of the AlgorithmIdentifier of the
 * signature, and of the signature's bytes. Whether the signature is right isn't looked at.
 *
 * CIMAROLY_OK, CIMAROLY_BUFFER_TOO_SHORT: *size is the structure's.
 * CIMAROLY_REFUSED: `part` or `algorithm` isn't read, the latter isn't in DER, or the signature of ECDSA isn't a
 * SEQUENCE of two INTEGERs (RFC 3279, 2.2.3).
 * CIMAROLY_OUT_OF_MEMORY, CIMAROLY_TOO_LONG.
 * CIMAROLY_UNKNOWN_KIND: `kind` is neither CIMAROLY_CERTIFICATE nor CIMAROLY_REQUEST.
 */
uint32_t cimaroly_assemble(struct cimaroly_memory *memory, uint32_t kind, const uint8_t *part, size_t part_size,
                           const uint8_t *algorithm, size_t algorithm_size, const uint8_t *signature,
                           size_t signature_size, uint8_t *out, size_t out_size, size_t *size);

/*
 * Writes the AlgorithmIdentifier of a signature algorithm to the front of `out`, by its name or in dotted form: as
 * ecdsa-with-SHA256, sha256WithRSAEncryption or Ed25519, with the parameters that it has.
 *
 * CIMAROLY_OK, CIMAROLY_BUFFER_TOO_SHORT: *size is the encoding's.
 * CIMAROLY_REFUSED: no signature algorithm has this name, or its parameters don't follow from it, as of RSASSA-PSS.
 * CIMAROLY_OUT_OF_MEMORY.
 */
uint32_t cimaroly_signature_algorithm(struct cimaroly_memory *memory, const uint8_t *name, size_t name_size,
                                      uint8_t *out, size_t out_size, size_t *size);

/*
 * Writes a signature of ECDSA in DER to the front of `out` (RFC 3279, 2.2.3), of r and s as two numbers of equal
 * length, one behind the other, as PKCS #11 and the Web Cryptography API give them.
 *
 * CIMAROLY_OK, CIMAROLY_BUFFER_TOO_SHORT: *size is the signature's.
 * CIMAROLY_REFUSED: there are no bytes, or an odd number of them.
 * CIMAROLY_OUT_OF_MEMORY, CIMAROLY_TOO_LONG.
 */
uint32_t cimaroly_ecdsa_signature(struct cimaroly_memory *memory, const uint8_t *raw, size_t raw_size, uint8_t *out,
                                  size_t out_size, size_t *size);

/*
 * Writes bytes as PEM to the front of `out` (RFC 7468), with a label such as CERTIFICATE, which is written as it is:
 * lines of 64 symbols, each with a line feed, without a zero behind them.
 *
 * CIMAROLY_OK, CIMAROLY_BUFFER_TOO_SHORT: *size is the text's.
 * CIMAROLY_REFUSED: the label isn't UTF-8.
 * CIMAROLY_OUT_OF_MEMORY.
 */
uint32_t cimaroly_pem_encode(struct cimaroly_memory *memory, const uint8_t *label, size_t label_size,
                             const uint8_t *der, size_t der_size, uint8_t *out, size_t out_size, size_t *size);

/*
 * Writes the text of an object identifier to the front of `out`, which has room for `out_size` bytes: its arcs in
 * decimal, joined by points, as in 2.5.4.3, without a zero behind it. The identifier is given by the content of its
 * OBJECT IDENTIFIER. It takes no memory.
 *
 * CIMAROLY_OK, CIMAROLY_BUFFER_TOO_SHORT: *size is the text's.
 * CIMAROLY_REFUSED: the bytes are the content of no object identifier with arcs of at most 64 bits.
 * CIMAROLY_TOO_LONG.
 */
uint32_t cimaroly_oid_text(const uint8_t *identifier, size_t identifier_size, uint8_t *out, size_t out_size,
                           size_t *size);

/*
 * The same for its name, as the standards spell it: commonName for 2.5.4.3. Of what has no name here, *size is 0.
 *
 * CIMAROLY_OK, CIMAROLY_BUFFER_TOO_SHORT.
 */
uint32_t cimaroly_oid_name(const uint8_t *identifier, size_t identifier_size, uint8_t *out, size_t out_size,
                           size_t *size);

/*
 * Writes the text of a name by RFC 4514 to the front of `out`: CN=example.org,O=Example,C=DE for the subject of a
 * certificate, whose place cimaroly_certificate_fields tells. The last set of attributes comes first, as the RFC asks.
 * Types without a short name there are written as dotted identifiers, and their values, and those that aren't strings,
 * in hexadecimal. What can't be seen, or changes the direction of text, is escaped. It takes no memory.
 *
 * CIMAROLY_OK, CIMAROLY_BUFFER_TOO_SHORT: *size is the text's.
 * CIMAROLY_REFUSED: the input encodes no name.
 */
uint32_t cimaroly_name_text(const uint8_t *name, size_t name_size, uint8_t *out, size_t out_size, size_t *size);

/* The name of an error, in plain words; "" if no error has the number. */
static inline const char *cimaroly_error_name(size_t error)
{
    static const char *const names[] = {
        "",
        "out of memory",
        "truncated element",
        "bytes left over",
        "wrong tag",
        "malformed length",
        "malformed number",
        "malformed boolean",
        "malformed bit string",
        "malformed object identifier",
        "character not allowed",
        "malformed time",
        "unknown version",
        "unsupported algorithm or choice",
        "unique identifier without version 2",
        "extensions without version 3",
    };
    return names[error < sizeof names / sizeof *names ? error : 0];
}

/* The name of a deviation, in plain words; "" if none has the number. */
static inline const char *cimaroly_deviation_name(size_t deviation)
{
    static const char *const names[] = {
        "",
        "RSA parameters absent",
        "algorithm parameters absent",
        "hash parameters absent",
        "salt length too large",
        "default version encoded",
        "empty extensions encoded",
        "default criticality encoded",
        "authority key fields repeated or out of order",
        "general name under the other kind of tag",
        "element skipped behind a private key",
    };
    return names[deviation < sizeof names / sizeof *names ? deviation : 0];
}

/* The name of a rule, as docs/FINDINGS.md has it; "" if no rule has the number. */
static inline const char *cimaroly_rule_name(size_t rule)
{
    static const char *const names[] = {
        "",
        "serial-not-positive",
        "serial-too-long",
        "algorithms-differ",
        "salt-length-spelled",
        "issuer-empty",
        "issuer-set-empty",
        "issuer-set-order",
        "issuer-text-empty",
        "issuer-text-long",
        "issuer-country",
        "issuer-string-type",
        "validity-reversed",
        "not-before-form",
        "not-after-form",
        "subject-empty",
        "authority-unnamed",
        "subject-set-empty",
        "subject-set-order",
        "subject-text-empty",
        "subject-text-long",
        "subject-country",
        "subject-string-type",
        "subject-mailbox-unnamed",
        "modulus-not-positive",
        "modulus-even",
        "modulus-short",
        "exponent-low",
        "exponent-even",
        "issuer-unique-id",
        "subject-unique-id",
        "extension-repeated",
        "critical-unknown",
        "authority-key-critical",
        "authority-key-missing",
        "authority-key-partial",
        "subject-key-critical",
        "subject-key-missing",
        "key-usage-empty",
        "key-usage-padded",
        "key-usage-not-critical",
        "signing-without-authority",
        "authority-without-signing",
        "policy-mappings-not-critical",
        "subject-names-empty",
        "subject-names-critical",
        "alternative-name-empty",
        "address-length",
        "mailbox-without-at",
        "host-name",
        "uri-without-scheme",
        "issuer-names-empty",
        "issuer-names-critical",
        "directory-attributes-critical",
        "authority-not-critical",
        "path-length-idle",
        "path-length-without-signing",
        "authority-default-spelled",
        "name-constraints-not-critical",
        "name-constraints-without-authority",
        "policy-constraints-not-critical",
        "purposes-empty",
        "any-purpose-critical",
        "revocation-points-critical",
        "any-policy-not-critical",
        "freshest-list-critical",
        "authority-access-critical",
        "subject-access-critical",
    };
    return names[rule < sizeof names / sizeof *names ? rule : 0];
}

/* What is wrong where a rule is broken, in plain words; "" if no rule has the number. */
static inline const char *cimaroly_rule_text(size_t rule)
{
    static const char *const texts[] = {
        "",
        "serial number isn't positive",
        "serial number has more than 20 octets",
        "the algorithm in the signed part isn't the one beside the signature",
        "a salt length of 20 is encoded, though it is the default",
        "issuer is empty",
        "issuer has a set without attributes",
        "issuer has a set whose attributes aren't in order",
        "issuer has a text without characters",
        "issuer has a text that is longer than its attribute may be",
        "countryName in issuer isn't a PrintableString of two letters",
        "issuer has a string type that isn't for new names",
        "notAfter is before notBefore",
        "notBefore is a GeneralizedTime before 2050",
        "notAfter is a GeneralizedTime before 2050",
        "subject is empty, and no critical subjectAltName names it",
        "subject of an authority is empty",
        "subject has a set without attributes",
        "subject has a set whose attributes aren't in order",
        "subject has a text without characters",
        "subject has a text that is longer than its attribute may be",
        "countryName in subject isn't a PrintableString of two letters",
        "subject has a string type that isn't for new names",
        "subject has an emailAddress, but no rfc822Name is among the alternative names",
        "RSA modulus isn't positive",
        "RSA modulus is even",
        "RSA modulus has fewer than 2048 bits",
        "RSA exponent is below 3",
        "RSA exponent is even",
        "issuer has a unique identifier",
        "subject has a unique identifier",
        "an extension stands twice",
        "an extension is critical that RFC 5280 doesn't define",
        "authority key identifier is critical",
        "no authority key identifier has a keyIdentifier, though issuer and subject differ",
        "authority key identifier has one of authorityCertIssuer and authorityCertSerialNumber without the other",
        "subject key identifier is critical",
        "authority has no subject key identifier",
        "key usage allows nothing",
        "key usage has trailing zero bits",
        "key usage isn't critical",
        "key may sign certificates, but the subject isn't an authority",
        "subject is an authority, but no key usage lets the key sign certificates",
        "policy mappings aren't critical",
        "subjectAltName has no names",
        "subjectAltName is critical, though the subject isn't empty",
        "an alternative name is empty",
        "an iPAddress has neither four nor sixteen octets",
        "an rfc822Name has no @",
        "a dNSName isn't the name of a host",
        "a uniformResourceIdentifier has no scheme",
        "issuerAltName has no names",
        "issuerAltName is critical",
        "subjectDirectoryAttributes is critical",
        "basic constraints of an authority that may sign certificates aren't critical",
        "path length is limited, but the subject isn't an authority",
        "path length is limited, but no key usage lets the key sign certificates",
        "cA FALSE is encoded, though it is the default",
        "name constraints aren't critical",
        "name constraints are there, but the subject isn't an authority",
        "policy constraints aren't critical",
        "extKeyUsage has no purposes",
        "extKeyUsage has anyExtendedKeyUsage, and is critical",
        "cRLDistributionPoints is critical",
        "inhibitAnyPolicy isn't critical",
        "freshestCRL is critical",
        "authorityInfoAccess is critical",
        "subjectInfoAccess is critical",
    };
    return texts[rule < sizeof texts / sizeof *texts ? rule : 0];
}

/* The clause that a rule is from, as in RFC 5280, 4.1.2.2; "" if no rule has the number. */
static inline const char *cimaroly_rule_clause(size_t rule)
{
    static const char *const clauses[] = {
        "",
        "RFC 5280, 4.1.2.2",
        "RFC 5280, 4.1.2.2",
        "RFC 5280, 4.1.1.2",
        "X.690, 11.5",
        "RFC 5280, 4.1.2.4",
        "RFC 5280, 4.1.2.4",
        "X.690, 11.6",
        "RFC 5280, A.1",
        "RFC 5280, A.1",
        "RFC 5280, A.1",
        "RFC 5280, 4.1.2.4",
        "RFC 5280, 4.1.2.5",
        "RFC 5280, 4.1.2.5",
        "RFC 5280, 4.1.2.5",
        "RFC 5280, 4.1.2.6",
        "RFC 5280, 4.1.2.6",
        "RFC 5280, 4.1.2.4",
        "X.690, 11.6",
        "RFC 5280, A.1",
        "RFC 5280, A.1",
        "RFC 5280, A.1",
        "RFC 5280, 4.1.2.4",
        "RFC 5280, 4.1.2.6",
        "RFC 8017, 3.1",
        "RFC 8017, 3.1",
        "NIST SP 800-131A, 3",
        "RFC 8017, 3.1",
        "RFC 8017, 3.1",
        "RFC 5280, 4.1.2.8",
        "RFC 5280, 4.1.2.8",
        "RFC 5280, 4.2",
        "RFC 5280, 4.2",
        "RFC 5280, 4.2.1.1",
        "RFC 5280, 4.2.1.1",
        "RFC 5280, A.2",
        "RFC 5280, 4.2.1.2",
        "RFC 5280, 4.2.1.2",
        "RFC 5280, 4.2.1.3",
        "X.690, 11.2.2",
        "RFC 5280, 4.2.1.3",
        "RFC 5280, 4.2.1.9",
        "RFC 5280, 4.2.1.3",
        "RFC 5280, 4.2.1.5",
        "RFC 5280, 4.2.1.6",
        "RFC 5280, 4.2.1.6",
        "RFC 5280, 4.2.1.6",
        "RFC 5280, 4.2.1.6",
        "RFC 5280, 4.2.1.6",
        "RFC 5280, 4.2.1.6",
        "RFC 5280, 4.2.1.6",
        "RFC 5280, 4.2.1.7",
        "RFC 5280, 4.2.1.7",
        "RFC 5280, 4.2.1.8",
        "RFC 5280, 4.2.1.9",
        "RFC 5280, 4.2.1.9",
        "RFC 5280, 4.2.1.9",
        "X.690, 11.5",
        "RFC 5280, 4.2.1.10",
        "RFC 5280, 4.2.1.10",
        "RFC 5280, 4.2.1.11",
        "RFC 5280, 4.2.1.12",
        "RFC 5280, 4.2.1.12",
        "RFC 5280, 4.2.1.13",
        "RFC 5280, 4.2.1.14",
        "RFC 5280, 4.2.1.15",
        "RFC 5280, 4.2.2.1",
        "RFC 5280, 4.2.2.2",
    };
    return clauses[rule < sizeof clauses / sizeof *clauses ? rule : 0];
}

/* Whether what a rule finds is allowed, and mostly a mistake; else the clause forbids it. */
static inline bool cimaroly_rule_is_warning(size_t rule)
{
    static const uint32_t warnings[] = {
        CIMAROLY_RULE_ISSUER_STRING_TYPE,
        CIMAROLY_RULE_SUBJECT_STRING_TYPE,
        CIMAROLY_RULE_MODULUS_SHORT,
        CIMAROLY_RULE_CRITICAL_UNKNOWN,
        CIMAROLY_RULE_KEY_USAGE_NOT_CRITICAL,
        CIMAROLY_RULE_AUTHORITY_WITHOUT_SIGNING,
        CIMAROLY_RULE_POLICY_MAPPINGS_NOT_CRITICAL,
        CIMAROLY_RULE_SUBJECT_NAMES_CRITICAL,
        CIMAROLY_RULE_ISSUER_NAMES_CRITICAL,
        CIMAROLY_RULE_ANY_PURPOSE_CRITICAL,
        CIMAROLY_RULE_REVOCATION_POINTS_CRITICAL,
    };
    for (size_t i = 0; i < sizeof warnings / sizeof *warnings; i++)
        if (warnings[i] == rule)
            return true;
    return false;
}

#if __STDC_HOSTED__
/*
 * Frees what `memory` has, and takes more from malloc, for a call on `der_size` bytes. False if malloc fails, and then
 * `memory` has none. Begin with { NULL, 0 }, and end with free(memory->block).
 */
static inline bool cimaroly_more_memory(struct cimaroly_memory *memory, size_t der_size)
{
    size_t size = 0;
    if (memory->size > 0)
        size = memory->size <= SIZE_MAX / 8 ? 4 * memory->size : 0;
    else if (der_size <= SIZE_MAX / 64)
        size = 16 * der_size + 16384;
    free(memory->block);
    memory->block = size > 0 ? malloc(size) : NULL;
    memory->size = memory->block != NULL ? size : 0;
    return memory->block != NULL;
}

/*
 * The calls over memory from malloc, which is asked only if the call needs some. CIMAROLY_OUT_OF_MEMORY: malloc failed,
 * and the results are as they were or all zeros.
 */
#define CIMAROLY_OVER_MALLOC(der_size, call)                                                                         \
    struct cimaroly_memory lent = {NULL, 0};                                                                         \
    struct cimaroly_memory *memory = &lent;                                                                          \
    uint32_t status = CIMAROLY_OUT_OF_MEMORY;                                                                        \
    while (status == CIMAROLY_OUT_OF_MEMORY && cimaroly_more_memory(memory, der_size))                               \
        status = call;                                                                                               \
    free(lent.block);                                                                                                \
    return status

/* The same for a call that may need none. */
#define CIMAROLY_WHERE_NEEDED(der_size, call)                                                                        \
    struct cimaroly_memory lent = {NULL, 0};                                                                         \
    struct cimaroly_memory *memory = &lent;                                                                          \
    uint32_t status = call;                                                                                          \
    while (status == CIMAROLY_OUT_OF_MEMORY && cimaroly_more_memory(memory, der_size))                               \
        status = call;                                                                                               \
    free(lent.block);                                                                                                \
    return status

static inline uint32_t cimaroly_encode_malloc(uint32_t kind, const uint8_t *der, size_t der_size, uint8_t *out,
                                              size_t out_size, size_t *size)
{
    CIMAROLY_OVER_MALLOC(der_size, cimaroly_encode(memory, kind, der, der_size, out, out_size, size));
}

static inline uint32_t cimaroly_places_malloc(uint32_t kind, const uint8_t *der, size_t der_size,
                                              struct cimaroly_place *places, size_t room, size_t *count)
{
    CIMAROLY_WHERE_NEEDED(der_size, cimaroly_places(memory, kind, der, der_size, places, room, count));
}

static inline uint32_t cimaroly_findings_malloc(const uint8_t *der, size_t der_size, struct cimaroly_finding *findings,
                                                size_t room, size_t *count)
{
    CIMAROLY_OVER_MALLOC(der_size, cimaroly_findings(memory, der, der_size, findings, room, count));
}

static inline uint32_t cimaroly_request_findings_malloc(const uint8_t *der, size_t der_size,
                                                        struct cimaroly_finding *findings, size_t room, size_t *count)
{
    CIMAROLY_OVER_MALLOC(der_size, cimaroly_request_findings(memory, der, der_size, findings, room, count));
}

static inline uint32_t cimaroly_report_malloc(uint32_t kind, const uint8_t *der, size_t der_size, bool secrets,
                                              uint8_t *out, size_t out_size, size_t *size)
{
    CIMAROLY_OVER_MALLOC(der_size, cimaroly_report(memory, kind, der, der_size, secrets, out, out_size, size));
}

static inline uint32_t cimaroly_make_malloc(const uint8_t *text, size_t text_size, uint8_t *out, size_t out_size,
                                            size_t *size)
{
    CIMAROLY_OVER_MALLOC(text_size, cimaroly_make(memory, text, text_size, out, out_size, size));
}

static inline uint32_t cimaroly_why_not_made_malloc(const uint8_t *text, size_t text_size, uint8_t *out,
                                                    size_t out_size, size_t *size)
{
    CIMAROLY_OVER_MALLOC(text_size, cimaroly_why_not_made(memory, text, text_size, out, out_size, size));
}

static inline uint32_t cimaroly_assemble_malloc(uint32_t kind, const uint8_t *part, size_t part_size,
                                                const uint8_t *algorithm, size_t algorithm_size,
                                                const uint8_t *signature, size_t signature_size, uint8_t *out,
                                                size_t out_size, size_t *size)
{
    CIMAROLY_OVER_MALLOC(part_size, cimaroly_assemble(memory, kind, part, part_size, algorithm, algorithm_size,
                                                      signature, signature_size, out, out_size, size));
}

static inline uint32_t cimaroly_signature_algorithm_malloc(const uint8_t *name, size_t name_size, uint8_t *out,
                                                           size_t out_size, size_t *size)
{
    CIMAROLY_OVER_MALLOC(name_size, cimaroly_signature_algorithm(memory, name, name_size, out, out_size, size));
}

static inline uint32_t cimaroly_ecdsa_signature_malloc(const uint8_t *raw, size_t raw_size, uint8_t *out,
                                                       size_t out_size, size_t *size)
{
    CIMAROLY_OVER_MALLOC(raw_size, cimaroly_ecdsa_signature(memory, raw, raw_size, out, out_size, size));
}

static inline uint32_t cimaroly_pem_encode_malloc(const uint8_t *label, size_t label_size, const uint8_t *der,
                                                  size_t der_size, uint8_t *out, size_t out_size, size_t *size)
{
    CIMAROLY_OVER_MALLOC(der_size, cimaroly_pem_encode(memory, label, label_size, der, der_size, out, out_size, size));
}

#undef CIMAROLY_OVER_MALLOC
#undef CIMAROLY_WHERE_NEEDED
#endif

#ifdef __cplusplus
}
#endif
#endif
