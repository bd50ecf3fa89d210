/* SPDX-License-Identifier: MIT OR Apache-2.0 */
/*
 * Tests the calls for values of keys, signatures, requests and further extensions: over the rows of
 * bindings/tests/table.tsv they agree with cimaroly_check and with what the package cryptography says, and by hand with
 * what OpenSSL prints and with bytes by X.690.
 *
 * usage: test_keys FOLDER  (that of the repository)
 */
#include "cimaroly.h"

#include "guard.h"
#include "table.h"

enum { MANY = 64 };

static size_t passed;
static size_t failed;

static void expect(bool is_right, const struct row *row, const char *what)
{
    if (is_right) {
        passed++;
        return;
    }
    failed++;
    printf("%s: %s\n", row->cells[NAME], what);
}

static bool is_none(struct cimaroly_span span)
{
    return span.start == 0 && span.end == 0;
}

static bool is_content(const struct row *row, struct cimaroly_span span, const char *content)
{
    size_t size = strlen(content);
    return span.end - span.start == size && memcmp(row->der + span.start, content, size) == 0;
}

static bool is_filled(const void *bytes, size_t size, uint8_t with)
{
    const uint8_t *byte = bytes;
    for (size_t i = 0; i < size; i++)
        if (byte[i] != with)
            return false;
    return true;
}

static uint32_t checked(const struct row *row, uint32_t kind)
{
    struct cimaroly_verdict verdict;
    return cimaroly_check(kind, row->der, row->der_size, &verdict);
}

/* A key in one line: its algorithm, its curve if it has one, and its size. */
static void write_key(const struct row *row, const struct cimaroly_key *key, char *line, size_t room)
{
    const char *algorithm = "another";
    char curve[MANY] = "";
    size_t size = 0;
    if (is_content(row, key->algorithm, "\x2A\x86\x48\x86\xF7\x0D\x01\x01\x01"))
        algorithm = "RSA";
    else if (is_content(row, key->algorithm, "\x2A\x86\x48\xCE\x3D\x02\x01"))
        algorithm = "EC";
    else if (is_content(row, key->algorithm, "\x2B\x65\x70"))
        algorithm = "Ed25519";
    if (!is_none(key->curve)) {
        curve[0] = ' ';
        cimaroly_oid_name(row->der + key->curve.start, key->curve.end - key->curve.start, (uint8_t *)curve + 1,
                          sizeof curve - 2, &size);
    }
    snprintf(line, room, "%s%s %zu", algorithm, curve, key->bits);
}

/* A key of RSA has its two numbers, and another its bytes. */
static bool has_its_parts(const struct row *row, const struct cimaroly_key *key)
{
    bool is_rsa = is_content(row, key->algorithm, "\x2A\x86\x48\x86\xF7\x0D\x01\x01\x01");
    return is_none(key->modulus) == !is_rsa && is_none(key->exponent) == !is_rsa && is_none(key->key) == is_rsa;
}

/* The key is that which is stated, and its kinds are told from others. */
static void key_is_right(const struct row *row)
{
    struct cimaroly_key key;
    char line[2 * MANY];
    for (uint32_t kind = 0; kind < 15; kind++) {
        bool has_key = kind == CIMAROLY_CERTIFICATE || kind == CIMAROLY_REQUEST || kind == CIMAROLY_PUBLIC_KEY;
        uint32_t wanted = has_key ? checked(row, kind) : CIMAROLY_UNKNOWN_KIND;
        memset(&key, GUARD_FILL, sizeof key);
        expect(cimaroly_public_key(kind, row->der, row->der_size, &key) == wanted, row, "a key's status");
        if (wanted != CIMAROLY_OK)
            expect(is_filled(&key, sizeof key, 0), row, "no key");
        else
            expect(has_its_parts(row, &key), row, "a key's parts");
        if (kind == CIMAROLY_CERTIFICATE && !is_text(row->cells[KEY], "-")) {
            write_key(row, &key, line, sizeof line);
            expect(is_text(row->cells[KEY], line), row, "the key");
        }
    }
}

/* The algorithm of the signature, and its digest, are those which are stated. */
static void signature_is_right(const struct row *row)
{
    static const char *const digests[] = {"none",   "sha1",     "sha224",   "sha256",   "sha384",
                                          "sha512", "sha3-224", "sha3-256", "sha3-384", "sha3-512"};
    struct cimaroly_signature found;
    char line[2 * MANY];
    for (uint32_t kind = 0; kind < 15; kind++) {
        bool is_told = kind == CIMAROLY_CERTIFICATE || kind == CIMAROLY_REQUEST || kind == CIMAROLY_ALGORITHM;
        uint32_t wanted = is_told ? checked(row, kind) : CIMAROLY_UNKNOWN_KIND;
        memset(&found, GUARD_FILL, sizeof found);
        expect(cimaroly_signed_with(kind, row->der, row->der_size, &found) == wanted, row, "a signature's status");
        if (wanted != CIMAROLY_OK)
            expect(is_none(found.algorithm) && found.digest == 0, row, "no signature");
        if (kind == CIMAROLY_CERTIFICATE && !is_text(row->cells[SIGNATURE], "-")) {
            uint8_t text[MANY];
            size_t size = 0;
            cimaroly_oid_text(row->der + found.algorithm.start, found.algorithm.end - found.algorithm.start, text,
                              sizeof text, &size);
            snprintf(line, sizeof line, "%.*s %s", (int)size, (const char *)text, digests[found.digest]);
            expect(is_text(row->cells[SIGNATURE], line), row, "the signature");
        }
    }
}

typedef uint32_t identifier_call(const uint8_t *, size_t, struct cimaroly_span *);

/* Writes the octets that an extension of a certificate has, in hexadecimal. */
static void write_identifier(const struct row *row, const char *extension, identifier_call *call, char *line,
                             size_t room)
{
    struct cimaroly_span value;
    struct cimaroly_span found = {7, 7};
    cimaroly_find_extension(row->der, row->der_size, (const uint8_t *)extension, strlen(extension), &value);
    snprintf(line, room, "none");
    if (is_none(value))
        return;
    const uint8_t *octets = row->der + value.start;
    expect(call(octets, value.end - value.start - 1, &found) == CIMAROLY_REFUSED && is_none(found), row, "cut off");
    expect(call(octets, value.end - value.start, &found) == CIMAROLY_OK, row, "an identifier's status");
    for (size_t i = found.start; i < found.end && 2 * (i - found.start) + 3 <= room; i++)
        snprintf(line + 2 * (i - found.start), 3, "%02x", octets[i]);
}

/* The identifiers of keys are those which are stated. */
static void key_identifiers_are_right(const struct row *row)
{
    char own[2 * MANY];
    char issuer[2 * MANY];
    char line[4 * MANY];
    write_identifier(row, "\x55\x1D\x0E", cimaroly_subject_key_identifier, own, sizeof own);
    write_identifier(row, "\x55\x1D\x23", cimaroly_authority_key_identifier, issuer, sizeof issuer);
    snprintf(line, sizeof line, "%s %s", own, issuer);
    expect(is_text(row->cells[KEY_IDENTIFIERS], line), row, "the identifiers of keys");
}

/* The subject of request_ec, as OpenSSL prints it. */
static void subject_is_right(const struct row *row)
{
    static const char *const values[] = {"DE", "Example Gr\xC3\xBCnde GmbH", "Dept A", "Dept B", "example.org",
                                         "admin@example.org"};
    enum { COUNT = sizeof values / sizeof *values };
    struct cimaroly_attribute found[COUNT];
    size_t count = 7;
    memset(found, GUARD_FILL, sizeof found);
    uint32_t status = cimaroly_request_subject_attributes(row->der, row->der_size, found, 1, &count);
    expect(status == CIMAROLY_BUFFER_TOO_SHORT && count == COUNT, row, "how many attributes");
    expect(is_filled(found + 1, sizeof found - sizeof *found, GUARD_FILL), row, "the rest");
    status = cimaroly_request_subject_attributes(row->der, row->der_size, found, COUNT, &count);
    expect(status == CIMAROLY_OK && count == COUNT, row, "the attributes' status");
    for (size_t i = 0; i < COUNT; i++) {
        expect(is_content(row, found[i].value, values[i]), row, values[i]);
        expect(found[i].set == i, row, "an attribute's set");
    }
}

/* The attributes of request_rsa, whose places are those that openssl asn1parse prints, and the extensions in it. */
static void attributes_are_right(const struct row *row)
{
    struct cimaroly_request_attribute found = {{7, 7}, 7, {7, 7}};
    struct cimaroly_extension extensions[3];
    size_t count = 7;
    uint32_t status = cimaroly_request_attributes(row->der, row->der_size, NULL, 0, &count);
    expect(status == CIMAROLY_BUFFER_TOO_SHORT && count == 1, row, "how many attributes of a request");
    status = cimaroly_request_attributes(row->der, row->der_size, &found, 1, &count);
    expect(status == CIMAROLY_OK && count == 1, row, "the status of a request's attributes");
    expect(is_content(row, found.identifier, "\x2A\x86\x48\x86\xF7\x0D\x01\x09\x0E"), row, "extensionRequest");
    expect(found.tag == 0x31 && found.values.start == 327 && found.values.end == 374, row, "the values");
    status = cimaroly_extensions(CIMAROLY_EXTENSIONS, row->der + found.values.start,
                                 found.values.end - found.values.start, extensions, 3, &count);
    expect(status == CIMAROLY_OK && count == 2, row, "the extensions that are asked for");
}

/* The numbers of rsa_private_key, whose sizes and first bytes are those that openssl rsa -text prints. */
static void numbers_are_right(const struct row *row)
{
    static const struct {
        size_t size;
        uint8_t first[3];
    } wanted[] = {{1, {0}},
                  {129, {0x00, 0xEA, 0x7F}},
                  {3, {0x01, 0x00, 0x01}},
                  {129, {0x00, 0xC7, 0x9F}},
                  {65, {0x00, 0xF9, 0x2E}},
                  {65, {0x00, 0xF0, 0xEA}},
                  {65, {0x00, 0xA2, 0x6D}},
                  {64, {0x48, 0xCC, 0xB9}},
                  {64, {0x37, 0x27, 0x6A}}};
    struct cimaroly_rsa_numbers found;
    memset(&found, GUARD_FILL, sizeof found);
    expect(cimaroly_rsa_private_key(row->der, row->der_size, &found) == CIMAROLY_OK, row, "the status of numbers");
    const struct cimaroly_span spans[] = {found.version,   found.modulus,   found.public_exponent,
                                          found.private_exponent, found.prime1,    found.prime2,
                                          found.exponent1, found.exponent2, found.coefficient};
    for (size_t i = 0; i < sizeof spans / sizeof *spans; i++) {
        size_t size = spans[i].end - spans[i].start;
        expect(size == wanted[i].size, row, "a number's size");
        expect(memcmp(row->der + spans[i].start, wanted[i].first, size < 3 ? size : 3) == 0, row, "a number");
    }
    expect(found.coefficient.end == row->der_size, row, "the last number");
    expect(cimaroly_rsa_private_key(row->der, row->der_size - 1, &found) == CIMAROLY_REFUSED, row, "cut off");
    expect(is_filled(&found, sizeof found, 0), row, "no numbers");
}

/* Values of further extensions: the policies of certificate_rsa (2.23.140.1.2.1), and values by RFC 5280, 4.2.2.1. */
static void further_extensions_are_right(const struct row *row)
{
    enum { REFUSED = CIMAROLY_REFUSED, BAD_OID = CIMAROLY_ERROR_BAD_OID, TRUNCATED = CIMAROLY_ERROR_TRUNCATED };
    static const struct {
        const char *identifier;
        const char *value;
        size_t size;
        uint32_t status;
        size_t error;
        size_t at;
    } rows[] = {
        {"\x55\x1D\x20", "\x30\x0A\x30\x08\x06\x06\x67\x81\x0C\x01\x02\x01", 12, CIMAROLY_OK, 0, 0},
        {"\x55\x1D\x20", "\x30\x0A\x30\x08\x06\x06\x67\x81\x0C\x01\x02\x81", 12, REFUSED, BAD_OID, 6},
        {"\x55\x1D\x20", "\x30\x0A\x30\x08\x06\x06\x67\x81\x0C\x01\x02", 11, REFUSED, TRUNCATED, 0},
        {"\x2B\x06\x01\x05\x05\x07\x01\x01",
         "\x30\x10\x30\x0E\x06\x08\x2B\x06\x01\x05\x05\x07\x30\x01\x86\x02\x61\x3A", 18, CIMAROLY_OK, 0, 0},
        {"\x2B\x06\x01\x05\x05\x07\x30\x01\x05", "\x05\x00", 2, CIMAROLY_OK, 0, 0},
        {"\x55\x1D\x11", "\x30\x00", 2, CIMAROLY_UNKNOWN_KIND, 0, 0},
        {"\x55\x9D", "\x30\x00", 2, CIMAROLY_UNKNOWN_KIND, 0, 0},
    };
    for (size_t i = 0; i < sizeof rows / sizeof *rows; i++) {
        struct cimaroly_verdict verdict;
        memset(&verdict, GUARD_FILL, sizeof verdict);
        uint32_t status = cimaroly_check_extension((const uint8_t *)rows[i].identifier, strlen(rows[i].identifier),
                                                   (const uint8_t *)rows[i].value, rows[i].size, &verdict);
        expect(status == rows[i].status, row, "an extension's status");
        expect(verdict.error == rows[i].error && verdict.at == rows[i].at, row, "an extension's error");
        expect(is_filled(verdict.counts, sizeof verdict.counts, 0), row, "an extension's deviations");
    }
}

/* A general name in an address under the other kind of tag is a deviation, as it is elsewhere. */
static void deviations_are_counted(const struct row *row)
{
    static const uint8_t value[] = {0x30, 0x12, 0x30, 0x10, 0x06, 0x08, 0x2B, 0x06, 0x01, 0x05,
                                    0x05, 0x07, 0x30, 0x01, 0xA6, 0x04, 0x16, 0x02, 0x61, 0x3A};
    struct cimaroly_verdict verdict;
    const uint8_t *identifier = (const uint8_t *)"\x2B\x06\x01\x05\x05\x07\x01\x01";
    expect(cimaroly_check_extension(identifier, 8, value, sizeof value, &verdict) == CIMAROLY_OK, row, "a deviation");
    expect(verdict.counts[CIMAROLY_GENERAL_NAME_FORM - 1] == 1 && verdict.headers == 5, row, "the deviation's count");
}

static void test_row(const struct row *row)
{
    key_is_right(row);
    signature_is_right(row);
    size_t count = 7;
    uint32_t status = cimaroly_request_attributes(row->der, row->der_size, NULL, 0, &count);
    bool is_read = status == CIMAROLY_OK || status == CIMAROLY_BUFFER_TOO_SHORT;
    expect(is_read == (checked(row, CIMAROLY_REQUEST) == CIMAROLY_OK), row, "a request's attributes");
    if (!is_read) {
        struct cimaroly_attribute none[1];
        expect(count == 0, row, "no attributes of a request");
        count = 7;
        uint32_t told = cimaroly_request_subject_attributes(row->der, row->der_size, none, 1, &count);
        expect(told == CIMAROLY_REFUSED && count == 0, row, "no attributes");
    }
    if (!is_text(row->cells[KEY_IDENTIFIERS], "-"))
        key_identifiers_are_right(row);
    if (is_text(row->cells[NAME], "request_ec"))
        subject_is_right(row);
    if (is_text(row->cells[NAME], "request_rsa"))
        attributes_are_right(row);
    if (is_text(row->cells[NAME], "rsa_private_key"))
        numbers_are_right(row);
    if (is_text(row->cells[NAME], "certificate_rsa")) {
        further_extensions_are_right(row);
        deviations_are_counted(row);
    }
}

int main(int argc, char **argv)
{
    if (argc != 2)
        stop("usage", "test_keys FOLDER");
    over_table(argv[1], test_row);
    printf("%zu passed, %zu failed\n", passed, failed);
    return failed > 0 || passed == 0;
}
