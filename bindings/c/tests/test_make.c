/* SPDX-License-Identifier: MIT OR Apache-2.0 */
/*
 * Tests the calls that make: a request's part that OpenSSL makes too, a certificate of OpenSSL put together of its parts,
 * its PEM, and what is said of descriptions that are wrong.
 *
 * usage: test_make FOLDER  (that of the repository)
 */
#include "cimaroly.h"

#include "../examples/input.h"

static size_t passed;
static size_t failed;

static void expect(bool is_right, const char *what)
{
    passed += is_right;
    failed += !is_right;
    if (!is_right)
        printf("test_make: %s\n", what);
}

enum { ROOM = 4096 };

/* What a call writes, and that it writes nothing to a buffer that is a byte too short. */
struct made {
    uint32_t status;
    size_t size;
    uint8_t bytes[ROOM];
};

static const uint8_t *bytes_of(const char *text)
{
    return (const uint8_t *)text;
}

static bool is_text(const struct made *made, const char *text)
{
    return made->status == CIMAROLY_OK && made->size == strlen(text) && memcmp(made->bytes, text, made->size) == 0;
}

static bool is_part(const struct made *made, const uint8_t *der, struct cimaroly_span span)
{
    return made->status == CIMAROLY_OK && made->size == span.end - span.start &&
           memcmp(made->bytes, der + span.start, made->size) == 0;
}

static void describe(struct made *made, const char *text)
{
    made->status = cimaroly_make_malloc(bytes_of(text), strlen(text), made->bytes, ROOM, &made->size);
}

static void explain(struct made *made, const char *text)
{
    made->status = cimaroly_why_not_made_malloc(bytes_of(text), strlen(text), made->bytes, ROOM, &made->size);
}

/* `openssl req -new -subj /C=DE/CN=a`, of a key of Ed25519 whose bytes are all 0x11, what is signed of it. */
static const char description[] =
    "{\"type\": \"request-info\", \"subject\": \"/C=DE/CN=a\", \"key\": \"-----BEGIN PUBLIC KEY-----\\n"
    "MCowBQYDK2VwAyEAERERERERERERERERERERERERERERERERERERERERERE=\\n-----END PUBLIC KEY-----\\n\"}";
static const char expected[] = "\x30\x4c\x02\x01\x00\x30\x19\x31\x0b\x30\x09\x06\x03\x55\x04\x06\x13\x02"
                               "DE\x31\x0a\x30\x08\x06\x03\x55\x04\x03\x0c\x01"
                               "a\x30\x2a\x30\x05\x06\x03\x2b\x65\x70\x03\x21\x00"
                               "\x11\x11\x11\x11\x11\x11\x11\x11\x11\x11\x11\x11\x11\x11\x11\x11"
                               "\x11\x11\x11\x11\x11\x11\x11\x11\x11\x11\x11\x11\x11\x11\x11\x11\xa0\x00";

static void descriptions(void)
{
    struct made made;
    size_t size = 7;
    describe(&made, description);
    expect(made.status == CIMAROLY_OK && made.size == sizeof expected - 1 &&
               memcmp(made.bytes, expected, made.size) == 0,
           "what is signed of a request");
    memset(made.bytes, 0x5a, ROOM);
    expect(cimaroly_make_malloc(bytes_of(description), strlen(description), made.bytes, sizeof expected - 2, &size) ==
                   CIMAROLY_BUFFER_TOO_SHORT &&
               size == sizeof expected - 1 && made.bytes[0] == 0x5a,
           "a buffer that is too short");
    explain(&made, description);
    expect(made.status == CIMAROLY_REFUSED && made.size == 0, "why nothing is made, of what is made");
    struct cimaroly_memory none = {NULL, 0};
    expect(cimaroly_make(&none, bytes_of(description), strlen(description), made.bytes, ROOM, &size) ==
                   CIMAROLY_OUT_OF_MEMORY &&
               size == 0,
           "without memory");
}

static void wrong_descriptions(void)
{
    static const char *const rows[][2] = {
        {"{\"type\":\"name\",\"Name\":\"CN=a\",\"Name\":\"CN=b\"}", "Name: given twice: \"CN=b\""},
        {"{\"type\":\"request-info\",\"key\":\"x\"}", "subject is missing"},
        {"{\"type\":\"name\",}", "not JSON"},
        {"\xff", "not JSON"},
    };
    struct made made;
    for (size_t i = 0; i < sizeof rows / sizeof *rows; i++) {
        describe(&made, rows[i][0]);
        expect(made.status == CIMAROLY_REFUSED && made.size == 0, rows[i][0]);
        explain(&made, rows[i][0]);
        expect(is_text(&made, rows[i][1]), rows[i][1]);
    }
}

/* A certificate of OpenSSL is put together of what is signed, the algorithm and the signature. */
static void assembled(const uint8_t *der, size_t size)
{
    struct cimaroly_certificate fields;
    struct made made;
    expect(cimaroly_certificate_fields(der, size, &fields) == CIMAROLY_OK, "the fields");
    struct cimaroly_span part = fields.tbs_certificate;
    struct cimaroly_span algorithm = fields.signature_algorithm;
    const uint8_t *signature = der + fields.signature_value.end - 64;
    made.status = cimaroly_assemble_malloc(CIMAROLY_CERTIFICATE, der + part.start, part.end - part.start,
                                           der + algorithm.start, algorithm.end - algorithm.start, signature, 64,
                                           made.bytes, ROOM, &made.size);
    expect(is_part(&made, der, (struct cimaroly_span){0, size}), "a certificate, put together");
    made.status = cimaroly_assemble_malloc(CIMAROLY_REQUEST, der + part.start, part.end - part.start,
                                           der + algorithm.start, algorithm.end - algorithm.start, signature, 64,
                                           made.bytes, ROOM, &made.size);
    expect(made.status == CIMAROLY_REFUSED && made.size == 0, "a certificate's part in a request");
    made.status = cimaroly_assemble_malloc(CIMAROLY_NAME, der, 1, der, 1, der, 1, made.bytes, ROOM, &made.size);
    expect(made.status == CIMAROLY_UNKNOWN_KIND && made.size == 0, "another kind");
    made.status = cimaroly_signature_algorithm_malloc(bytes_of("Ed25519"), 7, made.bytes, ROOM, &made.size);
    expect(is_part(&made, der, algorithm), "an algorithm by its name");
    made.status = cimaroly_signature_algorithm_malloc(bytes_of("\xff"), 1, made.bytes, ROOM, &made.size);
    expect(made.status == CIMAROLY_REFUSED && made.size == 0, "no name");
}

/* r and s of two bytes each: the former with a zero in front that goes, the latter without one that comes (X.690, 8.3). */
static void signatures(void)
{
    static const uint8_t raw[] = {0x00, 0x7f, 0x80, 0x01};
    static const uint8_t whole[] = {0x30, 0x08, 0x02, 0x01, 0x7f, 0x02, 0x03, 0x00, 0x80, 0x01};
    struct made made;
    made.status = cimaroly_ecdsa_signature_malloc(raw, sizeof raw, made.bytes, ROOM, &made.size);
    expect(is_part(&made, whole, (struct cimaroly_span){0, sizeof whole}), "r and s");
    made.status = cimaroly_ecdsa_signature_malloc(raw, 3, made.bytes, ROOM, &made.size);
    expect(made.status == CIMAROLY_REFUSED && made.size == 0, "an odd number of bytes");
}

/* The text of OpenSSL. */
static void pem(const uint8_t *text, size_t text_size, const uint8_t *der, size_t der_size)
{
    struct made made;
    made.status = cimaroly_pem_encode_malloc(bytes_of("CERTIFICATE"), 11, der, der_size, made.bytes, ROOM, &made.size);
    expect(is_part(&made, text, (struct cimaroly_span){0, text_size}), "PEM");
    made.status = cimaroly_pem_encode_malloc(bytes_of("\xc3"), 1, der, der_size, made.bytes, ROOM, &made.size);
    expect(made.status == CIMAROLY_REFUSED && made.size == 0, "a label that isn't UTF-8");
}

int main(int count, char **words)
{
    char path[ROOM];
    size_t text_size = 0;
    size_t size = 0;
    if (count != 2 ||
        snprintf(path, sizeof path, "%s/tools/tests/data/certificate_ed25519.pem", words[1]) >= (int)sizeof path)
        return 2;
    uint8_t *text = read_file(path, &text_size);
    uint8_t *der = text != NULL ? decode_pem(text, text_size, "CERTIFICATE", &size) : NULL;
    if (der == NULL) {
        free(text);
        return 2;
    }
    descriptions();
    wrong_descriptions();
    assembled(der, size);
    signatures();
    pem(text, text_size, der, size);
    printf("test_make: %zu passed, %zu failed\n", passed, failed);
    free(der);
    free(text);
    return failed != 0;
}
