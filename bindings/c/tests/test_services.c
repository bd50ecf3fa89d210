/* SPDX-License-Identifier: MIT OR Apache-2.0 */
/*
 * Tests the calls for access descriptions, policies and distribution points: over values that OpenSSL wrote (openssl req
 * -x509 with authorityInfoAccess, certificatePolicies and crlDistributionPoints), whose texts are those that openssl x509
 * -text prints, and over these values cut off and with each byte changed, where the status is cimaroly_check_extension's.
 *
 * usage: test_services
 */
#include "cimaroly.h"

#include <stdio.h>
#include <string.h>

enum { MANY = 8 };

#define BYTES(text) ((const uint8_t *)(text))

static size_t passed;
static size_t failed;

static void expect(bool is_right, const char *what)
{
    if (is_right) {
        passed++;
        return;
    }
    failed++;
    printf("%s\n", what);
}

static const char accesses_value[] = "\x30\x4E\x30\x23\x06\x08\x2B\x06\x01\x05\x05\x07\x30\x01\x86\x17"
                                     "http://ocsp.example.org"
                                     "\x30\x27\x06\x08\x2B\x06\x01\x05\x05\x07\x30\x02\x86\x1B"
                                     "http://ca.example.org/a.crt";

static const char policies_value[] = "\x30\x3E\x30\x08\x06\x06\x67\x81\x0C\x01\x02\x01\x30\x32\x06\x0A\x2B\x06\x01\x04"
                                     "\x01\xD6\x79\x02\x05\x03\x30\x24\x30\x22\x06\x08\x2B\x06\x01\x05\x05\x07\x02\x01"
                                     "\x16\x16http://cps.example.org";

static const char points_value[] = "\x30\x7E\x30\x3A\xA0\x38\xA0\x36\x86\x1C"
                                   "http://crl.example.org/a.crl"
                                   "\x86\x16ldap://crl.example.org"
                                   "\x30\x30\xA0\x18\xA0\x16\x86\x14"
                                   "http://b.example.org"
                                   "\x81\x02\x05\x60\xA2\x10\xA4\x0E\x30\x0C\x31\x0A\x30\x08\x06\x03\x55\x04\x03\x0C\x01"
                                   "b"
                                   "\x30\x0E\xA0\x0C\xA1\x0A\x30\x08\x06\x03\x55\x04\x03\x0C\x01"
                                   "c";

static bool is_text(const char *value, size_t at, struct cimaroly_span span, const char *text)
{
    size_t size = strlen(text);
    return span.end - span.start == size && memcmp(value + at + span.start, text, size) == 0;
}

static bool is_absent(struct cimaroly_span span)
{
    return span.start == 0 && span.end == 0;
}

static void accesses_are_right(void)
{
    struct cimaroly_access found[MANY];
    size_t count = 0;
    const uint8_t *value = BYTES(accesses_value);
    size_t size = sizeof accesses_value - 1;
    expect(cimaroly_access_descriptions(value, size, found, MANY, &count) == CIMAROLY_OK && count == 2, "two services");
    expect(is_text(accesses_value, 0, found[0].method, "\x2B\x06\x01\x05\x05\x07\x30\x01"), "OCSP");
    expect(found[0].location.tag == 0x86, "an address");
    expect(is_text(accesses_value, 0, found[0].location.content, "http://ocsp.example.org"), "OCSP's address");
    expect(is_text(accesses_value, 0, found[1].method, "\x2B\x06\x01\x05\x05\x07\x30\x02"), "the issuer");
    expect(is_text(accesses_value, 0, found[1].location.content, "http://ca.example.org/a.crt"), "the issuer's address");
    found[1].location.tag = 7;
    count = 0;
    expect(cimaroly_access_descriptions(value, size, found, 1, &count) == CIMAROLY_BUFFER_TOO_SHORT, "room for one");
    expect(count == 2 && found[1].location.tag == 7, "what is written of two");
    expect(cimaroly_access_descriptions(value, size, NULL, 0, &count) == CIMAROLY_BUFFER_TOO_SHORT && count == 2,
           "room for none");
    expect(cimaroly_access_descriptions(BYTES("\x30\x00"), 2, NULL, 0, &count) == CIMAROLY_OK && count == 0, "no service");
}

static void policies_are_right(void)
{
    struct cimaroly_span found[MANY];
    size_t count = 0;
    const uint8_t *value = BYTES(policies_value);
    uint8_t text[MANY * MANY];
    size_t size = 0;
    expect(cimaroly_policies(value, sizeof policies_value - 1, found, MANY, &count) == CIMAROLY_OK && count == 2,
           "two policies");
    cimaroly_oid_text(value + found[0].start, found[0].end - found[0].start, text, sizeof text, &size);
    expect(size == 14 && memcmp(text, "2.23.140.1.2.1", size) == 0, "the first policy");
    cimaroly_oid_text(value + found[1].start, found[1].end - found[1].start, text, sizeof text, &size);
    expect(size == 23 && memcmp(text, "1.3.6.1.4.1.11129.2.5.3", size) == 0, "the second policy");
}

static void points_are_right(void)
{
    struct cimaroly_point found[MANY];
    struct cimaroly_general_name names[MANY];
    size_t count = 0;
    const uint8_t *value = BYTES(points_value);
    expect(cimaroly_distribution_points(value, sizeof points_value - 1, found, MANY, &count) == CIMAROLY_OK && count == 3,
           "three points");
    expect(is_absent(found[0].reasons) && is_absent(found[0].issuer), "a point with a name alone");
    expect(is_text(points_value, 0, found[1].reasons, "\x05\x60"), "the reasons");
    expect(found[1].issuer.end - found[1].issuer.start == 16 && value[found[1].issuer.start] == 0xA4, "the issuer");
    const uint8_t *name = value + found[0].name.start;
    expect(cimaroly_point_names(name, found[0].name.end - found[0].name.start, names, MANY, &count) == CIMAROLY_OK &&
               count == 2,
           "two names");
    expect(is_text(points_value, found[0].name.start, names[0].content, "http://crl.example.org/a.crl"), "the first name");
    expect(is_text(points_value, found[0].name.start, names[1].content, "ldap://crl.example.org"), "the second name");
    expect(names[0].tag == 0x86 && names[1].tag == 0x86, "addresses");
    name = value + found[2].name.start;
    expect(cimaroly_point_names(name, found[2].name.end - found[2].name.start, names, MANY, &count) == CIMAROLY_OK &&
               count == 0,
           "a relative name");
    expect(cimaroly_point_names(BYTES("\xA2\x00"), 2, names, MANY, &count) == CIMAROLY_REFUSED && count == 0, "no name");
    expect(cimaroly_distribution_points(BYTES("\x30\x02\x30\x00"), 4, found, 1, &count) == CIMAROLY_OK && count == 1 &&
               is_absent(found[0].name),
           "a point without a name");
}

/* The status of each call is that of the check of its extension, and where it is refused nothing is told. */
static void status_is_that_of_the_check(const char *identifier, const uint8_t *value, size_t size)
{
    struct cimaroly_verdict verdict;
    size_t count = 7;
    uint32_t status = 99;
    union {
        struct cimaroly_access accesses[MANY];
        struct cimaroly_span policies[MANY];
        struct cimaroly_point points[MANY];
    } out;
    uint32_t wanted = cimaroly_check_extension(BYTES(identifier), strlen(identifier), value, size, &verdict);
    switch (identifier[2]) {
    case '\x20':
        status = cimaroly_policies(value, size, out.policies, MANY, &count);
        break;
    case '\x1F':
        status = cimaroly_distribution_points(value, size, out.points, MANY, &count);
        break;
    default:
        status = cimaroly_access_descriptions(value, size, out.accesses, MANY, &count);
    }
    expect(status == wanted || (status == CIMAROLY_BUFFER_TOO_SHORT && wanted == CIMAROLY_OK && count > MANY), "the status");
    expect(status != CIMAROLY_REFUSED || count == 0, "nothing of what is refused");
}

static void changed_values_are_checked(const char *identifier, const char *value, size_t size)
{
    uint8_t changed[256];
    for (size_t i = 0; i < size; i++) {
        status_is_that_of_the_check(identifier, BYTES(value), i);
        memcpy(changed, value, size);
        for (int byte = 0; byte < 256; byte++) {
            changed[i] = (uint8_t)byte;
            status_is_that_of_the_check(identifier, changed, size);
        }
    }
}

int main(void)
{
    accesses_are_right();
    policies_are_right();
    points_are_right();
    changed_values_are_checked("\x2B\x06\x01\x05\x05\x07\x01\x01", accesses_value, sizeof accesses_value - 1);
    changed_values_are_checked("\x55\x1D\x20", policies_value, sizeof policies_value - 1);
    changed_values_are_checked("\x55\x1D\x1F", points_value, sizeof points_value - 1);
    printf("%zu passed, %zu failed\n", passed, failed);
    return failed > 0 || passed == 0;
}
