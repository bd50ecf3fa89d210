/* SPDX-License-Identifier: MIT OR Apache-2.0 */
/*
 * Tests the call for findings over a certificate by hand (RFC 5280, 4.1): its issuer is empty, it has unique identifiers,
 * and as an authority it has a path length, but no key identifier and no key usage. Then over each of its
 * prefixes, with less memory and with less room; over a request; and what the header says of rules.
 *
 * usage: test_findings
 */
#include "cimaroly.h"
#include "guard.h"

#include <stdio.h>
#include <string.h>

enum { MANY = 32, PLENTY = 65536 };

static const char certificate[] =
    "\x30\x78\x30\x6C\xA0\x03\x02\x01\x02\x02\x01\x01\x30\x05\x06\x03\x2B\x65\x70\x30\x00\x30\x1E\x17\x0D"
    "191017174128Z\x17\x0D"
    "221016174128Z\x30\x0D\x31\x0B\x30\x09\x06\x03\x55\x04\x03\x13\x02"
    "ab\x30\x0A\x30\x05\x06\x03\x2B\x65\x70\x03\x01\x00\x81\x02\x07\x00\x82\x02\x07\x80\xA3\x16\x30\x14\x30\x12\x06\x03"
    "\x55\x1D\x13\x01\x01\xFF\x04\x08\x30\x06\x01\x01\xFF\x02\x01\x05\x30\x05\x06\x03\x2B\x65\x70\x03\x01\x00";

static const struct cimaroly_finding stated[] = {
    {CIMAROLY_RULE_ISSUER_EMPTY, {19, 21}},
    {CIMAROLY_RULE_ISSUER_UNIQUE_ID, {80, 84}},
    {CIMAROLY_RULE_SUBJECT_UNIQUE_ID, {84, 88}},
    {CIMAROLY_RULE_AUTHORITY_KEY_MISSING, {88, 112}},
    {CIMAROLY_RULE_SUBJECT_KEY_MISSING, {88, 112}},
    {CIMAROLY_RULE_AUTHORITY_WITHOUT_SIGNING, {88, 112}},
    {CIMAROLY_RULE_PATH_LENGTH_WITHOUT_SIGNING, {88, 112}},
};

enum { STATED = sizeof stated / sizeof *stated, SIZE = sizeof certificate - 1 };

static size_t passed;
static size_t failed;

static void expect(bool is_right, const char *what)
{
    if (is_right) {
        passed++;
        return;
    }
    failed++;
    printf("%s\n", what);
}

static bool are_stated(const struct cimaroly_finding *found)
{
    for (size_t i = 0; i < STATED; i++)
        if (found[i].rule != stated[i].rule || found[i].at.start != stated[i].at.start || found[i].at.end != stated[i].at.end)
            return false;
    return true;
}

static void findings_are_right(const uint8_t *der)
{
    struct cimaroly_finding found[MANY];
    size_t count = 0;
    uint32_t status = cimaroly_findings_malloc(der, SIZE, found, MANY, &count);
    expect(status == CIMAROLY_OK && count == STATED && are_stated(found), "the findings");
}

/* What has too little room is as it was, and the count is told. */
static void room_is_kept_to(const uint8_t *der)
{
    struct guarded lent = guarded_room(PLENTY);
    struct cimaroly_memory memory = {lent.at, PLENTY};
    for (size_t room = 0; room < STATED; room++) {
        struct guarded buffer = guarded_room(room * sizeof *stated);
        size_t count = 0;
        uint32_t status = cimaroly_findings(&memory, der, SIZE, (struct cimaroly_finding *)(void *)buffer.at, room, &count);
        expect(status == CIMAROLY_BUFFER_TOO_SHORT && count == STATED, "too little room");
        expect(is_filling(buffer.at, room * sizeof *stated), "a short buffer was written");
        guarded_free(buffer);
    }
    guarded_free(lent);
}

/* From no memory up to enough. */
static void memory_is_kept_to(const uint8_t *der)
{
    struct guarded lent = guarded_room(PLENTY);
    struct cimaroly_finding found[MANY];
    size_t refused = 0;
    for (size_t size = 0; size < 16384; size += 64) {
        struct cimaroly_memory memory = {lent.at, size};
        size_t count = 7;
        memset(found, GUARD_FILL, sizeof found);
        uint32_t status = cimaroly_findings(&memory, der, SIZE, found, MANY, &count);
        bool is_enough = status == CIMAROLY_OK && count == STATED && are_stated(found);
        bool is_too_little = status == CIMAROLY_OUT_OF_MEMORY && count == 0;
        expect(is_enough || (is_too_little && is_filling((const uint8_t *)found, sizeof found)), "another answer");
        expect(memory.block == lent.at && memory.size == size, "the memory isn't the caller's again");
        refused += is_too_little ? 1 : 0;
    }
    expect(refused > 0, "memory was never refused");
    guarded_free(lent);
}

static void prefixes_are_refused(const uint8_t *der)
{
    struct cimaroly_finding found[MANY];
    for (size_t size = 0; size < SIZE; size++) {
        size_t count = 7;
        memset(found, GUARD_FILL, sizeof found);
        expect(cimaroly_findings_malloc(der, size, found, MANY, &count) == CIMAROLY_REFUSED && count == 0, "a prefix");
        expect(is_filling((const uint8_t *)found, sizeof found), "a prefix was told of");
    }
}

/*
 * A request (RFC 2986, 4) up to its signature of 64 zeros: two common names of its subject, b and a, aren't in order, and it
 * asks for a key usage with trailing zero bits.
 */
static const char request[] =
    "\x30\x81\xB6\x30\x6A\x02\x01\x00\x30\x16\x31\x14\x30\x08\x06\x03\x55\x04\x03\x0C\x01\x62\x30\x08"
    "\x06\x03\x55\x04\x03\x0C\x01\x61\x30\x2A\x30\x05\x06\x03\x2B\x65\x70\x03\x21\x00\x00\x01\x02\x03"
    "\x04\x05\x06\x07\x08\x09\x0A\x0B\x0C\x0D\x0E\x0F\x10\x11\x12\x13\x14\x15\x16\x17\x18\x19\x1A\x1B"
    "\x1C\x1D\x1E\x1F\xA0\x21\x30\x1F\x06\x09\x2A\x86\x48\x86\xF7\x0D\x01\x09\x0E\x31\x12\x30\x10\x30"
    "\x0E\x06\x03\x55\x1D\x0F\x01\x01\xFF\x04\x04\x03\x02\x06\x80\x30\x05\x06\x03\x2B\x65\x70\x03\x41"
    "\x00";

enum { FRONT = sizeof request - 1, REQUEST = FRONT + 64 };

static void requests_are_told(void)
{
    static const struct cimaroly_finding wanted[] = {
        {CIMAROLY_RULE_SUBJECT_SET_ORDER, {8, 32}},
        {CIMAROLY_RULE_KEY_USAGE_PADDED, {76, 111}},
    };
    uint8_t der[REQUEST] = {0};
    struct cimaroly_finding found[MANY] = {{0}};
    size_t count = 0;
    memcpy(der, request, FRONT);
    uint32_t status = cimaroly_request_findings_malloc(der, REQUEST, found, MANY, &count);
    expect(status == CIMAROLY_OK && count == 2, "the findings of a request");
    for (size_t i = 0; i < 2; i++) {
        expect(found[i].rule == wanted[i].rule, "a rule of a request");
        expect(found[i].at.start == wanted[i].at.start && found[i].at.end == wanted[i].at.end, "a place in a request");
    }
    status = cimaroly_request_findings_malloc(der, REQUEST, found, 1, &count);
    expect(status == CIMAROLY_BUFFER_TOO_SHORT && count == 2, "too little room for a request's");
    struct cimaroly_memory memory = {NULL, 0};
    status = cimaroly_request_findings(&memory, der, REQUEST, found, MANY, &count);
    expect(status == CIMAROLY_OUT_OF_MEMORY && count == 0, "a request without memory");
    for (size_t size = 0; size < REQUEST; size++) {
        status = cimaroly_request_findings_malloc(der, size, found, MANY, &count);
        expect(status == CIMAROLY_REFUSED && count == 0, "a prefix of a request");
    }
    expect(cimaroly_findings_malloc(der, REQUEST, found, MANY, &count) == CIMAROLY_REFUSED, "a request as a certificate");
}

static void rules_have_texts(void)
{
    size_t warnings = 0;
    for (size_t rule = CIMAROLY_RULE_SERIAL_NOT_POSITIVE; rule <= CIMAROLY_RULE_SUBJECT_ACCESS_CRITICAL; rule++) {
        expect(*cimaroly_rule_name(rule) != '\0' && *cimaroly_rule_text(rule) != '\0', "a rule without a text");
        expect(*cimaroly_rule_clause(rule) != '\0', "a rule without a clause");
        warnings += cimaroly_rule_is_warning(rule) ? 1 : 0;
    }
    expect(warnings == 11 && cimaroly_rule_is_warning(CIMAROLY_RULE_MODULUS_SHORT), "the warnings");
    expect(strcmp(cimaroly_rule_name(CIMAROLY_RULE_ISSUER_EMPTY), "issuer-empty") == 0, "a name");
    expect(strcmp(cimaroly_rule_clause(CIMAROLY_RULE_ISSUER_EMPTY), "RFC 5280, 4.1.2.4") == 0, "a clause");
    expect(strcmp(cimaroly_rule_text(CIMAROLY_RULE_ISSUER_EMPTY), "issuer is empty") == 0, "a text");
    expect(*cimaroly_rule_name(0) == '\0' && *cimaroly_rule_text(99) == '\0' && !cimaroly_rule_is_warning(99), "no rule");
}

int main(void)
{
    /* the input ends where what follows can't be read */
    struct guarded der = guarded_room(SIZE);
    memcpy(der.at, certificate, SIZE);
    findings_are_right(der.at);
    room_is_kept_to(der.at);
    memory_is_kept_to(der.at);
    prefixes_are_refused(der.at);
    requests_are_told();
    rules_have_texts();
    guarded_free(der);
    printf("%zu passed, %zu failed\n", passed, failed);
    return failed == 0 ? 0 : 1;
}
