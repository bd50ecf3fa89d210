/* Every call of cimaroly.h in one form, so that a test can go over them. */
#ifndef CIMAROLY_TESTS_CALLS_H
#define CIMAROLY_TESTS_CALLS_H

#include "cimaroly.h"

#include <string.h>

/* An input, and the buffer that a call may write to. */
struct given {
    uint32_t kind;
    const uint8_t *der;
    size_t der_size;
    uint8_t *out;
    size_t out_size;
};

/* What a call writes beside its buffer. */
struct told {
    size_t status;
    size_t count;
    union {
        struct cimaroly_verdict verdict;
        struct cimaroly_signed part;
        struct cimaroly_certificate certificate;
        struct cimaroly_request request;
        struct cimaroly_private_key private_key;
        struct cimaroly_crl crl;
        uint8_t bytes[sizeof(struct cimaroly_certificate)];
    } of;
};

enum { ANY_KIND = 0, SIGNED_KINDS = 100, EXTENSIONS_KINDS = 101 };

/* A call over lent memory, its form over malloc, or NULL for a call that takes no memory, the size of what its buffer takes,
 * or 0, that of what it writes beside a buffer, or 0, and which kind it is for. */
struct call {
    const char *name;
    uint32_t (*lent)(struct cimaroly_memory *memory, struct given given, struct told *told);
    uint32_t (*over_malloc)(struct given given, struct told *told);
    size_t unit;
    size_t result;
    uint32_t kind;
};

#define GIVEN_BUFFER(type) (type *)(void *)given.out, given.out_size / sizeof(type), &told->count
#define GIVEN_KIND_AND_INPUT given.kind, given.der, given.der_size
#define GIVEN_INPUT given.der, given.der_size
#define DEFINE_CALL(name, ...)                                                                                       \
    static inline uint32_t lent_##name(struct cimaroly_memory *memory, struct given given, struct told *told)        \
    {                                                                                                                \
        return cimaroly_##name(memory, __VA_ARGS__);                                                                 \
    }                                                                                                                \
    static inline uint32_t malloc_##name(struct given given, struct told *told)                                      \
    {                                                                                                                \
        return cimaroly_##name##_malloc(__VA_ARGS__);                                                                \
    }

#define DEFINE_LOOK(name, ...)                                                                                       \
    static inline uint32_t lent_##name(struct cimaroly_memory *memory, struct given given, struct told *told)        \
    {                                                                                                                \
        (void)memory;                                                                                                \
        return cimaroly_##name(__VA_ARGS__);                                                                         \
    }

DEFINE_LOOK(check, GIVEN_KIND_AND_INPUT, &told->of.verdict)
DEFINE_CALL(encode, GIVEN_KIND_AND_INPUT, GIVEN_BUFFER(uint8_t))
DEFINE_CALL(places, GIVEN_KIND_AND_INPUT, GIVEN_BUFFER(struct cimaroly_place))
DEFINE_LOOK(signed_part, GIVEN_KIND_AND_INPUT, &told->of.part)
DEFINE_LOOK(certificate_fields, GIVEN_INPUT, &told->of.certificate)
DEFINE_LOOK(request_fields, GIVEN_INPUT, &told->of.request)
DEFINE_LOOK(private_key_fields, GIVEN_INPUT, &told->of.private_key)
DEFINE_LOOK(certificate_outline_fields, GIVEN_INPUT, &told->of.certificate)
DEFINE_LOOK(request_outline_fields, GIVEN_INPUT, &told->of.request)
DEFINE_LOOK(private_key_outline_fields, GIVEN_INPUT, &told->of.private_key)
DEFINE_LOOK(crl_fields, GIVEN_INPUT, &told->of.crl)
DEFINE_LOOK(extensions, GIVEN_KIND_AND_INPUT, GIVEN_BUFFER(struct cimaroly_extension))
DEFINE_CALL(report, GIVEN_KIND_AND_INPUT, false, GIVEN_BUFFER(uint8_t))

#define CALL(name, unit, result, kind) {#name, lent_##name, malloc_##name, unit, result, kind}
#define LOOK(name, unit, result, kind) {#name, lent_##name, NULL, unit, result, kind}

enum call_number { CHECK, ENCODE, PLACES, SIGNED_PART, CERTIFICATE_FIELDS, REQUEST_FIELDS, PRIVATE_KEY_FIELDS,
                   CERTIFICATE_OUTLINE_FIELDS, REQUEST_OUTLINE_FIELDS, PRIVATE_KEY_OUTLINE_FIELDS, CRL_FIELDS,
                   EXTENSION_PLACES, REPORT, CALLS };

static const struct call calls[CALLS] = {
    LOOK(check, 0, sizeof(struct cimaroly_verdict), ANY_KIND),
    CALL(encode, 1, 0, ANY_KIND),
    CALL(places, sizeof(struct cimaroly_place), 0, ANY_KIND),
    LOOK(signed_part, 0, sizeof(struct cimaroly_signed), SIGNED_KINDS),
    LOOK(certificate_fields, 0, sizeof(struct cimaroly_certificate), CIMAROLY_CERTIFICATE),
    LOOK(request_fields, 0, sizeof(struct cimaroly_request), CIMAROLY_REQUEST),
    LOOK(private_key_fields, 0, sizeof(struct cimaroly_private_key), CIMAROLY_PRIVATE_KEY),
    LOOK(certificate_outline_fields, 0, sizeof(struct cimaroly_certificate), CIMAROLY_CERTIFICATE_OUTLINE),
    LOOK(request_outline_fields, 0, sizeof(struct cimaroly_request), CIMAROLY_REQUEST_OUTLINE),
    LOOK(private_key_outline_fields, 0, sizeof(struct cimaroly_private_key), CIMAROLY_PRIVATE_KEY_OUTLINE),
    LOOK(crl_fields, 0, sizeof(struct cimaroly_crl), CIMAROLY_CRL),
    LOOK(extensions, sizeof(struct cimaroly_extension), 0, EXTENSIONS_KINDS),
    CALL(report, 1, 0, ANY_KIND),
};

/* Whether a call can be asked about a kind. */
static inline bool is_for(const struct call *call, uint32_t kind)
{
    switch (call->kind) {
    case ANY_KIND:
        return true;
    case SIGNED_KINDS:
        return kind == CIMAROLY_CERTIFICATE || kind == CIMAROLY_REQUEST || kind == CIMAROLY_CERTIFICATE_OUTLINE
               || kind == CIMAROLY_REQUEST_OUTLINE || kind == CIMAROLY_CRL;
    case EXTENSIONS_KINDS:
        return kind == CIMAROLY_CERTIFICATE || kind == CIMAROLY_EXTENSIONS;
    default:
        return kind == call->kind;
    }
}

/* Asks a call over lent memory. What it doesn't write is set to one value. */
static inline void ask(const struct call *call, struct cimaroly_memory *memory, struct given given, struct told *told)
{
    memset(told, 0xA5, sizeof *told);
    told->status = call->lent(memory, given, told);
}

/* Whether two calls told the same, beside their buffers. */
static inline bool is_same_told(const struct told *told, const struct told *other)
{
    return told->status == other->status && told->count == other->count &&
           memcmp(told->of.bytes, other->of.bytes, sizeof told->of.bytes) == 0;
}

#endif
