/*
 * A target for libFuzzer. The first byte of an input says the kind and how much memory is lent; the rest is what is read.
 *
 * - What is encoded is checked as clean, and what is clean is encoded as itself.
 * - Places, spans and the signed part lie within the input, and the counts are those of the places.
 * - Nothing is written in front of a buffer or past it, nor into one that is too short, and nothing is read past the input.
 * - With less memory the answer is the same, or that the memory was too little, and the memory is given back.
 *
 * The library isn't compiled for fuzzing, so what it answers takes the place of coverage: an input is kept where its
 * error, its place, its headers or its counts are new.
 */
#include "tests/calls.h"
#include "tests/guard.h"

enum { PLENTY = 1 << 20, MOST_BYTES = 4096, FEATURES = 1 << 16, MOST_AROUND = 16 };

__attribute__((section("__libfuzzer_extra_counters"))) static uint8_t features[FEATURES];

int LLVMFuzzerTestOneInput(const uint8_t *data, size_t size);
size_t LLVMFuzzerCustomMutator(uint8_t *data, size_t size, size_t room, unsigned seed);
size_t LLVMFuzzerMutate(uint8_t *data, size_t size, size_t room);

/* What every run works in, which is mapped anew only where it is to be larger. */
static struct guarded lent;
static struct guarded input;
static struct guarded out;
static struct guarded less;

static void lay(struct guarded *memory, size_t size)
{
    if (memory->mapped != NULL && size < memory->room) {
        guarded_lay(memory, size);
        return;
    }
    guarded_free(*memory);
    *memory = guarded_room(size);
}

static void must(bool is_so, const char *what)
{
    if (is_so)
        return;
    fprintf(stderr, "broken: %s\n", what);
    abort();
}

static void is_new(size_t which, size_t value)
{
    features[(which * 2654435761u + value * 40503u) % FEATURES] = 1;
}

static size_t sum(const size_t *counts)
{
    size_t total = 0;
    for (size_t i = 0; i < 10; i++)
        total += counts[i];
    return total;
}

static void lies_within(struct cimaroly_span span, size_t size)
{
    must(span.start <= span.end && span.end <= size, "a span lies within the input");
    must(span.end == 0 || span.start < span.end, "a span is empty");
}

/* Asks a call with plenty of memory and a buffer of so many bytes. */
static struct told told_by(const struct call *call, uint32_t kind, const uint8_t *der, size_t der_size, uint8_t *buffer,
                           size_t buffer_size)
{
    struct cimaroly_memory memory = {lent.at, PLENTY};
    struct given given = {kind, der, der_size, buffer, buffer_size};
    struct told told;
    ask(call, &memory, given, &told);
    must(memory.block == lent.at && memory.size == PLENTY, "the memory is given back");
    return told;
}

/* Asks for the size, and then again with just that room, into `out`. */
static struct told told_exactly(const struct call *call, uint32_t kind, const uint8_t *der, size_t der_size)
{
    struct told first = told_by(call, kind, der, der_size, input.at, 0);
    size_t size = call->unit * (first.status == CIMAROLY_BUFFER_TOO_SHORT ? first.count : 0);
    lay(&out, size);
    struct told told = told_by(call, kind, der, der_size, out.at, size);
    must(is_front_whole(out), "bytes in front of a buffer");
    must(first.status == told.status || (first.status == CIMAROLY_BUFFER_TOO_SHORT && told.status == CIMAROLY_OK),
         "the status of an exact buffer");
    must(told.status != CIMAROLY_OK || first.count == told.count, "the size that was told");
    if (size > 0) {
        lay(&less, size - 1);
        struct told other = told_by(call, kind, der, der_size, less.at, size - 1);
        must(other.status == CIMAROLY_BUFFER_TOO_SHORT && other.count == told.count, "a buffer that is too short");
        must(is_filling(less.at, size - 1), "a buffer that is too short was written");
    }
    return told;
}

static void encoding_is_clean(uint32_t kind, const uint8_t *der, size_t der_size, bool is_clean)
{
    struct told told = told_exactly(&calls[ENCODE], kind, der, der_size);
    must(told.status == CIMAROLY_OK, "what is read is encoded");
    must(!is_clean || (told.count == der_size && memcmp(out.at, der, der_size) == 0), "what is clean is encoded as itself");
    must(is_clean || told.count != der_size || memcmp(out.at, der, der_size) != 0, "what deviates is encoded as itself");
    struct told again = told_by(&calls[CHECK], kind, out.at, told.count, input.at, 0);
    must(again.status == CIMAROLY_OK && sum(again.of.verdict.counts) == 0, "what is encoded is clean");
}

static void places_lie_within(uint32_t kind, const uint8_t *der, size_t der_size, struct cimaroly_verdict verdict)
{
    struct told told = told_exactly(&calls[PLACES], kind, der, der_size);
    struct cimaroly_place place = {0, 0, 0};
    size_t before = 0;
    must(told.status == CIMAROLY_OK && told.count == sum(verdict.counts), "as many places as deviations");
    for (size_t i = 0; i < told.count; i++) {
        memcpy(&place, out.at + i * sizeof place, sizeof place);
        must(place.start < place.end && place.end <= der_size, "a place lies within the input");
        must(place.deviation >= 1 && place.deviation <= 10 && verdict.counts[place.deviation - 1]-- > 0, "a count");
        must(before <= place.start, "places are in order");
        before = place.start;
    }
}

static void signed_part_lies_within(uint32_t kind, const uint8_t *der, size_t der_size, const size_t *counts)
{
    struct told told = told_by(&calls[SIGNED_PART], kind, der, der_size, input.at, 0);
    must(told.status == CIMAROLY_OK, "the signed part of what is read");
    lies_within(told.of.part.part, der_size);
    for (size_t i = 0; i < 10; i++)
        must(told.of.part.inside[i] + told.of.part.outside[i] == counts[i], "inside and outside are all");
}

static void fields_lie_within(const struct call *call, uint32_t kind, const uint8_t *der, size_t der_size, size_t count)
{
    struct cimaroly_span spans[sizeof(struct cimaroly_certificate) / sizeof(struct cimaroly_span)];
    struct told told = told_by(call, kind, der, der_size, input.at, 0);
    must(told.status == CIMAROLY_OK, "the fields of what is read");
    memcpy(spans, told.of.bytes, sizeof spans);
    for (size_t i = 0; i < count; i++)
        lies_within(spans[i], der_size);
}

static void extensions_lie_within(uint32_t kind, const uint8_t *der, size_t der_size)
{
    struct told told = told_exactly(&calls[EXTENSION_PLACES], kind, der, der_size);
    struct cimaroly_extension extension;
    must(told.status == CIMAROLY_OK, "the extensions of what is read");
    for (size_t i = 0; i < told.count; i++) {
        memcpy(&extension, out.at + i * sizeof extension, sizeof extension);
        lies_within(extension.whole, der_size);
        lies_within(extension.extn_id, extension.whole.end);
        lies_within(extension.critical, extension.whole.end);
        lies_within(extension.extn_value, extension.whole.end);
        must(extension.whole.start < extension.extn_id.start, "an extension begins before its fields");
        must(extension.extn_value.end == extension.whole.end, "an extension ends with its value");
    }
}

/* The same answer with less memory, or that it was too little. */
static void memory_is_kept_to(uint32_t kind, const uint8_t *der, size_t der_size, size_t size, size_t status)
{
    lay(&less, size);
    struct cimaroly_memory memory = {less.at, size};
    struct given given = {kind, der, der_size, input.at, 0};
    struct told told;
    ask(&calls[CHECK], &memory, given, &told);
    must(told.status == status || told.status == CIMAROLY_OUT_OF_MEMORY, "the answer with less memory");
    must(told.status != CIMAROLY_OUT_OF_MEMORY || told.of.verdict.error == CIMAROLY_ERROR_OUT_OF_MEMORY, "its error");
    must(memory.block == less.at && memory.size == size, "less memory is given back");
    must(is_front_whole(less), "bytes in front of the memory");
}

static void look_into(uint32_t kind, const uint8_t *der, size_t der_size, struct cimaroly_verdict verdict)
{
    encoding_is_clean(kind, der, der_size, sum(verdict.counts) == 0);
    places_lie_within(kind, der, der_size, verdict);
    if (is_for(&calls[SIGNED_PART], kind))
        signed_part_lies_within(kind, der, der_size, verdict.counts);
    if (is_for(&calls[CERTIFICATE_FIELDS], kind))
        fields_lie_within(&calls[CERTIFICATE_FIELDS], kind, der, der_size, 13);
    if (is_for(&calls[REQUEST_FIELDS], kind))
        fields_lie_within(&calls[REQUEST_FIELDS], kind, der, der_size, 7);
    if (is_for(&calls[PRIVATE_KEY_FIELDS], kind))
        fields_lie_within(&calls[PRIVATE_KEY_FIELDS], kind, der, der_size, 5);
    if (is_for(&calls[EXTENSION_PLACES], kind))
        extensions_lie_within(kind, der, der_size);
}

static void report_is_text(uint32_t kind, const uint8_t *der, size_t der_size)
{
    struct told told = told_exactly(&calls[REPORT], kind, der, der_size);
    must(told.status == CIMAROLY_OK && told.count > 1, "every input has a report");
    must(out.at[0] == '{' && out.at[told.count - 1] == '}', "a report is an object");
    for (size_t i = 0; i < told.count; i++)
        must(out.at[i] >= ' ' && out.at[i] != 0x7f, "a report has no controls");
}

int LLVMFuzzerTestOneInput(const uint8_t *data, size_t size)
{
    if (size == 0 || size > MOST_BYTES)
        return 0;
    if (lent.at == NULL)
        lay(&lent, PLENTY);
    uint32_t kind = data[0] % 11 + 1;
    size_t memory = (size_t)data[0] / 11 * 512;
    size_t der_size = size - 1;
    lay(&input, der_size);
    memcpy(input.at, data + 1, der_size);

    struct told told = told_by(&calls[CHECK], kind, input.at, der_size, input.at, 0);
    must(told.status == CIMAROLY_OK || told.status == CIMAROLY_REFUSED, "a check says yes or no");
    must((told.status == CIMAROLY_OK) == (told.of.verdict.error == 0), "an error where there is one");
    must(told.of.verdict.at <= der_size && told.of.verdict.error <= 15, "an error lies within the input");
    must(told.of.verdict.headers <= der_size / 2 + 1, "at most half as many headers as bytes, and one");
    is_new(kind + 16 * told.of.verdict.error, told.of.verdict.headers);
    is_new(kind + 1024, told.of.verdict.at);
    for (size_t i = 0; i < 10; i++)
        is_new(kind + 2048 + i, told.of.verdict.counts[i]);
    memory_is_kept_to(kind, input.at, der_size, memory, told.status);
    report_is_text(kind, input.at, der_size);
    if (told.status == CIMAROLY_OK)
        look_into(kind, input.at, der_size, told.of.verdict);
    must(is_front_whole(input) && memcmp(input.at, data + 1, der_size) == 0, "the input is as it was");
    must(is_front_whole(lent), "bytes in front of the memory");
    return 0;
}

/* An element of the input, and the headers around it. */
struct path {
    size_t at;
    size_t content;
    size_t end;
    size_t around[MOST_AROUND];
    size_t depth;
};

/* Where an element's content stands. False where the bytes at that place are none. */
static bool find_element(const uint8_t *data, size_t size, size_t at, struct path *path)
{
    if (size < 2 || at > size - 2)
        return false;
    size_t digits = data[at + 1] > 128 ? data[at + 1] - (size_t)128 : 0;
    size_t length = digits > 0 ? 0 : data[at + 1];
    if (digits > 2 || at + 2 + digits > size)
        return false;
    for (size_t i = 0; i < digits; i++)
        length = length << 8 | data[at + 2 + i];
    path->at = at;
    path->content = at + 2 + digits;
    path->end = path->content + length;
    return path->end <= size;
}

/* Walks some steps, into an element or behind it; into strings too, of which many hold an element. */
static bool find_any(const uint8_t *data, size_t size, unsigned steps, struct path *path)
{
    struct path next;
    path->depth = 0;
    if (!find_element(data, size, 1, path))
        return false;
    for (; steps > 0; steps--) {
        size_t skipped = data[path->at] == 0x03 ? 1 : 0;
        bool is_inner = (data[path->at] & 0x20) != 0 || data[path->at] == 0x04 || skipped > 0;
        if (is_inner && path->depth < MOST_AROUND && path->content + skipped < path->end &&
            find_element(data, path->end, path->content + skipped, &next)) {
            path->around[path->depth++] = path->at;
        } else if (!find_element(data, size, path->end, &next)) {
            return true;
        }
        path->at = next.at;
        path->content = next.content;
        path->end = next.end;
        while (path->depth > 0) {
            /* (what ends around it is left) */
            struct path outer;
            if (!find_element(data, size, path->around[path->depth - 1], &outer) || path->at < outer.end)
                break;
            path->depth--;
        }
    }
    return true;
}

/* Makes a length larger or smaller. False where it would have another number of digits. */
static bool change_length(uint8_t *data, size_t size, size_t at, ptrdiff_t change)
{
    struct path path;
    if (!find_element(data, size, at, &path))
        return false;
    size_t length = (size_t)((ptrdiff_t)(path.end - path.content) + change);
    size_t digits = path.content - at - 2;
    size_t wanted = length < 128 ? 0 : (length < 256 ? 1 : 2);
    if (digits != wanted || length > 65535)
        return false;
    if (digits == 0)
        data[at + 1] = (uint8_t)length;
    for (size_t i = 0; i < digits; i++)
        data[at + 2 + i] = (uint8_t)(length >> 8 * (digits - 1 - i) & 0xff);
    return true;
}

/* Takes an element away, or doubles it, and makes the lengths around it fit. The new size; 0 where they can't. */
static size_t splice(uint8_t *data, size_t size, size_t room, const struct path *path, bool is_doubled)
{
    size_t part = path->end - path->at;
    if (is_doubled && part > room - size)
        return 0;
    for (size_t i = 0; i < path->depth; i++)
        if (!change_length(data, size + part, path->around[i], is_doubled ? (ptrdiff_t)part : -(ptrdiff_t)part))
            return 0;
    if (is_doubled)
        memmove(data + path->end, data + path->at, size - path->at);
    else
        memmove(data + path->at, data + path->end, size - path->end);
    return is_doubled ? size + part : size - part;
}

/*
 * Exchanges a tag, changes a content, or takes an element away or doubles it; else what libFuzzer does by itself, to a
 * content or to all.
 */
size_t LLVMFuzzerCustomMutator(uint8_t *data, size_t size, size_t room, unsigned seed)
{
    static const uint8_t tags[] = {0x01, 0x02, 0x03, 0x04, 0x05, 0x06, 0x0c, 0x13, 0x16, 0x17, 0x18, 0x1e,
                                   0x30, 0x31, 0x80, 0x81, 0x82, 0xa0, 0xa1, 0xa2, 0xa3, 0xa4};
    struct path path;
    unsigned how = seed % 8;
    unsigned choice = seed / 8 % 128;
    unsigned value = seed / 1024;
    if (how == 0 || !find_any(data, size, choice, &path))
        return LLVMFuzzerMutate(data, size, room);
    size_t length = path.end - path.content;
    if (how <= 3) {
        size_t spliced = splice(data, size, room, &path, how == 3);
        return spliced > 0 ? spliced : LLVMFuzzerMutate(data, size, room);
    }
    if (how == 4 || length == 0)
        data[path.at] = tags[value % sizeof tags];
    else if (how == 5)
        LLVMFuzzerMutate(data + path.content, length, length);
    else
        data[path.content + value % length] = (uint8_t)(value >> 12);
    return size;
}
