/*
 * Goes over the rows of bindings/tests/table.tsv with every call: what is told is what the table states, with each size
 * of lent memory it is that or "out of memory", and nothing is written past a buffer or in front of one.
 *
 * usage: test_cimaroly FOLDER [SHARE]   FOLDER is that of the repository, SHARE by which share of it lent memory grows
 *        from one try to the next: by an eighth, where none is given. The last line is 'N passed, M failed'.
 */
#include "calls.h"
#include "fields.h"
#include "guard.h"
#include "table.h"

enum { PLENTY = 1 << 18, ROOM = 1 << 16 };

static size_t passed;
static size_t failed;
static size_t share = 8;

static void expect(bool is_so, const struct row *row, const char *call, const char *what)
{
    if (is_so) {
        passed++;
        return;
    }
    failed++;
    printf("%s: %s: %s\n", row->cells[NAME], call, what);
}

/* A number up to the text behind it, which is passed over; or 0. */
static size_t number(const char **text)
{
    char *end;
    size_t value = (size_t)strtoull(*text, &end, 10);
    *text = end;
    while (**text != '\0' && strchr("@.=, ", **text) != NULL)
        (*text)++;
    return value;
}

static struct cimaroly_span span(const char **text)
{
    struct cimaroly_span found;
    found.start = number(text);
    found.end = number(text);
    return found;
}

static bool is_span(struct cimaroly_span span, struct cimaroly_span other)
{
    return span.start == other.start && span.end == other.end;
}

static uint32_t stated_status(const struct row *row)
{
    return is_text(row->cells[RESULT], "refused") ? CIMAROLY_REFUSED : CIMAROLY_OK;
}

/* The deviations that a row states. */
static size_t stated_places(const struct row *row, struct cimaroly_place *places)
{
    size_t count = 0;
    const char *text = row->cells[DEVIATIONS];
    if (is_text(text, "-"))
        return 0;
    for (; *text != '\0'; count++) {
        places[count].deviation = number(&text);
        places[count].start = number(&text);
        places[count].end = number(&text);
    }
    return count;
}

static void check_is_right(const struct row *row, const struct told *told)
{
    struct cimaroly_verdict verdict = told->of.verdict;
    struct cimaroly_place places[16];
    size_t count = stated_places(row, places);
    const char *error = row->cells[ERROR];
    for (size_t i = 0; i < count; i++)
        verdict.counts[places[i].deviation - 1]--;
    for (size_t i = 0; i < 10; i++)
        expect(verdict.counts[i] == 0, row, "check", "a count");
    if (!is_text(error, "-")) {
        size_t reason = number(&error);
        size_t at = number(&error);
        expect(verdict.error == reason, row, "check", "the error");
        expect(verdict.at == at, row, "check", "the error's place");
    }
    expect((verdict.error != 0) == (told->status == CIMAROLY_REFUSED), row, "check", "an error where there is none");
    expect(verdict.headers > 0 || row->der_size == 0, row, "check", "the headers");
    expect(verdict.headers <= row->der_size / 2 + 1, row, "check", "more headers than there can be");
}

static void encode_is_right(const struct row *row, const struct told *told, const uint8_t *out)
{
    bool is_same = is_text(row->cells[ENCODING], "same");
    size_t size = 0;
    uint8_t *stated = is_same ? NULL : decode_hex(row->cells[ENCODING], &size);
    if (is_same)
        size = row->der_size;
    expect(told->count == size && memcmp(out, is_same ? row->der : stated, size) == 0, row, "encode", "the bytes");
    free(stated);
}

static void places_are_right(const struct row *row, const struct told *told, const uint8_t *out)
{
    struct cimaroly_place stated[16];
    size_t count = stated_places(row, stated);
    expect(told->count == count && memcmp(out, stated, count * sizeof *stated) == 0, row, "places", "the places");
}

static void signed_part_is_right(const struct row *row, const struct told *told)
{
    struct cimaroly_signed part = told->of.part;
    struct cimaroly_place places[16];
    const char *text = row->cells[SIGNED];
    size_t count = stated_places(row, places);
    expect(is_span(part.part, span(&text)), row, "signed_part", "its place");
    for (size_t i = 0; i < count; i++) {
        bool is_inside = part.part.start <= places[i].start && places[i].end <= part.part.end;
        (is_inside ? part.inside : part.outside)[places[i].deviation - 1]--;
    }
    for (size_t i = 0; i < 10; i++)
        expect(part.inside[i] == 0 && part.outside[i] == 0, row, "signed_part", "a count");
}

/* The place of a field that a row states, or no place. */
static struct cimaroly_span stated_field(const struct row *row, const char *name)
{
    struct cimaroly_span none = {0, 0};
    size_t size = strlen(name);
    const char *text = row->cells[FIELDS];
    while (text != NULL && *text != '\0') {
        if (strncmp(text, name, size) == 0 && text[size] == '=') {
            text += size + 1;
            return span(&text);
        }
        text = strchr(text, ' ');
        text = text != NULL ? text + 1 : NULL;
    }
    return none;
}

static void fields_are_right(const struct row *row, const struct told *told, const char *call)
{
    const char *const *names = names_of(row->kind);
    struct cimaroly_span fields[13];
    memcpy(fields, told->of.bytes, sizeof fields);
    for (size_t i = 0; names[i] != NULL; i++)
        expect(is_span(fields[i], stated_field(row, names[i])), row, call, names[i]);
}

static void extensions_are_right(const struct row *row, const struct told *told, const uint8_t *out)
{
    struct cimaroly_span found[4];
    const char *text = row->cells[EXTENSIONS];
    size_t count = 0;
    for (text = strchr(text, '='); text != NULL; text = strchr(text, '='), count++) {
        text++;
        if (count < told->count)
            memcpy(found, out + count * sizeof found, sizeof found);
        for (size_t i = 0; i < 4; i++)
            expect(count < told->count && is_span(found[i], span(&text)), row, "extensions", "a place");
    }
    expect(told->count == count, row, "extensions", "their number");
}

/* The report of what is refused ends in the field, where one is stated. */
static void field_is_right(const struct row *row, const char *report)
{
    char stated[160];
    snprintf(stated, sizeof stated, ",\"field\":\"%s\"}", row->cells[FIELD]);
    size_t size = strlen(report), wanted = strlen(stated);
    if (is_text(row->cells[FIELD], "none"))
        expect(strstr(report, "\"field\"") == NULL, row, "report", "a field where there is none");
    else if (!is_text(row->cells[FIELD], "-"))
        expect(size > wanted && is_text(report + size - wanted, stated), row, "report", "the field");
}

static void report_is_right(const struct row *row, const struct told *told, uint8_t *out)
{
    char stated[64], type[64];
    snprintf(stated, sizeof stated, "\"result\":\"%s\"", row->cells[RESULT]);
    snprintf(type, sizeof type, "{\"type\":\"%s\",", row->cells[KIND]);
    out[told->count] = '\0';
    field_is_right(row, (const char *)out);
    expect(strncmp((char *)out, type, strlen(type)) == 0 && out[told->count - 1] == '}', row, "report", "an object");
    expect(strstr((char *)out, stated) != NULL, row, "report", "the result");
    expect(told->count == strlen((char *)out), row, "report", "the size");
}

/* The report of a row, as text. */
static char *report_of(const struct row *row, bool secrets)
{
    char *text = calloc(1, ROOM);
    size_t size = 0;
    if (text == NULL)
        stop("no memory", row->cells[NAME]);
    uint32_t status =
        cimaroly_report_malloc(row->kind, row->der, row->der_size, secrets, (uint8_t *)text, ROOM - 1, &size);
    expect(status == CIMAROLY_OK && size == strlen(text), row, "report", "the status, or the size");
    return text;
}

/* Private keys alone have secrets, which are told where they are asked for. */
static void secrets_are_hidden(const struct row *row)
{
    bool has_secrets = row->kind == CIMAROLY_PRIVATE_KEY || row->kind == CIMAROLY_RSA_PRIVATE_KEY ||
                       row->kind == CIMAROLY_EC_PRIVATE_KEY || row->kind == CIMAROLY_PRIVATE_KEY_OUTLINE;
    char *hidden = report_of(row, false);
    char *shown = report_of(row, true);
    has_secrets = has_secrets && stated_status(row) == CIMAROLY_OK;
    expect((strstr(hidden, "\"hidden\":") != NULL) == has_secrets, row, "report", "what is hidden");
    expect(strstr(shown, "\"hidden\":") == NULL, row, "report", "a secret that was asked for is hidden");
    expect(is_text(hidden, shown) != has_secrets, row, "report", "secrets make another difference");
    free(hidden);
    free(shown);
}

/* What a call with plenty of memory and room tells is what the row states. */
static void is_as_stated(const struct row *row, enum call_number which, const struct told *told, uint8_t *out)
{
    uint32_t status = which == REPORT ? (uint32_t)CIMAROLY_OK : stated_status(row);
    expect(told->status == status, row, calls[which].name, "the status");
    if (told->status != CIMAROLY_OK && which != CHECK)
        return;
    switch (which) {
    case CHECK:
        check_is_right(row, told);
        break;
    case ENCODE:
        encode_is_right(row, told, out);
        break;
    case PLACES:
        places_are_right(row, told, out);
        break;
    case SIGNED_PART:
        signed_part_is_right(row, told);
        break;
    case EXTENSION_PLACES:
        extensions_are_right(row, told, out);
        break;
    case REPORT:
        report_is_right(row, told, out);
        break;
    default:
        fields_are_right(row, told, calls[which].name);
    }
}

/* The two digits at a place. */
static unsigned two_digits(const uint8_t *text)
{
    return (unsigned)(text[0] - '0') * 10 + (unsigned)(text[1] - '0');
}

/* Seconds since 1970, by going through the days. */
static int64_t counted_seconds(const struct cimaroly_time *time)
{
    static const int lengths[] = {31, 28, 31, 30, 31, 30, 31, 31, 30, 31, 30, 31};
    int64_t days = time->day - 1;
    for (int year = 0, month = 1; year != time->year || month != time->month;) {
        bool is_leap = year % 4 == 0 && (year % 100 != 0 || year % 400 == 0);
        days += lengths[month - 1] + (month == 2 && is_leap);
        year += month == 12;
        month = month % 12 + 1;
    }
    return (((days - 719528) * 24 + time->hour) * 60 + time->minute) * 60 + time->second;
}

/* The time of an element, which is a UTCTime or a GeneralizedTime. */
static bool is_time_of(const struct cimaroly_time *time, const uint8_t *element)
{
    bool is_utc = element[0] == 0x17;
    const uint8_t *text = element + 2 + (is_utc ? 0 : 2);
    unsigned century = is_utc ? (two_digits(text) < 50 ? 20 : 19) : two_digits(text - 2);
    return time->year == century * 100 + two_digits(text) && time->month == two_digits(text + 2) &&
           time->day == two_digits(text + 4) && time->hour == two_digits(text + 6) &&
           time->minute == two_digits(text + 8) && time->second == two_digits(text + 10) &&
           time->unix_time == counted_seconds(time);
}

/* The times of a certificate are those that stand in it, and all zeros are told of what is none. */
static void validity_is_right(const struct row *row)
{
    struct cimaroly_certificate fields;
    struct cimaroly_time times[2];
    memset(times, GUARD_FILL, sizeof times);
    uint32_t status = cimaroly_validity(row->der, row->der_size, &times[0], &times[1]);
    expect(status == cimaroly_certificate_fields(row->der, row->der_size, &fields), row, "validity", "the status");
    if (status == CIMAROLY_OK) {
        const uint8_t *first = row->der + fields.validity.start + 2;
        expect(is_time_of(&times[0], first), row, "validity", "the first second");
        expect(is_time_of(&times[1], first + 2 + first[1]), row, "validity", "the last second");
    } else {
        expect(times[0].unix_time == 0 && times[0].year == 0 && times[0].month == 0, row, "validity", "no time");
        expect(times[1].unix_time == 0 && times[1].year == 0 && times[1].month == 0, row, "validity", "no time");
    }
}

static struct given given_of(const struct row *row, uint8_t *out, size_t out_size)
{
    struct given given = {row->kind, row->der, row->der_size, out, out_size};
    return given;
}

/* What a call that isn't done writes beside its buffer is zeros, but for why, where and after how many headers. */
static void writes_zeros(const struct row *row, const struct call *call, const struct told *told)
{
    struct told zeros = *told;
    if (told->status == CIMAROLY_OK || told->status == CIMAROLY_BUFFER_TOO_SHORT)
        return;
    if (call == &calls[CHECK] && told->status == CIMAROLY_REFUSED)
        zeros.of.verdict.headers = zeros.of.verdict.error = zeros.of.verdict.at = 0;
    for (size_t i = 0; i < call->result; i++)
        expect(zeros.of.bytes[i] == 0, row, call->name, "what isn't told isn't zeros");
    expect(call->unit == 0 || told->count == 0, row, call->name, "a count of nothing");
}

/* Whether a call may answer that the memory was too little. */
static bool may_need_memory(const struct call *call, const struct told *right)
{
    return call != &calls[PLACES] || right->status != CIMAROLY_OK || right->count > 0;
}

/* With so much lent memory the answer is the one with plenty of it, or that the memory was too little. */
static size_t is_same_with(const struct row *row, const struct call *call, const struct told *right, const uint8_t *out,
                             size_t size)
{
    size_t used = right->status == CIMAROLY_OK ? right->count * call->unit : 0;
    struct guarded lent = guarded_room((size + 15) / 16 * 16);
    struct guarded buffer = guarded_room(used);
    struct cimaroly_memory memory = {lent.at, size};
    struct told told;
    ask(call, &memory, given_of(row, buffer.at, used), &told);
    expect(memory.block == lent.at && memory.size == size, row, call->name, "the memory isn't given back");
    expect(is_front_whole(lent) && is_front_whole(buffer), row, call->name, "bytes in front of a buffer");
    if (told.status == CIMAROLY_OUT_OF_MEMORY) {
        expect(may_need_memory(call, right), row, call->name, "memory that isn't needed");
        expect(is_filling(buffer.at, used), row, call->name, "the buffer, with too little memory");
        writes_zeros(row, call, &told);
    } else {
        expect(is_same_told(&told, right), row, call->name, "another answer, with less memory");
        expect(memcmp(buffer.at, out, used) == 0, row, call->name, "other bytes, with less memory");
    }
    guarded_free(lent);
    guarded_free(buffer);
    return told.status;
}

/* From no memory up to some sizes that are enough, in steps of 16 bytes and then larger ones; and with plenty. What stands
 * behind the last multiple of 16 changes nothing. */
static void memory_is_kept_to(const struct row *row, const struct call *call, const struct told *right, const uint8_t *out)
{
    size_t enough = 0;
    for (size_t size = 0; size < PLENTY && enough < 4; size += size < 16 * share ? 16 : size / share / 16 * 16)
        enough = is_same_with(row, call, right, out, size) == CIMAROLY_OUT_OF_MEMORY ? 0 : enough + 1;
    expect(is_same_with(row, call, right, out, PLENTY + 1) == right->status, row, call->name, "too little memory, and a byte");
    expect(is_same_with(row, call, right, out, PLENTY - 1) == right->status, row, call->name, "less by a byte");
    expect(is_same_with(row, call, right, out, PLENTY) == right->status, row, call->name, "too little memory is plenty");
}

/* In a buffer that is too short nothing is written, and the size that is needed is told. */
static void short_buffer_is_kept(const struct row *row, const struct call *call, const struct told *right)
{
    if (call->unit == 0 || right->status != CIMAROLY_OK || right->count == 0)
        return;
    struct guarded lent = guarded_room(PLENTY);
    for (size_t room = 0; room < right->count; room += right->count > 8 ? right->count / 8 : 1) {
        struct guarded buffer = guarded_room(room * call->unit);
        struct cimaroly_memory memory = {lent.at, PLENTY};
        struct told told;
        ask(call, &memory, given_of(row, buffer.at, room * call->unit), &told);
        expect(told.status == CIMAROLY_BUFFER_TOO_SHORT, row, call->name, "the status, with a short buffer");
        expect(told.count == right->count, row, call->name, "the size, with a short buffer");
        expect(is_filling(buffer.at, room * call->unit), row, call->name, "a short buffer was written");
        guarded_free(buffer);
    }
    guarded_free(lent);
}

/* The form over malloc tells the same. */
static void malloc_tells_the_same(const struct row *row, const struct call *call, const struct told *right,
                                  const uint8_t *out)
{
    struct guarded buffer = guarded_room(ROOM);
    struct told told;
    memset(&told, GUARD_FILL, sizeof told);
    told.status = call->over_malloc(given_of(row, buffer.at, ROOM), &told);
    expect(is_same_told(&told, right), row, call->name, "another answer, over malloc");
    expect(right->status != CIMAROLY_OK || call->unit == 0 || memcmp(buffer.at, out, right->count * call->unit) == 0,
           row, call->name, "other bytes, over malloc");
    guarded_free(buffer);
}

static void test_call(const struct row *row, enum call_number which)
{
    const struct call *call = &calls[which];
    struct guarded lent = guarded_room(PLENTY);
    struct guarded buffer = guarded_room(ROOM);
    struct guarded copy = guarded_room(row->der_size);
    struct cimaroly_memory memory = {lent.at, PLENTY};
    struct row kept = *row;
    /* the input ends where what follows can't be read */
    memcpy(copy.at, row->der, row->der_size);
    kept.der = copy.at;
    struct told right;
    ask(call, &memory, given_of(&kept, buffer.at, ROOM), &right);
    writes_zeros(&kept, call, &right);
    if (is_for(call, row->kind)) {
        short_buffer_is_kept(&kept, call, &right);
        if (call->over_malloc != NULL) {
            memory_is_kept_to(&kept, call, &right, buffer.at);
            malloc_tells_the_same(&kept, call, &right, buffer.at);
        }
        is_as_stated(&kept, which, &right, buffer.at);
    } else if (call->kind == SIGNED_KINDS || call->kind == EXTENSIONS_KINDS) {
        expect(right.status == CIMAROLY_UNKNOWN_KIND, row, call->name, "a kind that it isn't for");
    }
    expect(memcmp(copy.at, row->der, row->der_size) == 0, row, call->name, "the input was written");
    guarded_free(lent);
    guarded_free(buffer);
    guarded_free(copy);
}

/* Numbers of no kind. */
static void test_unknown_kinds(const uint8_t *der)
{
    static const uint32_t kinds[] = {0, 19, 256, UINT32_MAX};
    struct row row = {{NULL}, 0, NULL, 0};
    char name[] = "a number of no kind";
    struct guarded buffer = guarded_room(ROOM);
    struct guarded lent = guarded_room(PLENTY);
    row.cells[NAME] = name;
    for (size_t i = 0; i < sizeof kinds / sizeof *kinds; i++) {
        struct given given = {kinds[i], der, 0, buffer.at, ROOM};
        for (size_t which = 0; which < CALLS; which++) {
            struct cimaroly_memory memory = {lent.at, PLENTY};
            if (calls[which].kind != ANY_KIND && calls[which].kind < SIGNED_KINDS)
                continue;
            struct told told;
            ask(&calls[which], &memory, given, &told);
            expect(told.status == CIMAROLY_UNKNOWN_KIND, &row, calls[which].name, "the status");
            expect(is_filling(buffer.at, ROOM), &row, calls[which].name, "the buffer");
            writes_zeros(&row, &calls[which], &told);
        }
    }
    guarded_free(buffer);
    guarded_free(lent);
}

int main(int argc, char **argv)
{
    char path[4096];
    size_t size = 0;
    struct row row = {{NULL}, 0, NULL, 0};
    if (argc != 2 && argc != 3)
        stop("usage", "test_cimaroly FOLDER [SHARE]");
    if (argc == 3)
        share = (size_t)strtoul(argv[2], NULL, 10);
    snprintf(path, sizeof path, "%s/bindings/tests/table.tsv", argv[1]);
    char *text = (char *)read_file(path, &size);
    if (text == NULL)
        stop("can't be read", path);
    char *table = strchr(text, '\n');
    if (table == NULL)
        stop("is empty", path);
    table++;
    while (next_row(&table, argv[1], &row)) {
        for (size_t which = 0; which < CALLS; which++)
            test_call(&row, (enum call_number)which);
        secrets_are_hidden(&row);
        validity_is_right(&row);
        free(row.der);
    }
    test_unknown_kinds((const uint8_t *)text);
    free(text);
    printf("%zu passed, %zu failed\n", passed, failed);
    return failed > 0 || passed == 0;
}
