/*
 * inspect FILE: prints subject, validity, key and deviations of a certificate in PEM or DER. It ends with 0 if the
 * certificate is in DER, 1 if it is refused, 2 if there is none to read, and 3 if it has deviations.
 */
#include "cimaroly.h"
#include "input.h"

static void print_time(const char *what, struct cimaroly_time at)
{
    printf("%-12s%04d-%02d-%02dT%02d:%02d:%02dZ\n", what, at.year, at.month, at.day, at.hour, at.minute, at.second);
}

/* Prints where deviations are, as far as there are 100 of them, and answers their number. */
static size_t print_deviations(const uint8_t *der, size_t size)
{
    struct cimaroly_place places[100];
    size_t count = 0;
    if (cimaroly_places_malloc(CIMAROLY_CERTIFICATE, der, size, places, 100, &count) != CIMAROLY_OK)
        printf("%-12s%zu\n", "deviations", count);
    for (size_t i = 0; i < count && count <= 100; i++)
        printf("%-12s%s, at %zu..%zu\n", "deviation", cimaroly_deviation_name(places[i].deviation), places[i].start,
               places[i].end);
    return count;
}

static int inspect(const uint8_t *der, size_t size)
{
    struct cimaroly_verdict verdict;
    struct cimaroly_certificate at;
    struct cimaroly_time first, last;
    struct cimaroly_key key;
    uint8_t text[4096];
    size_t length = 0;
    if (cimaroly_check(CIMAROLY_CERTIFICATE, der, size, &verdict) != CIMAROLY_OK) {
        printf("%-12s%s at byte %zu\n", "refused", cimaroly_error_name(verdict.error), verdict.at);
        return 1;
    }
    cimaroly_certificate_fields(der, size, &at);
    cimaroly_name_text(der + at.subject.start, at.subject.end - at.subject.start, text, sizeof text, &length);
    printf("%-12s%.*s\n", "subject", (int)length, (const char *)text);
    cimaroly_validity(der, size, &first, &last);
    print_time("not before", first);
    print_time("not after", last);
    cimaroly_public_key(CIMAROLY_CERTIFICATE, der, size, &key);
    struct cimaroly_span name = key.curve.end > 0 ? key.curve : key.algorithm;
    if (cimaroly_oid_name(der + name.start, name.end - name.start, text, sizeof text, &length) == CIMAROLY_OK)
        printf("%-12s%.*s, %zu bits\n", "key", (int)length, (const char *)text, key.bits);
    return print_deviations(der, size) > 0 ? 3 : 0;
}

int main(int argc, char **argv)
{
    size_t size = 0;
    uint8_t *der = argc == 2 ? read_der(argv[1], "CERTIFICATE", &size) : NULL;
    if (der == NULL)
        fputs(argc == 2 ? "inspect: no certificate can be read\n" : "usage: inspect FILE\n", stderr);
    int status = der == NULL ? 2 : inspect(der, size);
    free(der);
    return status;
}
