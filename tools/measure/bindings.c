/*
 * Measures the calls of cimaroly.h beside OpenSSL, on one certificate in DER.
 *
 * usage: bindings FILE COUNT   Each of COUNT calls is done in five rounds. A line for each call: its name, a tab, and
 *        microseconds of a processor, of the least round.
 */
#include "cimaroly.h"

#include <openssl/x509.h>
#include <openssl/x509v3.h>
#include <stdio.h>
#include <time.h>

enum { ROUNDS = 5, ROOM = 1 << 17 };

static uint8_t der[1 << 16];
static size_t der_size;
static uint8_t out[ROOM];
static _Alignas(16) uint8_t arena[1 << 18];

static struct cimaroly_memory lent(void)
{
    struct cimaroly_memory memory = {arena, sizeof arena};
    return memory;
}

static bool check(void)
{
    struct cimaroly_verdict verdict;
    return cimaroly_check(CIMAROLY_CERTIFICATE, der, der_size, &verdict) == CIMAROLY_OK;
}

static bool fields(void)
{
    struct cimaroly_certificate found;
    return cimaroly_certificate_fields(der, der_size, &found) == CIMAROLY_OK;
}

static bool extensions(void)
{
    struct cimaroly_extension found[64];
    size_t count;
    return cimaroly_extensions(CIMAROLY_CERTIFICATE, der, der_size, found, 64, &count) == CIMAROLY_OK;
}

static bool encode(void)
{
    struct cimaroly_memory memory = lent();
    size_t size;
    return cimaroly_encode(&memory, CIMAROLY_CERTIFICATE, der, der_size, out, ROOM, &size) == CIMAROLY_OK;
}

static bool report(void)
{
    struct cimaroly_memory memory = lent();
    size_t size;
    return cimaroly_report(&memory, CIMAROLY_CERTIFICATE, der, der_size, false, out, ROOM, &size) == CIMAROLY_OK;
}

static bool d2i(void)
{
    const uint8_t *at = der;
    X509 *read = d2i_X509(NULL, &at, (long)der_size);
    X509_free(read);
    return read != NULL;
}

static bool d2i_with_extensions(void)
{
    const uint8_t *at = der;
    X509 *read = d2i_X509(NULL, &at, (long)der_size);
    bool is_read = read != NULL && X509_check_purpose(read, -1, 0) == 1;
    X509_free(read);
    return is_read;
}

static bool d2i_i2d(void)
{
    const uint8_t *at = der;
    uint8_t *to = out;
    X509 *read = d2i_X509(NULL, &at, (long)der_size);
    bool is_written = read != NULL && i2d_X509(read, &to) == (int)der_size;
    X509_free(read);
    return is_written;
}

static const struct {
    const char *name;
    bool (*call)(void);
    long share;
} calls[] = {
    {"`cimaroly_check`", check, 1},
    {"`cimaroly_certificate_fields`", fields, 1},
    {"`cimaroly_extensions`", extensions, 1},
    {"`cimaroly_encode`", encode, 1},
    {"`cimaroly_report`", report, 4},
    {"OpenSSL `d2i_X509`, `X509_free`", d2i, 4},
    {"OpenSSL `d2i_X509`, `X509_check_purpose` (reads extensions), `X509_free`", d2i_with_extensions, 4},
    {"OpenSSL `d2i_X509`, `i2d_X509`, `X509_free`", d2i_i2d, 4},
};

/* Microseconds of a processor for a call; below 0 where it failed. */
static double measured(bool (*call)(void), long count)
{
    clock_t start = clock();
    for (long i = 0; i < count; i++)
        if (!call())
            return -1;
    return (double)(clock() - start) / CLOCKS_PER_SEC * 1e6 / (double)count;
}

int main(int argc, char **argv)
{
    double least[sizeof calls / sizeof *calls];
    FILE *file = argc == 3 ? fopen(argv[1], "rb") : NULL;
    if (file == NULL)
        return 2;
    der_size = fread(der, 1, sizeof der, file);
    fclose(file);
    for (int round = 0; round < ROUNDS; round++) {
        for (size_t i = 0; i < sizeof calls / sizeof *calls; i++) {
            double time = measured(calls[i].call, strtol(argv[2], NULL, 10) / calls[i].share);
            if (time < 0) {
                fprintf(stderr, "%s failed\n", calls[i].name);
                return 1;
            }
            least[i] = round == 0 || time < least[i] ? time : least[i];
        }
    }
    for (size_t i = 0; i < sizeof calls / sizeof *calls; i++)
        printf("%s\t%.2f\n", calls[i].name, least[i]);
    return 0;
}
