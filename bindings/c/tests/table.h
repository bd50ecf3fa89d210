/* The rows of bindings/tests/table.tsv, one after another. */
#ifndef CIMAROLY_TESTS_TABLE_H
#define CIMAROLY_TESTS_TABLE_H

#include "../examples/input.h"

enum column {
    NAME,
    KIND,
    INPUT,
    RESULT,
    DEVIATIONS,
    ENCODING,
    ERROR,
    SIGNED,
    FIELDS,
    EXTENSIONS,
    FIELD = 14,
    COMMON_NAME,
    SERIAL_NUMBER,
    UNIX_TIMES,
    DNS_NAMES,
    RFC4514,
    KEY,
    SIGNATURE,
    KEY_IDENTIFIERS,
    COLUMNS
};

/* A row: its cells, the number of its kind, and its input. */
struct row {
    char *cells[COLUMNS];
    uint32_t kind;
    uint8_t *der;
    size_t der_size;
};

static inline bool is_text(const char *text, const char *other)
{
    return strcmp(text, other) == 0;
}

/* Says what is wrong with the table, and ends. */
static inline void stop(const char *what, const char *which)
{
    fprintf(stderr, "%s: %s\n", what, which);
    exit(2);
}

static inline uint32_t kind_of_name(const char *name)
{
    static const char *const names[] = {"certificate", "request", "private-key", "public-key", "rsa-private-key",
        "rsa-public-key", "ec-private-key", "name", "extensions", "algorithm", "raw-algorithm",
        "request-info", "tbs-certificate", "certificate-outline", "request-outline", "private-key-outline",
        "public-key-outline", "crl"};
    for (uint32_t i = 0; i < sizeof names / sizeof *names; i++)
        if (is_text(name, names[i]))
            return i + 1;
    stop("no such kind", name);
    return 0;
}

/* The bytes of hexadecimal digits with white space between them, in memory from malloc. */
static inline uint8_t *decode_hex(const char *digits, size_t *size)
{
    uint8_t *bytes = malloc(strlen(digits) / 2 + 1);
    int used = 0;
    unsigned byte = 0;
    *size = 0;
    for (; bytes != NULL && sscanf(digits, " %2x%n", &byte, &used) == 1; digits += used)
        bytes[(*size)++] = (uint8_t)byte;
    return bytes;
}

/* The input of a cell: a file of tools/tests/data, or digits. */
static inline uint8_t *read_input(const char *folder, const char *cell, size_t *size)
{
    const char *end = strchr(cell, '.');
    char path[4096];
    if (end == NULL)
        return decode_hex(cell, size);
    snprintf(path, sizeof path, "%s/tools/tests/data/%s", folder, cell);
    uint8_t *text = read_file(path, size);
    if (text == NULL)
        stop("can't be read", path);
    bool is_pem = is_text(end, ".pem");
    uint8_t *bytes = is_pem ? decode_pem(text, *size, NULL, size) : decode_hex((const char *)text, size);
    if (bytes == NULL)
        stop("can't be decoded", path);
    free(text);
    return bytes;
}

/* Takes the next line of the table, and what it names. False at its end. */
static inline bool next_row(char **table, const char *folder, struct row *row)
{
    char *line = *table;
    char *end = strchr(line, '\n');
    if (end == NULL)
        return false;
    *end = '\0';
    *table = end + 1;
    for (size_t i = 0; i < COLUMNS; i++) {
        char *tab = strchr(line, '\t');
        row->cells[i] = line;
        if ((tab == NULL) != (i == COLUMNS - 1))
            stop("a row has another number of columns", row->cells[NAME]);
        if (tab != NULL) {
            *tab = '\0';
            line = tab + 1;
        }
    }
    row->kind = kind_of_name(row->cells[KIND]);
    row->der = read_input(folder, row->cells[INPUT], &row->der_size);
    return true;
}

/* Hands on each row of the table of the repository that is in a folder. */
static inline void over_table(const char *folder, void (*test_row)(const struct row *row))
{
    char path[4096];
    size_t size = 0;
    struct row row = {{NULL}, 0, NULL, 0};
    snprintf(path, sizeof path, "%s/bindings/tests/table.tsv", folder);
    char *text = (char *)read_file(path, &size);
    char *table = text == NULL ? NULL : strchr(text, '\n');
    if (table == NULL)
        stop("can't be read", path);
    table++;
    while (next_row(&table, folder, &row)) {
        test_row(&row);
        free(row.der);
    }
    free(text);
}

#endif
