/* SPDX-License-Identifier: MIT OR Apache-2.0 */
/*
 * Tests the calls for PEM over the texts of bindings/tests/pem.tsv.
 *
 * usage: test_pem FOLDER  (that of the repository)
 */
#include "cimaroly.h"

#include "../examples/input.h"

#include <stdarg.h>

static size_t passed;
static size_t failed;

/* What stands for a letter behind a backslash. */
static char escaped(char letter)
{
    switch (letter) {
    case 'n':
        return '\n';
    case 'r':
        return '\r';
    case 't':
        return '\t';
    default:
        return letter;
    }
}

/* Turns escapes of Python into the bytes that they stand for, in their place, and answers how many there are. */
static size_t unescaped(char *text)
{
    char *to = text;
    for (char *from = text; *from != '\0';) {
        unsigned byte = 0;
        if (from[0] != '\\') {
            *to++ = *from++;
            continue;
        }
        if (from[1] == 'x' && sscanf(from + 2, "%2x", &byte) == 1) {
            *to++ = (char)byte;
            from += 4;
            continue;
        }
        *to++ = escaped(from[1]);
        from += 2;
    }
    *to = '\0';
    return (size_t)(to - text);
}

/* What is told of a text. */
struct told {
    char text[1024];
    size_t size;
};

/* Appends words to what is told, as far as there is room. */
static void say(struct told *told, const char *format, ...)
{
    va_list words;
    va_start(words, format);
    int size = vsnprintf(told->text + told->size, sizeof told->text - told->size, format, words);
    va_end(words);
    if (size > 0 && (size_t)size < sizeof told->text - told->size)
        told->size += (size_t)size;
}

/* Appends what pem.tsv says of a block. */
static void tell(struct told *told, const uint8_t *text, uint32_t answer, const struct cimaroly_pem_block *block)
{
    static const char *const faults[] = {"", "", "label", "end", "headers"};
    uint8_t bytes[256];
    size_t size = 0;
    say(told, "%s%.*s", told->size > 0 ? " " : "", (int)(block->label.end - block->label.start),
        (const char *)text + block->label.start);
    if (answer != CIMAROLY_PEM_BLOCK) {
        say(told, "!%s", faults[answer]);
        return;
    }
    const uint8_t *symbols = text + block->text.start;
    size_t length = block->text.end - block->text.start;
    if (block->room > 0) {
        uint32_t status = cimaroly_pem_decode(symbols, length, bytes, block->room - 1, &size);
        if (status != CIMAROLY_BUFFER_TOO_SHORT || size != block->room)
            say(told, " (no room is missed)");
    }
    memset(bytes, 0xA5, sizeof bytes);
    if (cimaroly_pem_decode(symbols, length, bytes, block->room, &size) != CIMAROLY_OK) {
        say(told, "!base64");
        return;
    }
    say(told, "@%lu=", (unsigned long)block->first_line);
    for (size_t i = 0; i < size; i++)
        say(told, "%02x", bytes[i]);
    for (size_t i = size; i < sizeof bytes; i++)
        if (bytes[i] != 0xA5)
            say(told, " (byte %zu)", i);
}

/* Goes over the blocks of a text, and compares them with what is stated. */
static void test_text(const char *name, const uint8_t *text, size_t size, const char *stated)
{
    struct cimaroly_pem_block block;
    struct told told = {"", 0};
    size_t at = 0;
    uint64_t line = 0;
    for (;;) {
        memset(&block, 0xA5, sizeof block);
        uint32_t answer = cimaroly_pem_next(text, size, at, line, &block);
        if (answer == CIMAROLY_PEM_NO_MORE)
            break;
        tell(&told, text, answer, &block);
        if (block.next <= at || block.next > size || block.last_line < block.first_line)
            say(&told, " (no further)");
        at = block.next;
        line = block.next_line;
    }
    static const struct cimaroly_pem_block none;
    bool is_right = strcmp(told.text, stated) == 0 && memcmp(&block, &none, sizeof none) == 0;
    if (is_right)
        passed++;
    else {
        failed++;
        printf("%s: %s, not %s\n", name, told.text, stated);
    }
}

/* Tests the text and the answer of a line of the table. */
static void test_row(char *row)
{
    char *text = strchr(row, '\t');
    char *stated = text == NULL ? NULL : strchr(text + 1, '\t');
    if (*row == '#' || *row == '\0' || stated == NULL)
        return;
    *text++ = '\0';
    *stated++ = '\0';
    size_t size = unescaped(text);
    /* (memory of its own, so that a read past its end is seen) */
    uint8_t *alone = malloc(size > 0 ? size : 1);
    if (alone == NULL)
        exit(2);
    memcpy(alone, text, size);
    test_text(row, alone, size, stated);
    free(alone);
}

int main(int argc, char **argv)
{
    char path[4096];
    size_t size = 0;
    snprintf(path, sizeof path, "%s/bindings/tests/pem.tsv", argc > 1 ? argv[1] : ".");
    char *table = (char *)read_file(path, &size);
    if (table == NULL || size == 0) {
        fprintf(stderr, "%s can't be read\n", path);
        return 2;
    }
    table[size - 1] = '\0';
    for (char *row = table; row != NULL;) {
        char *end = strchr(row, '\n');
        if (end != NULL)
            *end = '\0';
        test_row(row);
        row = end == NULL ? NULL : end + 1;
    }
    free(table);
    printf("%zu passed, %zu failed\n", passed, failed);
    return failed > 0 || passed == 0 ? 1 : 0;
}
