/* What a program over cimaroly.h reads: a file as it is, and a PEM block in it (RFC 7468). */
#ifndef CIMAROLY_EXAMPLES_INPUT_H
#define CIMAROLY_EXAMPLES_INPUT_H

#include "cimaroly.h"

#include <stdbool.h>
#include <stddef.h>
#include <stdint.h>
#include <stdio.h>
#include <stdlib.h>
#include <string.h>

/* The bytes of a file, in memory from malloc, with a zero behind them; or NULL. */
static inline uint8_t *read_file(const char *path, size_t *size)
{
    FILE *file = fopen(path, "rb");
    uint8_t *bytes = NULL;
    size_t room = 1 << 16;

    *size = 0;
    while (file != NULL) {
        uint8_t *more = realloc(bytes, room);
        if (more == NULL)
            break;
        bytes = more;
        *size += fread(bytes + *size, 1, room - 1 - *size, file);
        if (*size < room - 1) {
            bytes[*size] = 0;
            if (ferror(file))
                break;
            fclose(file);
            return bytes;
        }
        room *= 2;
    }
    free(bytes);
    if (file != NULL)
        fclose(file);
    return NULL;
}

/* The first block of a PEM text with a label, or with any (RFC 7468), decoded in memory from malloc; or NULL. */
static inline uint8_t *decode_pem(const uint8_t *text, size_t text_size, const char *label, size_t *size)
{
    struct cimaroly_pem_block block = {{0, 0}, {0, 0}, 0, 0, 0, 0, 0};
    uint32_t found = CIMAROLY_PEM_BLOCK;
    bool is_it = false;

    while (!is_it && found != CIMAROLY_PEM_NO_MORE) {
        found = cimaroly_pem_next(text, text_size, block.next, block.next_line, &block);
        size_t length = block.label.end - block.label.start;
        is_it = found == CIMAROLY_PEM_BLOCK &&
                (label == NULL || (length == strlen(label) && memcmp(text + block.label.start, label, length) == 0));
    }
    uint8_t *der = is_it ? malloc(block.room + 1) : NULL;
    if (der == NULL || cimaroly_pem_decode(text + block.text.start, block.text.end - block.text.start, der, block.room,
                                           size) == CIMAROLY_OK)
        return der;
    free(der);
    return NULL;
}

/* The bytes of a file in DER, or those of its first PEM block with a label, in memory from malloc; or NULL. */
static inline uint8_t *read_der(const char *path, const char *label, size_t *size)
{
    uint8_t *bytes = read_file(path, size);

    if (bytes == NULL || strstr((const char *)bytes, "-----BEGIN ") == NULL)
        return bytes;
    uint8_t *der = decode_pem(bytes, *size, label, size);
    free(bytes);
    return der;
}

#endif
