/* Memory between two pages that can't be touched, so that what reads or writes past its end ends at once. */
#ifndef CIMAROLY_TESTS_GUARD_H
#define CIMAROLY_TESTS_GUARD_H

#include <stdbool.h>
#include <stddef.h>
#include <stdint.h>
#include <stdio.h>
#include <stdlib.h>
#include <string.h>
#include <sys/mman.h>
#include <unistd.h>

enum { GUARD_FILL = 0xA5, GUARD_FRONT = 64 };

/* The size of a page, which aarch64 has several of. */
static inline size_t guard_page(void)
{
    return (size_t)sysconf(_SC_PAGESIZE);
}

/* `at` has room for so many bytes, and ends where the page does. It is filled, and so are some bytes in front of it. */
struct guarded {
    uint8_t *at;
    uint8_t *mapped;
    size_t room;
    size_t front;
};

/* Lays so many bytes at the end of memory that has room for them. */
static inline void guarded_lay(struct guarded *memory, size_t size)
{
    memory->front = memory->room - size < GUARD_FRONT ? memory->room - size : GUARD_FRONT;
    memory->at = memory->mapped + guard_page() + memory->room - size;
    memset(memory->at - memory->front, GUARD_FILL, memory->front + size);
}

static inline struct guarded guarded_room(size_t size)
{
    const size_t page = guard_page();
    struct guarded memory = {NULL, NULL, (size + page) / page * page, 0};
    memory.mapped = mmap(NULL, memory.room + page + page, PROT_NONE, MAP_PRIVATE | MAP_ANONYMOUS, -1, 0);
    if (memory.mapped == MAP_FAILED || mprotect(memory.mapped + page, memory.room, PROT_READ | PROT_WRITE) != 0) {
        perror("mmap");
        exit(2);
    }
    guarded_lay(&memory, size);
    return memory;
}

static inline void guarded_free(struct guarded memory)
{
    if (memory.mapped != NULL)
        munmap(memory.mapped, memory.room + guard_page() + guard_page());
}

/* Whether so many bytes are as guarded_room left them. */
static inline bool is_filling(const uint8_t *bytes, size_t size)
{
    for (size_t i = 0; i < size; i++)
        if (bytes[i] != GUARD_FILL)
            return false;
    return true;
}

/* Whether what stands in front of the memory is as it was. */
static inline bool is_front_whole(struct guarded memory)
{
    return is_filling(memory.at - memory.front, memory.front);
}

#endif
