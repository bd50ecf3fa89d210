/*
 * The C functions that programs call besides those of the C library, for aarch64: the toolchain has them for x86-64 alone,
 * and compiled. Each does what the toolchain's declaration of it says (rattle/libc/src/heap.rt, rattle/os/src/c.rt). The
 * proofs rest on that, and nothing proves it of this code. Parameters whose types have no bytes aren't passed.
 *
 * No header is included, so that the same file gives the same bytes on each machine.
 */

typedef __SIZE_TYPE__ size_t;
typedef __PTRDIFF_TYPE__ ptrdiff_t;

extern void *malloc(size_t size);
extern void *realloc(void *block, size_t size);
extern void free(void *block);
extern int openat(int folder, const char *name, int flags, ...);
extern int *__errno_location(void);
extern char *getenv(const char *name);

/* Linux's flags of open on aarch64, two of which have other numbers than on x86-64. */
enum { OPEN_DIRECTORY = 040000, OPEN_NO_FOLLOW = 0100000, OPEN_CLOSE_ON_EXEC = 02000000 };

/* Whether there is memory, and where it is; where there is none, the address of a byte. */
struct tried {
    _Bool ok;
    void *at;
};

static struct tried tried(void *block)
{
    static char none;
    struct tried answer = { block != 0, block ? block : &none };
    return answer;
}

/* (malloc aligns to 16, the most that is asked for. Of size 0 it may answer NULL, so that is asked for as another size) */
struct tried rattle_alloc(size_t size, size_t align)
{
    return tried(malloc(size ? size : align));
}

struct tried rattle_realloc(void *block, size_t kept, size_t size, size_t align)
{
    (void)kept;
    return tried(realloc(block, size ? size : align));
}

void rattle_dealloc(void *block)
{
    free(block);
}

int rattle_errno(void)
{
    return *__errno_location();
}

void rattle_set_errno(int error)
{
    *__errno_location() = error;
}

static int count;
static char **words;

/* glibc calls what stands in .init_array with the arguments of main, before it. */
static void keep(int argc, char **argv)
{
    count = argc;
    words = argv;
}

__attribute__((used, section(".init_array"))) static void (*const kept_first)(int, char **) = keep;

size_t rattle_arg_count(void)
{
    return (size_t)count;
}

/* A text's length where it fits and is copied, -1 where there is none, and -2 where the buffer is full before its end. */
static ptrdiff_t copied(const char *word, unsigned char *buffer, size_t size)
{
    if (!word)
        return -1;
    size_t length = 0;
    for (; word[length]; length++) {
        if (length == size)
            return -2;
        buffer[length] = (unsigned char)word[length];
    }
    return (ptrdiff_t)length;
}

ptrdiff_t rattle_arg(size_t number, unsigned char *buffer, size_t size)
{
    return copied(number < (size_t)count ? words[number] : 0, buffer, size);
}

ptrdiff_t rattle_env(const char *name, unsigned char *buffer, size_t size)
{
    return copied(getenv(name), buffer, size);
}

int rattle_open_dir_at(int folder, const char *name)
{
    return openat(folder, name, OPEN_DIRECTORY | OPEN_NO_FOLLOW | OPEN_CLOSE_ON_EXEC);
}
