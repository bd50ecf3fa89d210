/* Runs the calls that calls.rt.in exports, each on inputs made here, and with CERTIFICATES those of certificates.rt.in, on the files
   of inputs/; with COMPARED also those of plain/, on the certificates. Linked as it is, it is run under callgrind, and dumps the count of each call under its name. With MEMORY, and linked
   with --wrap, it prints what each call asks of malloc; with ARENA, linked so too, it is counted over an allocator that does next to
   nothing. */
#include <malloc.h>
#include <stdint.h>
#include <stdio.h>
#include <stdlib.h>
#include <string.h>
#include <valgrind/callgrind.h>

enum { READ, LEN, VEC, SLICE, COUNTED, LOCATED, CHECKED, CALLS };
static const char *const call_names[CALLS] = {"read", "len", "vec", "slice", "counted", "located", "check"};

typedef size_t Called(uint8_t call, const uint8_t *bytes, size_t len, uint8_t *out, size_t room);
Called measured_null, measured_boolean, measured_small, measured_integer, measured_identifier, measured_octets, measured_raw,
    measured_algorithm, measured_nulls, measured_smalls, measured_integers, measured_identifiers, measured_algorithms, measured_sets,
    measured_nest_2, measured_nest_4;
size_t measured_size(uint8_t which);

/* What one call asks of malloc. */
static size_t requests, live, peak, before_last;
static int counting;

#ifdef MEMORY
/* The library's requests come here. */
void *__real_malloc(size_t);
void *__real_realloc(void *, size_t);
void __real_free(void *);

/* The size that was asked for, kept in a table of the live blocks. */
static struct { void *at; size_t size; } blocks[1 << 22];
static size_t slot_of(void *at) {
  size_t slot = ((uintptr_t)at >> 4) * 0x9E3779B97F4A7C15u >> 42;
  while (blocks[slot].at != at && blocks[slot].at != 0) slot = (slot + 1) % (1 << 22);
  return slot;
}
static void came(void *at, size_t size) {
  size_t slot = slot_of(at);
  blocks[slot].at = at;
  blocks[slot].size = size;
  live += size;
  if (live > peak) peak = live;
}
static size_t went(void *at) {
  size_t slot = slot_of(at);
  size_t size = blocks[slot].at == at ? blocks[slot].size : 0;
  blocks[slot].size = 0;
  live -= size;
  return size;
}
void *__wrap_malloc(size_t size) {
  void *at = __real_malloc(size);
  if (counting) {
    requests++;
    before_last = live;
    came(at, size);
  }
  return at;
}
void *__wrap_realloc(void *old, size_t size) {
  if (!counting) return __real_realloc(old, size);
  requests++;
  before_last = live;
  /* At worst the block moves: old and new are then held together. */
  if (live + size > peak) peak = live + size;
  if (old) went(old);
  void *at = __real_realloc(old, size);
  came(at, size);
  return at;
}
void __wrap_free(void *at) {
  if (counting && at) went(at);
  __real_free(at);
}
static void forget(void) { memset(blocks, 0, sizeof blocks); }
#elif defined ARENA
/* Memory for the asking, so that next to nothing but the library is counted. */
static uint8_t arena[1 << 28] __attribute__((aligned(16)));
static size_t used;
void *__wrap_malloc(size_t size) {
  uint8_t *at = arena + used + 16;
  memcpy(at - 16, &size, sizeof size);
  used += 16 + ((size + 15) & ~(size_t)15);
  return at;
}
void *__wrap_realloc(void *old, size_t size) {
  void *at = __wrap_malloc(size);
  size_t held = 0;
  if (old) memcpy(&held, (uint8_t *)old - 16, sizeof held);
  return held ? memcpy(at, old, held < size ? held : size) : at;
}
void __wrap_free(void *at) { (void)at; }
static void forget(void) { used = 0; }
#else
static void forget(void) {}
#endif

/* DER, written from its end: a header in front of `n` bytes of content at `at`. */
static uint8_t buffer[1 << 22], room[1 << 22];
static size_t start;
static void put(const void *bytes, size_t n) { start -= n; memcpy(buffer + start, bytes, n); }
static void put_byte(uint8_t byte) { buffer[--start] = byte; }
static size_t headers;
static void header(uint8_t tag, size_t end) {
  size_t n = end - start, digits = 0;
  headers++;
  if (n < 128) put_byte((uint8_t)n);
  else {
    for (; n > 0; n >>= 8, digits++) put_byte((uint8_t)n);
    put_byte((uint8_t)(128 + digits));
  }
  put_byte(tag);
}
static void fresh(void) { start = sizeof buffer; headers = 0; }

#define ITEM(name, ...) static const uint8_t name[] = {__VA_ARGS__}
ITEM(null, 5, 0);
ITEM(yes, 1, 1, 255);
ITEM(small_low, 2, 1, 42);
ITEM(small_high, 2, 2, 0, 200);
ITEM(integer_20, 2, 20, 0x11, 2, 3, 4, 5, 6, 7, 8, 9, 10, 11, 12, 13, 14, 15, 16, 17, 18, 19, 20);
ITEM(rsa, 6, 9, 0x2a, 0x86, 0x48, 0x86, 0xf7, 0x0d, 1, 1, 0x0b);
ITEM(common_name, 6, 3, 0x55, 4, 3);
ITEM(rsa_null, 0x30, 13, 6, 9, 0x2a, 0x86, 0x48, 0x86, 0xf7, 0x0d, 1, 1, 0x0b, 5, 0);
ITEM(ecdsa_none, 0x30, 10, 6, 8, 0x2a, 0x86, 0x48, 0xce, 0x3d, 4, 3, 2);
ITEM(ec_p256, 0x30, 19, 6, 7, 0x2a, 0x86, 0x48, 0xce, 0x3d, 2, 1, 6, 8, 0x2a, 0x86, 0x48, 0xce, 0x3d, 3, 1, 7);
ITEM(shortest, 0x30, 3, 6, 1, 0x2a);
ITEM(shortest_null, 0x30, 5, 6, 1, 0x2a, 5, 0);
ITEM(empty_set, 0x31, 0);
ITEM(lone_list, 0x30, 4, 0x30, 2, 0x30, 0);

static void one(const uint8_t *item, size_t n, size_t item_headers) { fresh(); put(item, n); headers = item_headers; }
static void list(const uint8_t *item, size_t n, size_t item_headers, size_t count) {
  fresh();
  for (size_t i = 0; i < count; i++) put(item, n);
  headers = count * item_headers;
  header(0x30, sizeof buffer);
}
static void octets(size_t n) {
  fresh();
  for (size_t i = 0; i < n; i++) put_byte((uint8_t)(i * 7));
  header(4, sizeof buffer);
}
/* `depth` lists in one another, and `count` numbers in the innermost. */
static void nest(size_t depth, size_t count) {
  list(small_low, sizeof small_low, 1, count);
  for (size_t i = 1; i < depth; i++) header(0x30, sizeof buffer);
}

#ifdef MEMORY
static const int is_memory = 1;
#else
static const int is_memory = 0;
#endif
static void fail(const char *name, const char *call) {
  fprintf(stderr, "drive: %s %s failed\n", name, call);
  exit(1);
}
/* Each call on the input: its instructions are dumped under its name, or its requests are printed. */
static void measure(const char *name, Called *called) {
  size_t n = sizeof buffer - start, times = n < 4096 ? 100 : n < 65536 ? 10 : 2;
  const uint8_t *bytes = buffer + start;
  if (!is_memory) printf("input\t%s\t%zu\t%zu\n", name, n, headers);
  for (uint8_t call = 0; call < CALLS; call++) {
    if (!is_memory) {
      char label[128];
      size_t sum = 0;
      /* Before it counts, it brings malloc to the state that such calls leave behind. */
      for (int i = 0; i < 3; i++) {
        forget();
        if (!called(call, bytes, n, room, sizeof room)) fail(name, call_names[call]);
      }
      snprintf(label, sizeof label, "measured %s %s %zu", name, call_names[call], times);
      for (size_t i = 0; i < times; i++) {
        forget();
        CALLGRIND_TOGGLE_COLLECT;
        sum += called(call, bytes, n, room, sizeof room);
        CALLGRIND_TOGGLE_COLLECT;
      }
      CALLGRIND_DUMP_STATS_AT(label);
      if (!sum) fail(name, call_names[call]);
      continue;
    }
    requests = live = peak = before_last = 0;
    counting = 1;
    size_t answer = called(call, bytes, n, room, sizeof room);
    counting = 0;
    if (!answer) fail(name, call_names[call]);
    if (live) fprintf(stderr, "drive: %s leaves %zu bytes\n", name, live);
    printf("memory\t%s\t%s\t%zu\t%zu\t%zu\t%zu\n", name, call_names[call], n, requests, before_last, peak);
    forget();
  }
}

#define ONE(name, item, item_headers, called) (one(item, sizeof item, item_headers), measure(name, called))
#define LIST(name, item, item_headers, count, called) (list(item, sizeof item, item_headers, count), measure(name, called))

static void singles(void) {
  ONE("null", null, 1, measured_null);
  ONE("boolean", yes, 1, measured_boolean);
  ONE("small-42", small_low, 1, measured_small);
  ONE("small-200", small_high, 1, measured_small);
  ONE("integer-20", integer_20, 1, measured_integer);
  ONE("identifier-rsa", rsa, 1, measured_identifier);
  ONE("identifier-cn", common_name, 1, measured_identifier);
  ONE("raw-null", null, 1, measured_raw);
  ONE("algorithm-null", rsa_null, 3, measured_algorithm);
  ONE("algorithm-none", ecdsa_none, 2, measured_algorithm);
  ONE("algorithm-curve", ec_p256, 3, measured_algorithm);
}

static void of_sizes(size_t bytes, const char *size) {
  char name[64];
#define SIZED(what, item, item_headers, called) \
  (snprintf(name, sizeof name, what "-%s", size), LIST(name, item, item_headers, bytes / sizeof item, called))
  SIZED("algorithms", rsa_null, 3, measured_algorithms);
  SIZED("identifiers", rsa, 1, measured_identifiers);
  SIZED("numbers", small_low, 1, measured_smalls);
  SIZED("nulls", null, 1, measured_nulls);
  SIZED("integers", integer_20, 1, measured_integers);
  snprintf(name, sizeof name, "octets-%s", size);
  octets(bytes);
  measure(name, measured_octets);
}

static void nests(void) {
  static Called *const called[] = {measured_smalls, measured_nest_2, measured_nest_4};
  static const size_t depths[] = {1, 2, 4};
  for (size_t i = 0; i < 3; i++) {
    char name[64];
    snprintf(name, sizeof name, "nest-%zu", depths[i]);
    nest(depths[i], 100);
    measure(name, called[i]);
  }
}

static void thousands(void) {
  LIST("thousand-algorithms", rsa_null, 3, 1000, measured_algorithms);
  LIST("thousand-identifiers", rsa, 1, 1000, measured_identifiers);
  LIST("thousand-numbers", small_low, 1, 1000, measured_smalls);
  LIST("thousand-curves", ec_p256, 3, 1000, measured_algorithms);
}

/* Lists whose values take most against their input: just past a power of two. */
static void worst(void) {
  static const size_t counts[] = {1000, 1024, 1025, 65536, 65537};
  nest(4, 0);
  measure("empty-chain", measured_nest_4);
  for (size_t i = 0; i < 5; i++) {
    char name[64];
    snprintf(name, sizeof name, "shortest-algorithms-%zu", counts[i]);
    LIST(name, shortest, 2, counts[i], measured_algorithms);
    snprintf(name, sizeof name, "shortest-null-algorithms-%zu", counts[i]);
    LIST(name, shortest_null, 3, counts[i], measured_algorithms);
    snprintf(name, sizeof name, "empty-sets-%zu", counts[i]);
    LIST(name, empty_set, 1, counts[i], measured_sets);
    snprintf(name, sizeof name, "only-numbers-%zu", counts[i]);
    LIST(name, small_low, 1, counts[i], measured_smalls);
    snprintf(name, sizeof name, "lone-lists-%zu", counts[i]);
    LIST(name, lone_list, 3, counts[i], measured_nest_4);
  }
}

#ifdef CERTIFICATES
#include "inputs.h"
enum { CERTIFICATE, REQUEST, PRIVATE_KEY, WHOLES };
Called measured_certificate, measured_request, measured_private_key;
size_t measured_headers(uint8_t which, const uint8_t *bytes, size_t len), measured_size_of_whole(uint8_t which);

/* Such an input is written as it stood, or this fails. */
static void whole(const char *name, const uint8_t *input, size_t n, uint8_t which) {
  static Called *const called[WHOLES] = {measured_certificate, measured_request, measured_private_key};
  one(input, n, measured_headers(which, input, n));
  if (!headers) fail(name, "headers");
  if (called[which](SLICE, input, n, room, sizeof room) != n || memcmp(room, input, n)) fail(name, "rewrite");
  measure(name, called[which]);
}

#define WHOLE(name, input, which) whole(name, input, sizeof input, which)

#ifdef COMPARED
Called plain_certificate;

/* The same by hand-written Rust. */
static void plain(const char *name, const uint8_t *input, size_t n) {
  one(input, n, 0);
  if (plain_certificate(SLICE, input, n, room, sizeof room) != n || memcmp(room, input, n)) fail(name, "rewrite");
  measure(name, plain_certificate);
}
#else
static void plain(const char *name, const uint8_t *input, size_t n) { (void)name, (void)input, (void)n; }
#endif

size_t measured_in_arena(size_t times, const uint8_t *bytes, size_t len);

/* Reads in one arena that is reset after each: many times less once, so that making the arena isn't counted. */
static void in_arena(const char *name, const uint8_t *input, size_t n) {
  size_t times[] = {1, 101};
  for (int i = 0; i < 2 && !is_memory; i++) {
    char label[128];
    if (measured_in_arena(times[i], input, n) != times[i]) fail(name, "arena");
    snprintf(label, sizeof label, "measured %s arena-%zu 1", name, times[i]);
    CALLGRIND_TOGGLE_COLLECT;
    measured_in_arena(times[i], input, n);
    CALLGRIND_TOGGLE_COLLECT;
    CALLGRIND_DUMP_STATS_AT(label);
  }
}

static void certificates(void) {
  WHOLE("certificate", input_certificate, CERTIFICATE);
  plain("plain-certificate", input_certificate, sizeof input_certificate);
  WHOLE("certificate-1000-names", input_certificate_1000_names, CERTIFICATE);
  plain("plain-certificate-1000-names", input_certificate_1000_names, sizeof input_certificate_1000_names);
  in_arena("certificate", input_certificate, sizeof input_certificate);
  in_arena("certificate-1000-names", input_certificate_1000_names, sizeof input_certificate_1000_names);
  WHOLE("request", input_request, REQUEST);
  WHOLE("private-key", input_private_key, PRIVATE_KEY);
}

static void whole_sizes(void) {
  static const char *const of[WHOLES] = {"certificate", "request", "private-key"};
  for (uint8_t i = 0; i < WHOLES; i++) printf("size\t%s\t%zu\n", of[i], measured_size_of_whole(i));
}
#else
static void certificates(void) {}
static void whole_sizes(void) {}
#endif

static void sizes(void) {
  static const char *const of[] = {"identifier", "algorithm", "integer", "octets", "raw", "set", "list"};
  for (uint8_t i = 0; i < 7; i++) printf("size\t%s\t%zu\n", of[i], measured_size(i));
}

int main(void) {
  /* The heap grows and is kept, so that a count doesn't depend on what ran before. */
  mallopt(M_TRIM_THRESHOLD, 1 << 30);
  mallopt(M_MMAP_THRESHOLD, 1 << 25);
  singles();
  of_sizes(1000, "1k");
  of_sizes(10000, "10k");
  of_sizes(100000, "100k");
  of_sizes(1000000, "1m");
  nests();
  thousands();
  certificates();
  if (is_memory) {
    worst();
    sizes();
    whole_sizes();
  }
  return 0;
}
