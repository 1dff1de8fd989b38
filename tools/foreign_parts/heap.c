/* The C heap over the compartment's zone. Each block has two words before it: where it begins in the zone, and how many
   bytes were asked for. A pointer that free doesn't know is the machine's BadFree. All is weak, so that files may have
   a heap of their own. */
#include <errno.h>
#include <stdint.h>
#include <stdlib.h>
#include <string.h>

#define WEAK __attribute__((weak))
#define LARGEST 262144u

void *secomp_allocate(size_t words, size_t times);
void secomp_free(void *block);

WEAK void *memalign(size_t alignment, size_t bytes) {
  if (alignment < 8) alignment = 8;
  if (bytes > LARGEST || alignment > LARGEST) return 0;
  size_t words = (bytes + 3) / 4 + 2 + (alignment - 4) / 4;
  uintptr_t block = (uintptr_t)secomp_allocate(words, 1);
  if (!block) return 0;
  uintptr_t *given = (uintptr_t *)((block + 8 + alignment - 1) & ~(uintptr_t)(alignment - 1));
  given[-2] = block;
  given[-1] = bytes;
  return given;
}

WEAK void *malloc(size_t bytes) { return memalign(8, bytes); }
WEAK void *aligned_alloc(size_t alignment, size_t bytes) { return memalign(alignment, bytes); }

WEAK int posix_memalign(void **to, size_t alignment, size_t bytes) {
  *to = memalign(alignment, bytes);
  return *to ? 0 : ENOMEM;
}

WEAK size_t malloc_usable_size(void *given) { return given ? ((uintptr_t *)given)[-1] : 0; }

WEAK void free(void *given) {
  if (given) secomp_free((void *)((uintptr_t *)given)[-2]);
}

WEAK void *calloc(size_t count, size_t size) {
  size_t bytes;
  if (__builtin_mul_overflow(count, size, &bytes)) return 0;
  void *given = malloc(bytes);
  return given ? memset(given, 0, bytes) : 0;
}

WEAK void *realloc(void *given, size_t bytes) {
  if (!given) return malloc(bytes);
  size_t had = malloc_usable_size(given);
  void *next = malloc(bytes);
  if (!next) return 0;
  memcpy(next, given, had < bytes ? had : bytes);
  free(given);
  return next;
}

/* What C++ calls: new and delete. A new that finds no room ends at EBREAK, since there are no exceptions. */
#define NEW(name) \
  WEAK void *name(size_t bytes) { \
    void *given = malloc(bytes); \
    if (!given) abort(); \
    return given; \
  }
NEW(_Znwj)
NEW(_Znaj)
WEAK void _ZdlPv(void *given) { free(given); }
WEAK void _ZdaPv(void *given) { free(given); }
WEAK void _ZdlPvj(void *given, size_t bytes) { (void)bytes; free(given); }
WEAK void _ZdaPvj(void *given, size_t bytes) { (void)bytes; free(given); }
