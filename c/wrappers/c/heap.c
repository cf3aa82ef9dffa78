/* The heap of the library, built on malloc and free. If COSET_OWN_HEAP is defined (tools/c --own-heap), it is built on
 * the program's coset_malloc and coset_free. `align` is at most 16.
 *
 * Each block is wiped before it is freed, so the heap keeps no key that the library was given or found. For that, a
 * block's length is in the 16 bytes before it, and a block that grows is copied to a new one. */
#include <stdint.h>
#include <stdlib.h>
#include <string.h>

#ifdef COSET_OWN_HEAP
void *coset_malloc(size_t size);
void coset_free(void *block);
#else
#define coset_malloc malloc
#define coset_free free
#endif

enum { BEFORE = 16 };

/* ok is 0 if the request is refused. at is then not null, and not an address of memory. */
struct tried {
  uint64_t ok;
  void *at;
};

static void wipe(void *at, size_t size) {
  memset(at, 0, size);
#if defined(__GNUC__) || defined(__clang__)
  __asm__ __volatile__("" : : "r"(at) : "memory"); /* may read the block, so the compiler keeps the zeros */
#endif
}

struct tried rattle_alloc(uint64_t size, uint64_t align) {
  (void)align;
  struct tried refused = {0, (void *)16};
  if (size > SIZE_MAX - BEFORE) return refused;
  uint8_t *block = coset_malloc((size_t)size + BEFORE);
  if (!block) return refused;
  memcpy(block, &size, sizeof size);
  return (struct tried){1, block + BEFORE};
}

void rattle_dealloc(void *at) {
  uint8_t *block = (uint8_t *)at - BEFORE;
  uint64_t size;
  memcpy(&size, block, sizeof size);
  wipe(at, (size_t)size);
  coset_free(block);
}

struct tried rattle_realloc(void *at, uint64_t kept, uint64_t size, uint64_t align) {
  struct tried grown = rattle_alloc(size, align);
  if (!grown.ok) return grown;
  memcpy(grown.at, at, (size_t)(kept < size ? kept : size));
  rattle_dealloc(at);
  return grown;
}
