/* Looks for a key in each block that the library frees (tools/c, which links this with --wrap=free). A private key is
 * made, read and written. No block may contain it when the block is freed. */
#include "coset.h"
#include <malloc.h>
#include <stdio.h>
#include <string.h>

static const uint8_t key[] = "the octets of a private key: 32.";
enum { KEY = sizeof key - 1 };
static int blocks, kept;

void __real_free(void *at);
void __wrap_free(void *at);

void __wrap_free(void *at) {
  const size_t size = at ? malloc_usable_size(at) : 0;
  blocks += at != NULL;
  for (size_t i = 0; i + KEY <= size; i++) kept += !memcmp((uint8_t *)at + i, key, KEY);
  __real_free(at);
}

int main(void) {
  uint8_t a[256], b[256];
  size_t na, nb;
  coset_status s = coset_put_int(COSET_KEY, NULL, 0, 1, 4, a, sizeof a, &na);
  if (!s) s = coset_put_bytes(COSET_KEY, a, na, -1, key, KEY, b, sizeof b, &nb);
  if (!s) s = coset_label_bytes(COSET_KEY, b, nb, COSET_IN_ITEM, -1, a, sizeof a, &na);
  if (!s && (na != KEY || memcmp(a, key, KEY))) return 1;
  if (!s) s = coset_label(COSET_KEY, b, nb, COSET_IN_ITEM, -1, a, sizeof a, &na);
  if (!s) s = coset_canonical_key(COSET_LEXICOGRAPHIC, b, nb, a, sizeof a, &na);
  printf("status %d, blocks %d, with the key %d\n", (int)s, blocks, kept);
  return s || kept || blocks < 10;
}
