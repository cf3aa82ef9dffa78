/* Reads the words of the lines that calls.c gets (tools/c). */
#ifndef WORDS_H
#define WORDS_H

#include <stdint.h>
#include <stdlib.h>
#include <string.h>

struct bytes {
  uint8_t *at;
  size_t len;
};

static inline int digit(char c) { return c <= '9' ? c - '0' : c - 'a' + 10; }

/* Returns the bytes that the front of a word spells, as far as it is hexadecimal. They are in a block of their own, so
 * that a read past their end is detected. */
static inline struct bytes spelled(const char *word) {
  struct bytes b = {NULL, 0};
  if (!strcmp(word, "-")) return b;
  b.len = strspn(word, "0123456789abcdef") / 2;
  b.at = malloc(b.len ? b.len : 1);
  for (size_t i = 0; i < b.len; i++) b.at[i] = (uint8_t)(digit(word[2 * i]) << 4 | digit(word[2 * i + 1]));
  return b;
}

/* Reads the integers of a word, which has commas between them. `-` has none. */
static inline size_t integers(const char *word, int64_t *at, size_t most) {
  size_t count = 0;
  if (!strcmp(word, "-")) return 0;
  for (char *end = (char *)(uintptr_t)word; count < most; word = end + 1) {
    at[count++] = strtoll(word, &end, 10);
    if (!*end) break;
  }
  return count;
}

#endif
