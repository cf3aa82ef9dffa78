/* Builds pairs for coset_put_all in the caller's memory. Nothing is proved of this header. It checks only that the
 * pairs fit.
 *
 *   coset_pair room[8];
 *   uint8_t bytes[512];
 *   coset_pairs claims = coset_pairs_in(room, 8, bytes, sizeof bytes);
 *   coset_pairs_text(&claims, 1, iss, iss_len);
 *   coset_pairs_int(&claims, 4, exp);
 *   status = coset_put_pairs(COSET_CLAIMS, NULL, 0, &claims, out, cap, &len);
 *
 * Texts, byte strings and encodings are copied into the bytes. If a pair doesn't fit, coset_put_pairs returns
 * COSET_MISUSE, and *len is 0. So it does if a value of the form COSET_INT was given as bytes. */
#ifndef COSET_PAIRS_H
#define COSET_PAIRS_H

#include "coset.h"
#include <string.h>

typedef struct coset_pairs {
  coset_pair *at;
  size_t count, room;
  uint8_t *bytes;
  size_t len, cap;
  int is_full; /* a pair didn't fit, or an integer was given as bytes */
} coset_pairs;

/* Returns an empty list, with room for this many pairs, and for this many bytes of texts, byte strings and
 * encodings. */
static inline coset_pairs coset_pairs_in(coset_pair *at, size_t room, uint8_t *bytes, size_t cap) {
  coset_pairs pairs;
  memset(&pairs, 0, sizeof pairs);
  pairs.at = at, pairs.room = room, pairs.bytes = bytes, pairs.cap = cap;
  return pairs;
}

/* Copies bytes after those that are there, and returns the offset of the copy. */
static inline size_t coset_pairs_copy(coset_pairs *pairs, const void *at, size_t len) {
  const size_t begins = pairs->len;
  if (len > pairs->cap - begins) {
    pairs->is_full = 1;
    return 0;
  }
  if (len) memcpy(pairs->bytes + begins, at, len);
  pairs->len = begins + len;
  return begins;
}

static inline void coset_pairs_add(coset_pairs *pairs, coset_pair pair) {
  if (pairs->count == pairs->room)
    pairs->is_full = 1;
  else
    pairs->at[pairs->count++] = pair;
}

/* Adds a pair at the end: an integer label, and a value of this form, as its bytes. The form isn't COSET_INT, for which
 * there is coset_pairs_int. */
static inline void coset_pairs_value(coset_pairs *pairs, int64_t label, uint32_t form, const void *at, size_t len) {
  coset_pair pair;
  memset(&pair, 0, sizeof pair);
  if (form == COSET_INT) pairs->is_full = 1;
  pair.label_form = COSET_INT, pair.label = label;
  pair.value_form = form, pair.value_at = coset_pairs_copy(pairs, at, len), pair.value_len = len;
  coset_pairs_add(pairs, pair);
}

static inline void coset_pairs_text(coset_pairs *pairs, int64_t label, const void *at, size_t len) {
  coset_pairs_value(pairs, label, COSET_TEXT, at, len);
}

static inline void coset_pairs_bytes(coset_pairs *pairs, int64_t label, const void *at, size_t len) {
  coset_pairs_value(pairs, label, COSET_BYTES, at, len);
}

static inline void coset_pairs_encoded(coset_pairs *pairs, int64_t label, const void *at, size_t len) {
  coset_pairs_value(pairs, label, COSET_ENCODED, at, len);
}

static inline void coset_pairs_int(coset_pairs *pairs, int64_t label, int64_t value) {
  coset_pair pair;
  memset(&pair, 0, sizeof pair);
  pair.label_form = COSET_INT, pair.label = label;
  pair.value_form = COSET_INT, pair.value = value;
  coset_pairs_add(pairs, pair);
}

/* Sets *narrow to the bits of a shorter float with the value of `bits`, without the sign. That float has this least exponent,
 * and this number of bits for its fraction. Returns 0 if it can't have the value. */
static inline int coset_narrowed(uint64_t bits, int least, unsigned fractions, uint64_t *narrow) {
  const uint64_t one = COSET_CAST(uint64_t, 1) << 52, whole = one | (bits & (one - 1));
  const int exponent = COSET_CAST(int, bits >> 52 & 0x7ff) - 1023, kept = exponent < least ? least : exponent;
  const unsigned lost = 52 - fractions + COSET_CAST(unsigned, kept - exponent);
  if (exponent > 1 - least || lost > 52 || (whole & ((COSET_CAST(uint64_t, 1) << lost) - 1))) return 0;
  *narrow = (COSET_CAST(uint64_t, kept - least) << fractions) + (whole >> lost);
  return 1;
}

/* Writes a float in its shortest encoding, of at most nine bytes (RFC 8949, section 4.2.2). Returns its length. */
static inline size_t coset_encoded_float(double value, uint8_t *at) {
  uint64_t bits, sign, narrow = 0;
  size_t width = 2, i;
  memcpy(&bits, &value, sizeof bits);
  sign = bits >> 63;
  if (value != value)
    narrow = 0x7e00, sign = 0;
  else if (bits << 1 == COSET_CAST(uint64_t, 0x7ff) << 53)
    narrow = 0x7c00;
  else if (bits << 1 && !coset_narrowed(bits, -14, 10, &narrow))
    width = coset_narrowed(bits, -126, 23, &narrow) ? 4 : 8;
  bits = width == 8 ? bits : sign << (8 * width - 1) | narrow;
  at[0] = width == 2 ? 0xf9 : width == 4 ? 0xfa : 0xfb;
  for (i = width; i > 0; i--, bits >>= 8) at[i] = COSET_CAST(uint8_t, bits);
  return width + 1;
}

/* The float is written in its shortest encoding. */
static inline void coset_pairs_float(coset_pairs *pairs, int64_t label, double value) {
  uint8_t item[9];
  const size_t len = coset_encoded_float(value, item);
  coset_pairs_encoded(pairs, label, item, len);
}

/* Adds a pair with a text label, and a value of this form, as its bytes. The form isn't COSET_INT, for which there is
 * coset_pairs_named_int. */
static inline void coset_pairs_named(coset_pairs *pairs, const void *label, size_t label_len, uint32_t form, const void *at,
                                     size_t len) {
  coset_pair pair;
  memset(&pair, 0, sizeof pair);
  if (form == COSET_INT) pairs->is_full = 1;
  pair.label_form = COSET_TEXT, pair.label_at = coset_pairs_copy(pairs, label, label_len), pair.label_len = label_len;
  pair.value_form = form, pair.value_at = coset_pairs_copy(pairs, at, len), pair.value_len = len;
  coset_pairs_add(pairs, pair);
}

/* Adds a pair with a text label, and an integer. */
static inline void coset_pairs_named_int(coset_pairs *pairs, const void *label, size_t label_len, int64_t value) {
  coset_pair pair;
  memset(&pair, 0, sizeof pair);
  pair.label_form = COSET_TEXT, pair.label_at = coset_pairs_copy(pairs, label, label_len), pair.label_len = label_len;
  pair.value_form = COSET_INT, pair.value = value;
  coset_pairs_add(pairs, pair);
}

/* Writes the map with these pairs added, by coset_put_all. */
COSET_CALL(4, 7)
static inline coset_status coset_put_pairs(uint32_t kind, const uint8_t *in, size_t in_len, const coset_pairs *pairs,
                                           uint8_t *out, size_t cap, size_t *len) {
  *len = 0;
  if (pairs->is_full) return COSET_MISUSE;
  return coset_put_all(kind, in, in_len, pairs->at, pairs->count, pairs->bytes, pairs->len, out, cap, len);
}

/* coset_put for a float, which is written in its shortest encoding. */
COSET_CALL(8)
static inline coset_status coset_put_float(uint32_t kind, const uint8_t *in, size_t in_len, int64_t label, double value,
                                           uint8_t *out, size_t cap, size_t *len) {
  uint8_t item[9];
  const size_t n = coset_encoded_float(value, item);
  return coset_put(kind, in, in_len, label, item, n, out, cap, len);
}

#endif
