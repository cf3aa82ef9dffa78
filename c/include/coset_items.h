/* Reads the types of items, floats, simple values, and all pairs of a map at once, by calls of coset.h. Nothing is proved
 * of this header. It reads only bytes that these calls accept. */
#ifndef COSET_ITEMS_H
#define COSET_ITEMS_H

#include "coset.h"
#include <string.h>

#ifdef __cplusplus
extern "C" {
#endif

/* Major types (RFC 8949, section 3.1). */
enum {
  COSET_UNSIGNED = 0,
  COSET_NEGATIVE = 1,
  COSET_BYTE_STRING = 2,
  COSET_TEXT_STRING = 3,
  COSET_ARRAY = 4,
  COSET_MAP = 5,
  COSET_TAG = 6,
  COSET_SIMPLE = 7 /* a float or a simple value */
};

/* Simple values (section 3.3). The library supports no others. */
enum {
  COSET_FALSE = 20,
  COSET_TRUE = 21,
  COSET_NULL = 22
};

/* Sets *major to the major type of a COSET_ITEM. Unless the status is COSET_OK, it is 0. */
COSET_CALL(3)
static inline coset_status coset_major_type(const uint8_t *in, size_t in_len, uint32_t *major) {
  size_t offset;
  const coset_status status = coset_check(COSET_ITEM, in, in_len, &offset);
  *major = status ? 0 : in[0] >> 5;
  return status;
}

/* Sets *value to the simple value that a COSET_ITEM is. Unless the status is COSET_OK, it is 0. Also: COSET_TYPE if the
 * item isn't a simple value. */
COSET_CALL(3)
static inline coset_status coset_simple_value(const uint8_t *in, size_t in_len, uint32_t *value) {
  const coset_status status = coset_major_type(in, in_len, value);
  if (status) return status;
  *value = *value == COSET_SIMPLE && in_len == 1 ? in[0] & 31u : 0;
  return *value ? COSET_OK : COSET_TYPE;
}

/* Returns the bits of a float of 64 bits with the value of a shorter one. That has these numbers of bits for its exponent
 * and its fraction. */
static inline uint64_t coset_widened(uint64_t bits, unsigned exponents, unsigned fractions) {
  const uint64_t most = (COSET_CAST(uint64_t, 1) << exponents) - 1, hidden = COSET_CAST(uint64_t, 1) << fractions;
  const uint64_t sign = bits >> (exponents + fractions);
  uint64_t exponent = bits >> fractions & most, fraction = bits & (hidden - 1);
  if (exponent == most) {
    exponent = 0x7ff; /* an infinity or NaN */
  } else if (exponent || fraction) {
    exponent += 1023 - (most >> 1);
    if (!(bits >> fractions & most)) {
      for (exponent++; !(fraction & hidden); fraction <<= 1) exponent--; /* a subnormal number */
    }
  }
  return sign << 63 | exponent << 52 | (fraction & (hidden - 1)) << (52 - fractions);
}

/* Sets *value to the float that a COSET_ITEM is, of 16, 32 or 64 bits. Unless the status is COSET_OK, it is 0. Also:
 * COSET_TYPE if the item isn't a float. */
COSET_CALL(3)
static inline coset_status coset_float_value(const uint8_t *in, size_t in_len, double *value) {
  uint32_t major;
  uint64_t bits = 0;
  size_t i;
  const coset_status status = coset_major_type(in, in_len, &major);
  *value = 0;
  if (status) return status;
  if (major != COSET_SIMPLE || in_len == 1) return COSET_TYPE;
  for (i = 1; i < in_len; i++) bits = bits << 8 | in[i];
  if (in_len == 3) bits = coset_widened(bits, 5, 10);
  if (in_len == 5) bits = coset_widened(bits, 8, 23);
  memcpy(value, &bits, sizeof bits);
  return COSET_OK;
}

/* The places of a map's label and its value in `in`. */
typedef struct coset_pair_place {
  coset_span label;
  coset_span value;
} coset_pair_place;

/* Fills pairs with the places of all pairs of a map, as received and in their order, in one walk. *count is their number.
 * If there are more than cap, the status is COSET_SHORT, and pairs has the first cap of them. After any other status but
 * COSET_OK, *count is 0. Also: COSET_ABSENT if the item isn't a map. */
COSET_CALL(6)
static inline coset_status coset_map_spans(uint32_t kind, const uint8_t *in, size_t in_len, coset_pair_place *pairs, size_t cap,
                                           size_t *count) {
  coset_pair_place pair;
  size_t found = 0, end;
  coset_status status = coset_pair_spans(kind, in, in_len, 0, &pair.label, &pair.value);
  *count = 0;
  if (cap > COSET_CAST(size_t, PTRDIFF_MAX) / sizeof *pairs) return COSET_MISUSE;
  if (status == COSET_ABSENT && in[0] >> 5 == COSET_MAP) return COSET_OK; /* an empty map */
  while (!status) {
    if (found < cap) pairs[found] = pair;
    found++;
    end = pair.value.at + pair.value.len;
    if (end == in_len || in[end] == 0xff) { /* the end of the map, or its break */
      *count = found;
      return found > cap ? COSET_SHORT : COSET_OK;
    }
    status = coset_item_span(in, in_len, end, &pair.label);
    if (!status) status = coset_item_span(in, in_len, pair.label.at + pair.label.len, &pair.value);
  }
  return status;
}

#ifdef __cplusplus
}
#endif

#endif
