/* Verifies a signed message, a COSE_Sign1, with the caller's cryptography. */
#include "coset_verify.h"

coset_status verified(const uint8_t *in, size_t n, coset_verifier verify, void *keys, uint8_t *out, size_t cap,
                      const uint8_t **payload, size_t *len);

/* Verifies the message, and returns the status that coset_verify.h describes. If it is COSET_OK, `verify` said yes to an
 * ES256 signature, and `*payload` is the message's payload, of `*len` bytes in `out`. Else `*payload` is NULL.
 *
 * Nothing else is checked, such as `exp`, `aud` or `iss`: for a web token call coset_token_verify. */
coset_status verified(const uint8_t *in, size_t n, coset_verifier verify, void *keys, uint8_t *out, size_t cap,
                      const uint8_t **payload, size_t *len) {
  const int64_t es256 = -7;
  const coset_policy policy = {.algorithms = &es256, .algorithms_len = 1};
  return coset_sign1_verify(COSET_EITHER, in, n, &policy, verify, keys, out, cap, payload, len);
}
