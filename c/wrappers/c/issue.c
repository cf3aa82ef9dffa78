/* Issues a signed web token (RFC 8392), with the caller's cryptography. */
#include "coset_pairs.h"
#include "coset_verify.h"

struct string {
  const uint8_t *at;
  size_t len;
};

/* The claims of the token, and the key identifier. Texts are UTF-8. */
struct token {
  struct string iss, sub, aud, cti, kid;
  int64_t exp, nbf, iat;
};

/* Signs `tbs`. Returns COSET_YES if it signed; any other result counts as COSET_NO. The signature is then in `sig`, which
 * has `cap` bytes, and `*sig_len` is its length. */
typedef int (*signer)(void *key, const uint8_t *tbs, size_t tbs_len, uint8_t *sig, size_t cap, size_t *sig_len);

/* Writes a token with these claims to `out`, in the order of their labels, signed by ES256. Returns the status, or -1
 * if `sign` didn't sign, or set a length of 0 or above its room. COSET_MISUSE, or COSET_SHORT with `*len` 0, means that the
 * claims are too long for the buffers of this function. */
int32_t issued(const struct token *t, signer sign, void *key, uint8_t *out, size_t cap, size_t *len) {
  coset_pair room[7];
  uint8_t texts[1024], claims[1024], head[16], ids[128], tbs[1200], sig[128];
  size_t nc, nh, ni, nt, ns = 0;
  coset_pairs pairs = coset_pairs_in(room, 7, texts, sizeof texts);
  coset_pairs_text(&pairs, 1, t->iss.at, t->iss.len);
  coset_pairs_text(&pairs, 2, t->sub.at, t->sub.len);
  coset_pairs_text(&pairs, 3, t->aud.at, t->aud.len);
  coset_pairs_int(&pairs, 4, t->exp);
  coset_pairs_int(&pairs, 5, t->nbf);
  coset_pairs_int(&pairs, 6, t->iat);
  coset_pairs_bytes(&pairs, 7, t->cti.at, t->cti.len);
  *len = 0;
  int32_t s = coset_put_pairs(COSET_CLAIMS, NULL, 0, &pairs, claims, sizeof claims, &nc);
  if (!s) s = coset_put_int(COSET_HEADER, NULL, 0, 1, -7, head, sizeof head, &nh);
  if (!s) s = coset_put_bytes(COSET_HEADER, NULL, 0, 4, t->kid.at, t->kid.len, ids, sizeof ids, &ni);
  if (!s) s = coset_structure_of(COSET_SIGN1, head, nh, NULL, 0, NULL, 0, claims, nc, tbs, sizeof tbs, &nt);
  if (!s && (sign(key, tbs, nt, sig, sizeof sig, &ns) != COSET_YES || !ns || ns > sizeof sig)) return -1;
  return s ? s : coset_make(COSET_SIGN1 + COSET_TAGGED, head, nh, ids, ni, 1, claims, nc, sig, ns, out, cap, len);
}
