/* Times the verifying and issuing of a token, without any cryptography (tools/c --time). The token is the argument, in
 * hexadecimal. Prints the least time of a call among the rounds, in nanoseconds. */
#define _POSIX_C_SOURCE 199309L
#include "coset_verify.h"
#include <stdio.h>
#include <stdlib.h>
#include <string.h>
#include <time.h>

enum { ROUNDS = 40, CALLS = 5000 };

/* Defined in verify.c and issue.c. */
coset_status verified(const uint8_t *in, size_t n, coset_verifier verify, void *keys, uint8_t *out, size_t cap,
                      const uint8_t **payload, size_t *len);
struct string {
  const uint8_t *at;
  size_t len;
};
struct token {
  struct string iss, sub, aud, cti, kid;
  int64_t exp, nbf, iat;
};
typedef int (*signer)(void *key, const uint8_t *tbs, size_t tbs_len, uint8_t *sig, size_t cap, size_t *sig_len);
int32_t issued(const struct token *t, signer sign, void *key, uint8_t *out, size_t cap, size_t *len);

static uint8_t in[4096], out[8192], made[4096], held[4096], sig[128];
static size_t in_len, sig_len;

static int yes(void *keys, const coset_question *q) {
  return (void)keys, q->algorithm == -7 && q->key_id_len && q->input_len && q->proof_len ? COSET_YES : COSET_NO;
}

static int sign(void *key, const uint8_t *tbs, size_t tbs_len, uint8_t *s, size_t cap, size_t *s_len) {
  (void)key, (void)tbs, (void)cap;
  memcpy(s, sig, *s_len = sig_len);
  return tbs_len ? COSET_YES : COSET_NO;
}

static double now(void) {
  struct timespec t;
  clock_gettime(CLOCK_MONOTONIC, &t);
  return t.tv_sec * 1e9 + t.tv_nsec;
}

int main(int argc, char **argv) {
  struct token t = {0};
  struct string *texts[] = {&t.iss, &t.sub, &t.aud, &t.cti};
  const int64_t labels[] = {1, 2, 3, 7};
  const uint8_t *claims;
  size_t at = 0, len, claims_len;
  double verifying = 1e18, issuing = 1e18;
  unsigned byte;
  for (const char *c = argc > 1 ? argv[1] : ""; sscanf(c, "%2x", &byte) == 1 && in_len < sizeof in; c += 2) in[in_len++] = (uint8_t)byte;
  if (verified(in, in_len, yes, NULL, out, sizeof out, &claims, &claims_len)) return 1;
  for (int i = 0; i < 4; i++, at += len) {
    if (coset_label_bytes(COSET_CLAIMS, claims, claims_len, COSET_IN_ITEM, labels[i], held + at, sizeof held - at, &len)) return 1;
    *texts[i] = (struct string){held + at, len};
  }
  if (coset_label_bytes(COSET_SIGN1 + COSET_EITHER, in, in_len, COSET_IN_UNPROTECTED, 4, held + at, sizeof held - at, &len)) return 1;
  t.kid = (struct string){held + at, len};
  if (coset_label_int(COSET_CLAIMS, claims, claims_len, COSET_IN_ITEM, 4, &t.exp)) return 1;
  if (coset_label_int(COSET_CLAIMS, claims, claims_len, COSET_IN_ITEM, 5, &t.nbf)) return 1;
  if (coset_label_int(COSET_CLAIMS, claims, claims_len, COSET_IN_ITEM, 6, &t.iat)) return 1;
  if (coset_part(COSET_SIGN1 + COSET_EITHER, in, in_len, COSET_PROOF, sig, sizeof sig, &sig_len)) return 1;
  for (int round = 0; round < ROUNDS; round++) {
    double began = now();
    for (int i = 0; i < CALLS; i++)
      if (verified(in, in_len, yes, NULL, out, sizeof out, &claims, &len)) return 1;
    double between = now();
    for (int i = 0; i < CALLS; i++)
      if (issued(&t, sign, NULL, made, sizeof made, &len)) return 1;
    double took = (between - began) / CALLS, took_too = (now() - between) / CALLS;
    if (took < verifying) verifying = took;
    if (took_too < issuing) issuing = took_too;
  }
  if (len != in_len || memcmp(in, made, len)) return 1;
  printf("verifying %.0f ns, issuing %.0f ns\n", verifying, issuing);
  return 0;
}
