/* Verifies a web token (RFC 8392) of one of two issuers, with the ciphers of OpenSSL: `accept KEYS KEYS TOKEN`. The files
 * are the COSE_KeySets of the issuers, and the token. Prints the issuer and the subject of the token in one line. */
#include "coset_openssl.h"
#include <stdio.h>
#include <stdlib.h>
#include <time.h>

/* Reads a whole file of at most `cap` bytes, and returns its length. Ends the program if it can't. */
static size_t contents(const char *name, uint8_t *at, size_t cap) {
  FILE *file = fopen(name, "rb");
  const size_t len = file ? fread(at, 1, cap, file) : 0;
  if (!file || ferror(file) || fgetc(file) != EOF) {
    fprintf(stderr, "%s can't be read, or has more than %zu bytes\n", name, cap);
    exit(2);
  }
  fclose(file);
  return len;
}

/* Reads a COSE_KeySet with a key or more, and returns its length. Ends the program if it can't. */
static size_t keys_in(const char *name, uint8_t *at, size_t cap) {
  const size_t len = contents(name, at, cap);
  size_t count;
  if (coset_count(COSET_ITEM, at, len, &count)) {
    fprintf(stderr, "%s isn't a set of keys\n", name);
    exit(2);
  }
  return len;
}

/* Returns 1 if the UTF-8 text has a control character: one below 20, 7f, or one from 80 to 9f, in hexadecimal. */
static int has_control(const uint8_t *text, size_t len) {
  for (size_t i = 0; i < len; i++)
    if (text[i] < 0x20 || text[i] == 0x7f || (text[i] == 0xc2 && i + 1 < len && text[i + 1] < 0xa0)) return 1;
  return 0;
}

int main(int count, char **names) {
  static uint8_t as[4096], hub[4096], in[4096], work[9 * sizeof in + 1024], subject[256];
  static const int64_t algorithms[] = {COSET_ES256, COSET_HMAC_256_256};
  static const coset_text here = COSET_LITERAL("coap://light.example.com");
  const time_t now = time(NULL);
  if (count != 4 || now < 1) return fputs("usage: accept KEYS KEYS TOKEN, with the clock set\n", stderr), 1;
  const coset_issuer issuers[] = {
      {COSET_LITERAL("coap://as.example.com"), as, keys_in(names[1], as, sizeof as)},    /* a key for each algorithm */
      {COSET_LITERAL("coap://hub.example.com"), hub, keys_in(names[2], hub, sizeof hub)} /* a key for ES256 */
  };
  coset_openssl_ring ring = {issuers, 2};
  coset_token_policy policy = {0};
  coset_token token;
  size_t len;
  policy.rules.leeway = 60;
  policy.algorithms = algorithms, policy.algorithms_len = 2;
  policy.audiences = &here, policy.audiences_len = 1;
  coset_status status = coset_token_verify(in, contents(names[3], in, sizeof in), now, &policy, coset_openssl_open, &ring,
                                           work, sizeof work, &token);
  if (!status)
    status = coset_label_bytes(COSET_CLAIMS, token.claims, token.claims_len, COSET_IN_ITEM, 2, subject, sizeof subject, &len);
  if (status) return fprintf(stderr, "refused: %s\n", coset_status_text(status)), 1;
  if (has_control(subject, len)) return fputs("refused: the subject has a control character\n", stderr), 1;
  printf("%.*s says %.*s\n", (int)token.issuer_len, token.issuer, (int)len, (char *)subject);
  return 0;
}
