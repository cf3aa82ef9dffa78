/* Opens the layers of web tokens with OpenSSL 3: a coset_opener for coset_token_verify, over the keys of issuers.
 *
 *   static const coset_issuer issuers[] = {{COSET_LITERAL("coap://as.example.com"), keys, sizeof keys}};
 *   coset_openssl_ring ring = {issuers, 1};
 *   status = coset_token_verify(in, in_len, now, &policy, coset_openssl_open, &ring, work, cap, &token);
 *
 * coset_key_fits says which key fits a layer, and with which nonce. These functions make the calls of OpenSSL for the
 * layer's algorithm, so a program is linked with -lcrypto. Nothing is proved of them.
 *
 * A signature's key must be a point of its curve. MACs are compared in constant time. The plaintext is returned only
 * after its tag is verified. Ciphertexts and headers of more than INT_MAX bytes are refused. */
#ifndef COSET_OPENSSL_H
#define COSET_OPENSSL_H

#include "coset_verify.h"
#include <limits.h>
#include <openssl/bn.h>
#include <openssl/core_names.h>
#include <openssl/crypto.h>
#include <openssl/ec.h>
#include <openssl/err.h>
#include <openssl/evp.h>
#include <openssl/param_build.h>
#include <openssl/rsa.h>
#include <string.h>

#if OPENSSL_VERSION_MAJOR < 3
#error "coset_openssl.h needs OpenSSL 3"
#endif

#ifdef __cplusplus
extern "C" {
#endif

/* The algorithms that these functions have: the numbers of IANA. */
enum {
  COSET_ES256 = -7,    /* ECDSA with SHA-256 (RFC 9053, section 2.1), on P-256, P-384 or P-521 */
  COSET_ES384 = -35,   /* with SHA-384 */
  COSET_ES512 = -36,   /* with SHA-512 */
  COSET_ES256K = -47,  /* with SHA-256, on secp256k1 (RFC 8812, section 3) */
  COSET_ESP256 = -9,   /* with SHA-256, on P-256 alone */
  COSET_ESP384 = -51,  /* with SHA-384, on P-384 alone */
  COSET_ESP512 = -52,  /* with SHA-512, on P-521 alone */
  COSET_EDDSA = -8,    /* EdDSA (RFC 9053, section 2.2), with Ed25519 or Ed448 */
  COSET_ED25519 = -19, /* with Ed25519 alone */
  COSET_ED448 = -53,   /* with Ed448 alone */
  COSET_PS256 = -37,   /* RSASSA-PSS with SHA-256 (RFC 8230, section 2) */
  COSET_PS384 = -38,   /* with SHA-384 */
  COSET_PS512 = -39,   /* with SHA-512 */
  COSET_RS256 = -257,  /* RSASSA-PKCS1-v1_5 with SHA-256 (RFC 8812, section 2) */
  COSET_RS384 = -258,  /* with SHA-384 */
  COSET_RS512 = -259,  /* with SHA-512 */
  COSET_HMAC_256_64 = 4, /* HMAC with SHA-256 (RFC 9053, section 3.1), and a tag of 64 bits */
  COSET_HMAC_256_256 = 5,
  COSET_HMAC_384_384 = 6,
  COSET_HMAC_512_512 = 7,
  COSET_A128GCM = 1, /* AES-GCM (RFC 9053, section 4.1) */
  COSET_A192GCM = 2,
  COSET_A256GCM = 3,
  COSET_AES_CCM_16_64_128 = 10, /* AES-CCM (RFC 9053, section 4.2): nonces of 13 or 7 bytes, tags of 64 or 128 bits */
  COSET_AES_CCM_16_64_256 = 11,
  COSET_AES_CCM_64_64_128 = 12,
  COSET_AES_CCM_64_64_256 = 13,
  COSET_AES_CCM_16_128_128 = 30,
  COSET_AES_CCM_16_128_256 = 31,
  COSET_AES_CCM_64_128_128 = 32,
  COSET_AES_CCM_64_128_256 = 33,
  COSET_CHACHA20_POLY1305 = 24 /* RFC 9053, section 4.3 */
};

/* An issuer, and its keys. The bytes must remain while the ring is in use. */
typedef struct coset_issuer {
  coset_text name;     /* iss must be this name, if a token has it; empty if the issuer has no name */
  const uint8_t *keys; /* a COSET_KEY_SET; keys in it that can't be read are skipped (RFC 9052, section 7) */
  size_t keys_len;
} coset_issuer;

/* The issuers that the caller trusts. It is the context of coset_openssl_open. */
typedef struct coset_openssl_ring {
  const coset_issuer *issuers;
  size_t len;
} coset_openssl_ring;

/* A byte string of a key, in memory of its own. `at` is NULL if the key doesn't have it. */
struct coset_openssl_bytes {
  uint8_t *at;
  size_t len;
};

/* Returns the byte string under a label of the key. */
static inline struct coset_openssl_bytes coset_openssl_member(const uint8_t *key, size_t key_len, int64_t label) {
  struct coset_openssl_bytes bytes = {NULL, 0};
  size_t len;
  if (coset_label_bytes(COSET_KEY, key, key_len, COSET_IN_ITEM, label, NULL, 0, &len) != COSET_SHORT) return bytes;
  bytes.at = COSET_CAST(uint8_t *, OPENSSL_malloc(len));
  bytes.len = len;
  if (bytes.at && coset_label_bytes(COSET_KEY, key, key_len, COSET_IN_ITEM, label, bytes.at, len, &len)) {
    OPENSSL_clear_free(bytes.at, bytes.len);
    bytes.at = NULL;
  }
  return bytes;
}

/* Returns the hash function of an algorithm, or NULL if it has none. */
static inline const char *coset_openssl_digest(int64_t algorithm) {
  switch (algorithm) {
  case COSET_ES256: case COSET_ES256K: case COSET_ESP256: case COSET_PS256: case COSET_RS256: return "SHA256";
  case COSET_HMAC_256_64: case COSET_HMAC_256_256: return "SHA256";
  case COSET_ES384: case COSET_ESP384: case COSET_PS384: case COSET_RS384: case COSET_HMAC_384_384: return "SHA384";
  case COSET_ES512: case COSET_ESP512: case COSET_PS512: case COSET_RS512: case COSET_HMAC_512_512: return "SHA512";
  default: return NULL;
  }
}

/* ---- Signatures */

/* Returns the public key of these parameters, or NULL if OpenSSL refuses them. */
static inline EVP_PKEY *coset_openssl_key_of(const char *type, OSSL_PARAM *params) {
  EVP_PKEY *key = NULL;
  EVP_PKEY_CTX *context = EVP_PKEY_CTX_new_from_name(NULL, type, NULL);
  if (!context || !params || EVP_PKEY_fromdata_init(context) != 1 ||
      EVP_PKEY_fromdata(context, &key, EVP_PKEY_PUBLIC_KEY, params) != 1)
    key = NULL;
  EVP_PKEY_CTX_free(context);
  return key;
}

/* Returns OpenSSL's name of a curve by its number (RFC 9053, section 7.1), or NULL. */
static inline const char *coset_openssl_curve(int64_t number) {
  switch (number) {
  case 1: return "P-256";
  case 2: return "P-384";
  case 3: return "P-521";
  case 8: return "secp256k1";
  default: return NULL;
  }
}

/* Writes a key's point as OpenSSL reads it (SEC 1, section 2.3.3), and returns its length, or 0. y may be its sign. */
static inline size_t coset_openssl_point(const uint8_t *key, size_t key_len, uint8_t point[133]) {
  size_t x, y;
  coset_status status = coset_label_bytes(COSET_KEY, key, key_len, COSET_IN_ITEM, -2, point + 1, 66, &x);
  if (status) return 0;
  status = coset_label_bytes(COSET_KEY, key, key_len, COSET_IN_ITEM, -3, point + 1 + x, 66, &y);
  point[0] = 4;
  if (!status) return y == x ? 1 + x + y : 0;
  if (status != COSET_TYPE || coset_label(COSET_KEY, key, key_len, COSET_IN_ITEM, -3, point, 1, &y)) return 0;
  if (point[0] != 0xf4 && point[0] != 0xf5) return 0;
  point[0] = point[0] == 0xf5 ? 3 : 2; /* true: y is odd */
  return 1 + x;
}

/* Returns a public key for ECDSA, whose point is on its curve, or NULL. */
static inline EVP_PKEY *coset_openssl_ec(const uint8_t *key, size_t key_len) {
  uint8_t point[133];
  char curve[16] = "";
  const size_t len = coset_openssl_point(key, key_len, point);
  const char *name = NULL;
  int64_t number;
  OSSL_PARAM params[3];
  EVP_PKEY *made;
  EVP_PKEY_CTX *context;
  int is_valid;
  if (len && !coset_label_int(COSET_KEY, key, key_len, COSET_IN_ITEM, -1, &number)) name = coset_openssl_curve(number);
  if (!name) return NULL;
  memcpy(curve, name, strlen(name));
  params[0] = OSSL_PARAM_construct_utf8_string(OSSL_PKEY_PARAM_GROUP_NAME, curve, 0);
  params[1] = OSSL_PARAM_construct_octet_string(OSSL_PKEY_PARAM_PUB_KEY, point, len);
  params[2] = OSSL_PARAM_construct_end();
  made = coset_openssl_key_of("EC", params);
  context = made ? EVP_PKEY_CTX_new_from_pkey(NULL, made, NULL) : NULL;
  is_valid = context && EVP_PKEY_public_check_quick(context) == 1;
  EVP_PKEY_CTX_free(context);
  if (is_valid) return made;
  EVP_PKEY_free(made);
  return NULL;
}

/* Returns a public key for EdDSA, or NULL. The verification checks that its point is on the curve. */
static inline EVP_PKEY *coset_openssl_okp(const uint8_t *key, size_t key_len) {
  uint8_t x[57];
  size_t len;
  int64_t curve;
  if (coset_label_int(COSET_KEY, key, key_len, COSET_IN_ITEM, -1, &curve) || (curve != 6 && curve != 7)) return NULL;
  if (coset_label_bytes(COSET_KEY, key, key_len, COSET_IN_ITEM, -2, x, sizeof x, &len)) return NULL;
  return EVP_PKEY_new_raw_public_key_ex(NULL, curve == 6 ? "ED25519" : "ED448", NULL, x, len);
}

/* Returns a public key for RSA, or NULL. Its exponent is odd, and isn't 1. */
static inline EVP_PKEY *coset_openssl_rsa(const uint8_t *key, size_t key_len) {
  struct coset_openssl_bytes n = coset_openssl_member(key, key_len, -1), e = coset_openssl_member(key, key_len, -2);
  BIGNUM *modulus = n.at && n.len <= INT_MAX ? BN_bin2bn(n.at, COSET_CAST(int, n.len), NULL) : NULL;
  BIGNUM *exponent = e.at && e.len <= INT_MAX ? BN_bin2bn(e.at, COSET_CAST(int, e.len), NULL) : NULL;
  OSSL_PARAM_BLD *builder = OSSL_PARAM_BLD_new();
  OSSL_PARAM *params = NULL;
  EVP_PKEY *made = NULL;
  if (modulus && exponent && builder && BN_is_odd(exponent) && !BN_is_one(exponent) &&
      OSSL_PARAM_BLD_push_BN(builder, OSSL_PKEY_PARAM_RSA_N, modulus) == 1 &&
      OSSL_PARAM_BLD_push_BN(builder, OSSL_PKEY_PARAM_RSA_E, exponent) == 1)
    params = OSSL_PARAM_BLD_to_param(builder);
  if (params) made = coset_openssl_key_of("RSA", params);
  OSSL_PARAM_free(params);
  OSSL_PARAM_BLD_free(builder);
  BN_free(modulus), BN_free(exponent);
  OPENSSL_clear_free(n.at, n.len), OPENSSL_clear_free(e.at, e.len);
  return made;
}

/* Returns 1 if `proof` is a signature of the question's input by the key. `padding` is that of RSA, for which the proof
 * must be as long as the modulus, or 0. */
static inline int coset_openssl_is_signed(EVP_PKEY *key, int padding, const coset_layer_question *question,
                                          const uint8_t *proof, size_t proof_len) {
  EVP_MD_CTX *context = EVP_MD_CTX_new();
  EVP_PKEY_CTX *with = NULL;
  int is = context && EVP_DigestVerifyInit_ex(context, &with, coset_openssl_digest(question->algorithm), NULL, NULL, key,
                                              NULL) == 1;
  if (padding) is = is && proof_len == COSET_CAST(size_t, EVP_PKEY_get_size(key));
  if (padding) is = is && EVP_PKEY_CTX_set_rsa_padding(with, padding) == 1;
  if (padding == RSA_PKCS1_PSS_PADDING) is = is && EVP_PKEY_CTX_set_rsa_pss_saltlen(with, RSA_PSS_SALTLEN_DIGEST) == 1;
  is = is && EVP_DigestVerify(context, proof, proof_len, question->input, question->input_len) == 1;
  EVP_MD_CTX_free(context);
  return is;
}

/* Returns 1 if the proof is a signature by the key: r and s, each as long as the curve's order (RFC 9053, section 2.1). */
static inline int coset_openssl_ecdsa(EVP_PKEY *key, const coset_layer_question *question) {
  const int half = (EVP_PKEY_get_bits(key) + 7) / 8;
  ECDSA_SIG *signature;
  BIGNUM *r, *s;
  unsigned char *der = NULL;
  int len = 0, is;
  if (half <= 0 || question->proof_len != 2 * COSET_CAST(size_t, half)) return 0;
  signature = ECDSA_SIG_new();
  r = BN_bin2bn(question->proof, half, NULL), s = BN_bin2bn(question->proof + half, half, NULL);
  if (signature && r && s && ECDSA_SIG_set0(signature, r, s) == 1) {
    r = s = NULL; /* the signature frees them */
    len = i2d_ECDSA_SIG(signature, &der);
  }
  is = len > 0 && coset_openssl_is_signed(key, 0, question, der, COSET_CAST(size_t, len));
  OPENSSL_free(der);
  ECDSA_SIG_free(signature);
  BN_free(r), BN_free(s);
  return is;
}

/* Returns 1 if the layer's signature is one by the key. */
static inline int coset_openssl_signature(const uint8_t *key, size_t key_len, const coset_layer_question *question) {
  EVP_PKEY *made = NULL;
  int is = 0;
  switch (question->algorithm) {
  case COSET_ES256: case COSET_ES384: case COSET_ES512: case COSET_ES256K:
  case COSET_ESP256: case COSET_ESP384: case COSET_ESP512:
    made = coset_openssl_ec(key, key_len);
    is = made && coset_openssl_ecdsa(made, question);
    break;
  case COSET_EDDSA: case COSET_ED25519: case COSET_ED448:
    made = coset_openssl_okp(key, key_len);
    is = made && coset_openssl_is_signed(made, 0, question, question->proof, question->proof_len);
    break;
  case COSET_PS256: case COSET_PS384: case COSET_PS512:
    made = coset_openssl_rsa(key, key_len);
    is = made && coset_openssl_is_signed(made, RSA_PKCS1_PSS_PADDING, question, question->proof, question->proof_len);
    break;
  case COSET_RS256: case COSET_RS384: case COSET_RS512:
    made = coset_openssl_rsa(key, key_len);
    is = made && coset_openssl_is_signed(made, RSA_PKCS1_PADDING, question, question->proof, question->proof_len);
    break;
  default: break;
  }
  EVP_PKEY_free(made);
  return is;
}

/* ---- MACs */

/* Returns 1 if the layer's MAC is one by the key. It is the front of the MAC if the algorithm cuts it. */
static inline int coset_openssl_mac(const uint8_t *key, size_t key_len, const coset_layer_question *question) {
  const char *digest = coset_openssl_digest(question->algorithm);
  struct coset_openssl_bytes k = coset_openssl_member(key, key_len, -1);
  unsigned char mac[EVP_MAX_MD_SIZE];
  size_t len = 0;
  int is = k.at && digest &&
           EVP_Q_mac(NULL, "HMAC", NULL, digest, NULL, k.at, k.len, question->input, question->input_len, mac, sizeof mac, &len);
  is = is && question->proof_len == (question->algorithm == COSET_HMAC_256_64 ? 8 : len) &&
       CRYPTO_memcmp(mac, question->proof, question->proof_len) == 0;
  OPENSSL_clear_free(k.at, k.len);
  OPENSSL_cleanse(mac, sizeof mac);
  return is;
}

/* ---- Encryption */

/* Returns OpenSSL's name of a cipher, and the length of its tag, or NULL. */
static inline const char *coset_openssl_cipher(int64_t algorithm, size_t *tag) {
  *tag = 16;
  switch (algorithm) {
  case COSET_A128GCM: return "AES-128-GCM";
  case COSET_A192GCM: return "AES-192-GCM";
  case COSET_A256GCM: return "AES-256-GCM";
  case COSET_CHACHA20_POLY1305: return "ChaCha20-Poly1305";
  case COSET_AES_CCM_16_128_128: case COSET_AES_CCM_64_128_128: return "AES-128-CCM";
  case COSET_AES_CCM_16_128_256: case COSET_AES_CCM_64_128_256: return "AES-256-CCM";
  case COSET_AES_CCM_16_64_128: case COSET_AES_CCM_64_64_128: return *tag = 8, "AES-128-CCM";
  case COSET_AES_CCM_16_64_256: case COSET_AES_CCM_64_64_256: return *tag = 8, "AES-256-CCM";
  default: return NULL;
  }
}

/* Decrypts `len` bytes by a cipher that has its key, nonce and tag. Returns 1 if the tag is right. */
static inline int coset_openssl_decrypted(EVP_CIPHER_CTX *context, int is_ccm, const coset_layer_question *question, int len,
                                          uint8_t *plain) {
  uint8_t none[1] = {0};
  int done = 0, rest = 0;
  if (is_ccm && EVP_DecryptUpdate(context, NULL, &done, NULL, len) != 1) return 0;
  if (EVP_DecryptUpdate(context, NULL, &done, question->input, COSET_CAST(int, question->input_len)) != 1) return 0;
  done = 0; /* without a place for its output, OpenSSL would take the ciphertext for further data */
  if ((len || is_ccm) && EVP_DecryptUpdate(context, len ? plain : none, &done, question->proof, len) != 1) return 0;
  if (!is_ccm && EVP_DecryptFinal_ex(context, len ? plain + done : none, &rest) != 1) return 0;
  return done + rest == len;
}

/* Decrypts a layer by the key `k` and the nonce. Returns the result of a coset_opener. */
static inline int coset_openssl_decrypt(struct coset_openssl_bytes k, uint8_t *nonce, size_t nonce_len,
                                        const coset_layer_question *question, uint8_t *plain, size_t cap, size_t *len) {
  size_t tag;
  const char *name = coset_openssl_cipher(question->algorithm, &tag);
  size_t most;
  uint8_t end[16];
  EVP_CIPHER *cipher;
  EVP_CIPHER_CTX *context;
  int is;
  if (!name || !k.at || question->proof_len < tag || question->proof_len > INT_MAX || question->input_len > INT_MAX)
    return COSET_NO;
  *len = most = question->proof_len - tag;
  if (most > cap) return COSET_NO_ROOM;
  memcpy(end, question->proof + most, tag);
  cipher = EVP_CIPHER_fetch(NULL, name, NULL);
  context = EVP_CIPHER_CTX_new();
  is = cipher && context && COSET_CAST(size_t, EVP_CIPHER_get_key_length(cipher)) == k.len &&
       EVP_DecryptInit_ex2(context, cipher, NULL, NULL, NULL) == 1 &&
       EVP_CIPHER_CTX_ctrl(context, EVP_CTRL_AEAD_SET_IVLEN, COSET_CAST(int, nonce_len), NULL) == 1 &&
       EVP_CIPHER_CTX_ctrl(context, EVP_CTRL_AEAD_SET_TAG, COSET_CAST(int, tag), end) == 1 &&
       EVP_DecryptInit_ex2(context, NULL, k.at, nonce, NULL) == 1 &&
       coset_openssl_decrypted(context, EVP_CIPHER_get_mode(cipher) == EVP_CIPH_CCM_MODE, question, COSET_CAST(int, most),
                               plain);
  EVP_CIPHER_CTX_free(context);
  EVP_CIPHER_free(cipher);
  if (!is && most) OPENSSL_cleanse(plain, most);
  return is ? COSET_YES : COSET_NO;
}

/* ---- A ring of keys */

/* Opens a layer by a key. `*left` is the number of keys that may still be tried. Returns:
 * - the result of a coset_opener for this key, if it fits,
 * - COSET_TOO_MANY_KEYS if it fits and may not be tried,
 * - COSET_UNFIT if it doesn't fit, or can't be read,
 * - COSET_MEMORY if an allocation fails, so that it isn't known whether the key fits. */
static inline int coset_openssl_by_key(const uint8_t *key, size_t key_len, const coset_layer_question *question, int *left,
                                       uint8_t *plain, size_t cap, size_t *len) {
  uint8_t nonce[13];
  size_t nonce_len;
  struct coset_openssl_bytes k;
  const coset_status status =
      coset_key_fits(key, key_len, question->form, question->algorithm, question->key_id, question->key_id_len, question->iv,
                     question->iv_len, question->partial_iv, question->partial_iv_len, question->proof, question->proof_len,
                     nonce, sizeof nonce, &nonce_len);
  int said;
  if (status) return status == COSET_MEMORY ? COSET_MEMORY : COSET_UNFIT;
  if ((*left)-- == 0) return COSET_TOO_MANY_KEYS;
  if (question->form == COSET_SIGN1) return coset_openssl_signature(key, key_len, question) ? COSET_YES : COSET_NO;
  if (question->form == COSET_MAC0) return coset_openssl_mac(key, key_len, question) ? COSET_YES : COSET_NO;
  if (question->form != COSET_ENCRYPT0) return COSET_NO;
  k = coset_openssl_member(key, key_len, -1);
  said = coset_openssl_decrypt(k, nonce, nonce_len, question, plain, cap, len);
  OPENSSL_clear_free(k.at, k.len);
  return said;
}

/* Adds the result for one more key or set to the result so far. Returns 1 if no further key is looked at. */
static inline int coset_openssl_is_last(int more, int *said) {
  if (more != COSET_UNFIT) *said = more;
  return *said != COSET_UNFIT && *said != COSET_NO;
}

/* Tries each key of a set that fits, in order. Returns COSET_UNFIT if none fits, COSET_NO if each is refused, or the first
 * other result. */
static inline int coset_openssl_by_set(const uint8_t *keys, size_t keys_len, const coset_layer_question *question, int *left,
                                       uint8_t *plain, size_t cap, size_t *len) {
  coset_span key;
  size_t count;
  int said = COSET_UNFIT;
  coset_status status = coset_count(COSET_ITEM, keys, keys_len, &count);
  if (!status) status = coset_member_span(COSET_ITEM, keys, keys_len, 0, &key);
  while (!status) {
    if (coset_openssl_is_last(coset_openssl_by_key(keys + key.at, key.len, question, left, plain, cap, len), &said)) return said;
    if (--count == 0) return said;
    status = coset_item_span(keys, keys_len, key.at + key.len, &key);
  }
  return status == COSET_MEMORY ? COSET_MEMORY : said;
}

/* The coset_opener of a coset_openssl_ring, which is its context. It tries each key that fits, issuer by issuer, and
 * COSET_MOST_TRIES keys at most. The first key by which the layer is authentic names the issuer. A key for another
 * algorithm than these may fit, and is refused. So is a key if an allocation fails while it is tried. If an allocation
 * fails before it is known whether a key fits, the result is COSET_NO. Errors of OpenSSL don't remain in the thread's queue
 * of errors. */
static inline int coset_openssl_open(void *context, const coset_layer_question *question, uint8_t *plain, size_t cap,
                                     size_t *len, coset_text *issuer) {
  const coset_openssl_ring *ring = COSET_CAST(const coset_openssl_ring *, context);
  size_t i;
  int said = COSET_UNFIT, left = COSET_MOST_TRIES, more;
  ERR_set_mark();
  for (i = 0; i < ring->len; i++) {
    more = coset_openssl_by_set(ring->issuers[i].keys, ring->issuers[i].keys_len, question, &left, plain, cap, len);
    if (coset_openssl_is_last(more, &said)) break;
  }
  if (said == COSET_YES) *issuer = ring->issuers[i].name;
  ERR_pop_to_mark();
  return said == COSET_MEMORY ? COSET_NO : said;
}

#ifdef __cplusplus
}
#endif

#endif
