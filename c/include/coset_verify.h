/* Verifies and decrypts in one call, by the calls of coset.h and the caller's cryptography. A message's contents are
 * handed out only after the caller's function said yes.
 *
 * These functions are static inline, and nothing is proved of them. Except for lengths, and for heads in
 * coset_is_deeper, they look only at the results of the calls of coset.h, which are proved. */
#ifndef COSET_VERIFY_H
#define COSET_VERIFY_H

#include "coset.h"

#ifdef __cplusplus
extern "C" {
#endif

/* Two more statuses, which these calls return. */
enum {
  COSET_REFUSED = 18,      /* the caller's function said no, or a signature or tag is empty */
  COSET_TOO_MANY_KEYS = 35 /* the caller's function said so: the keys that it tried are refused, and more fit the layer */
};

/* The caller's requirements for a message. A policy of all zeros accepts nothing. */
typedef struct coset_policy {
  const int64_t *algorithms; /* the algorithms that are allowed. List only algorithms for the kind of the message: a
                                COSE_Mac0's algorithm in a COSE_Sign1's list would be accepted */
  size_t algorithms_len;
  const int64_t *critical; /* the critical labels that the caller understands, and acts on */
  size_t critical_len;
  const uint8_t *external_aad;
  size_t external_aad_len;
  uint32_t has_detached; /* if it isn't 0, the message carries no payload or ciphertext, and `detached` is it */
  const uint8_t *detached;
  size_t detached_len;
} coset_policy;

/* The question that the caller's function answers. */
typedef struct coset_question {
  uint32_t kind;           /* the kind of the message, without COSET_TAGGED or COSET_EITHER */
  int64_t algorithm;       /* one of those that are allowed */
  const uint8_t *key_id;   /* NULL if the message names no key */
  size_t key_id_len;
  uint32_t key_id_map;     /* COSET_IN_PROTECTED; COSET_IN_UNPROTECTED, which isn't signed; or COSET_NONE */
  const uint8_t *input;    /* the structure that is signed, authenticated, or goes with the ciphertext */
  size_t input_len;
  const uint8_t *proof;    /* the signature or the tag; for coset_encrypt0_decrypt the ciphertext */
  size_t proof_len;
  const uint8_t *iv;       /* from coset_encrypt0_decrypt alone: label 5 of a header, else NULL */
  size_t iv_len;
  uint32_t iv_map;         /* the header that has it, as for the key identifier */
  const uint8_t *partial_iv; /* from coset_encrypt0_decrypt alone: label 6 of a header, else NULL */
  size_t partial_iv_len;
  uint32_t partial_iv_map; /* the header that has it */
} coset_question;

/* The results of the caller's functions. A yes is none of the numbers that a function returns on another path: a
 * coset_status (COSET_SHORT is 1), a truth (1), or an error code (-1). Any number that isn't listed here is a no. */
enum {
  COSET_NO = 0,
  COSET_YES = 0x59e5,
  COSET_NO_ROOM = 0x2008 /* of a coset_decrypter, or of a coset_opener for COSET_ENCRYPT0: `plain` is too small */
};

/* Returns COSET_YES if the proof is a signature or a tag of the input, by a key that the caller trusts for that algorithm.
 * Any other result counts as COSET_NO.
 *
 * It isn't called for an empty proof, because no algorithm has one (RFC 9053, sections 2 and 3). No other length is
 * checked. So compare the proof's length with the algorithm's before its bytes. coset_key_fits compares it, except
 * that of a signature by HSS/LMS, WalnutDSA or ML-DSA. */
typedef int (*coset_verifier)(void *context, const coset_question *question);

/* Decrypts the ciphertext by such a key. Returns:
 * - COSET_YES if it is authentic. The plaintext is then in `plain`, which has `cap` bytes, and `*len` is its length.
 *   `plain` has room for as many bytes as the ciphertext has.
 * - COSET_NO_ROOM if `cap` is too small all the same. `*len` may be the size that is needed.
 * - COSET_NO otherwise. Any other result counts as COSET_NO. So does COSET_YES with a length greater than `cap`, or if
 *   `*len` isn't set.
 *
 * The lengths of the ciphertext and of the IVs aren't checked: the ciphertext may be shorter than a tag.
 *
 * It isn't called for a message with both an IV and a partial IV. */
typedef int (*coset_decrypter)(void *context, const coset_question *question, uint8_t *plain, size_t cap, size_t *len);

/* Writes zeros over memory whose contents weren't handed out. */
static inline void coset_cleared(uint8_t *at, size_t len) {
  for (volatile uint8_t *byte = at; len > 0; len--) *byte++ = 0;
}

/* Checks the view against the policy. Returns COSET_OK, COSET_NOT_ALLOWED or COSET_CRITICAL, or COSET_MISUSE if the
 * list of algorithms is longer than any object. It isn't checked that the algorithms are for the kind of the message. */
COSET_CALL(1, 2)
static inline coset_status coset_permitted(const coset_message_spans_view *view, const coset_policy *policy) {
  size_t i = 0;
  if (policy->algorithms_len > COSET_CAST(size_t, PTRDIFF_MAX) / sizeof *policy->algorithms) return COSET_MISUSE;
  if (view->critical == COSET_NOT_UNDERSTOOD) return COSET_CRITICAL;
  if (view->algorithm_form != COSET_INT) return COSET_NOT_ALLOWED;
  while (i < policy->algorithms_len && policy->algorithms[i] != view->algorithm) i++;
  if (i == policy->algorithms_len) return COSET_NOT_ALLOWED;
  return COSET_OK;
}

/* Returns the kind of a message in this form. Returns 0, which is no kind, if form isn't 0, COSET_TAGGED or
 * COSET_EITHER. */
static inline uint32_t coset_kind_in(uint32_t message, uint32_t form) {
  return form == 0 || form == COSET_TAGGED || form == COSET_EITHER ? message + form : 0;
}

/* Returns the question for a view. Its texts are in the message or in `out`, as the view says. */
static inline coset_question coset_asked(uint32_t kind, const coset_message_spans_view *view, const uint8_t *in,
                                         const uint8_t *out) {
  coset_question question;
  question.kind = kind & 0xff;
  question.algorithm = view->algorithm;
  question.input = out;
  question.input_len = view->structure_len;
  question.proof = (view->is_proof_in_input ? in : out) + view->proof_at;
  question.proof_len = view->proof_len;
  question.key_id = view->key_id_map ? (view->is_key_id_in_input ? in : out) + view->key_id_at : NULL;
  question.key_id_len = view->key_id_len;
  question.key_id_map = view->key_id_map;
  question.iv = question.partial_iv = NULL;
  question.iv_len = question.partial_iv_len = 0;
  question.iv_map = question.partial_iv_map = COSET_NONE;
  return question;
}

/* Verifies a message of one of the first four kinds, and returns the status. A COSET_SIGN is verified for the signer at
 * index. For another kind, an index other than 0 is COSET_MISUSE. The critical labels of a COSET_MAC's recipients aren't
 * looked at. An empty signature or tag is COSET_REFUSED, and `verify` isn't called.
 *
 * If the status is COSET_OK, `verify` said yes, and `*payload` is the payload, of `*payload_len` bytes. It is in `out`,
 * where the signed or authenticated structure ends with it, also if it is detached. After any other status `*payload`
 * is NULL, and `out` has nothing of the message.
 *
 * `out` needs room for the structure, and for the other texts if the message is read by copies (coset_message_spans).
 * If `out` is too small, the status is COSET_SHORT, and `*payload_len` is the size that is needed. */
COSET_CALL(5, 6, 10, 11)
static inline coset_status coset_verify(uint32_t kind, const uint8_t *in, size_t in_len, size_t index, const coset_policy *policy,
                                        coset_verifier verify, void *context, uint8_t *out, size_t cap,
                                        const uint8_t **payload, size_t *payload_len) {
  coset_message_spans_view view;
  coset_question question;
  coset_status status;
  size_t len;
  *payload = NULL;
  *payload_len = 0;
  if ((kind & 0xff) > COSET_MAC) return COSET_MISUSE;
  status = coset_message_spans(kind, in, in_len, index, policy->external_aad, policy->external_aad_len, policy->has_detached,
                               policy->detached, policy->detached_len, policy->critical, policy->critical_len, out, cap, &len,
                               &view);
  if (status == COSET_SHORT) *payload_len = len;
  if (status) return status;
  question = coset_asked(kind, &view, in, out);
  status = coset_permitted(&view, policy);
  if (!status && (!question.proof_len || verify(context, &question) != COSET_YES)) status = COSET_REFUSED;
  if (status) {
    coset_cleared(out, len);
    return status;
  }
  *payload_len = policy->has_detached ? policy->detached_len : view.content_len;
  *payload = out + view.structure_len - *payload_len;
  return COSET_OK;
}

/* coset_verify for a message with one signature, a COSET_SIGN1. form is 0, COSET_TAGGED or COSET_EITHER. */
COSET_CALL(4, 5, 9, 10)
static inline coset_status coset_sign1_verify(uint32_t form, const uint8_t *in, size_t in_len, const coset_policy *policy,
                                              coset_verifier verify, void *context, uint8_t *out, size_t cap,
                                              const uint8_t **payload, size_t *payload_len) {
  return coset_verify(coset_kind_in(COSET_SIGN1, form), in, in_len, 0, policy, verify, context, out, cap, payload, payload_len);
}

/* coset_verify for a message with a MAC, a COSET_MAC0. */
COSET_CALL(4, 5, 9, 10)
static inline coset_status coset_mac0_verify(uint32_t form, const uint8_t *in, size_t in_len, const coset_policy *policy,
                                             coset_verifier verify, void *context, uint8_t *out, size_t cap,
                                             const uint8_t **payload, size_t *payload_len) {
  return coset_verify(coset_kind_in(COSET_MAC0, form), in, in_len, 0, policy, verify, context, out, cap, payload, payload_len);
}

/* coset_verify for the signer at index of a COSET_SIGN. The caller decides which signers are enough. A signature may be in
 * the list twice: count keys, not indices. */
COSET_CALL(5, 6, 10, 11)
static inline coset_status coset_sign_verify(uint32_t form, const uint8_t *in, size_t in_len, size_t index,
                                             const coset_policy *policy, coset_verifier verify, void *context, uint8_t *out,
                                             size_t cap, const uint8_t **payload, size_t *payload_len) {
  return coset_verify(coset_kind_in(COSET_SIGN, form), in, in_len, index, policy, verify, context, out, cap, payload, payload_len);
}

/* Writes the byte string under a label of a message, from the protected header, else from the unprotected one. `*map` is
 * the header that has it. `*len` is 0, and `*map` COSET_NONE, if neither has it. */
COSET_CALL(7, 8)
static inline coset_status coset_in_either(uint32_t kind, const uint8_t *in, size_t in_len, int64_t label, uint8_t *out,
                                           size_t cap, size_t *len, uint32_t *map) {
  coset_status status = coset_label_bytes(kind, in, in_len, COSET_IN_PROTECTED, label, out, cap, len);
  *map = COSET_IN_PROTECTED;
  if (status != COSET_ABSENT) return status;
  *map = COSET_IN_UNPROTECTED;
  status = coset_label_bytes(kind, in, in_len, COSET_IN_UNPROTECTED, label, out, cap, len);
  if (status != COSET_ABSENT) return status;
  *map = COSET_NONE;
  return COSET_OK;
}

/* Sets the lengths of both IVs, and that of the ciphertext, carried by the COSET_ENCRYPT0 or detached in the policy.
 * Returns COSET_OK, or COSET_ABSENT if there is no ciphertext. */
COSET_CALL(4, 5)
static inline coset_status coset_lengths(uint32_t kind, const uint8_t *in, size_t in_len, const coset_policy *policy,
                                         coset_question *question) {
  coset_status status = coset_part(kind, in, in_len, COSET_CIPHERTEXT, NULL, 0, &question->proof_len);
  if (status == COSET_ABSENT && policy->has_detached) status = COSET_OK, question->proof_len = policy->detached_len;
  if (status && status != COSET_SHORT) return status;
  status = coset_in_either(kind, in, in_len, 5, NULL, 0, &question->iv_len, &question->iv_map);
  if (status && status != COSET_SHORT) return status;
  status = coset_in_either(kind, in, in_len, 6, NULL, 0, &question->partial_iv_len, &question->partial_iv_map);
  return status == COSET_SHORT ? COSET_OK : status;
}

/* Writes both IVs to `at`, which has room for them, and completes the question. Returns COSET_HEADERS if the message has
 * both (RFC 8152, section 3.1). */
COSET_CALL(4, 5, 8)
static inline coset_status coset_completed(uint32_t kind, const uint8_t *in, size_t in_len, const coset_policy *policy,
                                           const coset_message_spans_view *view, uint8_t *out, uint8_t *at,
                                           coset_question *question) {
  const coset_question sizes = *question;
  coset_status status;
  *question = coset_asked(kind, view, in, out);
  question->proof = policy->has_detached ? policy->detached : (view->is_content_in_input ? in : out) + view->content_at;
  question->proof_len = sizes.proof_len;
  status = coset_in_either(kind, in, in_len, 5, at, sizes.iv_len, &question->iv_len, &question->iv_map);
  if (status) return status;
  question->iv = question->iv_len ? at : NULL;
  at += question->iv_len;
  status = coset_in_either(kind, in, in_len, 6, at, sizes.partial_iv_len, &question->partial_iv_len, &question->partial_iv_map);
  question->partial_iv = question->partial_iv_len ? at : NULL;
  if (!status && question->iv_map && question->partial_iv_map) return COSET_HEADERS;
  return status;
}

/* Returns the size of a buffer whose last `left` bytes, after the first `at`, had no room for the plaintext. `said` is the
 * size that the caller's function needs, or SIZE_MAX if it didn't say. */
static inline size_t coset_larger(size_t at, size_t left, size_t said, size_t proof_len) {
  if (said <= left || said == SIZE_MAX) said = proof_len > left ? proof_len : left + 1;
  return said <= COSET_CAST(size_t, PTRDIFF_MAX) - at ? at + said : COSET_CAST(size_t, PTRDIFF_MAX);
}

/* Asks for the plaintext, after the first `at` bytes of `out`. If the answer is yes, `*len` is its length. If the status is
 * COSET_SHORT, that is the size of `out` that is needed. */
COSET_CALL(1, 3, 7)
static inline coset_status coset_decrypted(coset_decrypter decrypt, void *context, const coset_question *question,
                                           uint8_t *out, size_t at, size_t cap, size_t *len) {
  size_t plain = SIZE_MAX; /* no room is as large, so a decrypter that doesn't set it is refused */
  const int said = decrypt(context, question, out + at, cap - at, &plain);
  if (said == COSET_NO_ROOM) {
    *len = coset_larger(at, cap - at, plain, question->proof_len);
    return COSET_SHORT;
  }
  if (said != COSET_YES || plain > cap - at) return COSET_REFUSED;
  *len = plain;
  return COSET_OK;
}

/* Decrypts a COSET_ENCRYPT0 in this form, and returns the status.
 *
 * If the status is COSET_OK, `decrypt` said yes, and `*plain` is the plaintext, of `*plain_len` bytes, in `out`. After
 * any other status `*plain` is NULL, and `out` has nothing of the message. COSET_REFUSED means that `decrypt` said no.
 * COSET_HEADERS: the message has both an IV and a partial IV (RFC 8152, section 3.1).
 *
 * `out` needs room for Enc_structure, both IVs, and a plaintext as long as the ciphertext. It also needs room for the other
 * texts if the message is read by copies. If `out` is too small, the status is COSET_SHORT, and `*plain_len` is the size
 * that is needed. That size is enough, unless `decrypt` says COSET_NO_ROOM. */
COSET_CALL(4, 5, 9, 10)
static inline coset_status coset_encrypt0_decrypt(uint32_t form, const uint8_t *in, size_t in_len, const coset_policy *policy,
                                                  coset_decrypter decrypt, void *context, uint8_t *out, size_t cap,
                                                  const uint8_t **plain, size_t *plain_len) {
  const uint32_t kind = coset_kind_in(COSET_ENCRYPT0, form);
  coset_message_spans_view view;
  coset_question question;
  coset_status status, sized;
  size_t len, at;
  *plain = NULL;
  *plain_len = 0;
  status = coset_message_spans(kind, in, in_len, 0, policy->external_aad, policy->external_aad_len, policy->has_detached,
                               policy->detached, policy->detached_len, policy->critical, policy->critical_len, out, cap, &len,
                               &view);
  if (status && status != COSET_SHORT) return status;
  sized = coset_lengths(kind, in, in_len, policy, &question);
  at = sized ? 0 : len + question.iv_len + question.partial_iv_len;
  if (!sized && !status && !policy->has_detached) question.proof_len = view.content_len; /* by the parse that says its place */
  if (!sized && at + question.proof_len > cap) sized = COSET_SHORT, *plain_len = at + question.proof_len;
  if (sized) {
    if (!status) coset_cleared(out, len);
    return sized;
  }
  status = coset_permitted(&view, policy);
  if (!status) status = coset_completed(kind, in, in_len, policy, &view, out, out + len, &question);
  if (!status) status = coset_decrypted(decrypt, context, &question, out, at, cap, plain_len);
  if (status)
    coset_cleared(out, cap);
  else
    *plain = out + at;
  return status;
}

/* ---- A bound on nesting, for threads with little stack */

enum { COSET_MOST_LEVELS = 64 };

/* A container with `left` items still to come, or UINT64_MAX if its length is indefinite. A byte string that may be a
 * protected header contains one item. `outer` is the end of the bytes around it. */
struct coset_level {
  uint64_t left;
  size_t outer;
  int is_string, is_array, place;
};

/* The position of a walk through items, and the containers around it. */
struct coset_walk {
  const uint8_t *in;
  size_t at, end, depth, most;
  struct coset_level levels[COSET_MOST_LEVELS + 1];
};

/* Reads the head at the walk's position (RFC 8949, section 3). Returns 1, or 0 if there is none. Additional information
 * 31 is 31 in `*info`. */
static inline int coset_head(struct coset_walk *walk, unsigned *major, unsigned *info, uint64_t *number) {
  size_t more;
  if (walk->at == walk->end) return 0;
  *major = walk->in[walk->at] >> 5, *info = walk->in[walk->at] & 31u, *number = *info;
  walk->at++;
  if (*info < 24 || *info == 31) return 1;
  more = *info < 28 ? COSET_CAST(size_t, 1) << (*info - 24) : SIZE_MAX;
  if (walk->end - walk->at < more) return 0;
  for (*number = 0; more > 0; more--) *number = *number << 8 | walk->in[walk->at++];
  return 1;
}

/* Enters a container, or the next `held` bytes. Returns 1 if that is one level too many, else 0. */
static inline int coset_enter(struct coset_walk *walk, uint64_t left, int is_array, size_t held) {
  struct coset_level *level;
  if (walk->depth == walk->most) return 1;
  level = &walk->levels[++walk->depth];
  level->left = left, level->outer = walk->end;
  level->is_string = held > 0, level->is_array = is_array, level->place = 0;
  if (held) walk->end = walk->at + held;
  return 0;
}

/* Counts one more item that was read. */
static inline void coset_count_item(struct coset_walk *walk) {
  if (walk->levels[walk->depth].left != UINT64_MAX) walk->levels[walk->depth].left--;
}

/* Reads a head, and enters the container that it begins, or passes the item. Returns 1 if that is too deep, -1 if the
 * bytes can't be read, else 0. */
static inline int coset_step(struct coset_walk *walk) {
  struct coset_level *level = &walk->levels[walk->depth];
  const int may_be_header = level->is_array && level->place < 2;
  unsigned major, info;
  uint64_t number;
  if (!coset_head(walk, &major, &info, &number)) return -1;
  if (level->place < 2) level->place++;
  if (major == 7 && info == 31) { /* the break of a container of indefinite length */
    if (level->left != UINT64_MAX) return -1;
    level->left = 0;
    return 0;
  }
  if (info == 31 && (major < 2 || major == 6)) return -1;
  if (info == 31 && major == 2 && may_be_header) return 1;
  if (info == 31) return coset_enter(walk, UINT64_MAX, major == 4, 0);
  if (major == 2 || major == 3) {
    if (number > walk->end - walk->at) return -1;
    if (major == 2 && may_be_header && number) return coset_enter(walk, 1, 0, COSET_CAST(size_t, number));
    walk->at += COSET_CAST(size_t, number);
  } else if (major > 3 && major < 7 && (number || major == 6)) {
    return coset_enter(walk, major == 6 ? 1 : major == 5 && number < UINT64_MAX / 4 ? 2 * number : number, major == 4, 0);
  }
  coset_count_item(walk);
  return 0;
}

/* Returns 1 if arrays, maps, tags and protected headers nest deeper than `most`, as far as the bytes can be read, else
 * 0. A `most` above COSET_MOST_LEVELS counts as COSET_MOST_LEVELS.
 *
 * The stack that a call takes grows with the nesting (docs/C.md). So a thread with little stack calls this first, and
 * refuses input that nests deeper. A byte string that is the first or second element of an array counts as a protected
 * header here. If its length is indefinite, it counts as deeper than any bound. So does an input longer than
 * PTRDIFF_MAX. Payloads and ciphertexts aren't looked into, so a thread that verifies tokens needs 1 MB all the same. The
 * check takes 3 kB of stack, and no heap. */
static inline int coset_is_deeper(const uint8_t *in, size_t len, size_t most) {
  struct coset_walk walk;
  if (len > COSET_CAST(size_t, PTRDIFF_MAX)) return 1;
  walk.in = in, walk.at = 0, walk.end = len, walk.depth = 0;
  walk.most = most < COSET_CAST(size_t, COSET_MOST_LEVELS) ? most : COSET_CAST(size_t, COSET_MOST_LEVELS);
  walk.levels[0].left = 1, walk.levels[0].is_array = 0, walk.levels[0].place = 0;
  for (;;) {
    const int found = coset_step(&walk);
    if (found == 1) return 1;
    if (found == -1) { /* the bytes after the surrounding byte string are still to be read */
      while (walk.depth && !walk.levels[walk.depth].is_string) walk.depth--;
      if (!walk.depth) return 0;
      walk.levels[walk.depth].left = 0;
    }
    while (walk.levels[walk.depth].left == 0) {
      if (!walk.depth) return 0;
      if (walk.levels[walk.depth].is_string) walk.at = walk.end;
      walk.end = walk.levels[walk.depth--].outer;
      coset_count_item(&walk);
    }
  }
}

/* ---- Web tokens */

/* A verifier's requirements for a token: the rules, and the lists that coset_token_open takes. The size of the rules is
 * set by coset_token_verify. A policy of all zeros accepts nothing, because it allows no algorithm. */
typedef struct coset_token_policy {
  coset_rules rules;
  const int64_t *algorithms; /* the algorithms that are allowed */
  size_t algorithms_len;
  const int64_t *critical; /* the critical labels that the caller understands, and acts on */
  size_t critical_len;
  const int64_t *required; /* the claims that a token must have */
  size_t required_len;
  const coset_text *audiences; /* the caller's names, one of which aud must be; none: a token with aud is refused */
  size_t audiences_len;
  const coset_text *types; /* the types, one of which typ must be; none: typ isn't looked at, and a critical typ is
                              refused, unless critical has 16 */
  size_t types_len;
} coset_token_policy;

/* The question that the caller's function answers for a layer. */
typedef struct coset_layer_question {
  uint32_t form; /* COSET_SIGN1: is `proof` a signature of `input`? COSET_MAC0: a MAC? COSET_ENCRYPT0: decrypt it */
  int64_t algorithm;
  const uint8_t *key_id; /* NULL if the layer names no key */
  size_t key_id_len;
  uint32_t key_id_map;
  const uint8_t *input;
  size_t input_len;
  const uint8_t *proof;
  size_t proof_len;
  const uint8_t *iv; /* NULL if there is none */
  size_t iv_len;
  const uint8_t *partial_iv; /* NULL if there is none */
  size_t partial_iv_len;
  size_t index; /* of the layer, from the outermost, which is 0 */
} coset_layer_question;

/* The greatest number of keys that a ring tries for a layer. Keys that don't fit the layer aren't tried. Without this
 * bound, a layer that names no key would cost a verification for each key of its algorithm. */
enum { COSET_MOST_TRIES = 16 };

/* Verifies or decrypts the layer by a key that fits (coset_key_fits), and that the caller trusts. Returns:
 * - COSET_YES if the layer is authentic. For COSET_ENCRYPT0 the plaintext is then in `plain`, which has `cap` bytes, and
 *   `*len` is its length. `*issuer` is the name of the key's issuer, or remains empty if that issuer has no name.
 * - COSET_NO_ROOM for COSET_ENCRYPT0 if `cap` is too small. `*len` may be the size that is needed.
 * - COSET_UNFIT if no key fits the layer. So the caller may look for a newer set of keys.
 * - COSET_TOO_MANY_KEYS if COSET_MOST_TRIES keys that fit are refused, and more fit.
 * - COSET_NO otherwise. Any other result counts as COSET_NO. For COSET_ENCRYPT0, so does COSET_YES with a length greater
 *   than `cap`, or if `*len` isn't set.
 *
 * It isn't called for an empty signature or MAC. No other length of the question is checked before. coset_key_fits
 * doesn't check that of a signature by HSS/LMS, WalnutDSA or ML-DSA. So compare it with the algorithm's before its bytes. */
typedef int (*coset_opener)(void *context, const coset_layer_question *question, uint8_t *plain, size_t cap, size_t *len,
                            coset_text *issuer);

/* A verified token. All pointers are into the memory to work in. */
typedef struct coset_token {
  const uint8_t *claims; /* COSET_CLAIMS, without the others, and without aud if that is an array */
  size_t claims_len;
  const uint8_t *audience; /* COSET_ITEM: an array of the texts in aud */
  size_t audience_len;
  const uint8_t *others; /* COSET_ITEM: a map of the claims whose numbers are neither assigned nor for private use */
  size_t others_len;
  const uint8_t *layers; /* COSET_ITEM: an array of the layers, the outermost first (verified_layer of coset.h) */
  size_t layers_len;
  const char *issuer; /* the name of the issuer whose key authenticated the token; NULL if it has none */
  size_t issuer_len;
  coset_layer layer; /* after a refusal: the layer or claim that it is about, as coset_token_open says; after
                        COSET_REFUSED, COSET_UNFIT or COSET_TOO_MANY_KEYS the layer that was refused; else zeros */
  const uint8_t *key_id; /* after these three the key identifier of that layer; NULL if it names no key, and otherwise */
  size_t key_id_len;
  size_t needed; /* after COSET_SHORT the least size of `work` for the next step; else 0 */
} coset_token;

/* Returns the question for a layer that waits. Its texts are at `text`. */
static inline coset_layer_question coset_layer_asked(const coset_layer *layer, const uint8_t *text) {
  coset_layer_question question;
  question.form = layer->form;
  question.algorithm = layer->algorithm;
  question.input = text;
  question.input_len = layer->structure_len;
  question.proof = text + layer->structure_len;
  question.proof_len = layer->proof_len;
  question.key_id = layer->key_id_len ? question.proof + layer->proof_len : NULL;
  question.key_id_len = layer->key_id_len;
  question.key_id_map = layer->key_id_map;
  question.iv = layer->iv_len ? question.proof + layer->proof_len + layer->key_id_len : NULL;
  question.iv_len = layer->iv_len;
  question.partial_iv = layer->partial_iv_len ? question.proof + layer->proof_len + layer->key_id_len + layer->iv_len : NULL;
  question.partial_iv_len = layer->partial_iv_len;
  question.index = layer->index;
  return question;
}

/* Sets the fields of a token that has nothing but these. */
static inline void coset_token_none(coset_token *token, const coset_layer *layer, size_t needed) {
  token->claims = token->audience = token->others = token->layers = NULL;
  token->claims_len = token->audience_len = token->others_len = token->layers_len = 0;
  token->issuer = NULL;
  token->issuer_len = 0;
  token->key_id = NULL;
  token->key_id_len = 0;
  token->layer = *layer;
  token->needed = needed;
}

/* Takes the verified token of `len` bytes at `item` apart, into its five elements. */
COSET_CALL(1, 3)
static inline coset_status coset_token_parts(const uint8_t *item, size_t len, coset_token *token) {
  coset_span span[5], name;
  coset_status status = coset_member_span(COSET_ITEM, item, len, 0, &span[0]);
  size_t i;
  for (i = 1; i < 5 && !status; i++) status = coset_item_span(item, len, span[i - 1].at + span[i - 1].len, &span[i]);
  if (status) return status;
  status = coset_string_span(item + span[3].at, span[3].len, &name);
  if (status && status != COSET_TYPE) return status;
  token->claims = item + span[0].at, token->claims_len = span[0].len;
  token->audience = item + span[1].at, token->audience_len = span[1].len;
  token->others = item + span[2].at, token->others_len = span[2].len;
  token->layers = item + span[4].at, token->layers_len = span[4].len;
  if (status) return COSET_OK; /* nil instead of a name */
  token->issuer = COSET_CAST(const char *, COSET_CAST(const void *, item)) + span[3].at + name.at, token->issuer_len = name.len;
  return COSET_OK;
}

/* The memory to work in, and the layers that are opened. */
struct coset_work {
  uint8_t *at;
  size_t cap, used;
  coset_opened opened[4];
  size_t count;
};

/* Returns the address after so many bytes of the memory. It is NULL if there is no memory: C has no sum of NULL and 0. */
static inline uint8_t *coset_after(const struct coset_work *work, size_t used) {
  return used ? work->at + used : work->at;
}

/* Makes the call of coset_token_open with the layers that are opened. Its result is behind them in the memory. */
COSET_CALL(1, 5, 6, 7)
static inline coset_status coset_work_next(const struct coset_work *work, const uint8_t *in, size_t in_len, int64_t now,
                                           const coset_token_policy *policy, size_t *len, coset_layer *layer) {
  coset_rules rules = policy->rules;
  rules.size = sizeof rules;
  return coset_token_open(&rules, policy->algorithms, policy->algorithms_len, policy->critical, policy->critical_len,
                          policy->required, policy->required_len, policy->audiences, policy->audiences_len, policy->types,
                          policy->types_len, in, in_len, now, work->opened, work->count, work->at, work->used,
                          coset_after(work, work->used), work->cap - work->used, len, layer);
}

/* Asks about the layer whose five texts, of `texts_len` bytes, are behind the opened layers. If the answer is yes,
 * appends the layer to these. Returns COSET_OK, COSET_REFUSED, COSET_UNFIT, COSET_TOO_MANY_KEYS, or COSET_SHORT if
 * `*needed` bytes are needed. */
COSET_CALL(1, 2, 4, 6)
static inline coset_status coset_work_ask(struct coset_work *work, const coset_layer *layer, size_t texts_len,
                                          coset_opener opener, void *context, size_t *needed) {
  const size_t at = work->used + texts_len, left = work->cap - at;
  const coset_layer_question question = coset_layer_asked(layer, coset_after(work, work->used));
  coset_opened *opened;
  coset_text name = {NULL, 0};
  size_t plain = layer->form == COSET_ENCRYPT0 ? SIZE_MAX : 0, i; /* as in coset_decrypted */
  int said;
  if (work->count == 4 || (layer->form != COSET_ENCRYPT0 && !layer->proof_len)) return COSET_REFUSED;
  said = opener(context, &question, coset_after(work, at), left, &plain, &name);
  if (said == COSET_NO_ROOM && layer->form == COSET_ENCRYPT0) {
    *needed = coset_larger(at, left, plain, layer->proof_len);
    return COSET_SHORT;
  }
  if (said == COSET_UNFIT || said == COSET_TOO_MANY_KEYS) return said;
  if (layer->form != COSET_ENCRYPT0) plain = 0;
  if (!name.chars) name.len = 0;
  if (said != COSET_YES || plain > left || name.len > COSET_CAST(size_t, PTRDIFF_MAX) - at - plain) return COSET_REFUSED;
  *needed = at + plain + name.len;
  if (*needed > work->cap) return COSET_SHORT;
  opened = &work->opened[work->count++];
  opened->form = layer->form;
  opened->offset = work->used;
  opened->structure_len = layer->structure_len, opened->proof_len = layer->proof_len;
  opened->plaintext = layer->form == COSET_ENCRYPT0 ? at : 0, opened->plaintext_len = plain;
  opened->issuer = name.len ? at + plain : 0, opened->issuer_len = name.len;
  for (i = 0; i < name.len; i++) work->at[at + plain + i] = COSET_CAST(uint8_t, name.chars[i]);
  work->used = *needed;
  return COSET_OK;
}

/* Moves the key identifier of a layer that was refused to the front of the memory, and returns its length. Returns 0 if the
 * layer names no key, or if the status isn't the answer for a layer. */
static inline size_t coset_key_id_first(const struct coset_work *work, const coset_layer *layer, coset_status status) {
  const size_t start = work->used + layer->structure_len + layer->proof_len;
  size_t i;
  if (status != COSET_REFUSED && status != COSET_UNFIT && status != COSET_TOO_MANY_KEYS) return 0;
  for (i = 0; i < layer->key_id_len; i++) work->at[i] = work->at[start + i];
  return layer->key_id_len;
}

/* Verifies a token at `now`, in seconds since 1970 began in UTC, and returns the status.
 *
 * If the status is COSET_OK, `opener` said yes to each layer, and the token meets the policy. `*token` then has its
 * parts. After any other status the pointers of `*token` are NULL, and `work` has zeros, unless `cap` is above
 * PTRDIFF_MAX. The key identifier of a refused layer is the exception:
 *
 * COSET_REFUSED means that `opener` said no, or that a signature or MAC is empty. COSET_UNFIT and COSET_TOO_MANY_KEYS
 * are answers of `opener`. After these three, token->key_id is the key identifier of the layer, if it names a key. It is
 * at the front of `work`, and zeros follow it.
 *
 * A leeway or a greatest age above INT64_MAX, such as a converted -1, is COSET_MISUSE, because it would switch off the
 * checks of times.
 *
 * `work` needs room for the texts of each layer, plaintexts, names of issuers, and the verified token. Nine times the
 * token's length and 64 bytes for each of its layers are enough, if the names of issuers and audience are short
 * (docs/C.md: The room). If `work` is too small, the status is COSET_SHORT, and token->needed says how much the next
 * step needs. It is more than `cap`. A later step may need more. */
COSET_CALL(4, 5, 9)
static inline coset_status coset_token_verify(const uint8_t *in, size_t in_len, int64_t now, const coset_token_policy *policy,
                                              coset_opener opener, void *context, uint8_t *work, size_t cap,
                                              coset_token *token) {
  static const coset_layer nowhere = {0, 0, 0, 0, 0, 0, 0, 0, 0, 0};
  struct coset_work room;
  coset_layer layer;
  coset_status status = COSET_LAYER;
  size_t len = 0, needed = 0, named;
  room.at = work, room.cap = cap, room.used = 0, room.count = 0;
  coset_token_none(token, &nowhere, 0);
  if (cap > COSET_CAST(size_t, PTRDIFF_MAX)) return COSET_MISUSE;
  for (;;) {
    status = coset_work_next(&room, in, in_len, now, policy, &len, &layer);
    if (status == COSET_SHORT) needed = room.used + len;
    if (status != COSET_LAYER) break;
    status = coset_work_ask(&room, &layer, len, opener, context, &needed);
    if (status) break;
  }
  if (!status) status = coset_token_parts(work + room.used, len, token);
  if (!status) return COSET_OK;
  named = coset_key_id_first(&room, &layer, status);
  coset_cleared(coset_after(&room, named), cap - named);
  if (status == COSET_SHORT)
    coset_token_none(token, &nowhere, needed);
  else
    coset_token_none(token, &layer, 0);
  if (named) token->key_id = work, token->key_id_len = named;
  return status;
}

#ifdef __cplusplus
}
#endif

#endif
