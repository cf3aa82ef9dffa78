/* Makes the calls that it reads, one per line, and prints their results (tools/c).
 *
 *   check KIND IN | count KIND IN | part KIND IN CAP PART | member KIND IN CAP INDEX | label KIND IN CAP MAP LABEL
 *   label_at KIND IN CAP INDEX | value_at KIND IN CAP INDEX | key_of 11 IN CAP KID
 *   member_span KIND IN INDEX | pair_spans KIND IN INDEX | label_span KIND IN MAP LABEL
 *   string_span 13 IN | integer 13 IN | item_span 13 IN AT
 *   major_type 13 IN | simple_value 13 IN | float_value 13 IN | map_spans KIND IN
 *   label_bytes KIND IN CAP MAP LABEL | label_int KIND IN MAP LABEL | text_label KIND IN CAP MAP LABEL
 *   structure KIND IN CAP INDEX AAD HAS DETACHED | recipient_structure HOLDER IN CAP AAD
 *   countersign_structure KIND IN CAP LABEL SIGNER AAD HAS DETACHED
 *   sign1 KIND IN CAP AAD HAS DETACHED | message KIND IN CAP INDEX AAD HAS DETACHED KNOWN
 *   verified KIND IN CAP ALG KID SIGNED SIGNATURE | safe KIND IN CAP INDEX AAD HAS DETACHED ALGS KNOWN INPUT PROOF KID
 *   spans KIND IN CAP INDEX AAD HAS DETACHED KNOWN | put_all KIND IN CAP PAIRS
 *   put, put_bytes, put_text, put_int, put_float or put_text_label KIND IN CAP LABEL VALUE
 *   structure_of KIND PROTECTED CAP SIGNER AAD CONTENT | recipient_structure_of HOLDER PROTECTED CAP AAD
 *   make KIND PROTECTED CAP UNPROTECTED HAS CONTENT PROOF
 *   add KIND IN CAP MEMBER | write KIND IN CAP | canonical_key ORDER IN CAP
 *   deeper 0 IN CAP | lengths 0 IN CAP | unset 0 IN CAP | said KIND IN CAP NUMBER | built FORM - CAP PLACE
 *   token 0 IN CAP NOW RULES ALGS CRITICAL REQUIRED AUDIENCES TYPES ANSWERS
 *   ring 0 IN CAP NOW RULES ALGS CRITICAL REQUIRED AUDIENCES TYPES SETS SAYS
 *   room 0 IN MOST NOW RULES ALGS CRITICAL REQUIRED AUDIENCES TYPES ANSWERS
 *   open 0 IN CAP NOW RULES ALGS CRITICAL REQUIRED AUDIENCES TYPES OPENED BYTES
 *   fits FORM KEY CAP ALG KID IV PARTIAL_IV PROOF
 *   text STATUS | issued 0 KID CAP ISS SUB AUD CTI EXP NBF IAT SIGNED SIGNATURE
 *
 * Bytes, and labels and values that aren't integers, are hexadecimal. `-` stands for no bytes, and is passed as NULL.
 * ALGS, KNOWN, CRITICAL and REQUIRED are integers with commas between them. AUDIENCES and TYPES are texts with commas
 * between them, each `t` and its bytes.
 *
 * - `verified` calls verify.c. The signature is good if ALG, KID, SIGNED and SIGNATURE are those of the question.
 * - `issued` calls issue.c. The signature is SIGNATURE if the bytes to sign are SIGNED.
 * - `safe` is the call of coset_verify.h for the kind. The answer is yes if the question has INPUT, PROOF and KID. A
 *   ciphertext is then decrypted as the IV and the partial IV, each after the number of its header, and the ciphertext's
 *   bytes, each xor 5a.
 * - `token` is coset_token_verify, with a policy of these lists. RULES are the seven numbers of coset_rules after its
 *   size, with commas. ANSWERS are the answers for the layers, with commas: `yes`, `no`, or `p` and a plaintext. After
 *   the answer may follow `@` and the name of the issuer. `answers` is the same, with answers that no caller should give
 *   (token.c).
 * - `ring` asks each key of the sets that fits. SETS are issuers with commas, each a name as `t` and its bytes, or `-`,
 *   then `:` and a set of keys. SAYS are the calls that are accepted, with commas, or `none`: the identifier of the key, or
 *   `#` and the call's number, and then `:` and a plaintext. The last word of the result has the calls with commas: the
 *   identifier, the algorithm and the nonce.
 * - `room` is the same as `token`, with no memory to work in, and then with as much as the call said, until that is enough. It
 *   prints the status and that size, which must not be above MOST.
 * - `openssl` and `roomy` are `token` and `room` with OpenSSL's ciphers, and SETS in place of ANSWERS.
 * - `open` is coset_token_open. The first of its RULES is the size. OPENED are the opened layers with commas, each its
 *   eight numbers with `/` between them. After the buffer follow the ten numbers of the layer.
 * - `fits` is coset_key_fits. KID, IV and PARTIAL_IV are those of the layer.
 *
 * Each line of output has the status and the number. Then comes the whole buffer of CAP bytes and 8 more, each of which
 * was ee before. For `verified` the buffer has the payload at its front, and nothing else. `safe` prints the payload or
 * plaintext alone, and `spans` the four texts. Before the status, `spans` prints how many of three texts are in the
 * input. For `sign1`, `message` and `spans` the numbers of the view follow, which were 77 before.
 *
 * `float_value` prints the 64 bits of the float, or `nan`. `map_spans` prints the number of pairs, and then their places.
 *
 * `token` prints the status, and then for COSET_OK:
 * - the claims; the texts of the audience, each `t` and its bytes, with commas; the others; `t` and the issuer's name,
 *   or `-`,
 * - the layers with commas: FORM/PROTECTED/UNPROTECTED/ISSUER.
 *
 * For any other status it prints index, algorithm and claim of the layer. In both cases follow the number of layers that
 * were asked about, the proof and the input of each, and the rest of each question.
 *
 * Each input is in memory of its own. With REFUSE=N in the environment, the N-th request for memory of each call is
 * refused. */
#include "coset_items.h"
#include "coset_pairs.h"
#include "coset_verify.h"
#include "words.h"
#include <inttypes.h>
#include <stdio.h>
#include <stdlib.h>
#include <string.h>

/* The number of requests for memory before one is refused, or -1. */
extern long left;
long left = -1;
static long requests = 0, live = 0;

struct tried {
  uint64_t ok;
  void *at;
};

/* Returns true if the heap refuses this request. */
static int refuses(void) { return requests++, left >= 0 && left-- == 0; }

struct tried rattle_alloc(uint64_t size, uint64_t align) {
  (void)align;
  void *at = refuses() ? NULL : malloc(size ? size : 1);
  live += at != NULL;
  return at ? (struct tried){1, at} : (struct tried){0, (void *)16};
}

struct tried rattle_realloc(void *at, uint64_t kept, uint64_t size, uint64_t align) {
  (void)kept, (void)align;
  void *moved = refuses() ? NULL : realloc(at, size ? size : 1);
  return moved ? (struct tried){1, moved} : (struct tried){0, (void *)16};
}

void rattle_dealloc(void *at) { live--, free(at); }

static void tell(int32_t status, const char *number, const uint8_t *out, size_t len, const coset_message_view *view) {
  printf("%" PRId32 " %s ", status, number);
  for (size_t i = 0; i < len; i++) printf("%02x", out[i]);
  if (view)
    printf(" %" PRId64 " %" PRIu32 " %" PRIu32 " %" PRIu32 " %" PRIu32 " %zu %zu %zu %zu", view->algorithm, view->algorithm_form,
           view->key_id_map, view->critical, view->is_tagged, view->structure_len, view->proof_len, view->content_len,
           view->key_id_len);
  puts("");
}

/* Defined in verify.c. */
coset_status verified(const uint8_t *in, size_t n, coset_verifier verify, void *keys, uint8_t *out, size_t cap,
                      const uint8_t **payload, size_t *len);

static int same(const char *word, const uint8_t *at, size_t len) {
  struct bytes b = spelled(word);
  int is = b.len == len && (len == 0 || !memcmp(b.at, at, len));
  free(b.at);
  return is;
}

/* Says yes if the question is about a COSE_Sign1, and has the four values of the words. */
static int is_as_said(void *words, const coset_question *q) {
  char **word = words;
  const int is = q->kind == COSET_SIGN1 && atoll(word[0]) == q->algorithm && same(word[1], q->key_id, q->key_id_len) &&
                 same(word[2], q->input, q->input_len) && same(word[3], q->proof, q->proof_len);
  return is ? COSET_YES : COSET_NO;
}

/* Returns the status of `verified` for these words. Afterwards `out` has the payload at its front, and nothing else. */
static int32_t verified_as_said(char **words, struct bytes in, uint8_t *out, size_t cap, size_t *len) {
  const uint8_t *payload = out;
  int32_t status = verified(in.at, in.len, is_as_said, words, out, cap, &payload, len);
  if ((status == 0) != (payload != NULL)) return -2;
  if (payload) memmove(out, payload, *len);
  if (payload) memset(out + *len, 0xee, cap - *len);
  for (size_t i = 0; status >= COSET_NOT_ALLOWED && i < cap; i++) status = out[i] && out[i] != 0xee ? -5 : status;
  if (status >= COSET_NOT_ALLOWED) memset(out, 0xee, cap);
  return status;
}

/* Defined in token.c. */
void token_call(char **word, struct bytes in, size_t cap);
void room_call(char **word, struct bytes in, size_t most);
void open_call(char **word, struct bytes in, size_t cap);
void fits_call(char **word, struct bytes key, size_t cap);
coset_status length_call(const uint8_t *in, size_t len, uint8_t *work, size_t cap, coset_token *told);

/* Prints the number of nested levels, at most 64. */
static void deeper(struct bytes in) {
  size_t most = 0;
  while (most < 64 && coset_is_deeper(in.at, in.len, most)) most++;
  printf("levels %zu\n", most + (size_t)coset_is_deeper(in.at, in.len, most));
}

/* A decrypter that returns the number at `number`, and sets no length. */
static int says_number(void *number, const coset_question *question, uint8_t *plain, size_t cap, size_t *len) {
  (void)question, (void)plain, (void)cap, (void)len;
  return *(const int *)number;
}

/* Prints the results of coset_encrypt0_decrypt if the decrypter sets no length: for a yes, and for too little room. Prints the
 * size of the buffer that is then needed. */
static void without_length(struct bytes in, uint8_t *out, size_t cap) {
  const int64_t algorithm = 1;
  const coset_policy policy = {.algorithms = &algorithm, .algorithms_len = 1};
  const uint8_t *plain = NULL;
  int answers[] = {COSET_YES, COSET_NO_ROOM};
  for (int i = 0; i < 2; i++) {
    size_t len = 77;
    const coset_status status = coset_encrypt0_decrypt(COSET_EITHER, in.at, in.len, &policy, says_number, &answers[i], out, cap, &plain, &len);
    printf("%" PRId32 " %zu%s", status, len, i ? "\n" : " ");
  }
}

/* A verifier, and a decrypter that sets the length 0. Both return the number at `number`. */
static int verifies_by(void *number, const coset_question *question) { return (void)question, *(const int *)number; }

static int decrypts_by(void *number, const coset_question *question, uint8_t *plain, size_t cap, size_t *len) {
  return (void)question, (void)plain, (void)cap, *len = 0, *(const int *)number;
}

/* Prints the status of coset_verify, or of coset_encrypt0_decrypt, if the caller's function returns this number. */
static void said(uint32_t kind, struct bytes in, uint8_t *out, size_t cap, int number) {
  const int64_t algorithms[] = {-7, 1, 5};
  const coset_policy policy = {.algorithms = algorithms, .algorithms_len = 3};
  const uint8_t *payload = NULL;
  size_t len = 0;
  printf("%" PRId32 "\n", kind == COSET_ENCRYPT0
    ? coset_encrypt0_decrypt(0, in.at, in.len, &policy, decrypts_by, &number, out, cap, &payload, &len)
    : coset_verify(kind, in.at, in.len, 0, &policy, verifies_by, &number, out, cap, &payload, &len));
}

/* Prints the results of coset_verify.h for a length that no object has. The length is that of a list of algorithms, a
 * buffer, the memory to work in, a token, and the bytes of coset_is_deeper. */
static void lengths(struct bytes in, uint8_t *out, size_t cap) {
  const coset_verifier never = is_as_said;
  const coset_decrypter says = says_number;
  const int64_t es256 = -7;
  const coset_policy policy = {.algorithms = &es256, .algorithms_len = SIZE_MAX};
  coset_token told;
  const uint8_t *payload = NULL;
  size_t len;
  printf("%" PRId32, coset_sign1_verify(COSET_EITHER, in.at, in.len, &policy, never, NULL, out, cap, &payload, &len));
  printf(" %" PRId32, coset_encrypt0_decrypt(COSET_EITHER, in.at, in.len, &policy, says, NULL, out, SIZE_MAX, &payload, &len));
  printf(" %" PRId32, length_call(in.at, in.len, out, SIZE_MAX, &told));
  printf(" %" PRId32, length_call(in.at, SIZE_MAX, out, cap, &told));
  printf(" %d\n", coset_is_deeper(in.at, SIZE_MAX, COSET_MOST_LEVELS));
}

/* Says yes if the question has the values of the words, and the kind that is nine words before them. */
static int is_asked(void *words, const coset_question *question) {
  char **word = words;
  const int is = question->kind == (strtoul(word[-9], NULL, 0) & 0xff) && same(word[0], question->input, question->input_len) &&
                 same(word[1], question->proof, question->proof_len) && same(word[2], question->key_id, question->key_id_len);
  return is ? COSET_YES : COSET_NO;
}

/* Appends the number of a header and the IV in it, if there is one. */
static size_t with_iv(uint8_t *plain, size_t at, const uint8_t *iv, size_t len, uint32_t map) {
  if (!iv) return at;
  plain[at] = (uint8_t)map;
  memcpy(plain + at + 1, iv, len);
  return at + 1 + len;
}

static int is_decrypted(void *words, const coset_question *q, uint8_t *plain, size_t cap, size_t *len) {
  size_t at;
  if (!q->iv != !q->iv_len || !q->iv != !q->iv_map || !q->partial_iv != !q->partial_iv_len || !q->partial_iv != !q->partial_iv_map) return COSET_NO;
  if (is_asked(words, q) != COSET_YES) return COSET_NO;
  *len = !!q->iv + q->iv_len + !!q->partial_iv + q->partial_iv_len + q->proof_len;
  if (*len > cap) return COSET_NO_ROOM;
  at = with_iv(plain, 0, q->iv, q->iv_len, q->iv_map);
  at = with_iv(plain, at, q->partial_iv, q->partial_iv_len, q->partial_iv_map);
  for (size_t i = 0; i < q->proof_len; i++) plain[at + i] = q->proof[i] ^ 0x5a;
  return COSET_YES;
}

/* Returns the status of coset_encrypt0_decrypt. Afterwards `out` has the plaintext at its front. If the status isn't
 * COSET_OK, nothing of the message is left there. */
static int32_t decrypted(uint32_t form, struct bytes in, const coset_policy *policy, char **words, uint8_t *out, size_t cap, size_t *len) {
  const uint8_t *plain = out;
  const int32_t status = coset_encrypt0_decrypt(form, in.at, in.len, policy, is_decrypted, words, out, cap, &plain, len);
  if ((status == 0) != (plain != NULL)) return -4;
  for (size_t i = 0; status && i < cap; i++)
    if (out[i] && out[i] != 0xee) return -5;
  if (plain && *len) memmove(out, plain, *len);
  return status;
}

/* Makes the same call with as much memory as it says that it needs, from none on, and with a byte less than that. Returns the
 * status that isn't COSET_SHORT. -7: a size was wrong, or the first wasn't enough. If the plaintext is longer than the
 * ciphertext, the second must be enough. */
static int32_t decrypted_in_need(uint32_t form, struct bytes in, const coset_policy *policy, char **words, const uint8_t *plain, size_t plain_len) {
  const int rounds = plain_len > strlen(words[1]) / 2 ? 3 : 2;
  size_t cap = 0, len = 0;
  for (int round = 0; round < rounds; round++) {
    uint8_t *out = memset(malloc(cap + !cap), 0xee, cap);
    const int32_t status = decrypted(form, in, policy, words, out, cap, &len);
    const int is_same = status || (len == plain_len && !memcmp(out, plain, len));
    free(out);
    if (status != COSET_SHORT) return is_same ? status : -7;
    if (len <= cap || len > 1 << 24) return -7;
    out = memset(malloc(len), 0xee, len);
    size_t less = 0;
    const int32_t other = decrypted(form, in, policy, words, out, len - 1, &less);
    free(out);
    if (other == COSET_MEMORY) return other;
    if (other != COSET_SHORT || less != len) return -7;
    cap = len;
  }
  return -7;
}

/* Returns the status of the call of coset_verify.h for the kind, with these words. Afterwards `out` has the payload or
 * the plaintext at its front. If the message is refused, nothing of it is left there. */
static int32_t safe(char **word, uint32_t number, struct bytes in, uint8_t *out, size_t cap, size_t *len) {
  const uint32_t form = number >> 16 ? number >> 16 : number & 0xff00;
  struct bytes aad = spelled(word[5]), detached = spelled(word[7]);
  int64_t algorithms[64], known[64];
  const coset_policy policy = {algorithms, integers(word[8], algorithms, 64), known,       integers(word[9], known, 64), aad.at,
                               aad.len,    (uint32_t)strtoul(word[6], NULL, 0), detached.at, detached.len};
  const size_t index = strtoull(word[4], NULL, 0);
  const uint8_t *payload = out;
  int32_t status = -2;
  /* These two have no argument for an index. */
  if (index && ((number & 0xff) == COSET_SIGN1 || (number & 0xff) == COSET_MAC0))
    status = coset_verify(coset_kind_in(number & 0xff, form), in.at, in.len, index, &policy, is_asked, word + 10, out, cap, &payload, len);
  else switch (number & 0xff) {
  case COSET_SIGN1: status = coset_sign1_verify(form, in.at, in.len, &policy, is_asked, word + 10, out, cap, &payload, len); break;
  case COSET_MAC0: status = coset_mac0_verify(form, in.at, in.len, &policy, is_asked, word + 10, out, cap, &payload, len); break;
  case COSET_SIGN:
    status = coset_sign_verify(form, in.at, in.len, index, &policy, is_asked, word + 10, out, cap, &payload, len);
    break;
  case COSET_MAC:
    status = coset_verify(coset_kind_in(COSET_MAC, form), in.at, in.len, index, &policy, is_asked, word + 10, out, cap, &payload, len);
    break;
  default:
    status = decrypted(form, in, &policy, word + 10, out, cap, len);
    payload = status ? NULL : out;
    if (cap && (status == COSET_OK || status >= COSET_NOT_ALLOWED)) {
      const int32_t other = decrypted_in_need(form, in, &policy, word + 10, out, *len);
      if (other != status) payload = NULL, *len = 0, status = other;
    }
  }
  if ((status == 0) != (payload != NULL)) status = -4;
  for (size_t i = 0; (number & 0xff) != COSET_ENCRYPT0 && status >= COSET_NOT_ALLOWED && i < cap; i++)
    status = out[i] && out[i] != 0xee ? -5 : status;
  if (payload && *len) memmove(out, payload, *len);
  free(aad.at), free(detached.at);
  return status;
}

/* Defined in issue.c. */
struct string {
  const uint8_t *at;
  size_t len;
};
struct token {
  struct string iss, sub, aud, cti, kid;
  int64_t exp, nbf, iat;
};
typedef int (*signer)(void *key, const uint8_t *tbs, size_t tbs_len, uint8_t *sig, size_t cap, size_t *sig_len);
int32_t issued(const struct token *t, signer sign, void *key, uint8_t *out, size_t cap, size_t *len);

/* Gives the signature of the second word, if the bytes to sign are those of the first. The second word may be `=N`, for an
 * answer N with 64 bytes, or `+N`, for a length that is N more than the room. */
static int sign_as_said(void *words, const uint8_t *tbs, size_t tbs_len, uint8_t *sig, size_t cap, size_t *sig_len) {
  char **word = words;
  if (*word[1] == '=') return memset(sig, 0, 64), *sig_len = 64, atoi(word[1] + 1);
  if (*word[1] == '+') return *sig_len = cap + strtoull(word[1] + 1, NULL, 0), COSET_YES;
  struct bytes b = spelled(word[1]);
  int is = same(word[0], tbs, tbs_len) && b.len <= cap;
  if (is && b.len) memcpy(sig, b.at, b.len);
  *sig_len = b.len;
  free(b.at);
  return is ? COSET_YES : COSET_NO;
}

/* Appends the hexadecimal front of a word to the bytes. Returns the rest of the word. */
static char *part(char *word, uint8_t *bytes, size_t *count, size_t *at, size_t *len) {
  *at = *count;
  for (; strchr("0123456789abcdef", *word) && *word; word += 2) bytes[(*count)++] = (uint8_t)(digit(word[0]) << 4 | digit(word[1]));
  *len = *count - *at;
  return word;
}

/* Calls coset_put_all with the pairs of a word. A pair is a label and a value with `=` between them, and a comma
 * follows. Each is `i` and an integer, `f` and a float, or `t`, `b` or `e` and hexadecimal. `n` stands for a form that doesn't exist,
 * and `o` for a text outside the bytes. */
static int32_t put_all(char *word, uint32_t kind, struct bytes in, uint8_t *out, size_t cap, size_t *len) {
  static const char forms[] = "nitbe";
  struct bytes bytes = {malloc(strlen(word) + 1), 0};
  coset_pair *pairs = malloc((strlen(word) + 1) * sizeof *pairs);
  size_t count = 0;
  for (char *now = word; *now && *now != '-'; now += *now == ',') {
    coset_pair *pair = &pairs[count++];
    *pair = (coset_pair){0};
    pair->label_form = *now == 'o' ? 2 : (uint32_t)(strchr(forms, *now) - forms);
    if (*now == 'i') pair->label = strtoll(now + 1, &now, 10);
    else if (*now == 'o') now++, pair->label_len = SIZE_MAX;
    else now = part(now + 1, bytes.at, &bytes.len, &pair->label_at, &pair->label_len);
    now++;
    pair->value_form = *now == 'o' ? 2 : (uint32_t)(strchr(forms, *now) - forms);
    if (*now == 'i') pair->value = strtoll(now + 1, &now, 10);
    else if (*now == 'f') {
      coset_pairs one = coset_pairs_in(pair, 1, bytes.at + bytes.len, 9);
      const coset_pair named = *pair;
      coset_pairs_float(&one, pair->label, strtod(now + 1, &now));
      pair->label_form = named.label_form, pair->label_at = named.label_at, pair->label_len = named.label_len;
      pair->value_at += bytes.len, bytes.len += one.len;
    }
    else if (*now == 'o') now++, pair->value_at = SIZE_MAX;
    else now = part(now + 1, bytes.at, &bytes.len, &pair->value_at, &pair->value_len);
  }
  /* These are in blocks of their own size, so that a read past their end is detected. */
  struct bytes held = {malloc(bytes.len + !bytes.len), bytes.len};
  coset_pair *own = malloc((count + !count) * sizeof *own);
  if (bytes.len) memcpy(held.at, bytes.at, bytes.len);
  if (count) memcpy(own, pairs, count * sizeof *own);
  int32_t status = coset_put_all(kind, in.at, in.len, count ? own : NULL, count, bytes.len ? held.at : NULL, bytes.len, out, cap, len);
  free(pairs), free(bytes.at), free(held.at), free(own);
  return status;
}

/* Prints the status and the map of three pairs by coset_pairs.h: a named integer, and two bytes. That at `place` has this
 * form, and the other one is a byte string. */
static void built(uint32_t form, int place, uint8_t *out, size_t cap) {
  coset_pair room[3];
  uint8_t bytes[4];
  size_t len = 77;
  coset_pairs pairs = coset_pairs_in(room, 3, bytes, sizeof bytes);
  coset_pairs_named_int(&pairs, "n", 1, -70000);
  coset_pairs_value(&pairs, 1, place == 1 ? form : COSET_BYTES, "\5", 1);
  coset_pairs_named(&pairs, "m", 1, place == 2 ? form : COSET_BYTES, "\6", 1);
  const coset_status status = coset_put_pairs(COSET_ITEM, NULL, 0, &pairs, out, cap, &len);
  left = -1;
  printf("%" PRId32 " ", status);
  for (size_t i = 0; i < len; i++) printf("%02x", out[i]);
  puts("");
}

/* Returns the status of coset_message_spans. Afterwards the texts that it names are at the front of `out`, and `*flags`
 * is how many of them are in the input. -6: it wrote something that it shouldn't have written. */
static int32_t spans(char **word, uint32_t kind, struct bytes in, uint8_t *out, size_t cap, size_t *len, coset_message_view *told,
                     uint32_t *flags) {
  struct bytes aad = spelled(word[5]), detached = spelled(word[7]);
  int64_t known[64];
  coset_message_spans_view view;
  memset(&view, 0x77, sizeof view);
  int32_t status = coset_message_spans(kind, in.at, in.len, strtoull(word[4], NULL, 0), aad.at, aad.len,
                                       (uint32_t)strtoul(word[6], NULL, 0), detached.at, detached.len, known,
                                       integers(word[8], known, 64), out, cap, len, &view);
  free(aad.at), free(detached.at);
  size_t written = status == COSET_OK ? *len : 0;
  for (size_t i = written; i < cap + 8; i++)
    if (out[i] != 0xee) return -6;
  if (status != COSET_OK && (view.algorithm || view.critical || view.proof_at || view.key_id_len || view.is_content_in_input)) return -6;
  if (status != COSET_OK) return *told = (coset_message_view){0}, status;
  const struct { uint32_t is_in; size_t at, len; } texts[] = {{0, 0, view.structure_len},
    {view.is_proof_in_input, view.proof_at, view.proof_len}, {view.is_content_in_input, view.content_at, view.content_len},
    {view.is_key_id_in_input, view.key_id_at, view.key_id_len}};
  uint8_t *all = malloc(in.len + written + 1);
  size_t total = 0;
  for (int i = 0; i < 4; i++) {
    size_t room = texts[i].is_in ? in.len : written;
    if (texts[i].at > room || texts[i].len > room - texts[i].at) return free(all), -6;
    if (texts[i].len) memcpy(all + total, (texts[i].is_in ? in.at : out) + texts[i].at, texts[i].len);
    total += texts[i].len;
  }
  memcpy(out, all, *len = total);
  free(all);
  *flags = view.is_proof_in_input + view.is_content_in_input + view.is_key_id_in_input;
  *told = (coset_message_view){view.algorithm, view.algorithm_form, view.key_id_map, view.critical, view.is_tagged,
                               view.structure_len, view.proof_len, view.content_len, view.key_id_len};
  return status;
}

/* Returns the status of coset_countersign_structure. */
static int32_t countersigned(char **word, uint32_t kind, struct bytes in, uint8_t *out, size_t cap, size_t *len) {
  struct bytes signer = spelled(word[5]), aad = spelled(word[6]), detached = spelled(word[8]);
  int32_t status = coset_countersign_structure(kind, in.at, in.len, strtoll(word[4], NULL, 0), signer.at, signer.len, aad.at,
                                               aad.len, (uint32_t)strtoul(word[7], NULL, 0), detached.at, detached.len, out,
                                               cap, len);
  free(signer.at), free(aad.at), free(detached.at);
  return status;
}

/* Returns the status of a call that makes an item, or -2 if the words name none of these. */
static int32_t made(char **word, uint32_t kind, struct bytes in, uint8_t *out, size_t cap, size_t *len) {
  const char *call = word[0];
  struct bytes b[4];
  int32_t status = -2;
  int64_t label = strtoll(word[4], NULL, 0);
  for (int i = 0; i < 4; i++) b[i] = spelled(word[4 + i]);
  if (!strcmp(call, "put")) status = coset_put(kind, in.at, in.len, label, b[1].at, b[1].len, out, cap, len);
  if (!strcmp(call, "put_bytes")) status = coset_put_bytes(kind, in.at, in.len, label, b[1].at, b[1].len, out, cap, len);
  if (!strcmp(call, "put_text")) status = coset_put_text(kind, in.at, in.len, label, b[1].at, b[1].len, out, cap, len);
  if (!strcmp(call, "put_float")) status = coset_put_float(kind, in.at, in.len, label, strtod(word[5], NULL), out, cap, len);
  if (!strcmp(call, "put_int"))
    status = coset_put_int(kind, in.at, in.len, label, strtoll(word[5], NULL, 0), out, cap, len);
  if (!strcmp(call, "put_text_label"))
    status = coset_put_text_label(kind, in.at, in.len, b[0].at, b[0].len, b[1].at, b[1].len, out, cap, len);
  if (!strcmp(call, "structure_of"))
    status = coset_structure_of(kind, in.at, in.len, b[0].at, b[0].len, b[1].at, b[1].len, b[2].at, b[2].len, out, cap, len);
  if (!strcmp(call, "recipient_structure_of"))
    status = coset_recipient_structure_of(kind, in.at, in.len, b[0].at, b[0].len, out, cap, len);
  if (!strcmp(call, "make"))
    status = coset_make(kind, in.at, in.len, b[0].at, b[0].len, (uint32_t)strtoul(word[5], NULL, 0), b[2].at, b[2].len,
                        b[3].at, b[3].len, out, cap, len);
  if (!strcmp(call, "add")) status = coset_add(kind, in.at, in.len, b[0].at, b[0].len, out, cap, len);
  if (!strcmp(call, "write")) status = coset_write(kind, in.at, in.len, out, cap, len);
  if (!strcmp(call, "canonical_key")) status = coset_canonical_key(kind, in.at, in.len, out, cap, len);
  if (!strcmp(call, "put_all")) status = put_all(word[4], kind, in, out, cap, len);
  if (!strcmp(call, "issued")) {
    char *words[2] = {word[11], word[12]};
    struct token t = {{b[0].at, b[0].len}, {b[1].at, b[1].len}, {b[2].at, b[2].len}, {b[3].at, b[3].len}, {in.at, in.len},
                      strtoll(word[8], NULL, 0), strtoll(word[9], NULL, 0), strtoll(word[10], NULL, 0)};
    status = issued(&t, sign_as_said, words, out, cap, len);
  }
  for (int i = 0; i < 4; i++) free(b[i].at);
  return status;
}

/* Prints the place of an element, of both halves of a pair, of a label's value, of any item, or of a string's
 * content. */
static void located(char call, uint32_t kind, struct bytes in, size_t index, int64_t label) {
  coset_span a = {77, 77}, b = {77, 77};
  coset_status status = call == 'p'   ? coset_pair_spans(kind, in.at, in.len, index, &a, &b)
                        : call == 'm' ? coset_member_span(kind, in.at, in.len, index, &a)
                        : call == 'l' ? coset_label_span(kind, in.at, in.len, (uint32_t)index, label, &a)
                        : call == 'i' ? coset_item_span(in.at, in.len, index, &a)
                                      : coset_string_span(in.at, in.len, &a);
  left = -1;
  printf("%" PRId32 " %zu %zu", status, a.at, a.len);
  if (call == 'p') printf(" %zu %zu", b.at, b.len);
  putchar('\n');
}

/* Prints the places of all pairs of a map. -7: with too little memory for them, the call doesn't return their number. */
static void map_spans(uint32_t kind, struct bytes in) {
  size_t count = 77, again = 77;
  coset_status status = coset_map_spans(kind, in.at, in.len, NULL, 0, &count);
  const size_t room = status == COSET_SHORT ? count : 0;
  coset_pair_place *pairs = malloc((room + !room) * sizeof *pairs);
  if (room && coset_map_spans(kind, in.at, in.len, pairs, room - 1, &again) == COSET_SHORT && again != room) status = -7;
  if (status == COSET_SHORT) status = coset_map_spans(kind, in.at, in.len, pairs, room, &count);
  left = -1;
  printf("%" PRId32 " %zu", status, count);
  for (size_t i = 0; !status && i < count; i++)
    printf(" %zu %zu %zu %zu", pairs[i].label.at, pairs[i].label.len, pairs[i].value.at, pairs[i].value.len);
  putchar('\n');
  free(pairs);
}

/* Prints an item's major type, its simple value or its float. */
static void scalar(char call, struct bytes in) {
  uint32_t number = 77;
  uint64_t bits;
  double value = 77;
  const coset_status status = call == 'f'   ? coset_float_value(in.at, in.len, &value)
                              : call == 's' ? coset_simple_value(in.at, in.len, &number)
                                            : coset_major_type(in.at, in.len, &number);
  left = -1;
  memcpy(&bits, &value, sizeof bits);
  if (call != 'f') printf("%" PRId32 " %" PRIu32 "\n", status, number);
  else if (value != value) printf("%" PRId32 " nan\n", status);
  else printf("%" PRId32 " %016" PRIx64 "\n", status, bits);
}

int main(void) {
  static char line[1 << 23];
  char *word[13], number[32];
  const char *refused = getenv("REFUSE");
  while (fgets(line, sizeof line, stdin)) {
    for (int i = 0; i < 13; i++) {
      char *next = strtok(i ? NULL : line, " \n");
      word[i] = next ? next : "-";
    }
    const char *call = word[0];
    if (!strcmp(call, "text")) {
      printf("%s %08x: %s\n", coset_version(), coset_version_number(), coset_status_text((coset_status)strtol(word[1], NULL, 0)));
      continue;
    }
    uint32_t kind = (uint32_t)strtoul(word[1], NULL, 0), w4 = (uint32_t)strtoul(word[4], NULL, 0);
    struct bytes in = spelled(word[2]), aad = {NULL, 0}, extra = {NULL, 0};
    size_t cap = strtoull(word[3], NULL, 0), len = 77, room = (cap >> 26 ? 0 : cap) + 8; /* some calls have no buffer */
    int64_t value = 77, label = strtoll(word[5], NULL, 0), known[64];
    uint8_t *out = malloc(room);
    coset_sign1_view view = {77, 77, 77, 77, 77, 77, 77, 77, 77};
    coset_message_view message = {77, 77, 77, 77, 77, 77, 77, 77, 77};
    memset(out, 0xee, room);
    left = refused ? atol(refused) : -1;
    int is_token = !strcmp(call, "token") || !strcmp(call, "answers") || !strcmp(call, "ring") || !strcmp(call, "openssl");
    int is_room = !strcmp(call, "room") || !strcmp(call, "roomy"), is_open = !strcmp(call, "open");
    int is_verifier = !strcmp(call, "lengths") || !strcmp(call, "unset") || !strcmp(call, "said") || !strcmp(call, "built");
    if (is_token || is_room || is_open || is_verifier || !strcmp(call, "fits") || !strcmp(call, "deeper")) {
      if (is_token) token_call(word, in, cap);
      else if (is_room) room_call(word, in, cap);
      else if (is_open) open_call(word, in, cap);
      else if (*call == 'f') fits_call(word, in, cap);
      else if (*call == 'd') deeper(in);
      else if (*call == 'u') without_length(in, out, cap);
      else if (*call == 's') said(kind, in, out, cap, atoi(word[4]));
      else if (*call == 'b') built(kind, atoi(word[4]), out, cap);
      else lengths(in, out, cap);
      free(in.at), free(out);
      if (live) return fprintf(stderr, "%ld blocks are left\n", live), 1;
      continue;
    }
    int is_scalar = !strcmp(call, "major_type") || !strcmp(call, "simple_value") || !strcmp(call, "float_value");
    if (is_scalar || !strcmp(call, "map_spans")) {
      if (is_scalar) scalar(*call, in);
      else map_spans(kind, in);
      free(in.at), free(out);
      if (live) return fprintf(stderr, "%ld blocks are left\n", live), 1;
      continue;
    }
    if (!strcmp(call, "member_span") || !strcmp(call, "pair_spans") || !strcmp(call, "label_span") || !strcmp(call, "string_span") ||
        !strcmp(call, "item_span")) {
      located(*call, kind, in, strtoull(word[3], NULL, 0), strtoll(word[4], NULL, 0));
      free(in.at), free(out);
      if (live) return fprintf(stderr, "%ld blocks are left\n", live), 1;
      continue;
    }
    int32_t status = made(word, kind, in, out, cap, &len);
    if (!strcmp(call, "check")) status = coset_check(kind, in.at, in.len, &len);
    if (!strcmp(call, "count")) status = coset_count(kind, in.at, in.len, &len);
    if (!strcmp(call, "part")) status = coset_part(kind, in.at, in.len, w4, out, cap, &len);
    if (!strcmp(call, "member")) status = coset_member(kind, in.at, in.len, strtoull(word[4], NULL, 0), out, cap, &len);
    if (!strcmp(call, "label_at")) status = coset_label_at(kind, in.at, in.len, strtoull(word[4], NULL, 0), out, cap, &len);
    if (!strcmp(call, "value_at")) status = coset_value_at(kind, in.at, in.len, strtoull(word[4], NULL, 0), out, cap, &len);
    if (!strcmp(call, "key_of")) {
      extra = spelled(word[4]);
      status = coset_key_of(in.at, in.len, extra.at, extra.len, out, cap, &len);
    }
    if (!strcmp(call, "label")) status = coset_label(kind, in.at, in.len, w4, label, out, cap, &len);
    if (!strcmp(call, "label_bytes")) status = coset_label_bytes(kind, in.at, in.len, w4, label, out, cap, &len);
    if (!strcmp(call, "label_int"))
      status = coset_label_int(kind, in.at, in.len, (uint32_t)cap, strtoll(word[4], NULL, 0), &value);
    if (!strcmp(call, "integer")) status = coset_integer(in.at, in.len, &value);
    if (!strcmp(call, "text_label")) {
      extra = spelled(word[5]);
      status = coset_text_label(kind, in.at, in.len, w4, extra.at, extra.len, out, cap, &len);
    }
    if (!strcmp(call, "structure")) {
      aad = spelled(word[5]), extra = spelled(word[7]);
      status = coset_structure(kind, in.at, in.len, strtoull(word[4], NULL, 0), aad.at, aad.len,
                               (uint32_t)strtoul(word[6], NULL, 0), extra.at, extra.len, out, cap, &len);
    }
    if (!strcmp(call, "verified")) {
      char *words[4] = {word[4], word[5], word[6], word[7]};
      status = verified_as_said(words, in, out, cap, &len);
    }
    if (!strcmp(call, "recipient_structure")) {
      aad = spelled(word[4]);
      status = coset_recipient_structure(kind, in.at, in.len, aad.at, aad.len, out, cap, &len);
    }
    if (!strcmp(call, "countersign_structure")) status = countersigned(word, kind, in, out, cap, &len);
    if (!strcmp(call, "sign1")) {
      aad = spelled(word[4]), extra = spelled(word[6]);
      status = coset_sign1(kind, in.at, in.len, aad.at, aad.len, (uint32_t)strtoul(word[5], NULL, 0), extra.at, extra.len, out,
                           cap, &len, &view);
      message = (coset_message_view){view.algorithm, view.algorithm_form, view.key_id_map, view.has_critical, view.is_tagged,
                                     view.structure_len, view.signature_len, view.payload_len, view.key_id_len};
    }
    if (!strcmp(call, "message")) {
      aad = spelled(word[5]), extra = spelled(word[7]);
      status = coset_message(kind, in.at, in.len, strtoull(word[4], NULL, 0), aad.at, aad.len, (uint32_t)strtoul(word[6], NULL, 0),
                             extra.at, extra.len, known, integers(word[8], known, 64), out, cap, &len, &message);
    }
    uint32_t flags = 0;
    int is_spans = !strcmp(call, "spans");
    if (is_spans) status = spans(word, kind, in, out, cap, &len, &message, &flags);
    int is_safe = !strcmp(call, "safe"), views = is_spans || !strcmp(call, "sign1") || !strcmp(call, "message");
    if (is_safe) status = safe(word, kind, in, out, cap, &len);
    left = -1;
    int integer = !strcmp(call, "label_int") || !strcmp(call, "integer"), writes = strcmp(call, "check") && strcmp(call, "count") && !integer;
    if (integer) snprintf(number, sizeof number, "%" PRId64, value);
    else snprintf(number, sizeof number, "%zu", len);
    if (is_spans) printf("%" PRIu32 " ", flags);
    tell(status, number, out, is_safe || is_spans ? (status ? 0 : len) : writes ? room : 0, views ? &message : NULL);
    free(in.at), free(aad.at), free(extra.at), free(out);
    if (live) return fprintf(stderr, "%ld blocks are left\n", live), 1;
  }
  fprintf(stderr, "%ld requests\n", requests);
  return 0;
}
