/* The calls of calls.c for web tokens: `token`, `ring`, `room`, `open` and `fits`. With WITH_OPENSSL defined (tools/c) also
 * `openssl` and `roomy`, whose layers are opened by coset_openssl.h. */
#ifdef WITH_OPENSSL
#include "coset_openssl.h"
#endif
#include "coset_verify.h"
#include "words.h"
#include <inttypes.h>
#include <stdio.h>

enum { MOST = 64, ASKED = 1 << 16 };

/* The policy, the token and the time of a line. */
struct line {
  coset_token_policy policy;
  int64_t lists[3][MOST];
  coset_text texts[2][MOST];
  size_t counts[2];
  struct bytes in;
  int64_t now;
};

/* The answers that are left for layers, and the questions that were asked. For `ring` the sets of keys, the calls that
 * are accepted, those whose plaintext is used up, and the number of keys that fitted the layer. */
struct script {
  const char *answers, *sets, *says;
  int tries;
  size_t count;
  char asked[4 * ASKED], layers[ASKED];
  uint8_t name[MOST * MOST];
  int is_used[MOST], is_damaged;
};

void token_call(char **word, struct bytes in, size_t cap);
void room_call(char **word, struct bytes in, size_t most);
void open_call(char **word, struct bytes in, size_t cap);
void fits_call(char **word, struct bytes key, size_t cap);
coset_status length_call(const uint8_t *in, size_t len, uint8_t *work, size_t cap, coset_token *token);

/* ---- The line */

/* Reads the texts of a word. Each is in a block of its own. Empty ones are NULL, and `?` stands for a length that no object
 * has. */
static size_t texts(const char *word, coset_text *at) {
  size_t count = 0;
  while (*word == 't' && count < MOST) {
    const struct bytes text = spelled(word + 1);
    at[count] = (coset_text){text.len || word[1] == '?' ? (const char *)text.at : NULL, word[1] == '?' ? SIZE_MAX : text.len};
    if (!at[count++].chars) free(text.at);
    word += 1 + strcspn(word + 1, ","), word += *word == ',';
  }
  return count;
}

/* Returns the line of these words, whose first is the time. */
static struct line *line_of(char **word, struct bytes in) {
  struct line *line = calloc(1, sizeof *line);
  coset_token_policy *policy = &line->policy;
  coset_rules *rules = &policy->rules;
  uint32_t *numbers[] = {&rules->untagged_form, &rules->authenticated_by, &rules->any_audience, &rules->may_not_expire,
                         &rules->may_be_issued_later};
  char *end = word[1];
  line->in = in;
  line->now = strtoll(word[0], NULL, 10);
  rules->leeway = strtoull(end, &end, 10);
  rules->max_age = strtoull(end + 1, &end, 10);
  for (int i = 0; i < 5; i++) *numbers[i] = (uint32_t)strtoul(end + 1, &end, 10);
  policy->algorithms = line->lists[0], policy->algorithms_len = integers(word[2], line->lists[0], MOST);
  policy->critical = line->lists[1], policy->critical_len = integers(word[3], line->lists[1], MOST);
  policy->required = line->lists[2], policy->required_len = integers(word[4], line->lists[2], MOST);
  for (int i = 0; i < 2; i++) line->counts[i] = texts(word[5 + i], line->texts[i]);
  policy->audiences = line->texts[0], policy->audiences_len = line->counts[0];
  policy->types = line->texts[1], policy->types_len = line->counts[1];
  return line;
}

static void free_line(struct line *line) {
  for (int i = 0; i < 2; i++)
    for (size_t n = 0; n < line->counts[i]; n++) free((void *)(uintptr_t)line->texts[i][n].chars);
  free(line);
}

/* ---- The caller's function */

static char *hexadecimal(char *to, const uint8_t *at, size_t len) {
  for (size_t i = 0; i < len; i++) to += sprintf(to, "%02x", at[i]);
  return to;
}

/* Adds the proof and the input of a question to the script. */
static void heard_texts(struct script *script, const coset_layer_question *q) {
  char *to = hexadecimal(script->asked + strlen(script->asked), q->proof, q->proof_len);
  hexadecimal(to, q->input, q->input_len);
}

/* Adds a question to the script. */
static void heard(struct script *script, const coset_layer_question *q) {
  const uint8_t *at[] = {q->key_id, q->iv, q->partial_iv};
  const size_t lens[] = {q->key_id_len, q->iv_len, q->partial_iv_len};
  char *to = script->layers + strlen(script->layers);
  heard_texts(script, q);
  to += sprintf(to, "%s%" PRIu32 "/%" PRId64 "/%" PRIu32, script->count ? "," : "", q->form, q->algorithm, q->key_id_map);
  for (int i = 0; i < 3; i++) {
    *to++ = '/', *to = 0;
    if (at[i]) to = hexadecimal(to, at[i], lens[i]);
  }
  script->count++;
}

/* Sets the name of the issuer from the part of an answer after `@`. `?` stands for a length that no object has. */
static void name_in(struct script *script, const char *answer, size_t len, coset_text *issuer) {
  const char *at = memchr(answer, '@', len);
  struct bytes name;
  if (!at) return;
  if (at[1] == '?') {
    *issuer = (coset_text){(const char *)script->name, SIZE_MAX};
    return;
  }
  name = spelled(at + 1);
  if (name.len > sizeof script->name) exit(2);
  if (name.len) memcpy(script->name, name.at, name.len);
  *issuer = (coset_text){(const char *)script->name, name.len};
  free(name.at);
}

/* Gives the next answer of the script. Besides yes, no and a plaintext, it may be one that no caller should give:
 * - `=N` returns the number N, `+N` returns COSET_YES and a length that is N more than the room for the plaintext,
 * - `>N` returns COSET_NO_ROOM and the length N,
 * - `~N` returns the number N, and sets no length,
 * - `!` overwrites the question's bytes, and says yes. */
static int is_opened(void *context, const coset_layer_question *question, uint8_t *plain, size_t cap, size_t *len,
                     coset_text *issuer) {
  struct script *script = context;
  const char *answer = script->answers;
  const size_t n = strcspn(answer, ",");
  struct bytes text = {NULL, 0};
  const size_t unset = question->form == COSET_ENCRYPT0 ? SIZE_MAX : 0;
  if ((question->index != script->count && !script->is_damaged) || *len != unset || issuer->chars || issuer->len) exit(2);
  heard(script, question);
  script->answers += n + (answer[n] == ',');
  if (*answer == '~') return atoi(answer + 1);
  if (*answer == 'p') text = spelled(answer + 1);
  if (text.len > cap) return *len = text.len, free(text.at), COSET_NO_ROOM;
  if (text.len) memcpy(plain, text.at, text.len);
  *len = text.len;
  free(text.at);
  name_in(script, answer, n, issuer);
  if (*answer == '!') script->is_damaged = 1, memset((uint8_t *)(uintptr_t)question->input, 0x55, question->input_len);
  if (*answer == '+') *len = cap + strtoull(answer + 1, NULL, 0);
  if (*answer == '>') return *len = strtoull(answer + 1, NULL, 0), COSET_NO_ROOM;
  if (*answer == '=') return atoi(answer + 1);
  return *answer && strchr("yp+!", *answer) ? COSET_YES : COSET_NO;
}

/* Returns COSET_YES if a call with the key of this identifier is accepted: by the identifier, or by `#` and the call's number.
 * The plaintext that may follow after `:` is used once. */
static int is_accepted(struct script *script, const uint8_t *kid, size_t kid_len, uint8_t *plain, size_t cap, size_t *len) {
  size_t rule = 0;
  for (const char *says = script->says; *says; rule++) {
    const size_t n = strcspn(says, ","), spells = strcspn(says, ":,");
    struct bytes text = {NULL, 0}, named = spelled(says);
    const int is = *says == '#' ? strtoul(says + 1, NULL, 10) == script->count
                                : strcmp(says, "none") && named.len == kid_len && (!kid_len || !memcmp(named.at, kid, kid_len));
    free(named.at);
    if (is && says[spells] == ':' && !script->is_used[rule]) script->is_used[rule] = 1, text = spelled(says + spells + 1);
    if (is && text.len > cap) exit(2);
    if (text.len) memcpy(plain, text.at, text.len);
    if (is) return *len = text.len, free(text.at), COSET_YES;
    says += n + (says[n] == ',');
  }
  return COSET_NO;
}

/* Asks about a layer and a key that fits it. Returns COSET_UNFIT if it doesn't fit, and COSET_TOO_MANY_KEYS if it would be one key
 * too many. */
static int by_key(struct script *script, const uint8_t *key, size_t key_len, const coset_layer_question *q, uint8_t *plain,
                  size_t cap, size_t *len) {
  uint8_t nonce[13], kid[MOST];
  size_t nonce_len, kid_len;
  if (coset_key_fits(key, key_len, q->form, q->algorithm, q->key_id, q->key_id_len, q->iv, q->iv_len, q->partial_iv,
                     q->partial_iv_len, q->proof, q->proof_len, nonce, sizeof nonce, &nonce_len))
    return COSET_UNFIT;
  if (script->tries++ == COSET_MOST_TRIES) return COSET_TOO_MANY_KEYS;
  if (coset_label_bytes(COSET_KEY, key, key_len, COSET_IN_ITEM, 2, kid, sizeof kid, &kid_len)) kid_len = 0;
  char *to = script->layers + strlen(script->layers);
  to = hexadecimal(to + sprintf(to, "%s", script->count ? "," : ""), kid, kid_len);
  to += sprintf(to, "%s/%" PRId64 "/", kid_len ? "" : "-", q->algorithm);
  to = hexadecimal(to, nonce, nonce_len);
  sprintf(to, "%s", nonce_len ? "" : "-");
  heard_texts(script, q);
  const int is = is_accepted(script, kid, kid_len, plain, cap, len);
  script->count++;
  return is;
}

/* Returns 1 if a ring goes on to the next key: so far none fits, or each is refused. */
static int goes_on(int said) { return said == COSET_UNFIT || said == COSET_NO; }

/* Asks each key of the sets that fits, in order, and COSET_MOST_TRIES keys at most. Keys that can't be read are skipped. */
static int by_ring(void *context, const coset_layer_question *question, uint8_t *plain, size_t cap, size_t *len, coset_text *issuer) {
  struct script *script = context;
  int is = COSET_UNFIT;
  script->tries = 0;
  for (const char *set = script->sets; *set && goes_on(is); set += strcspn(set, ","), set += *set == ',') {
    const char *spells = strchr(set, ':');
    struct bytes name = spelled(*set == 't' ? set + 1 : "-"), keys = spelled(spells + 1);
    size_t count = 0;
    coset_span key;
    if (coset_count(COSET_ITEM, keys.at, keys.len, &count)) count = 0;
    for (size_t i = 0; i < count && goes_on(is); i++)
      if (!coset_member_span(COSET_ITEM, keys.at, keys.len, i, &key)) {
        const int said = by_key(script, keys.at + key.at, key.len, question, plain, cap, len);
        if (said != COSET_UNFIT) is = said;
      }
    if (name.len) memcpy(script->name, name.at, name.len);
    if (is == COSET_YES && *set == 't') *issuer = (coset_text){(const char *)script->name, name.len};
    free(name.at), free(keys.at);
  }
  return is;
}

/* Opens the layer by coset_openssl_open, with the sets as its ring. It must leave no error in OpenSSL's queue. */
static int by_openssl(void *context, const coset_layer_question *question, uint8_t *plain, size_t cap, size_t *len,
                      coset_text *issuer) {
#ifdef WITH_OPENSSL
  struct script *script = context;
  coset_issuer issuers[MOST];
  coset_openssl_ring ring = {issuers, 0};
  for (const char *set = script->sets; *set; set += strcspn(set, ","), set += *set == ',') {
    struct bytes name = spelled(*set == 't' ? set + 1 : "-"), keys = spelled(strchr(set, ':') + 1);
    issuers[ring.len++] = (coset_issuer){{(const char *)name.at, name.len}, keys.at, keys.len};
  }
  const int said = coset_openssl_open(&ring, question, plain, cap, len, issuer);
  if (ERR_peek_error()) exit(2);
  if (issuer->len) memcpy(script->name, issuer->chars, issuer->len);
  if (issuer->chars) issuer->chars = (const char *)script->name;
  for (size_t i = 0; i < ring.len; i++) free((void *)(uintptr_t)issuers[i].name.chars), free((void *)(uintptr_t)issuers[i].keys);
  return script->count++, said;
#else
  return (void)context, (void)question, (void)plain, (void)cap, (void)len, (void)issuer, COSET_NO;
#endif
}

/* Returns the caller's function for a call. */
static coset_opener opener_of(const char *call) {
  return !strcmp(call, "ring") ? by_ring : !strcmp(call, "openssl") || !strcmp(call, "roomy") ? by_openssl : is_opened;
}

/* ---- The calls */

/* Returns the status of coset_token_verify, with memory to work in that is in a block of its own. -3: it isn't cleared
 * after a refusal, except for a key identifier at its front, -4: the token has something else after a refusal, or lies elsewhere. */
static int32_t verify(const struct line *line, char **word, struct script *script, size_t cap, uint8_t **work,
                      coset_token *token) {
  const coset_opener opener = opener_of(word[0]);
  int32_t status;
  memset(script, 0, sizeof *script);
  memset(token, 0x77, sizeof *token);
  script->answers = script->sets = word[11], script->says = word[12];
  *work = malloc(cap ? cap : 1);
  memset(*work, 0xee, cap);
  status = coset_token_verify(line->in.at, line->in.len, line->now, &line->policy, opener, script, cap ? *work : NULL, cap,
                              token);
  const struct bytes parts[] = {{(uint8_t *)(uintptr_t)token->claims, token->claims_len},
                                {(uint8_t *)(uintptr_t)token->audience, token->audience_len},
                                {(uint8_t *)(uintptr_t)token->others, token->others_len},
                                {(uint8_t *)(uintptr_t)token->layers, token->layers_len},
                                {(uint8_t *)(uintptr_t)token->issuer, token->issuer_len}};
  for (int i = 0; i < 5; i++) {
    const size_t at = (size_t)(parts[i].at - *work);
    if (status ? parts[i].at || parts[i].len : !parts[i].at && (i < 4 || parts[i].len)) return -4;
    if (!status && parts[i].at && (at > cap || parts[i].len > cap - at)) return -4;
  }
  if (token->key_id ? !status || token->key_id != *work || !token->key_id_len || token->key_id_len > cap : token->key_id_len) return -4;
  for (size_t i = token->key_id_len; status && i < cap; i++)
    if ((*work)[i]) return -3;
  if ((status == COSET_SHORT) != (token->needed > cap) || (status != COSET_SHORT && token->needed)) return -4;
  return status;
}

/* Prints `t` and a text, or `-` if there is none. */
static void tell_text(const uint8_t *at, size_t len) {
  if (!at) putchar('-');
  else putchar('t');
  for (size_t i = 0; at && i < len; i++) printf("%02x", at[i]);
}

static void tell(const uint8_t *at, size_t len) {
  for (size_t i = 0; i < len; i++) printf("%02x", at[i]);
}

/* Prints a text of an array, or `-` if the element is none. */
static void tell_element(const uint8_t *item, size_t len, size_t index) {
  coset_span element, text;
  if (coset_member_span(COSET_ITEM, item, len, index, &element)) exit(2);
  const coset_status status = coset_string_span(item + element.at, element.len, &text);
  if (status == COSET_OK) tell_text(item + element.at + text.at, text.len);
  else if (status == COSET_TYPE && element.len == 1 && item[element.at] == 0xf6) tell_text(NULL, 0);
  else exit(2);
}

/* Prints the texts of an array with commas between them, or `-` if there is none. */
static void tell_array(const uint8_t *item, size_t len) {
  size_t count = 0;
  const coset_status status = coset_count(COSET_ITEM, item, len, &count);
  if (status == COSET_EMPTY) putchar('-');
  else if (status) exit(2);
  for (size_t i = 0; i < count; i++) {
    if (i) putchar(',');
    tell_element(item, len, i);
  }
}

/* Prints a layer of a verified token. */
static void tell_layer(const uint8_t *item, size_t len) {
  coset_span part[3], content;
  int64_t form;
  for (size_t i = 0; i < 3; i++)
    if (coset_member_span(COSET_ITEM, item, len, i, &part[i])) exit(2);
  if (coset_integer(item + part[0].at, part[0].len, &form)) exit(2);
  if (coset_string_span(item + part[1].at, part[1].len, &content)) exit(2);
  printf("%" PRId64 "/", form);
  tell(item + part[1].at + content.at, content.len);
  putchar('/');
  tell(item + part[2].at, part[2].len);
  putchar('/');
  tell_element(item, len, 3);
}

static void tell_layers(const uint8_t *item, size_t len) {
  size_t count;
  coset_span layer;
  if (coset_count(COSET_ITEM, item, len, &count)) exit(2);
  for (size_t i = 0; i < count; i++) {
    if (coset_member_span(COSET_ITEM, item, len, i, &layer)) exit(2);
    if (i) putchar(',');
    tell_layer(item + layer.at, layer.len);
  }
}

static void tell_token(const coset_token *token) {
  putchar(' ');
  tell(token->claims, token->claims_len);
  putchar(' ');
  tell_array(token->audience, token->audience_len);
  putchar(' ');
  tell(token->others, token->others_len);
  putchar(' ');
  tell_text((const uint8_t *)token->issuer, token->issuer_len);
  putchar(' ');
  tell_layers(token->layers, token->layers_len);
}

/* Defined in calls.c: the number of the request for memory that is refused. */
extern long left;

/* Prints the result of coset_token_verify for these words, with the answers of the line or with its ring of keys. */
void token_call(char **word, struct bytes in, size_t cap) {
  struct line *line = line_of(word + 4, in);
  struct script *script = malloc(sizeof *script);
  coset_token told;
  uint8_t *work;
  const int32_t status = verify(line, word, script, cap, &work, &told);
  left = -1;
  printf("%" PRId32 " %zu", status, told.needed);
  if (status == COSET_OK) tell_token(&told);
  else if (status > 0 && status != COSET_MEMORY) {
    printf(" %zu %" PRId64 " %" PRId64 " %s", told.layer.index, told.layer.algorithm, told.layer.claim, told.key_id ? "" : "-");
    tell(told.key_id, told.key_id_len);
  }
  if (status >= 0 && status != COSET_MEMORY)
    printf(" %zu %s %s", script->count, *script->asked ? script->asked : "-",
           *script->layers ? script->layers : "-");
  puts("");
  free(work), free(script), free_line(line);
}

/* Makes the call with no memory to work in, and then with as much as it said, until that is enough. Prints the status and
 * the size. -5: a byte less was enough, -6: more isn't, -7: the size is above `most`. */
void room_call(char **word, struct bytes in, size_t most) {
  struct line *line = line_of(word + 4, in);
  struct script *script = malloc(sizeof *script);
  coset_token told;
  uint8_t *work;
  size_t cap = 0;
  int32_t status;
  while ((status = verify(line, word, script, cap, &work, &told)) == COSET_SHORT) cap = told.needed, free(work);
  free(work);
  const int32_t more = verify(line, word, script, cap + 1000, &work, &told);
  free(work);
  const int32_t less = cap ? verify(line, word, script, cap - 1, &work, &told) : COSET_SHORT;
  if (cap) free(work);
  if (status >= 0 && less != COSET_SHORT) status = cap ? -5 : status;
  if (status >= 0 && cap && told.needed != cap) status = -5;
  if (status >= 0 && more != status) status = -6;
  if (status >= 0 && cap > most) status = -7;
  left = -1;
  printf("%" PRId32 " %zu\n", status, cap);
  free(script), free_line(line);
}

/* Reads the opened layers of a word. Each is eight numbers with `/` between them, and they have commas between them. */
static size_t opened_of(const char *word, coset_opened *at) {
  size_t count = 0;
  while (*word >= '0' && *word <= '9' && count < MOST) {
    char *end = (char *)(uintptr_t)word;
    coset_opened *one = &at[count++];
    size_t *numbers[] = {&one->offset, &one->structure_len, &one->proof_len, &one->plaintext, &one->plaintext_len, &one->issuer,
                         &one->issuer_len};
    one->form = (uint32_t)strtoul(end, &end, 10);
    for (int i = 0; i < 7; i++) *numbers[i] = (size_t)strtoull(end + 1, &end, 10);
    word = end + (*end == ',');
  }
  return count;
}

/* Prints the result of coset_token_open for these words: the status, the length, the whole buffer, and the numbers of the
 * layer. The first of the rules' numbers is their size. */
void open_call(char **word, struct bytes in, size_t cap) {
  char *rest = strchr(word[5], ',');
  char *words[8] = {word[4], rest + 1, word[6], word[7], word[8], word[9], word[10], word[11]};
  struct line *line = line_of(words, in);
  coset_token_policy *policy = &line->policy;
  struct bytes bytes = spelled(word[12]);
  coset_opened opened[MOST];
  const size_t count = opened_of(word[11], opened);
  coset_opened *own = malloc(sizeof *own * (count + !count));
  uint8_t *out = malloc(cap + 8);
  size_t len = 77;
  coset_layer l;
  memset(&l, 0x77, sizeof l);
  memset(out, 0xee, cap + 8);
  if (count) memcpy(own, opened, sizeof *own * count);
  policy->rules.size = strtoull(word[5], NULL, 10);
  const coset_status status = coset_token_open(
      &policy->rules, policy->algorithms, policy->algorithms_len, policy->critical, policy->critical_len, policy->required,
      policy->required_len, policy->audiences, policy->audiences_len, policy->types, policy->types_len, in.at, in.len, line->now,
      count ? own : NULL, count, bytes.at, bytes.len, out, cap, &len, &l);
  left = -1;
  printf("%" PRId32 " %zu ", status, len);
  tell(out, cap + 8);
  printf(" %" PRIu32 " %" PRIu32 " %" PRId64 " %" PRId64 " %zu %zu %zu %zu %zu %zu\n", l.form, l.key_id_map, l.algorithm, l.claim,
         l.index, l.structure_len, l.proof_len, l.key_id_len, l.iv_len, l.partial_iv_len);
  free(own), free(out), free(bytes.at), free_line(line);
}

/* Prints the result of coset_key_fits for these words: the status, the length, and the whole buffer. */
void fits_call(char **word, struct bytes key, size_t cap) {
  struct bytes kid = spelled(word[5]), iv = spelled(word[6]), partial = spelled(word[7]), proof = spelled(word[8]);
  uint8_t *nonce = malloc(cap + 8);
  size_t len = 77;
  memset(nonce, 0xee, cap + 8);
  const coset_status status = coset_key_fits(key.at, key.len, (uint32_t)strtoul(word[1], NULL, 0), strtoll(word[4], NULL, 0), kid.at,
                                             kid.len, iv.at, iv.len, partial.at, partial.len, proof.at, proof.len, nonce, cap, &len);
  left = -1;
  printf("%" PRId32 " %zu ", status, len);
  tell(nonce, cap + 8);
  puts("");
  free(kid.at), free(iv.at), free(partial.at), free(proof.at), free(nonce);
}

/* Verifies a token with a policy of zeros, for the lengths of calls.c. */
coset_status length_call(const uint8_t *in, size_t len, uint8_t *work, size_t cap, coset_token *told) {
  const coset_token_policy policy = {0};
  return coset_token_verify(in, len, 0, &policy, is_opened, NULL, work, cap, told);
}
