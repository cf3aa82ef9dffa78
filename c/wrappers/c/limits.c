/* Measures what calls take (tools/c --limits). It is linked with the library that --own-heap builds, and gives it
 * memory.
 *
 * It reads lines `CALL KIND IN`, where IN is hexadecimal. It makes each call in a thread whose stack was painted
 * before. Then it prints the status, and the number of stack bytes that were written. It also prints the most bytes of
 * memory held at once, and the number of requests for memory. With REFUSE=N in the environment, the N-th request of
 * each call is refused. */
#define _GNU_SOURCE
#include "coset_verify.h"
#include <pthread.h>
#include <stdio.h>
#include <stdlib.h>
#include <string.h>
#include <sys/mman.h>

enum { STACK = 16 << 20, PAINT = 0xa5, BEFORE = 16, OUT = 1 << 23 };

/* ---- The heap. Each block's length is in front of it. */

static size_t held, most, requests;
static long left;

void *coset_malloc(size_t size);
void coset_free(void *block);

void *coset_malloc(size_t size) {
  requests++;
  uint8_t *block = left && !--left ? NULL : malloc(size + BEFORE);
  if (!block) return NULL;
  memcpy(block, &size, sizeof size);
  held += size;
  most = held > most ? held : most;
  return block + BEFORE;
}

void coset_free(void *block) {
  size_t size;
  memcpy(&size, (uint8_t *)block - BEFORE, sizeof size);
  held -= size;
  free((uint8_t *)block - BEFORE);
}

/* ---- The calls */

static struct {
  const char *call;
  uint32_t kind;
  const uint8_t *in;
  size_t n;
  coset_status status;
  uint8_t *began; /* the position in the thread's stack when the call was made */
} asked;
static uint8_t out[OUT];

static int yes(void *context, const coset_layer_question *question, uint8_t *plain, size_t cap, size_t *len, coset_text *issuer) {
  *issuer = (coset_text){"coap://as.example.com", 21};
  return context && question && plain && cap && len ? COSET_YES : COSET_NO;
}

/* Verifies a token whose signature must be one of ES256. */
static coset_status verified(const uint8_t *in, size_t n) {
  static const int64_t es256 = -7;
  coset_token_policy policy = {0};
  coset_token token;
  policy.rules.any_audience = 1;
  policy.algorithms = &es256, policy.algorithms_len = 1;
  return coset_token_verify(in, n, 1443944944, &policy, yes, out, out, OUT, &token);
}

static coset_status answer(const char *call, uint32_t kind, const uint8_t *in, size_t n) {
  size_t len;
  coset_sign1_view view;
  coset_message_view message;
  coset_message_spans_view spans;
  const uint8_t member[] = {0x83, 0x40, 0xa0, 0xf6};
  if (!strcmp(call, "deeper")) return coset_is_deeper(in, n, kind);
  if (!strcmp(call, "check")) return coset_check(kind, in, n, &len);
  if (!strcmp(call, "count")) return coset_count(kind, in, n, &len);
  if (!strcmp(call, "part")) return coset_part(kind, in, n, COSET_PROTECTED, out, OUT, &len);
  if (!strcmp(call, "member")) return coset_member(kind, in, n, 0, out, OUT, &len);
  if (!strcmp(call, "value_at")) return coset_value_at(kind, in, n, 0, out, OUT, &len);
  if (!strcmp(call, "label")) return coset_label(kind, in, n, COSET_IN_UNPROTECTED, 7, out, OUT, &len);
  if (!strcmp(call, "structure")) return coset_structure(kind, in, n, 0, NULL, 0, 0, NULL, 0, out, OUT, &len);
  if (!strcmp(call, "detached")) return coset_structure(kind, in, n, 0, NULL, 0, 1, NULL, 0, out, OUT, &len);
  if (!strcmp(call, "recipient_structure")) return coset_recipient_structure(COSET_RECIPIENT, in, n, NULL, 0, out, OUT, &len);
  if (!strcmp(call, "countersigned"))
    return coset_countersign_structure(kind, in, n, 11, NULL, 0, NULL, 0, 0, NULL, 0, out, OUT, &len);
  if (!strcmp(call, "sign1")) return coset_sign1(kind, in, n, NULL, 0, 0, NULL, 0, out, OUT, &len, &view);
  if (!strcmp(call, "message")) return coset_message(kind, in, n, 0, NULL, 0, 0, NULL, 0, NULL, 0, out, OUT, &len, &message);
  if (!strcmp(call, "spans")) return coset_message_spans(kind, in, n, 0, NULL, 0, 0, NULL, 0, NULL, 0, out, OUT, &len, &spans);
  if (!strcmp(call, "token")) return verified(in, n);
  if (!strcmp(call, "add")) return coset_add(kind, in, n, member, sizeof member, out, OUT, &len);
  if (!strcmp(call, "write")) return coset_write(kind, in, n, out, OUT, &len);
  if (!strcmp(call, "canonical_key")) return coset_canonical_key(COSET_LEXICOGRAPHIC, in, n, out, OUT, &len);
  return -1;
}

static void *thread(void *none) {
  asked.began = __builtin_frame_address(0);
  asked.status = answer(asked.call, asked.kind, asked.in, asked.n);
  return none;
}

/* Returns the number of bytes of its stack that the thread wrote. */
static size_t taken(uint8_t *stack) {
  pthread_attr_t with;
  pthread_t id;
  size_t at = 0;
  memset(stack, PAINT, STACK);
  if (pthread_attr_init(&with) || pthread_attr_setstack(&with, stack, STACK)) return 0;
  if (pthread_create(&id, &with, thread, NULL) || pthread_join(id, NULL)) return 0;
  pthread_attr_destroy(&with);
  while (at < STACK && stack[at] == PAINT) at++;
  return (size_t)(asked.began - (stack + at));
}

static size_t spelled(const char *word, uint8_t *at) {
  size_t n = 0;
  unsigned byte;
  for (; word[2 * n] && word[2 * n + 1]; n++) {
    const char two[3] = {word[2 * n], word[2 * n + 1], 0};
    if (sscanf(two, "%2x", &byte) != 1) return 0;
    at[n] = (uint8_t)byte;
  }
  return n;
}

int main(void) {
  static char line[1 << 23], call[32];
  static uint8_t in[1 << 22];
  const char *refused = getenv("REFUSE");
  uint8_t *stack = mmap(NULL, STACK, PROT_READ | PROT_WRITE, MAP_PRIVATE | MAP_ANONYMOUS, -1, 0);
  if (stack == MAP_FAILED) return 1;
  while (fgets(line, sizeof line, stdin)) {
    int read = 0;
    line[strcspn(line, "\n")] = 0;
    if (sscanf(line, "%31s %u %n", call, &asked.kind, &read) != 2) return 1;
    asked.call = call, asked.in = in, asked.n = spelled(line + read, in);
    most = held = requests = 0;
    left = refused ? atol(refused) : 0;
    const size_t took = taken(stack);
    printf("%d %zu %zu %zu\n", (int)asked.status, took, most, requests);
    if (held) return fprintf(stderr, "%s: %zu bytes aren't freed\n", call, held), 1;
  }
  return 0;
}
