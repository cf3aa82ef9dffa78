/* Makes calls of the C interface for tools/growth: `growth <LINES`.
 *
 * A line is `CALL KIND NUMBER FILE`: the call, the kind of the item, an index or a label, and the file with the item. A call is
 * made between call_begins and call_ends, where callgrind begins new counts. The status of each is printed. */
#include "coset_verify.h"
#include <stdio.h>
#include <stdlib.h>
#include <string.h>

enum { OUT = 1 << 24, LAYERS = 4 };

static uint8_t in[OUT], out[OUT], kept[OUT];
static size_t n;
static uint32_t kind;
static int64_t number;

/* Their bodies differ, or the compiler would make one function of both. */
__attribute__((noinline)) static void call_begins(void) { __asm__ volatile("# begins"); }
__attribute__((noinline)) static void call_ends(void) { __asm__ volatile("# ends"); }

/* A policy that looks at everything. */
static const int64_t algorithms[] = {-7, 5, 1}, critical[] = {33, -70000, -70001}, required[] = {1, 2, 3, 4, 5, 6, 7};
static const coset_text audiences[] = {COSET_LITERAL("b1"), COSET_LITERAL("b2"), COSET_LITERAL("a")};
static const coset_text types[] = {COSET_LITERAL("application/x"), COSET_LITERAL("application/cwt")};
static const coset_rules rules = {.size = sizeof rules, .leeway = 1, .max_age = 10000, .authenticated_by = COSET_BY_ANY};

static coset_status opened_with(const coset_opened *opened, size_t count, size_t len, size_t *told, coset_layer *layer) {
  return coset_token_open(&rules, algorithms, 3, critical, 3, required, 7, audiences, 3, types, 2, in, n, 1000, opened, count, kept,
                          len, out, OUT, told, layer);
}

/* Opens each layer of a token, but the last one only if `number` isn't 0. The plaintext of a layer is its ciphertext. */
static coset_status token(void) {
  coset_opened opened[LAYERS];
  coset_layer layer;
  size_t told, len = 0, count = 0;
  coset_status status = opened_with(opened, 0, 0, &told, &layer);
  while (number && status == COSET_LAYER && count < LAYERS) {
    size_t both = layer.structure_len + layer.proof_len;
    coset_opened one = {layer.form, len, layer.structure_len, layer.proof_len, 0, 0, len + both, 1};
    if (layer.form == COSET_ENCRYPT0) one.plaintext = len + layer.structure_len, one.plaintext_len = layer.proof_len;
    memcpy(kept + len, out, both);
    kept[len + both] = 'i';
    len += both + 1;
    opened[count++] = one;
    status = opened_with(opened, count, len, &told, &layer);
  }
  return status;
}

static coset_status put_all(void) {
  size_t len, count = n / 16;
  coset_pair *pairs = calloc(count, sizeof *pairs);
  coset_status status;
  if (!pairs) return COSET_MEMORY;
  for (size_t i = 0; i < count; i++) pairs[i] = (coset_pair){COSET_INT, COSET_INT, -1000000 + (int64_t)(i * 7919 % count), 0, 0, 1, 0, 0};
  status = coset_put_all(kind, in, n, pairs, count, NULL, 0, out, OUT, &len);
  free(pairs);
  return status;
}

static coset_status puts_a_pair(const char *call) {
  size_t len;
  const uint8_t *zero = (const uint8_t *)"", *text = (const uint8_t *)"label000000";
  if (!strcmp(call, "put")) return coset_put(kind, in, n, number, zero, 1, out, OUT, &len);
  if (!strcmp(call, "put_int")) return coset_put_int(kind, in, n, number, 0, out, OUT, &len);
  if (!strcmp(call, "put_bytes")) return coset_put_bytes(kind, in, n, number, text, 11, out, OUT, &len);
  if (!strcmp(call, "put_text")) return coset_put_text(kind, in, n, number, text, 11, out, OUT, &len);
  if (!strcmp(call, "put_text_label")) return coset_put_text_label(kind, in, n, text, 11, zero, 1, out, OUT, &len);
  if (!strcmp(call, "put_all")) return put_all();
  return -1;
}

static coset_status reads_a_map(const char *call) {
  size_t len;
  int64_t value;
  coset_span span, other;
  const uint32_t map = kind == COSET_HEADER || kind >= COSET_KEY ? COSET_IN_ITEM : COSET_IN_PROTECTED;
  if (!strcmp(call, "label")) return coset_label(kind, in, n, map, number, out, OUT, &len);
  if (!strcmp(call, "label_bytes")) return coset_label_bytes(kind, in, n, map, number, out, OUT, &len);
  if (!strcmp(call, "label_int")) return coset_label_int(kind, in, n, map, number, &value);
  if (!strcmp(call, "label_span")) return coset_label_span(kind, in, n, map, number, &span);
  if (!strcmp(call, "text_label")) return coset_text_label(kind, in, n, map, (const uint8_t *)"label000000", 11, out, OUT, &len);
  if (!strcmp(call, "label_at")) return coset_label_at(kind, in, n, (size_t)number, out, OUT, &len);
  if (!strcmp(call, "value_at")) return coset_value_at(kind, in, n, (size_t)number, out, OUT, &len);
  if (!strcmp(call, "pair_spans")) return coset_pair_spans(kind, in, n, (size_t)number, &span, &other);
  return -1;
}

static coset_status reads_a_list(const char *call) {
  size_t len;
  coset_span span;
  if (!strcmp(call, "count")) return coset_count(kind, in, n, &len);
  if (!strcmp(call, "member")) return coset_member(kind, in, n, (size_t)number, out, OUT, &len);
  if (!strcmp(call, "member_span")) return coset_member_span(kind, in, n, (size_t)number, &span);
  if (!strcmp(call, "item_span")) return coset_item_span(in, n, 0, &span);
  if (!strcmp(call, "string_span")) return coset_string_span(in, n, &span);
  if (!strcmp(call, "key_of")) return coset_key_of(in, n, (const uint8_t *)"none", 4, out, OUT, &len);
  return reads_a_map(call);
}

static coset_status reads_a_message(const char *call) {
  size_t len;
  coset_sign1_view view;
  coset_message_view message;
  coset_message_spans_view spans;
  const size_t index = (size_t)number;
  if (!strcmp(call, "part")) return coset_part(kind, in, n, (uint32_t)number, out, OUT, &len);
  if (!strcmp(call, "structure")) return coset_structure(kind, in, n, index, NULL, 0, 0, NULL, 0, out, OUT, &len);
  if (!strcmp(call, "recipient_structure")) return coset_recipient_structure(COSET_MAC, in, n, NULL, 0, out, OUT, &len);
  if (!strcmp(call, "countersigned"))
    return coset_countersign_structure(kind, in, n, number, NULL, 0, NULL, 0, 0, NULL, 0, out, OUT, &len);
  if (!strcmp(call, "sign1")) return coset_sign1(kind, in, n, NULL, 0, 0, NULL, 0, out, OUT, &len, &view);
  if (!strcmp(call, "message"))
    return coset_message(kind, in, n, index, NULL, 0, 0, NULL, 0, critical, 3, out, OUT, &len, &message);
  if (!strcmp(call, "message_spans"))
    return coset_message_spans(kind, in, n, index, NULL, 0, 0, NULL, 0, critical, 3, out, OUT, &len, &spans);
  return reads_a_list(call);
}

static coset_status answer(const char *call) {
  size_t len;
  static const uint8_t proof[64];
  if (!strcmp(call, "check")) return coset_check(kind, in, n, &len);
  if (!strcmp(call, "write")) return coset_write(kind, in, n, out, OUT, &len);
  if (!strcmp(call, "deeper")) return coset_is_deeper(in, n, (size_t)number);
  if (!strcmp(call, "token")) return token();
  if (!strcmp(call, "key_fits")) return coset_key_fits(in, n, COSET_SIGN1, -7, NULL, 0, NULL, 0, NULL, 0, proof, 64, out, OUT, &len);
  if (!strcmp(call, "canonical_key")) return coset_canonical_key((uint32_t)number, in, n, out, OUT, &len);
  if (!strncmp(call, "put", 3)) return puts_a_pair(call);
  if (!strcmp(call, "add")) return coset_add(kind, in, n, (const uint8_t *)"\xa1\x01\x04", 3, out, OUT, &len);
  if (!strcmp(call, "structure_of")) return coset_structure_of(kind, in, n, NULL, 0, NULL, 0, NULL, 0, out, OUT, &len);
  if (!strcmp(call, "recipient_structure_of")) return coset_recipient_structure_of(COSET_MAC, in, n, NULL, 0, out, OUT, &len);
  if (!strcmp(call, "make")) return coset_make(kind, in, n, in, n, 1, in, n, in, n, out, OUT, &len);
  return reads_a_message(call);
}

/* The planted reader: compares each byte with each. tools/growth fails unless it finds this. */
static coset_status planted(void) {
  volatile size_t equal = 0;
  for (size_t i = 0; i < n; i++)
    for (size_t k = 0; k < n; k += 16) equal += in[i] == in[k];
  return COSET_OK;
}

int main(void) {
  char call[32], path[1024];
  while (scanf("%31s %u %ld %1023s", call, &kind, &number, path) == 4) {
    FILE *file = fopen(path, "rb");
    coset_status status;
    if (!file) return 1;
    n = fread(in, 1, sizeof in, file);
    fclose(file);
    call_begins();
    status = strcmp(call, "planted") ? answer(call) : planted();
    call_ends();
    if (status == -1) return fprintf(stderr, "%s is no call\n", call), 1;
    printf("%d %s\n", (int)status, coset_status_text(status));
  }
  return 0;
}
