/* Attacks the C interface (tools/capi/attack.py writes calls.h): `attack ROWS SEED CALLS`.
 *
 * Eight threads make calls with the bytes of test vectors, most of them damaged. Each buffer of a call ends at an inaccessible
 * page, or begins after one. Afterwards the 64 bytes on its other side are checked, and so are the input and the part of `out`
 * that must stay unchanged. Blocks of the heap are surrounded by such bytes, and are overwritten when they are freed.
 *
 * Each call is repeated: with just enough room, with one byte less, with each allocation refused in turn, and with each length
 * above PTRDIFF_MAX in turn. The same seed makes the same calls. A fault is printed with the call's arguments, and the status
 * is 1. The last line has a digest of all results, which is the same for each target (tools/capi/targets.py).
 *
 * With FUZZ defined, libFuzzer calls this program (tools/fuzz): the first 24 bytes choose the call and its numbers. */
#define _GNU_SOURCE
#include "coset.h"
#include <inttypes.h>
#include <pthread.h>
#include <signal.h>
#include <stdio.h>
#include <stdlib.h>
#include <string.h>
#include <unistd.h>
#ifndef _WIN32
#include <sys/mman.h>
#else
#include <windows.h>

/* What this program needs of POSIX. A signal ends the program without a report. */
enum { PROT_NONE, PROT_READ, PROT_WRITE, MAP_PRIVATE, MAP_ANONYMOUS };
#define MAP_FAILED NULL
#define flockfile(file) (void)(file)

static void *mmap(void *at, size_t n, int protection, int flags, int file, int offset) {
  (void)protection, (void)flags, (void)file, (void)offset;
  return VirtualAlloc(at, n, MEM_RESERVE | MEM_COMMIT, PAGE_NOACCESS);
}

static int mprotect(void *at, size_t n, int protection) {
  DWORD was;
  return (void)protection, !VirtualProtect(at, n, PAGE_READWRITE, &was);
}
#endif

enum { WORDS = 26, ROOM = 1 << 18, PAGE = 4096, CANARY = 64, THREADS = 8, CHOICES = 24, LARGEST = 1 << 14 };

union word {
  uint64_t number;
  void *at;
};
struct function {
  const char *name;
  int32_t (*call)(const union word *);
  const char *classes; /* k kind, f flag, u number, i index, s label, b bytes and z their length, w labels and y their number,
                          p pairs and q their number, t texts and m their number, x other structs and n their number, r a struct
                          that begins with its size, o a buffer and c its length, l the length of the result, a and v other
                          results */
  size_t sizes[WORDS]; /* of results and structs */
};
#include "calls.h"

/* Memory between two inaccessible pages. A call gets n bytes at `at`, and `was` is a copy of an input's content. */
struct place {
  uint8_t *start, *at, *was;
  size_t n;
};
struct row {
  uint32_t kind;
  size_t len;
  uint8_t *at;
};

static struct row *rows;
static size_t row_count;
static uint64_t seed;

/* The state of each thread. */
static _Thread_local struct place places[WORDS];
static _Thread_local union word words[WORDS];
static _Thread_local const struct function *now;
static _Thread_local uint64_t state, calls, refused, accepted, lengths, digest;
static _Thread_local struct {
  uint64_t count;
  const struct row *rows[64];
} liked[sizeof functions / sizeof *functions]; /* rows for which a function returned a result */
static _Thread_local const struct row *row_now;
static _Thread_local const uint8_t *choices;
static _Thread_local size_t choices_left;
static _Thread_local long requests, refused_at = -1, live;
static _Thread_local int long_at = -1; /* the length that is too long */

/* ---- Reporting faults */

static void tell_words(void) {
  for (size_t i = 0; now->classes[i]; i++) {
    if (!strchr("bwpt", now->classes[i])) {
      fprintf(stdout, " %#" PRIx64, words[i].number);
      continue;
    }
    fputc(' ', stdout);
    for (size_t k = 0; k < places[i].n; k++) fprintf(stdout, "%02x", places[i].was[k]);
    if (!places[i].n) fputc('-', stdout);
  }
}

static _Noreturn void fail(const char *what) {
  flockfile(stdout);
  fprintf(stdout, "seed %" PRIu64 ", call %" PRIu64 " of a thread: %s: %s:", seed, calls, now ? now->name : "", what);
  if (now) tell_words();
  fputc('\n', stdout);
  fflush(stdout);
#ifdef FUZZ
  abort();
#endif
  _exit(1);
}

/* ---- The heap (with libFuzzer it is AddressSanitizer's) */

#ifndef FUZZ

struct tried {
  uint64_t ok;
  void *at;
};
struct block {
  uint64_t size, mark[3];
};
static const uint64_t MARK = 0x6b61746c65732121;

static void *block(size_t size) {
  struct block *b = requests++ == refused_at ? NULL : malloc(sizeof *b + size + CANARY);
  if (!b) return NULL;
  *b = (struct block){size, {MARK, MARK, MARK}};
  memset((uint8_t *)(b + 1) + size, 0xc5, CANARY);
  live++;
  return b + 1;
}

static void give_back(void *at) {
  struct block *b = (struct block *)at - 1;
  const uint8_t *behind = (uint8_t *)at + b->size;
  for (int i = 0; i < 3; i++)
    if (b->mark[i] != MARK) fail("writes in front of a block, or frees it twice");
  for (int i = 0; i < CANARY; i++)
    if (behind[i] != 0xc5) fail("writes behind a block");
  memset(b, 0xdd, sizeof *b + b->size);
  live--;
  free(b);
}

static struct tried tried(void *at) { return at ? (struct tried){1, at} : (struct tried){0, (void *)16}; }

struct tried rattle_alloc(uint64_t size, uint64_t align) { return (void)align, tried(block(size)); }

struct tried rattle_realloc(void *at, uint64_t kept, uint64_t size, uint64_t align) {
  size_t had = ((struct block *)at - 1)->size;
  void *moved = block(size);
  (void)kept, (void)align;
  if (moved) memcpy(moved, at, had < size ? had : size), give_back(at);
  return tried(moved);
}

void rattle_dealloc(void *at) { give_back(at); }

#endif

/* ---- Choices */

/* Returns a number below n, which isn't 0. */
static uint64_t chosen(uint64_t n) {
  if (choices) return choices_left ? choices_left--, *choices++ % n : 0;
  state ^= state << 13, state ^= state >> 7, state ^= state << 17;
  return (state * 0x2545f4914f6cdd1d >> 16) % n;
}

/* Returns true if the function is about tokens and their keys. */
static int is_about_tokens(const struct function *f) {
  return strchr(f->classes, 't') || !strcmp(f->name, "coset_key_fits");
}

static uint64_t number(char class, uint32_t kind) {
  static const int64_t algorithms[] = {5, 4, 10, 1, 7, 3, 2, -7, -8, 24};
  static const int64_t labels[] = {1, 2, 3, 4, 5, 6, 7, 8, 9, 11, 12, 0, -1, -2, -3, -4, -7, -65537, 256, INT64_MAX, INT64_MIN};
  uint32_t other = kinds[chosen(sizeof kinds / sizeof *kinds)] + (uint32_t)chosen(3) * FORM;
  if (class == 'f') return chosen(8) ? chosen(2) : UINT32_MAX;
  if (class == 'k') return chosen(8) ? kind : chosen(16) ? other : (uint32_t)chosen(1 << 11);
  if (class == 's' && is_about_tokens(now) && chosen(8)) return (uint64_t)algorithms[chosen(2) ? 7 : chosen(10)];
  if (class == 's') return (uint64_t)labels[chosen(sizeof labels / sizeof *labels)];
  if (class == 'i') return chosen(16) ? chosen(3) : SIZE_MAX >> chosen(64);
  return chosen(16) ? chosen(6) : UINT32_MAX;
}

/* Damages bytes, and returns their new number. */
static size_t damaged(uint8_t *at, size_t len) {
  static const uint8_t heads[] = {0x00, 0x18, 0x1b, 0x20, 0x3b, 0x40, 0x5b, 0x5f, 0x60, 0x7f, 0x80, 0x9f, 0xa0, 0xbf, 0xc0, 0xd2, 0xdb, 0xf6, 0xfb, 0xff};
  for (uint64_t times = chosen(4); times && len; times--) {
    size_t place = chosen(len), rest = len - place;
    switch (chosen(7)) {
    case 0: at[place] ^= (uint8_t)(1u << chosen(8)); break;
    case 1: at[place] = heads[chosen(sizeof heads)]; break;
    case 2: len = place; break;
    case 3: at[place] = (uint8_t)chosen(256); break;
    case 4: memmove(at + place, at + place + 1, rest - 1), len--; break;
    case 5: if (len < LARGEST) memmove(at + place + 1, at + place, rest), len++; break;
    default: if (len + rest <= LARGEST) memmove(at + len, at + place, rest), len += rest;
    }
  }
  return len;
}

/* ---- Buffers */

static void make_places(void) {
  for (int i = 0; i < WORDS; i++) {
    uint8_t *at = mmap(NULL, ROOM + 2 * PAGE, PROT_NONE, MAP_PRIVATE | MAP_ANONYMOUS, -1, 0);
    if (at == MAP_FAILED || mprotect(at + PAGE, ROOM, PROT_READ | PROT_WRITE)) exit(2);
    places[i] = (struct place){at + PAGE, at + PAGE, malloc(LARGEST), 0};
  }
}

/* Gives a call n bytes at the end or the start of a place, each 0xee. */
static void lend(struct place *p, size_t n, int at_start) {
  uint8_t *end = p->start + ROOM;
  p->at = at_start ? p->start : end - n;
  p->n = n;
  memset(at_start ? p->start : p->at - CANARY, 0xee, n + CANARY);
}

static int is_untouched(const uint8_t *at, size_t n) {
  for (size_t i = 0; i < n; i++)
    if (at[i] != 0xee) return 0;
  return 1;
}

/* ---- One call */

/* Chooses the bytes of an argument: those of a row, damaged or not, or libFuzzer's. `first` is the row of the chosen kind. */
static size_t bytes_for(struct place *p, const struct row *first, const uint8_t **rest, size_t *left) {
  if (choices) {
    size_t n = *left * chosen(256) / 255;
    if (n) memcpy(p->was, *rest, n);
    *rest += n, *left -= n;
    return n;
  }
  const struct row *row = first ? first : &rows[chosen(row_count)];
  if (!first && chosen(2)) return 0;
  memcpy(p->was, row->at, row->len);
  return chosen(2) ? damaged(p->was, row->len) : row->len;
}

/* Gives a call some labels. If it is about a token, most are numbers of algorithms and of claims. */
static void lend_labels(struct place *p) {
  static const int64_t assigned[] = {5, 4, 10, 1, 7, 3, 2, -7};
  size_t count = chosen(5);
  for (size_t i = 0; i < count; i++) {
    uint64_t label = is_about_tokens(now) && chosen(32) ? (uint64_t)assigned[chosen(8)] : number('s', 0);
    memcpy(p->was + i * sizeof label, &label, sizeof label);
  }
  lend(p, count * sizeof(int64_t), 0);
  if (count) memcpy(p->at, p->was, p->n);
}

/* Gives a call structs of that size with small numbers in their fields. If a struct begins with its size, it is mostly right. */
static void lend_structs(struct place *p, size_t size, size_t count, int has_size) {
  lend(p, count * size, 0);
  for (size_t at = 0; at < p->n; at += 4) {
    uint32_t field = (at % 8 || has_size) && chosen(4) ? 0 : chosen(64) ? (uint32_t)chosen(chosen(2) ? 6 : 300) : UINT32_MAX;
    memcpy(p->at + at, &field, sizeof field);
  }
  if (has_size && chosen(32)) memcpy(p->at, &size, sizeof size);
  if (p->n) memcpy(p->was, p->at, p->n);
}

/* Gives a call some pairs. Some are meaningless, and some point to bytes that don't exist. */
static void lend_pairs(struct place *p) {
  size_t count = chosen(5);
  for (size_t i = 0; i < count; i++) {
    coset_pair pair = {(uint32_t)(chosen(16) ? 1 + chosen(2) : chosen(6)), (uint32_t)(chosen(16) ? 1 + chosen(4) : chosen(6)),
                       (int64_t)number('s', 0), chosen(8), chosen(16) ? chosen(4) : SIZE_MAX >> chosen(64),
                       (int64_t)number('s', 0), chosen(16) ? chosen(8) : SIZE_MAX >> chosen(64), chosen(8)};
    memcpy(p->was + i * sizeof pair, &pair, sizeof pair);
  }
  lend(p, count * sizeof(coset_pair), 0);
  if (count) memcpy(p->at, p->was, p->n);
}

/* Gives a call some texts, whose bytes follow an inaccessible page. Some aren't UTF-8, and some are longer than any object. */
static void lend_texts(struct place *p) {
  size_t count = chosen(4);
  for (size_t i = 0; i < count; i++) {
    uint8_t *at = p->start + i * 8;
    size_t len = chosen(9);
    for (size_t k = 0; k < 8; k++) at[k] = (uint8_t)(chosen(32) ? 'a' + chosen(26) : chosen(256));
    coset_text text = {len || chosen(2) ? (const char *)at : NULL, len};
    if (!chosen(32)) text.len = chosen(2) ? SIZE_MAX : (size_t)PTRDIFF_MAX + 1;
    memcpy(p->was + i * sizeof text, &text, sizeof text);
  }
  lend(p, count * sizeof(coset_text), 0);
  if (count) memcpy(p->at, p->was, p->n);
}

/* Chooses a row for a function: half of the time one for which it returned a result. The first rows are tokens, and keys follow
 * them: most others are these for the functions about tokens. libFuzzer uses no rows. */
static const struct row *row_for(const struct function *f) {
  uint64_t count = liked[f - functions].count;
  const int is_key = !strcmp(f->name, "coset_key_fits");
  if (choices) return NULL;
  if (count && chosen(2)) return liked[f - functions].rows[chosen(count < 64 ? count : 64)];
  if (is_about_tokens(f) && chosen(4) && TOKENS + KEYS <= row_count) return is_key ? &rows[TOKENS + chosen(KEYS)] : &rows[chosen(TOKENS)];
  return &rows[chosen(row_count)];
}

/* Chooses a function and its arguments. */
static void choose(const uint8_t *rest, size_t left) {
  now = &functions[chosen(sizeof functions / sizeof *functions)];
  const struct row *row = row_now = row_for(now);
  uint32_t kind = row ? row->kind : kinds[chosen(sizeof kinds / sizeof *kinds)] + (uint32_t)chosen(3) * FORM;
  for (int i = 0; now->classes[i]; i++) {
    struct place *p = &places[i];
    int at_start = chosen(4) == 0;
    switch (now->classes[i]) {
    case 'b':
      lend(p, bytes_for(p, row, &rest, &left), at_start);
      if (p->n) memcpy(p->at, p->was, p->n);
      words[i].at = p->n || chosen(2) ? p->at : NULL;
      row = NULL;
      break;
    case 'o': lend(p, chosen(2) ? 0 : chosen(2) ? chosen(256) : LARGEST, at_start), words[i].at = p->at; break;
    case 'w': lend_labels(p), words[i].at = p->at; break;
    case 'y': words[i].number = places[i - 1].n / sizeof(int64_t); break;
    case 'x': lend_structs(p, now->sizes[i], chosen(5), 0), words[i].at = p->at; break;
    case 'n': words[i].number = places[i - 1].n / now->sizes[i - 1]; break;
    case 'r': lend_structs(p, now->sizes[i], 1, 1), words[i].at = p->at; break;
    case 'p': lend_pairs(p), words[i].at = p->at; break;
    case 'q': words[i].number = places[i - 1].n / sizeof(coset_pair); break;
    case 't': lend_texts(p), words[i].at = p->at; break;
    case 'm': words[i].number = places[i - 1].n / sizeof(coset_text); break;
    case 'z': case 'c': words[i].number = places[i - 1].n; break;
    case 'l': case 'a': case 'v': lend(p, now->sizes[i], 0), words[i].at = p->at; break;
    default: words[i].number = number(now->classes[i], kind);
    }
  }
}

/* Returns the place of the argument of that class, or NULL. */
static struct place *of(char class) {
  const char *found = strchr(now->classes, class);
  return found ? &places[found - now->classes] : NULL;
}

/* Returns true if a call with that status wrote a result: the requested one, or a layer that waits. */
static int is_answer(int32_t status) { return status == COSET_OK || status == COSET_LAYER; }

/* Checks that texts that are given by their places lie in the input, or in the output. */
static void look_at_spans(size_t len) {
  coset_message_spans_view view;
  memcpy(&view, of('v')->at, sizeof view);
  size_t rooms[] = {len, of('b')->n};
  size_t places_of[][3] = {{0, 0, view.structure_len}, {view.is_proof_in_input, view.proof_at, view.proof_len},
                           {view.is_content_in_input, view.content_at, view.content_len}, {view.is_key_id_in_input, view.key_id_at, view.key_id_len}};
  for (int i = 0; i < 4; i++)
    if (places_of[i][0] > 1 || places_of[i][1] > rooms[places_of[i][0]] || places_of[i][2] > rooms[places_of[i][0]] - places_of[i][1])
      fail("a text outside of its place");
}

/* Checks that a part of the input lies within it. After a refusal it must be zeros. */
static void look_at_span(const struct place *p, int32_t status) {
  coset_span span;
  memcpy(&span, p->at, sizeof span);
  if (status != COSET_OK && (span.at || span.len)) fail("a part without an answer");
  if (span.at > of('b')->n || span.len > of('b')->n - span.at) fail("a part outside of the input");
}

/* Checks each place after a call with that status. `len` is the length that the call returned. */
static void look(int32_t status, size_t len) {
  static const uint8_t zeros[1 << 10];
  for (int i = 0; now->classes[i]; i++) {
    struct place *p = &places[i];
    char class = now->classes[i];
    if (!strchr("bwptolavxr", class)) continue;
    if (!is_untouched(p->at == p->start ? p->at + p->n : p->at - CANARY, CANARY)) fail("writes outside of a place");
    if (strchr("bwptxr", class) && p->n && memcmp(p->at, p->was, p->n)) fail("writes into an input");
    if (class == 'o' && is_answer(status) && len > p->n) fail("a length that is more than there is");
    size_t written = is_answer(status) ? len : 0;
    if (class == 'o' && !is_untouched(p->at + written, p->n - written)) fail("writes into out behind the answer");
    if (class == 'l' && !is_answer(status) && status != COSET_SHORT && len) fail("a length without an answer");
    if (class == 'v' && status != COSET_OK && memcmp(p->at, zeros, p->n)) fail("a view without an answer");
  }
  if (status == COSET_OK && of('v') && of('v')->n == sizeof(coset_message_spans_view)) look_at_spans(len);
  for (int i = 0; now->classes[i]; i++)
    if (now->classes[i] == 'a' && now->sizes[i] == sizeof(coset_span)) look_at_span(&places[i], status);
  if (status == COSET_SHORT && (!of('o') || len <= of('o')->n)) fail("COSET_SHORT with room enough");
  if (status < 0 || status >= STATUSES) fail("a status that the header doesn't have");
  if (status == COSET_MEMORY && refused_at < 0) fail("COSET_MEMORY though no request was refused");
  if (live) fail("a block isn't freed");
}

/* Adds the results of a call to the digest. */
static void digest_results(int32_t status, size_t len) {
  for (int i = 0; now->classes[i]; i++) {
    const struct place *p = &places[i];
    size_t n = strchr("lav", now->classes[i]) ? p->n : now->classes[i] == 'o' && is_answer(status) ? len : 0;
    for (size_t k = 0; k < n; k++) digest = (digest ^ p->at[k]) * 0x100000001b3;
  }
  digest = (digest ^ (uint64_t)status) * 0x100000001b3;
}

/* Makes the call with room for `cap` bytes of a result, and checks all places. Sets `*len` to the length that it returns. */
static int32_t made(size_t cap, size_t *len) {
  struct place *out = of('o'), *length = of('l');
  if (out) {
    lend(out, cap, out->at == out->start);
    size_t i = (size_t)(out - places);
    words[i].at = out->at, words[i + 1].number = cap;
  }
  for (int i = 0; now->classes[i]; i++)
    if (strchr("lav", now->classes[i])) lend(&places[i], places[i].n, 0);
  requests = 0;
  uint64_t length_was = long_at < 0 ? 0 : words[long_at].number;
  if (long_at >= 0) words[long_at].number = chosen(2) ? SIZE_MAX : (size_t)PTRDIFF_MAX + 1;
  int32_t status = now->call(words);
  if (long_at >= 0) words[long_at].number = length_was;
  calls++, accepted += is_answer(status);
  *len = 0;
  if (length) memcpy(len, length->at, sizeof *len);
  look(status, *len);
  digest_results(status, *len);
  return status;
}

/* Refuses each allocation in turn, and checks that the call returns COSET_MEMORY or the same result. */
static void refuse_each(int32_t status, size_t cap, size_t len) {
  long most = requests;
  for (long n = 0; n < most && n < 200; n++) {
    size_t told;
    refused_at = n;
    int32_t now_status = made(cap, &told);
    refused_at = -1;
    refused += now_status == COSET_MEMORY;
    if (now_status != COSET_MEMORY && (now_status != status || told != len)) fail("another answer where memory is refused");
  }
}

/* Checks that the call refuses each length in turn, if it is above PTRDIFF_MAX. */
static void lengthen_each(size_t cap) {
  for (int i = 0; now->classes[i]; i++) {
    size_t told;
    if (!strchr("zyqmnc", now->classes[i])) continue;
    long_at = i;
    if (made(cap, &told) != COSET_MISUSE) fail("a length above PTRDIFF_MAX isn't COSET_MISUSE");
    long_at = -1;
    lengths++;
  }
}

/* Repeats a call with just enough room, with a byte less and more, with allocations refused, and with excessive lengths. */
static void attack(void) {
  static _Thread_local uint8_t answer[ROOM];
  struct place *out = of('o');
  size_t len, again, cap = out ? out->n : 0;
  int32_t status = made(cap, &len);
  if (out && (is_answer(status) || status == COSET_SHORT) && len < ROOM - CANARY) {
    if (!is_answer(status = made(len, &again)) || again != len) fail("no answer with just enough room");
    memcpy(answer, out->at, len);
    if (len && (made(len - 1, &again) != COSET_SHORT || again != len)) fail("not COSET_SHORT with a byte less");
    if (made(cap = len + 1, &again) != status || again != len || memcmp(answer, out->at, len)) fail("another answer with more room");
  }
  if (is_answer(status) && row_now) liked[now - functions].rows[liked[now - functions].count++ % 64] = row_now;
  if (!choices && chosen(8) == 0) refuse_each(status, cap, len);
  if (!choices && chosen(32) == 0) lengthen_each(cap);
}

#ifdef FUZZ

int LLVMFuzzerTestOneInput(const uint8_t *data, size_t size) {
  if (size < CHOICES || size - CHOICES > LARGEST) return 0;
  if (!places[0].start) make_places();
  choices = data, choices_left = CHOICES;
  choose(data + CHOICES, size - CHOICES);
  attack();
  return 0;
}

#else

#ifdef _WIN32

static void catch_signals(void) {}
static void catch_on_other_stack(void) {}

#else

static void caught(int signal) { fail(signal == SIGSEGV || signal == SIGBUS ? "touches other memory" : "ends by a signal"); }

static void catch_signals(void) {
  struct sigaction action = {.sa_handler = caught, .sa_flags = SA_ONSTACK};
  for (int i = 0; i < 5; i++) sigaction((int[]){SIGSEGV, SIGBUS, SIGILL, SIGTRAP, SIGABRT}[i], &action, NULL);
}

/* Each thread calls this, since a signal may mean that its own stack is full. */
static void catch_on_other_stack(void) {
  stack_t other = {.ss_sp = malloc(1 << 16), .ss_size = 1 << 16};
  sigaltstack(&other, NULL);
}

#endif

static void read_rows(const char *path) {
  static char line[1 << 17];
  FILE *file = fopen(path, "r");
  if (!file) exit(2);
  while (fgets(line, sizeof line, file)) {
    char *hex = NULL;
    uint32_t kind = (uint32_t)strtoul(line, &hex, 10);
    size_t len = strspn(++hex, "0123456789abcdef") / 2;
    uint8_t *at = malloc(len + 1);
    for (size_t i = 0; i < len; i++) sscanf(hex + 2 * i, "%2hhx", &at[i]);
    if (row_count % 1024 == 0) rows = realloc(rows, (row_count + 1024) * sizeof *rows);
    rows[row_count++] = (struct row){kind, len, at};
  }
  fclose(file);
}

struct share {
  pthread_t thread;
  uint64_t number, wanted, calls, refused, accepted, lengths, digest;
};

static void *work(void *of_thread) {
  struct share *share = of_thread;
  catch_on_other_stack();
  make_places();
  state = (seed + share->number) * 0x9e3779b97f4a7c15 + 1;
  while (calls < share->wanted) choose(NULL, 0), attack();
  share->calls = calls, share->refused = refused, share->accepted = accepted, share->lengths = lengths;
  share->digest = digest;
  return NULL;
}

int main(int count, char **word) {
  if (count != 4) return 2;
  struct share shares[THREADS] = {0}, sum = {0};
  catch_signals();
  read_rows(word[1]);
  seed = strtoull(word[2], NULL, 10);
  for (uint64_t i = 0; i < THREADS; i++) {
    shares[i].number = i, shares[i].wanted = (strtoull(word[3], NULL, 10) + THREADS - 1) / THREADS;
    if (pthread_create(&shares[i].thread, NULL, work, &shares[i])) return 2;
  }
  for (int i = 0; i < THREADS; i++) {
    pthread_join(shares[i].thread, NULL);
    sum.calls += shares[i].calls, sum.refused += shares[i].refused, sum.accepted += shares[i].accepted, sum.lengths += shares[i].lengths;
    sum.digest ^= shares[i].digest;
  }
  printf("attacked by %" PRIu64 " calls of %zu functions in %d threads (seed %" PRIu64 "): answers %" PRIu64 ", memory refused %" PRIu64
         ", lengths refused %" PRIu64 ", digest %016" PRIx64 "\n",
         sum.calls, sizeof functions / sizeof *functions, THREADS, seed, sum.accepted, sum.refused, sum.lengths, sum.digest);
  return 0;
}

#endif
