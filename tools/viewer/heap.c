/* The part of a C library that a WebAssembly module needs. It has a heap whose blocks are powers of two, and which grows the memory. It
 * has the two shifts and the product of 128 bits that the compiler calls. And it has the calls of a program's `main` and of a check at
 * run time in a build without a proof, which print nothing: the module then stops.
 *
 * With COSET_BLOCKS defined, the functions of c/wrappers/c/heap.c are the library's heap, over malloc and free of this file. */
typedef unsigned long size;
typedef unsigned char byte;

enum { PAGE = 65536, HEAD = 16 };
extern byte __heap_base;
static byte *top, *end;
static byte *freed[64]; /* blocks of 2^n bytes that were given back, each with the next one behind its head */

static int power_of(size n) {
  int power = 5;
  while (((size)1 << power) < n) power++;
  return power;
}

/* Grows the memory by so many pages, and returns true if that is possible. If the module is lowered to a 32-bit memory, the result of a
 * refusal is -1 of 32 bits. */
static int grows(size pages) { return (unsigned)__builtin_wasm_memory_grow(0, pages) != -1u; }

/* Whether so many bytes more are there from the top on: memory grows by half, or else by what is needed. */
static int has_room(size n) {
  if (!top) top = (byte *)(((size)&__heap_base + HEAD - 1) & -(size)HEAD), end = (byte *)(__builtin_wasm_memory_size(0) * PAGE);
  if (n <= (size)(end - top)) return 1;
  size needed = (n - (size)(end - top) + PAGE - 1) / PAGE, half = (size)end / PAGE / 2;
  if (needed < half && grows(half)) return end += half * PAGE, 1;
  return grows(needed) ? (end += needed * PAGE, 1) : 0;
}

void *malloc(size n) {
  if (n >> 40) return 0;
  int power = power_of(n + HEAD);
  byte *block = freed[power];
  if (block) freed[power] = *(byte **)(block + HEAD);
  else if (has_room((size)1 << power)) block = top, top += (size)1 << power;
  else return 0;
  *(size *)block = (size)power;
  return block + HEAD;
}

void free(void *at) {
  if (!at) return;
  byte *block = (byte *)at - HEAD;
  size power = *(size *)block;
  *(byte **)at = freed[power], freed[power] = block;
}

#ifndef COSET_BLOCKS
struct tried {
  size ok;
  void *at;
};

static struct tried tried(void *at) { return at ? (struct tried){1, at} : (struct tried){0, (void *)HEAD}; }

struct tried rattle_alloc(size n, size align) { return (void)align, tried(malloc(n)); }

struct tried rattle_realloc(void *at, size kept, size n, size align) {
  size has = ((size)1 << *(size *)((byte *)at - HEAD)) - HEAD;
  (void)kept, (void)align;
  if (n <= has) return tried(at);
  void *moved = malloc(n);
  if (moved) __builtin_memcpy(moved, at, has), free(at);
  return tried(moved);
}

void rattle_dealloc(void *at) { free(at); }
#endif

typedef union {
  __int128 all;
  struct {
    size low, high;
  };
} wide;

__int128 __multi3(__int128 x, __int128 y) {
  wide a = {x}, b = {y}, product;
  size mask = 0xffffffff, al = a.low & mask, ah = a.low >> 32, bl = b.low & mask, bh = b.low >> 32;
  size low = al * bl, first = ah * bl + (low >> 32), second = al * bh + (first & mask);
  product.low = second << 32 | (low & mask);
  product.high = ah * bh + (first >> 32) + (second >> 32) + a.low * b.high + a.high * b.low;
  return product.all;
}

__int128 __lshrti3(__int128 x, int n) {
  wide a = {x}, moved = a;
  if (n >= 64) moved.high = 0, moved.low = a.high >> (n - 64);
  else if (n) moved.high = a.high >> n, moved.low = a.low >> n | a.high << (64 - n);
  return moved.all;
}

__int128 __ashlti3(__int128 x, int n) {
  wide a = {x}, moved = a;
  if (n >= 64) moved.low = 0, moved.high = a.low << (n - 64);
  else if (n) moved.low = a.low << n, moved.high = a.high << n | a.low >> (64 - n);
  return moved.all;
}

long write(int to, const void *from, size n) { return (void)to, (void)from, (long)n; }
int rattle_errno(void) { return 0; }
int __xpg_strerror_r(int error, char *to, size n) { return (void)error, n ? *to = 0 : 0; }
long __sysv_signal(int number, long handler) { return (void)number, (void)handler, 0; }
