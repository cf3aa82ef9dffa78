/* The calls of a page. JavaScript passes addresses and lengths of 32 bits, and a moment as a number. The module is lowered to a
 * 32-bit memory, so each address fits. */
typedef unsigned long size;
typedef unsigned char byte;

void *malloc(size n);
int page_look(const byte *input, size input_length, unsigned kind, unsigned form, unsigned has_now, long now, const byte *aad,
              size aad_length, byte *out, size out_length, size *length);
int page_seals(const byte *input, size input_length, unsigned kind, const byte *keys, size keys_length, const byte *aad, size aad_length,
               byte *out, size out_length, size *length);

static byte *at(unsigned address) { return (byte *)(size)address; }

/* Returns the address of a block of n bytes, or 0. */
unsigned block(unsigned n) { return (unsigned)(size)malloc(n); }

/* `length` is the address of 8 bytes, and `now` is a whole number of seconds, or not finite if there is no moment. */
int look(unsigned input, unsigned input_length, unsigned kind, unsigned form, double now, unsigned aad, unsigned aad_length, unsigned out,
         unsigned out_length, unsigned length) {
  int has_now = now > -0x1p53 && now < 0x1p53;
  return page_look(at(input), input_length, kind, form, (unsigned)has_now, has_now ? (long)now : 0, at(aad), aad_length, at(out),
                   out_length, (size *)at(length));
}

int seals(unsigned input, unsigned input_length, unsigned kind, unsigned keys, unsigned keys_length, unsigned aad, unsigned aad_length,
          unsigned out, unsigned out_length, unsigned length) {
  return page_seals(at(input), input_length, kind, at(keys), keys_length, at(aad), aad_length, at(out), out_length, (size *)at(length));
}
