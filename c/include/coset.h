/* coset for C.
 *
 * Each call is a function of its arguments. Nothing is kept between calls, nothing has to be freed, and calls in
 * several threads don't affect each other. The results are proved, except for versions, the texts of statuses, and the
 * refusal of lengths above PTRDIFF_MAX, which is tested. The contracts are at the functions of the same names in
 * crates/ffi_c/src, and docs/C.md states them in words. coset_verify.h verifies and decrypts in one call.
 *
 * in, in_len     The bytes of an item of the kind. A pointer to bytes may be NULL if its length is 0.
 * out, cap, len  The memory for the result, its size, and the result's length. COSET_SHORT: the result is longer than
 *                cap, and *len is its length. Unless the status is COSET_OK or COSET_LAYER, out is unchanged. Unless it
 *                is one of these or COSET_SHORT, *len is 0.
 *
 * A length above PTRDIFF_MAX, such as -1 converted to size_t, is COSET_MISUSE. Arguments that are const may overlap.
 * out, and each place for a number or a struct, must not overlap any other argument. Such a place must not be NULL.
 *
 * A call may take 1 MB of stack (docs/C.md: What a call takes), and it allocates memory. So don't make it in a signal
 * handler, or in a child that a process with threads forked. The library calls malloc, free, memcpy, memmove and memset
 * of the C library. It can be built to take its memory from your program instead (docs/C.md: A heap of your own).
 *
 * Any call may return COSET_OK, COSET_MEMORY, COSET_MISUSE, or a status from COSET_ENDS to COSET_NOT_PRIVATE. The other
 * statuses that a call may return follow `Also:`. */
#ifndef COSET_H
#define COSET_H

#include <stddef.h>
#include <stdint.h>

#ifdef __cplusplus
extern "C" {
#endif

/* The version of this header, as a text and as a number for #if. The number has a byte for each number of the version.
 * coset_version and coset_version_number return the version that is linked. */
#define COSET_VERSION "0.4.2-rattle.7"
#define COSET_VERSION_NUMBER 0x00040207

/* Marks a call whose status must not be ignored, and whose arguments at these positions, counted from 1, must not be
 * NULL. */
#if defined(__GNUC__) || defined(__clang__)
#define COSET_CALL(...) __attribute__((warn_unused_result, nonnull(__VA_ARGS__)))
#else
#define COSET_CALL(...)
#endif

/* A cast, as C and C++ write it. */
#ifdef __cplusplus
#define COSET_CAST(type, value) (static_cast<type>(value))
#else
#define COSET_CAST(type, value) ((type)(value))
#endif

typedef int32_t coset_status;

/* Statuses. Those from COSET_ENDS to COSET_NOT_PRIVATE name a fault in the bytes, or in a header's byte string within
 * them. The bytes are then not an item of the kind. If a call that makes an item returns one, the fault is in its
 * arguments, or in the item that would be made. */
enum {
  COSET_OK = 0,
  COSET_SHORT = 1,         /* the result is longer than the memory for it */
  COSET_MEMORY = 2,        /* an allocation failed */
  COSET_ENDS = 3,          /* the bytes end before the item does */
  COSET_MALFORMED = 4,     /* they aren't well-formed, a text string isn't UTF-8, or a simple value isn't supported */
  COSET_DEEP = 5,          /* arrays, maps and tags nest more than 256 levels deep, or more than 16 protected headers */
  COSET_EXTRANEOUS = 6,    /* bytes follow the item */
  COSET_UNEXPECTED = 7,    /* an item isn't what its place requires */
  COSET_DUPLICATE = 8,     /* two keys of a map are the same label */
  COSET_OUT_OF_RANGE = 9,  /* an integer is outside the range of its place */
  COSET_UNREGISTERED = 10, /* an integer isn't registered, and its registry has no private range */
  COSET_NOT_PRIVATE = 11,  /* an integer isn't registered, and is outside its registry's private range */
  COSET_ABSENT = 12,       /* the bytes don't have the requested part. Or items of the kind, or the bytes that something
                              is added to, have no place for an argument */
  COSET_MISUSE = 13,       /* a number has no meaning: it names no kind, part, map, form, order or countersignature,
                              or a kind that the call doesn't take. Or the index of a signer isn't 0 for a kind without
                              signers. Or a payload or ciphertext is given as detached although the message carries
                              one, or although the flag is 0. Or a length is above PTRDIFF_MAX */
  COSET_TYPE = 14,         /* the value is there, but isn't a string, or isn't an integer in the range of int64_t. From
                              a call that sets a span also: a string is in chunks */
  COSET_EMPTY = 15,        /* the counted list is empty: verifying each of its signatures would verify none */
  /* Statuses of coset_token_open, which coset_verify.h also returns. The calls for messages there return the first
   * two. */
  COSET_NOT_ALLOWED = 16,  /* the protected header doesn't name an allowed algorithm by its number */
  COSET_CRITICAL = 17,     /* a critical label isn't understood, or isn't protected */
  COSET_LAYER = 19,        /* a layer of the token waits: verify or decrypt it, and call again */
  COSET_TOO_DEEP = 20,     /* the token has more than four nested layers */
  COSET_UNAUTHENTICATED = 21, /* no layer authenticates the sender of the token */
  COSET_NOT_CLAIMS = 22,   /* the content of the innermost layer isn't a claims set */
  COSET_NO_EXPIRATION = 23, /* the token has no expiration time, exp */
  COSET_EXPIRED = 24,      /* the token has expired */
  COSET_NOT_YET_VALID = 25, /* the token isn't valid yet, nbf */
  COSET_ISSUED_LATER = 26, /* the token is issued later than now, iat */
  COSET_TOO_OLD = 27,      /* the token has reached the greatest age, or has no time of issue */
  COSET_ISSUER = 28,       /* iss isn't the name of the issuer whose key authenticated the token */
  COSET_AUDIENCE = 29,     /* the token isn't for one of the verifier's audiences, aud */
  COSET_HEADERS = 30,      /* a label is in both headers of a layer, or a layer has an IV and a Partial IV */
  COSET_TOKEN_TYPE = 31,   /* the innermost layer names none of the types, typ */
  COSET_HEADER_CLAIMS = 32, /* a header has claims that aren't in the payload */
  COSET_MISSING = 33,      /* the token doesn't have a required claim */
  COSET_UNFIT = 34         /* from coset_key_fits: the key doesn't fit the layer. From coset_verify.h: no key fits it */
};

/* Kinds. */
enum {
  COSET_SIGN1 = 1,     /* COSE_Sign1 (RFC 8152, section 4.2) */
  COSET_SIGN = 2,      /* COSE_Sign (section 4.1) */
  COSET_MAC0 = 3,      /* COSE_Mac0 (section 6.2) */
  COSET_MAC = 4,       /* COSE_Mac (section 6.1) */
  COSET_ENCRYPT0 = 5,  /* COSE_Encrypt0 (section 5.2) */
  COSET_ENCRYPT = 6,   /* COSE_Encrypt (section 5.1) */
  COSET_SIGNATURE = 7, /* COSE_Signature (section 4.1) */
  COSET_RECIPIENT = 8, /* COSE_recipient (section 5.1) */
  COSET_HEADER = 9,    /* header_map (section 3) */
  COSET_KEY = 10,      /* COSE_Key (section 7) */
  COSET_KEY_SET = 11,  /* COSE_KeySet (section 7) */
  COSET_CLAIMS = 12,   /* the claims of a web token (RFC 8392, section 3) */
  COSET_ITEM = 13,     /* any data item of CBOR, such as the value of a label; one that is read may repeat labels */
  COSET_KDF_CONTEXT = 14, /* COSE_KDF_Context (RFC 8152, section 11.2), an array: read its elements and make it as a
                             COSET_ITEM */
  COSET_TAGGED = 0x100, /* added to one of the first six kinds, a message: it is under its tag */
  COSET_EITHER = 0x200  /* added to a message's kind: it is under its tag or plain */
};

/* Parts. */
enum {
  COSET_PROTECTED = 1,  /* the content of the protected header's byte string, as received */
  COSET_PAYLOAD = 2,    /* of COSET_SIGN1, COSET_SIGN, COSET_MAC0 and COSET_MAC */
  COSET_CIPHERTEXT = 3, /* of COSET_ENCRYPT0, COSET_ENCRYPT and COSET_RECIPIENT */
  COSET_PROOF = 4       /* the signature of COSET_SIGN1 and COSET_SIGNATURE, the tag of COSET_MAC0 and COSET_MAC */
};

/* Maps. */
enum {
  COSET_IN_PROTECTED = 1,   /* the protected header of a message, a signature or a recipient */
  COSET_IN_UNPROTECTED = 2, /* the unprotected header of a message, a signature or a recipient */
  COSET_IN_ITEM = 3         /* the item itself, for COSET_HEADER, COSET_KEY, COSET_CLAIMS and COSET_ITEM */
};

/* Forms in which a message names its algorithm, and forms of labels and values that are put into a map. */
enum {
  COSET_NONE = 0,   /* no algorithm is named */
  COSET_INT = 1,    /* an integer */
  COSET_TEXT = 2,   /* a text string, as its UTF-8 bytes */
  COSET_BYTES = 3,  /* for a value: a byte string */
  COSET_ENCODED = 4 /* for a value: any item, as its encoding */
};

/* The state of crit, label 2: labels that must be understood. COSET_NONE if there are none. */
enum {
  COSET_UNDERSTOOD = 1,    /* only the protected header has crit, and the caller understands each label in it;
                              the same header has a parameter under each */
  COSET_NOT_UNDERSTOOD = 2 /* the unprotected header has crit, the caller doesn't understand a label in crit, or the
                              protected header has no parameter under it */
};

/* Orders of labels, by their encodings. */
enum {
  COSET_LEXICOGRAPHIC = 1, /* by their bytes (RFC 8949, section 4.2.1) */
  COSET_LENGTH_FIRST = 2   /* by their lengths, then by their bytes (RFC 8949, section 4.2.3; RFC 7049, section 3.9) */
};

/* ---- Reading */

/* Checks that the bytes are an item of the kind. *offset is where they stop being one item of CBOR. That is the head at
 * fault, the first byte after the item, or the end of the bytes. It is SIZE_MAX if that isn't known, or if they are one
 * item. */
COSET_CALL(4)
coset_status coset_check(uint32_t kind, const uint8_t *in, size_t in_len, size_t *offset);

/* Counts the signatures of a COSET_SIGN, or the recipients of a COSET_MAC, COSET_ENCRYPT or COSET_RECIPIENT. Also
 * counts the keys of a COSET_KEY_SET, or the elements of a COSET_ITEM that is an array. *count is at least 1. Also:
 * COSET_ABSENT, COSET_EMPTY. */
COSET_CALL(4)
coset_status coset_count(uint32_t kind, const uint8_t *in, size_t in_len, size_t *count);

/* Writes a part. Also: COSET_SHORT, COSET_ABSENT. */
COSET_CALL(7)
coset_status coset_part(uint32_t kind, const uint8_t *in, size_t in_len, uint32_t part, uint8_t *out, size_t cap, size_t *len);

/* Writes the signature, recipient or key at index, counted from 0, in its shortest encoding: a COSET_SIGNATURE,
 * COSET_RECIPIENT or COSET_KEY. For a COSET_ITEM that is an array, writes the element. Also: COSET_SHORT,
 * COSET_ABSENT. */
COSET_CALL(7)
coset_status coset_member(uint32_t kind, const uint8_t *in, size_t in_len, size_t index, uint8_t *out, size_t cap,
                          size_t *len);

/* A range of `in`: len bytes from the offset at. */
typedef struct coset_span {
  size_t at;
  size_t len;
} coset_span;

/* Sets *span to the place of that element in `in`, as received. Copies nothing. Unless the status is COSET_OK, *span is
 * zeros. Also: COSET_ABSENT. */
COSET_CALL(5)
coset_status coset_member_span(uint32_t kind, const uint8_t *in, size_t in_len, size_t index, coset_span *span);

/* Get the value of an integer label. coset_label writes it in its shortest encoding. coset_label_bytes writes the
 * content of a byte string or a text string. coset_label_int sets *value to an integer. Also:
 * - COSET_ABSENT if there is no such label.
 * - COSET_SHORT from the first two.
 * - COSET_TYPE from the last two, if the value isn't a string, or isn't an integer in the range of int64_t.
 * A map of a COSET_ITEM may repeat a label. The value is then the first one, also of coset_label_span and
 * coset_text_label. */
COSET_CALL(8)
coset_status coset_label(uint32_t kind, const uint8_t *in, size_t in_len, uint32_t map, int64_t label, uint8_t *out,
                         size_t cap, size_t *len);
COSET_CALL(8)
coset_status coset_label_bytes(uint32_t kind, const uint8_t *in, size_t in_len, uint32_t map, int64_t label, uint8_t *out,
                               size_t cap, size_t *len);
COSET_CALL(6)
coset_status coset_label_int(uint32_t kind, const uint8_t *in, size_t in_len, uint32_t map, int64_t label, int64_t *value);

/* Sets *span to the place of an integer label's value in `in`, as received. Unless the status is COSET_OK, *span is
 * zeros. Also: COSET_ABSENT; COSET_TYPE if the label is in a protected header whose byte string is in chunks. */
COSET_CALL(6)
coset_status coset_label_span(uint32_t kind, const uint8_t *in, size_t in_len, uint32_t map, int64_t label, coset_span *span);

/* Writes the value of a text label in its shortest encoding. label are the label's UTF-8 bytes. Also: COSET_SHORT,
 * COSET_ABSENT. */
COSET_CALL(9)
coset_status coset_text_label(uint32_t kind, const uint8_t *in, size_t in_len, uint32_t map, const uint8_t *label,
                              size_t label_len, uint8_t *out, size_t cap, size_t *len);

/* Write the label and the value of a map's pair, each in its shortest encoding. index counts the pairs from 0. The map
 * is a COSET_HEADER, COSET_KEY, COSET_CLAIMS or COSET_ITEM. Also: COSET_SHORT; COSET_ABSENT if there is no pair at
 * index. */
COSET_CALL(7)
coset_status coset_label_at(uint32_t kind, const uint8_t *in, size_t in_len, size_t index, uint8_t *out, size_t cap,
                            size_t *len);
COSET_CALL(7)
coset_status coset_value_at(uint32_t kind, const uint8_t *in, size_t in_len, size_t index, uint8_t *out, size_t cap,
                            size_t *len);

/* Sets *label and *value to the places of that label and value in `in`, as received. Unless the status is COSET_OK,
 * they are zeros. Also: COSET_ABSENT. */
COSET_CALL(5, 6)
coset_status coset_pair_spans(uint32_t kind, const uint8_t *in, size_t in_len, size_t index, coset_span *label,
                              coset_span *value);

/* Sets *span to the place of the item that begins at the offset `at` of `in`, as received. The next element of an
 * array, or the next label or value of a map, begins where the item ends. So a caller that has the first one finds all
 * others in one walk. The call doesn't see where the array or map ends, so count its elements (coset_count). Unless the
 * status is COSET_OK, *span is zeros. Also: COSET_ABSENT if at is above in_len. */
COSET_CALL(4)
coset_status coset_item_span(const uint8_t *in, size_t in_len, size_t at, coset_span *span);

/* Read a COSET_ITEM. coset_string_span sets *span to the place in `in` of a string's content; the string has definite
 * length. coset_integer sets *value to an integer. Unless the status is COSET_OK, these are zeros. Also: COSET_TYPE if
 * the item isn't a string or is one in chunks, or isn't an integer in the range of int64_t. */
COSET_CALL(3)
coset_status coset_string_span(const uint8_t *in, size_t in_len, coset_span *span);
COSET_CALL(3)
coset_status coset_integer(const uint8_t *in, size_t in_len, int64_t *value);

/* Writes the first key of the COSET_KEY_SET with this identifier, label 2, in its shortest encoding. Other keys may
 * have the same identifier. Also: COSET_SHORT, COSET_ABSENT. */
COSET_CALL(7)
coset_status coset_key_of(const uint8_t *in, size_t in_len, const uint8_t *key_id, size_t key_id_len, uint8_t *out, size_t cap,
                          size_t *len);

/* Writes the structure that is signed (for a COSET_SIGN by the signer at index), authenticated, or goes with the
 * ciphertext: Sig_structure, MAC_structure or Enc_structure. If has_detached is 0, its payload is the one that the
 * message carries, and detached_len must be 0. Else its payload is detached, and the message must carry none. The
 * status is COSET_MISUSE if there are two. Enc_structure has no payload, but the same holds for the ciphertext. For any
 * other kind than COSET_SIGN, index must be 0, or the status is COSET_MISUSE. Also: COSET_SHORT; COSET_ABSENT if there is
 * no payload, no signer at index, or no structure for the kind. */
COSET_CALL(12)
coset_status coset_structure(uint32_t kind, const uint8_t *in, size_t in_len, size_t index, const uint8_t *external_aad,
                             size_t external_aad_len, uint32_t has_detached, const uint8_t *detached, size_t detached_len,
                             uint8_t *out, size_t cap, size_t *len);

/* Writes the structure that goes with the ciphertext of a COSET_RECIPIENT, an Enc_structure (RFC 8152, section 5.3).
 * holder is the kind that contains the recipient: COSET_ENCRYPT, COSET_MAC or COSET_RECIPIENT. Also: COSET_SHORT;
 * COSET_ABSENT if items of the kind holder contain no recipients. */
COSET_CALL(8)
coset_status coset_recipient_structure(uint32_t holder, const uint8_t *in, size_t in_len, const uint8_t *external_aad,
                                       size_t external_aad_len, uint8_t *out, size_t cap, size_t *len);

/* Writes the structure that a countersignature of a message, a COSET_SIGNATURE or a COSET_RECIPIENT signs:
 * Countersign_structure (RFC 9338, section 3.3), or Sig_structure (RFC 8152, section 4.4).
 *
 * label says which countersignature: 7 (counter signature, RFC 8152, section 4.5), 9 (CounterSignature0, RFC 8152,
 * appendix A.2), or 11 and 12 (abbreviated) of version 2. Any other label is COSET_MISUSE. Version 2 also covers the
 * signature of a COSET_SIGN1, and the tag of a COSET_MAC0 or COSET_MAC.
 *
 * signer is the content of the countersignature's own protected header: COSET_PROTECTED of the COSET_SIGNATURE that it
 * is. Whether that is a header isn't checked. An abbreviated countersignature has none.
 *
 * The countersigned payload is the payload, the ciphertext, or the signature of a COSET_SIGNATURE. has_detached is as
 * in coset_structure, for each kind. Also: COSET_SHORT; COSET_ABSENT if the item carries nil and nothing is given, if
 * an abbreviated countersignature is given a signer, and for other kinds. */
COSET_CALL(14)
coset_status coset_countersign_structure(uint32_t kind, const uint8_t *in, size_t in_len, int64_t label, const uint8_t *signer,
                                         size_t signer_len, const uint8_t *external_aad, size_t external_aad_len,
                                         uint32_t has_detached, const uint8_t *detached, size_t detached_len, uint8_t *out,
                                         size_t cap, size_t *len);

/* The numbers that coset_sign1 returns for a message with one signature. Unless the status is COSET_OK, they are
 * zeros. */
typedef struct coset_sign1_view {
  int64_t algorithm;       /* alg, label 1, in the protected header if the form is COSET_INT, else 0 */
  uint32_t algorithm_form; /* COSET_NONE, COSET_INT or COSET_TEXT */
  uint32_t key_id_map;     /* the header that has kid, label 4: COSET_IN_PROTECTED, else COSET_IN_UNPROTECTED, which
                              isn't signed, else 0 */
  uint32_t has_critical;   /* 1 if either header has crit, label 2: labels that must be understood; else 0 */
  uint32_t is_tagged;      /* 1 if the message is under its tag, else 0 */
  size_t structure_len;    /* the lengths of the four texts */
  size_t signature_len;
  size_t payload_len;      /* 0 if the payload is detached */
  size_t key_id_len;       /* 0 if there is no kid */
} coset_sign1_view;

/* Writes everything that verifying a COSET_SIGN1 takes, with COSET_TAGGED, COSET_EITHER or neither added. out then
 * begins with four texts, one after another, and *len is their total length:
 * - the structure, as coset_structure writes it,
 * - the signature,
 * - the payload that the message carries,
 * - the key identifier.
 *
 * Before you use the payload, verify the signature over the structure, by a key that you trust and an algorithm that
 * you allow for it. Refuse a message that has crit. Also: COSET_SHORT; COSET_ABSENT if there is no payload. */
COSET_CALL(11, 12)
coset_status coset_sign1(uint32_t kind, const uint8_t *in, size_t in_len, const uint8_t *external_aad, size_t external_aad_len,
                         uint32_t has_detached, const uint8_t *detached, size_t detached_len, uint8_t *out, size_t cap,
                         size_t *len, coset_sign1_view *view);

/* The numbers that coset_message returns for any message. Unless the status is COSET_OK, they are zeros. The headers
 * are those of the message, or for a COSET_SIGN those of the signer. */
typedef struct coset_message_view {
  int64_t algorithm;       /* as in coset_sign1_view, like the next two */
  uint32_t algorithm_form;
  uint32_t key_id_map;
  uint32_t critical;       /* COSET_NONE, COSET_UNDERSTOOD or COSET_NOT_UNDERSTOOD; for a COSET_SIGN the headers of
                              message and signer count. Those of recipients and countersignatures don't */
  uint32_t is_tagged;      /* 1 if the message is under its tag, else 0 */
  size_t structure_len;    /* the lengths of the four texts */
  size_t proof_len;        /* 0 for an encrypted message */
  size_t content_len;      /* 0 if the content is detached, absent or empty */
  size_t key_id_len;       /* 0 if there is no kid */
} coset_message_view;

/* Writes the same for any message. The four texts are:
 * - the structure that is signed (for a COSET_SIGN by the signer at index), authenticated, or goes with the ciphertext,
 * - the signature or the tag,
 * - the payload or ciphertext that the message carries,
 * - the key identifier.
 *
 * known are the critical labels that you understand. For any other kind than COSET_SIGN, index must be 0, or the status
 * is COSET_MISUSE. Also: COSET_SHORT; COSET_ABSENT if there is no payload, no signer at index, or no structure for the
 * kind. */
COSET_CALL(14, 15)
coset_status coset_message(uint32_t kind, const uint8_t *in, size_t in_len, size_t index, const uint8_t *external_aad,
                           size_t external_aad_len, uint32_t has_detached, const uint8_t *detached, size_t detached_len,
                           const int64_t *known, size_t known_len, uint8_t *out, size_t cap, size_t *len,
                           coset_message_view *view);

/* The numbers that coset_message_spans returns for any message. Unless the status is COSET_OK, they are zeros.
 * proof_at, content_at and key_id_at are offsets in `in` if is_.._in_input is 1, else in `out`. */
typedef struct coset_message_spans_view {
  int64_t algorithm;       /* as in coset_message_view, like the next four */
  uint32_t algorithm_form;
  uint32_t key_id_map;
  uint32_t critical;
  uint32_t is_tagged;
  uint32_t is_proof_in_input;
  uint32_t is_content_in_input;
  uint32_t is_key_id_in_input;
  size_t structure_len;    /* out begins with the structure */
  size_t proof_at;
  size_t proof_len;        /* 0 for an encrypted message */
  size_t content_at;
  size_t content_len;      /* 0 if the content is detached, absent or empty */
  size_t key_id_at;
  size_t key_id_len;       /* 0 if there is no kid */
} coset_message_spans_view;

/* Does the same as coset_message, without a copy of the message's own texts. out begins with the structure alone, and
 * the view has the places of the other three texts. Each is in `in`, or follows the structure in `out`: the fields
 * is_.._in_input say which. They are in `in` if the message has no list of signatures and no critical labels, and its
 * strings have definite lengths. *len is the number of bytes written to out. The rule for index is that of coset_message.
 * Also: the same as for coset_message. */
COSET_CALL(14, 15)
coset_status coset_message_spans(uint32_t kind, const uint8_t *in, size_t in_len, size_t index, const uint8_t *external_aad,
                                 size_t external_aad_len, uint32_t has_detached, const uint8_t *detached, size_t detached_len,
                                 const int64_t *known, size_t known_len, uint8_t *out, size_t cap, size_t *len,
                                 coset_message_spans_view *view);

/* ---- Web tokens (RFC 8392). Their layers are COSE_Sign1, COSE_Mac0 and COSE_Encrypt0 in any order, at most four of
 * them. An inner layer is under its tag. The outermost is under its tag, under tag 61 and its tag, or plain.
 * coset_token_verify of coset_verify.h makes these calls, and asks the caller's function about each layer. */

/* A text in UTF-8, without a zero byte at its end. chars may be NULL if len is 0. */
typedef struct coset_text {
  const char *chars;
  size_t len;
} coset_text;

/* Initializes a coset_text with a string literal. Nothing else compiles. */
#define COSET_LITERAL(literal) {"" literal, sizeof("" literal) - 1}

/* A verifier's requirements for a token, besides the lists. If all fields but size are zero, these hold:
 * - A layer without a tag is a COSE_Sign1, and a signature or a MAC must authenticate.
 * - The token must expire, and must not be issued later than now.
 * - There is no leeway, and no greatest age. */
typedef struct coset_rules {
  size_t size;                  /* sizeof(coset_rules) */
  uint64_t leeway;              /* the seconds by which the clocks of issuer and verifier may differ, at most INT64_MAX */
  uint64_t max_age;             /* the age in seconds since iat, plus the leeway, at which a token is refused, at most
                                   INT64_MAX; 0: none */
  uint32_t untagged_form;       /* the form of an outermost layer without a tag: 0 or COSET_SIGN1, COSET_MAC0,
                                   COSET_ENCRYPT0 */
  uint32_t authenticated_by;    /* 0 for a signature or a MAC, or COSET_BY_SIGNATURE, COSET_BY_ANY */
  uint32_t any_audience;        /* if it isn't 0, aud isn't checked, and the list of audiences must be empty */
  uint32_t may_not_expire;      /* if it isn't 0, a token may lack exp */
  uint32_t may_be_issued_later; /* if it isn't 0, iat may be later than now */
} coset_rules;

/* The layers that authenticate the sender of a token. */
enum {
  COSET_BY_SIGNATURE = 1, /* only a layer with a signature; a MAC doesn't authenticate */
  COSET_BY_ANY = 2        /* any layer; an encrypted one authenticates those who share its key */
};

/* A layer that the caller opened. Its offsets are in the bytes that are given with it. */
typedef struct coset_opened {
  uint32_t form;        /* COSET_SIGN1, COSET_MAC0 or COSET_ENCRYPT0 */
  size_t offset;        /* the offset of the structure, which the signature, the MAC or the ciphertext follows, as
                           they were written */
  size_t structure_len;
  size_t proof_len;
  size_t plaintext;     /* for COSET_ENCRYPT0 the offset of the plaintext, and its length; else 0 */
  size_t plaintext_len;
  size_t issuer;        /* the offset of the name of the issuer whose key opened the layer, in UTF-8 */
  size_t issuer_len;    /* the length of that name, or 0 if the issuer has no name */
} coset_opened;

/* The layer that waits (COSET_LAYER), or the layer or claim that a refusal is about. All other numbers are zeros. */
typedef struct coset_layer {
  uint32_t form;        /* COSET_LAYER: COSET_SIGN1: verify the signature; COSET_MAC0: the MAC; COSET_ENCRYPT0: decrypt */
  uint32_t key_id_map;  /* COSET_LAYER: as in coset_sign1_view */
  int64_t algorithm;    /* COSET_LAYER: one of those that you allow. COSET_NOT_ALLOWED: the one that the layer names,
                           or 0 if it names none by a number */
  int64_t claim;        /* COSET_MISSING: the number of the required claim */
  size_t index;         /* COSET_LAYER, and a refusal of a layer or COSET_MEMORY while one is read: its index from the
                           outermost, which is 0 */
  size_t structure_len; /* COSET_LAYER: the lengths of the five texts */
  size_t proof_len;
  size_t key_id_len;    /* the last three are 0 if there is none */
  size_t iv_len;
  size_t partial_iv_len;
} coset_layer;

/* Verifies a token at `now`, in seconds since 1970 began in UTC, as far as its layers are opened. Call it first with no
 * layer opened.
 *
 * COSET_LAYER: a layer waits. out begins with five texts of it, one after another, and *len is their total length:
 * - the structure that is signed, authenticated, or goes with the ciphertext, for an empty external_aad,
 * - the signature, the MAC or the ciphertext,
 * - the key identifier,
 * - the initialization vector,
 * - the partial initialization vector.
 *
 * Verify or decrypt the layer by a key that coset_key_fits accepts. Append the layer to `opened`, with the name of the
 * key's issuer, and call again. Entries whose ranges aren't in the bytes open no layer.
 *
 * COSET_OK: you opened each layer, with these very bytes, and the token meets the rules. out begins with the verified
 * token, in its shortest encoding:
 *
 *   verified_token = [ claims : Claims_Set, audience : [* tstr], others : { * label => any }, issuer : tstr / nil,
 *                      layers : [+ verified_layer] ]
 *   verified_layer = [ form : 1 / 3 / 5, protected : bstr, unprotected : header_map, issuer : tstr / nil ]
 *
 * - claims are without the others, and without aud if that is an array.
 * - audience are the texts of aud.
 * - others are the claims whose numbers are neither assigned by IANA nor for private use.
 * - issuer is the name of the issuer whose key authenticated the token. If the token has iss, that is the same name.
 * - layers begin with the outermost one. protected is the content of the protected header's byte string, as received.
 *
 * The arguments:
 * - algorithms are those that you allow, each in layers of its own form. The status is COSET_MISUSE if IANA hasn't
 *   assigned one of these numbers, or one of `required`.
 * - critical are the labels that you understand, besides 1, 2, 4 to 6 and 15, and besides 16 if there are types.
 * - required are the claims that a token must have.
 * - audiences: aud must name one of them. If there are none, a token with aud is refused.
 * - types: the protected header of the innermost layer must name one of them, typ (RFC 9596). If there are none, typ
 *   isn't looked at, and a critical typ is refused, unless `critical` has 16.
 *
 * The status is COSET_MISUSE also if a number of the rules has no meaning, or if a text or the name of an opened layer's
 * issuer isn't UTF-8. Also: COSET_SHORT, COSET_ABSENT if a layer carries no payload or ciphertext, and the statuses
 * from COSET_NOT_ALLOWED to COSET_MISSING. */
COSET_CALL(1, 21, 22)
coset_status coset_token_open(const coset_rules *rules, const int64_t *algorithms, size_t algorithms_len,
                              const int64_t *critical, size_t critical_len, const int64_t *required, size_t required_len,
                              const coset_text *audiences, size_t audiences_len, const coset_text *types, size_t types_len,
                              const uint8_t *in, size_t in_len, int64_t now, const coset_opened *opened, size_t opened_len,
                              const uint8_t *bytes, size_t bytes_len, uint8_t *out, size_t cap, size_t *len,
                              coset_layer *layer);

/* Checks that a COSET_KEY fits a layer, and writes the nonce for decryption, of at most 13 bytes. It is empty if the
 * algorithm has none. A key fits if all of these hold:
 * - alg of the key is the layer's algorithm (RFC 8725, section 3.1), which has a number of IANA and is for the form.
 * - kty, crv, and the lengths of the key's members are those that the algorithm requires (RFC 9053).
 * - key_ops is absent, or has an operation for layers of this form (RFC 9052, section 7.1).
 * - The MAC has the algorithm's length. The ciphertext isn't shorter than its tag.
 * - A signature by ECDSA is twice as long as a coordinate (RFC 9053, section 2.1). By EdDSA it has 64 bytes on Ed25519
 *   and 114 on Ed448 (RFC 8032, sections 5.1.6 and 5.2.6). By RSA it is as long as n (RFC 8017, sections 8.1.2 and
 *   8.2.2). By HSS/LMS, WalnutDSA and ML-DSA it may have any length.
 * - For encryption, the layer has an IV of the algorithm's length. Or it has no IV but a Partial IV, and the key has a
 *   Base IV (RFC 9052, section 3.1).
 * - The layer names no key identifier, or the key's.
 *
 * form is COSET_SIGN1, COSET_MAC0 or COSET_ENCRYPT0. The texts are those of the layer, as coset_token_open wrote them.
 * Also: COSET_SHORT; COSET_UNFIT if the key doesn't fit. */
COSET_CALL(15)
coset_status coset_key_fits(const uint8_t *key, size_t key_len, uint32_t form, int64_t algorithm, const uint8_t *key_id,
                            size_t key_id_len, const uint8_t *iv, size_t iv_len, const uint8_t *partial_iv,
                            size_t partial_iv_len, const uint8_t *proof, size_t proof_len, uint8_t *out, size_t cap,
                            size_t *len);

/* ---- Making: first the structure, then your signature, tag or ciphertext, then the message. Each call writes the
 * shortest encoding of an item of the kind. Also, for each call: COSET_SHORT; and, unless stated otherwise,
 * COSET_ABSENT if items of the kind have no place for an argument. */

/* Write the header, key, claims set or COSET_ITEM `in`, which may be empty, with one more pair at its end. The label is
 * an integer, or a text in the last call. The value is an encoded item, the content of a byte string, the UTF-8 bytes of
 * a text, or an integer. The status is COSET_ABSENT if `in` is an item that isn't a map. It is COSET_DUPLICATE if a
 * label is twice in the new map. Give a new key its type, label 1, first. */
COSET_CALL(9)
coset_status coset_put(uint32_t kind, const uint8_t *in, size_t in_len, int64_t label, const uint8_t *value, size_t value_len,
                       uint8_t *out, size_t cap, size_t *len);
COSET_CALL(9)
coset_status coset_put_bytes(uint32_t kind, const uint8_t *in, size_t in_len, int64_t label, const uint8_t *value,
                             size_t value_len, uint8_t *out, size_t cap, size_t *len);
COSET_CALL(9)
coset_status coset_put_text(uint32_t kind, const uint8_t *in, size_t in_len, int64_t label, const uint8_t *value,
                            size_t value_len, uint8_t *out, size_t cap, size_t *len);
COSET_CALL(8)
coset_status coset_put_int(uint32_t kind, const uint8_t *in, size_t in_len, int64_t label, int64_t value, uint8_t *out,
                           size_t cap, size_t *len);
COSET_CALL(10)
coset_status coset_put_text_label(uint32_t kind, const uint8_t *in, size_t in_len, const uint8_t *label, size_t label_len,
                                  const uint8_t *value, size_t value_len, uint8_t *out, size_t cap, size_t *len);

/* A label and a value for coset_put_all. Texts, byte strings and encodings are ranges of the bytes that are given with
 * the pairs: a length from an offset. coset_pairs.h builds such pairs. */
typedef struct coset_pair {
  uint32_t label_form; /* COSET_INT or COSET_TEXT */
  uint32_t value_form; /* COSET_INT, COSET_TEXT, COSET_BYTES or COSET_ENCODED */
  int64_t label;       /* if the form is COSET_INT; else the next two are used */
  size_t label_at;
  size_t label_len;
  int64_t value;       /* if the form is COSET_INT; else the next two are used */
  size_t value_at;
  size_t value_len;
} coset_pair;

/* Does the same with many pairs, in this order, as coset_put and the others do pair by pair. But the new map is checked
 * once, with all pairs, and the time is that of one call. The status is COSET_MISUSE if a pair has another form, or a
 * range that isn't in the bytes. */
COSET_CALL(10)
coset_status coset_put_all(uint32_t kind, const uint8_t *in, size_t in_len, const coset_pair *pairs, size_t pairs_len,
                           const uint8_t *bytes, size_t bytes_len, uint8_t *out, size_t cap, size_t *len);

/* Does the same as coset_structure for a message that isn't made yet. prot is the content of its protected header, a
 * map or nothing. Give nothing for an empty header: an empty map, a0, stays as it is, and the RFC has no bytes there.
 * signer is the same for the signer, for a COSET_SIGN alone. content is the payload, carried or detached. Enc_structure
 * has none. */
COSET_CALL(12)
coset_status coset_structure_of(uint32_t kind, const uint8_t *prot, size_t prot_len, const uint8_t *signer, size_t signer_len,
                                const uint8_t *external_aad, size_t external_aad_len, const uint8_t *content,
                                size_t content_len, uint8_t *out, size_t cap, size_t *len);

/* Does the same as coset_recipient_structure for a recipient that isn't made yet. prot is the content of its protected
 * header, a map or nothing. */
COSET_CALL(8)
coset_status coset_recipient_structure_of(uint32_t holder, const uint8_t *prot, size_t prot_len, const uint8_t *external_aad,
                                          size_t external_aad_len, uint8_t *out, size_t cap, size_t *len);

/* Makes a message (under its tag, with COSET_TAGGED), a COSET_SIGNATURE or a COSET_RECIPIENT. Its parts are its
 * protected and its unprotected header, each a map or nothing, its payload or ciphertext, and its signature or tag. If
 * has_content is 0, the content is detached, and content_len must be 0, or the status is COSET_MISUSE. A message with
 * signers or recipients is made without them, and coset_add adds them. */
COSET_CALL(13)
coset_status coset_make(uint32_t kind, const uint8_t *prot, size_t prot_len, const uint8_t *unprot, size_t unprot_len,
                        uint32_t has_content, const uint8_t *content, size_t content_len, const uint8_t *proof,
                        size_t proof_len, uint8_t *out, size_t cap, size_t *len);

/* Writes the item with one more signature, recipient, key or element at the end. A COSET_KEY_SET, or a COSET_ITEM that
 * is an array, may begin with no bytes. The rest of the item is unchanged. COSET_ABSENT also if `in` is an item that
 * doesn't have the list, or is empty for another kind. */
COSET_CALL(8)
coset_status coset_add(uint32_t kind, const uint8_t *in, size_t in_len, const uint8_t *member, size_t member_len, uint8_t *out,
                       size_t cap, size_t *len);

/* Writes the item with the shortest heads, without indefinite lengths. Floats keep their width, pairs their order, and
 * protected headers their bytes. Never COSET_ABSENT. */
COSET_CALL(6)
coset_status coset_write(uint32_t kind, const uint8_t *in, size_t in_len, uint8_t *out, size_t cap, size_t *len);

/* Writes the COSET_KEY in its shortest encoding, with its labels in this order. But label 0, which is reserved, follows
 * the labels 1 to 5. Keys that differ only in the order of their pairs give the same bytes. Never COSET_ABSENT. */
COSET_CALL(6)
coset_status coset_canonical_key(uint32_t order, const uint8_t *in, size_t in_len, uint8_t *out, size_t cap, size_t *len);

/* ---- About the library */

/* Returns the version that is linked: COSET_VERSION, followed by ` (unproved)` if the library was built without a
 * proof. */
const char *coset_version(void);

/* Returns the version that is linked as COSET_VERSION_NUMBER. A later version has a greater number. */
uint32_t coset_version_number(void);

/* Returns a few words for the status. Never NULL. */
const char *coset_status_text(coset_status status);

#ifdef __cplusplus
}
#endif

#endif
