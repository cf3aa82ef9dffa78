/* The library's version, and a few words for each status. This file is linked into libcoset. */
#include "coset.h"

const char *coset_version(void) {
#ifdef COSET_UNPROVED
  return COSET_VERSION " (unproved)";
#else
  return COSET_VERSION;
#endif
}

uint32_t coset_version_number(void) { return COSET_VERSION_NUMBER; }

const char *coset_status_text(coset_status status) {
  switch (status) {
  case COSET_OK: return "all is well";
  case COSET_SHORT: return "the answer is longer than the memory for it";
  case COSET_MEMORY: return "a request for memory was refused";
  case COSET_ENDS: return "the bytes end before the item does";
  case COSET_MALFORMED: return "the bytes aren't well-formed";
  case COSET_DEEP: return "arrays, maps and tags nest too deep";
  case COSET_EXTRANEOUS: return "bytes follow the item";
  case COSET_UNEXPECTED: return "an item isn't as its place asks";
  case COSET_DUPLICATE: return "two keys of a map are one label";
  case COSET_OUT_OF_RANGE: return "an integer lies outside the range of its place";
  case COSET_UNREGISTERED: return "an integer isn't registered";
  case COSET_NOT_PRIVATE: return "an integer isn't registered, nor for private use";
  case COSET_ABSENT: return "what is asked for isn't there, or what is given has no place";
  case COSET_MISUSE: return "an argument has no meaning for this call, such as an unassigned number, or contradicts another one";
  case COSET_TYPE: return "what is asked for is there, and of another kind";
  case COSET_EMPTY: return "the list is empty";
  case COSET_NOT_ALLOWED: return "the algorithm isn't one that is allowed";
  case COSET_CRITICAL: return "a label that must be understood isn't";
  case 18: return "the signature, the tag or the ciphertext is refused"; /* COSET_REFUSED of coset_verify.h */
  case COSET_LAYER: return "a layer of the token waits to be opened";
  case COSET_TOO_DEEP: return "the token has too many layers";
  case COSET_UNAUTHENTICATED: return "no layer authenticates the sender of the token";
  case COSET_NOT_CLAIMS: return "the content of the token isn't a claims set";
  case COSET_NO_EXPIRATION: return "the token has no expiration time";
  case COSET_EXPIRED: return "the token has expired";
  case COSET_NOT_YET_VALID: return "the token isn't valid yet";
  case COSET_ISSUED_LATER: return "the token was issued later than now";
  case COSET_TOO_OLD: return "the token is too old, or has no time of issue";
  case COSET_ISSUER: return "the claims name another issuer than that of the key";
  case COSET_AUDIENCE: return "the token isn't for one of the verifier's audiences";
  case COSET_HEADERS: return "the headers of a layer contradict each other";
  case COSET_TOKEN_TYPE: return "the token has none of the accepted types";
  case COSET_HEADER_CLAIMS: return "a header has other claims than the payload";
  case COSET_MISSING: return "the token lacks a required claim";
  case COSET_UNFIT: return "no given key fits the layer";
  case 35: return "the keys that were tried are refused, and more fit the layer"; /* COSET_TOO_MANY_KEYS of coset_verify.h */
  default: return "no status of this library";
  }
}
