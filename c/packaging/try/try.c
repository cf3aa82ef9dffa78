/* Prints the payload of a signed token. Both are in hexadecimal. tools/capi/install.py builds this with the installed
 * library. */
#include <coset.h>
#include <stdio.h>
#include <string.h>

int main(int count, char **word) {
  uint8_t token[512], payload[512];
  size_t n = count == 2 ? strlen(word[1]) / 2 : 0, len = 0;
  if (n > sizeof token) return 2;
  for (size_t i = 0; i < n; i++)
    if (sscanf(word[1] + 2 * i, "%2hhx", &token[i]) != 1) return 2;
  int status = coset_part(COSET_SIGN1 + COSET_EITHER, token, n, COSET_PAYLOAD, payload, sizeof payload, &len);
  for (size_t i = 0; i < len; i++) printf("%02x", payload[i]);
  puts("");
  return status;
}
