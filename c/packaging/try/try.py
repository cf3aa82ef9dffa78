"""Prints the payload of a signed token, which a ring without keys refuses. Both are in hexadecimal."""
import sys

import coset

token = bytes.fromhex(sys.argv[1])
try:
    coset.verify_token(token, coset.KeyRing({}), [coset.ES256])
except coset.InvalidToken as refusal:
    if refusal.reason == coset.Status.UNFIT:
        print(coset.part(coset.SIGN1 + coset.EITHER, token, coset.PAYLOAD).hex())
