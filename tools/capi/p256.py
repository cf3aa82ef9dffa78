"""Verification of ECDSA over P-256 with SHA-256 (FIPS 186-4)."""
import hashlib

P = 2**256 - 2**224 + 2**192 + 2**96 - 1
N = 0xFFFFFFFF00000000FFFFFFFFFFFFFFFFBCE6FAADA7179E84F3B9CAC2FC632551
G = (0x6B17D1F2E12C4247F8BCE6E563A440F277037D812DEB33A0F4A13945D898C296,
     0x4FE342E2FE1A7F9B8EE7EB4A7C0F9E162BCE33576B315ECECBB6406837BF51F5)


def add(a, b):
    """Returns the sum of two points. None is the point at infinity."""
    if a is None or b is None:
        return a or b
    if a[0] == b[0]:
        if (a[1] + b[1]) % P == 0:
            return None
        slope = 3 * (a[0] * a[0] - 1) * pow(2 * a[1], -1, P)
    else:
        slope = (b[1] - a[1]) * pow(b[0] - a[0], -1, P)
    x = (slope * slope - a[0] - b[0]) % P
    return x, (slope * (a[0] - x) - a[1]) % P


def times(k, a):
    """Returns the point `a` times `k`."""
    sum_ = None
    while k:
        sum_ = add(sum_, a) if k & 1 else sum_
        a, k = add(a, a), k >> 1
    return sum_


def is_signed(key, signed, signature):
    """Returns true if the signature of 64 bytes is one of `signed` by the public point `key`."""
    r, s = (int.from_bytes(signature[i:i + 32], "big") for i in (0, 32))
    e, w = int.from_bytes(hashlib.sha256(signed).digest(), "big"), pow(s, -1, N)
    point = add(times(e * w % N, G), times(r * w % N, key))
    return point is not None and point[0] % N == r
