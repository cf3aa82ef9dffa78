"""The calls for web tokens that are made from Python alone.

- `accepted` of c/wrappers/python/accept.py accepts the token of RFC 8392, appendix A.3, with the keys of appendix A.2.
- `ring` and `keys` are for the rows of test_verify: which keys of a ring are tried, and which keys of a set can be read.
- `token` gets an answer of the wrong type: a plaintext for a signature or a MAC, or none for a ciphertext.
- The calls of openssl.py are made with the ciphers of coset.crypto."""
from capi import calling, openssl
from capi.kinds import AUDIENCE, BY_KEYS, EXPIRED, ISSUER, MISUSE, NAMES, NOT_YET_VALID, OK, REFUSED, pairs_of
from capi.tokens import Refused, Verified, rings, rows, text, verifications, without_empty
from capi.vectors import named, status_of, token
from cbor import decode, encode

LEEWAY, NBF, EXP = 60, 1443944944, 1444064944
AS, OTHER = b"coap://as.example.com", b"coap://hub.example.com"
# A key of an unknown type, which is skipped (RFC 9052, section 7).
UNREADABLE = bytes.fromhex("a1011863")


def accepted():
    """Returns what `accepted` returns for the token."""
    message = decode(token()[0])[0][2][1]
    claims, found = message[2][1], Verified()
    audience = dict(pairs_of(decode(claims)[0]))[("int", 3)][1]
    layer = "/".join(["1", message[0][1].hex(), encode(message[1]).hex(), text(AS)])
    found.words, found.asked = [claims.hex(), text(audience), "a0", text(AS), layer], []
    return found


def acceptances():
    """Yields the calls of `accepted`."""
    data, signed = token()[:2]
    signature, keys = decode(data)[0][2][1][3][1], [bytes.fromhex(row[1]) for row, _ in named("rfc8392-a.2")]
    key_set = bytes([0x80 + len(keys) + 1]) + UNREADABLE + b"".join(keys)
    for now, issuer, proof, status in ((NBF, AS, signature, OK), (NBF - LEEWAY, AS, signature, OK), (EXP + LEEWAY - 1, AS, signature, OK),
                                       (NBF - LEEWAY - 1, AS, signature, NOT_YET_VALID), (EXP + LEEWAY, AS, signature, EXPIRED),
                                       (NBF, OTHER, signature, ISSUER), (NBF, AS, b"\1", REFUSED)):
        words = [now, issuer, key_set, signed, proof]
        yield ("accepted", 0, data, words, status, accepted() if status == OK else None)
        yield ("accepted", 0, b"\xd8\x3d" + data, words, status, accepted() if status == OK else None)
    other = data.replace(b"coap://light", b"coap://night")
    yield ("accepted", 0, other, [NBF, AS, key_set, signed.replace(b"coap://light", b"coap://night"), signature], AUDIENCE, None)


def wrong_answers():
    """Yields calls for the accepted tokens of test_verify, with one wrong answer in place of the answer for each layer."""
    for row, answer in rows("verify"):
        for call, layers in verifications(row, answer) if answer.startswith("ok") else ():
            name, number, data, words, *_ = call
            for place, layer in enumerate(layers):
                said = ",".join([*words[-1].split(",")[:place], "wrong"])
                texts = b"".join(it.proof + it.structure for it in layers[: place + 1]).hex()
                facts = ",".join(it.facts() for it in layers[: place + 1])
                told = Refused([place, 0, 0], [str(place + 1), texts, facts])
                yield without_empty((name, number, data, [*words[:-1], said], MISUSE, told), layers[: place + 1])


def calls():
    """Yields all calls of this file."""
    yield from acceptances()
    yield from wrong_answers()
    for row, answer in rows("ring"):
        yield from rings(row, answer)
    for (_, keys), answer in rows("keys"):
        is_read, data = answer.startswith("ok"), bytes.fromhex(keys.replace("-", ""))
        yield ("keys", 0, data, [], OK if is_read else status_of("error: " + answer), answer[3:] if is_read else None)


def is_as_openssl(want, got):
    """Returns true if coset.crypto accepts what coset_openssl.h accepts, with the same claims and issuer, or refuses it likewise."""
    name, *told = got.split()
    if want[0] == "changed":
        return name not in ("ok", "Short", "Memory")
    if want[0] == str(OK):
        return name == "ok" and (told[0], told[3]) == (want[2], want[5])
    return name == NAMES[int(want[0])] and (int(want[0]) not in BY_KEYS or told[2] == want[5])


def by_ciphers(command, check, **more):
    """Makes the calls of openssl.py from Python. Returns their number."""
    calls = openssl.Calls()
    for add in (openssl.every_algorithm, openssl.wrong_signatures, openssl.short_rsa, openssl.wrong_points, openssl.rings, openssl.many_keys,
                openssl.examples):
        add(calls)
    made = [(line, want) for line, want in zip(calls.lines, calls.wanted) if line.startswith("openssl ")]
    for (line, want), got in zip(made, calling.answers(command, [line for line, _ in made], check, **more)):
        check(is_as_openssl(want, got), f"coset.crypto: {line}: {got} and not {want}")
    return len(made)
