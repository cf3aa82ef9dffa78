"""The readers of tools/growth, each with the shapes that it reads."""
import base64
from typing import Callable, NamedTuple

import growth_shapes as shapes
from capi.kinds import TAGGED, number_of
from cbor import byte_string, head

ITEM = 13
# The kinds of C that have labels or lists, besides the messages.
KINDS = {"header": 9, "recipient": 8, "key": 10, "keyset": 11, "claims": 12, "value": ITEM}
MESSAGES = list(shapes.TAGS)
POLICY = ("algs=-7|5|1,aud=b1|b2|a,types=application/x|application/cwt,need=1|2|3|4|5|6|7,by=any,lists,leeway=1,age=10000,"
          f"crit=1821|{shapes.UNDERSTOOD[0].hex()}|{shapes.UNDERSTOOD[1].hex()}|6163")
# The shapes of headers for calls that read a header as others do.
SOME = ["crit of equal labels, and other parameters", "crit of texts", "labels: integers in random order", "labels: texts in random order",
        "labels: positive integers ascending", "a value: arrays 240 levels deep", "countersignatures, label 11",
        "protected headers 4 levels deep", "crit, labels and countersignatures"]


class Case(NamedTuple):
    """A reader and a shape: the program, what it is told for n, and the input for n."""

    program: str
    reader: str
    shape: str
    told: Callable[[int], str]
    make: Callable[[int], bytes]


def cases_of(program, reader, told, made):
    """Returns a case for each shape of `made`. `told` is a text, or a function of n."""
    return [Case(program, reader, shape, told if callable(told) else lambda n: told, make) for shape, make in made.items()]


def chosen(made, *names):
    """Returns the shapes of these names."""
    return {name: made[name] for name in names}


def having(made, *words):
    """Returns the shapes with one of these words in their names."""
    return {name: make for name, make in made.items() if any(word in name for word in words)}


# ---- tokens


class Token(NamedTuple):
    """A token, and the answers of the keys that accept it (crates/test_verify)."""

    content: bytes
    answers: str = "yes@i"


def signed(header, unprotected=(), content=None, kind="sign1", **more):
    """Returns a token with these parameters, by ES256 unless they name an algorithm, and with a type unless they do."""
    labels = {it[:1] for it in header}
    algorithm = {"sign1": shapes.ES256, "mac0": shapes.HMAC, "mac": shapes.HMAC, "encrypt": shapes.A128GCM}[kind]
    first = [*([] if b"\x01" in labels else [algorithm]), *([] if b"\x10" in labels else [shapes.TYPE])]
    content = shapes.claims([]) if content is None else content
    return shapes.message(kind, [*first, *header], unprotected, byte_string(content), **more)


def with_claims(members, more=(), claimed=None, place=0):
    """Returns a token whose protected header has these header claims, or with the place 1 its unprotected header. Its payload has
    `claimed`, or the same in the opposite order."""
    header = [b"\x0f" + shapes.pairs(members)]
    content = shapes.claims(members[::-1] if claimed is None else claimed)
    return signed([*more, *header], content=content) if place == 0 else signed(more, header, content)


def header_claims():
    """Returns tokens whose headers have n claims, by name. The payload has them too, unless the name says otherwise."""
    zeros, labels = shapes.zeros, shapes.LABELS
    names = ("integers ascending", "integers in random order", "texts in random order", "long texts in random order", "integers and texts in turn")
    found = {f"header claims: {name}": (lambda n, of=labels[name]: with_claims(zeros(of(n)), claimed=zeros(shapes.shuffled(of(n))[::-1])))
             for name in names}
    mixed = lambda n: zeros(shapes.shuffled(shapes.integers(n)))
    value = [b"\x00" + shapes.array([b"\x00"] * 40)]
    deep = lambda n: [b"\x20" + shapes.wide(n)]
    return found | {
        "header claims: integers in the opposite order": lambda n: with_claims(zeros(shapes.integers(n))),
        "header claims: one of them, again and again": lambda n: with_claims([b"\x01\x61i"] * n, claimed=mixed(n)),
        "header claims: long values that the payload doesn't have": lambda n: with_claims(value * (n // 10), claimed=mixed(n)),
        "header claims: deep values": lambda n: with_claims(deep(n)),
        "header claims in the unprotected header": lambda n: with_claims(mixed(n), place=1),
        "header claims, crit and labels": lambda n: with_claims(mixed(n), [shapes.critical([b"\x0f"] * n), *mixed(n)]),
    }


def layered(n, layers=4):
    """Returns a token of four layers, each with labels, a fourth of them."""
    content = shapes.claims(shapes.zeros(shapes.shuffled(shapes.integers(n // layers))))
    for _ in range(layers):
        header = [shapes.critical([b"\x0f"] * (n // layers)), b"\x0f\xa0", *shapes.zeros(shapes.shuffled(shapes.integers(n // layers)))]
        content = signed(header, content=content)
    return content


def listed(n, count=4):
    """Returns a token with four signatures, each with labels, a fourth of them."""
    header = [shapes.ES256, shapes.critical([b"\x0f"] * (n // count)), b"\x0f\xa0", *shapes.zeros(shapes.integers(n // count))]
    return shapes.message("sign", [shapes.TYPE], content=byte_string(shapes.claims([])),
                          last=shapes.array([shapes.signature(protected=shapes.pairs(header))] * count))


def direct(header):
    """Returns the recipient `direct` with these parameters besides, in an array."""
    return shapes.array([shapes.recipient(shapes.pairs([b"\x01\x25", b"\x04\x41k", *header]))])


def lists_of_tokens():
    """Returns tokens with lists, by name: each with its answers."""
    claims = lambda n: shapes.zeros(shapes.shuffled(shapes.integers(n)))
    return {
        "four layers": lambda n: Token(layered(n), ",".join(["yes@i"] * 4)),
        "four signatures": lambda n: Token(listed(n), ",".join(["no"] * 3 + ["yes@i"])),
        "too many signatures": lambda n: Token(shapes.message("sign", [shapes.TYPE], content=byte_string(shapes.claims([])),
                                                              last=shapes.array([shapes.signature()] * n))),
        "too many recipients": lambda n: Token(signed([], kind="mac", last=shapes.array([shapes.recipient()] * n))),
        "a recipient with labels": lambda n: Token(signed([], kind="mac", last=direct(claims(n)))),
        "a recipient with header claims": lambda n: Token(signed(
            [], kind="mac", content=shapes.claims(claims(n)[::-1]), last=direct([b"\x0f" + shapes.pairs(claims(n))]))),
        "a recipient with header claims, encrypted": lambda n: Token(
            signed([], kind="encrypt", last=direct([b"\x0f" + shapes.pairs(claims(n))])), f"{shapes.claims(claims(n)[::-1]).hex()}@i"),
    }


def tokens():
    """Returns the tokens of one layer with n parts, by name."""
    found = {f"header, {name}": (lambda n, make=make: signed(make(n))) for name, make in shapes.headers().items()}
    found |= {f"payload, {name}": (lambda n, make=make: signed([], content=make(n))) for name, make in shapes.claim_sets().items()}
    return found | header_claims() | {
        "labels in both headers": lambda n: signed(
            shapes.zeros(shapes.shuffled(shapes.integers(2 * n)[:n])), shapes.zeros(shapes.shuffled(shapes.integers(2 * n)[n:]))),
        "countersignatures in the unprotected header": lambda n: signed([], [b"\x0b" + shapes.array([shapes.signature()] * n)]),
        "crit, untagged": lambda n: signed([shapes.critical([b"\x0f"] * n), b"\x0f\xa0"], tagged=False),
        "labels, under tag 61, with a MAC": lambda n: head(6, 61) + signed(shapes.zeros(shapes.integers(n)[::-1]), kind="mac0"),
        "a payload in chunks": lambda n: shapes.message("sign1", [shapes.ES256, shapes.TYPE], content=shapes.chunks(n)),
        "a type in chunks": lambda n: signed([b"\x10" + shapes.chunks(n, 3)]),
        "a long type": lambda n: signed([b"\x10" + shapes.text("application/cwt;" + "a" * 4 * n)]),
        "claims and labels": lambda n: signed(
            shapes.zeros(shapes.shuffled(shapes.texts(n))), content=shapes.claims(shapes.zeros(shapes.shuffled(shapes.integers(n))))),
    }


def verified():
    """Yields the cases of verify_token, judge, and the calls of C for tokens."""
    every, ring = tokens(), shapes.array([shapes.es256(i) for i in range(16)]).hex()
    alone = {name: (lambda n, make=make: Token(make(n))) for name, make in every.items()} | lists_of_tokens()

    def row(answers, make):
        return Case("test_verify", "", "", lambda n: f"verify {answers or make(n).answers} {shapes.NOW} {POLICY} {{}}", lambda n: make(n).content)

    # Without a key, the payload isn't read.
    for answers, reader in (("no", "verify_token without a key"), ("", "verify_token with keys that accept")):
        yield from (row(answers, make)._replace(reader=reader, shape=shape) for shape, make in alone.items() if not (answers and shape.startswith("payload")))
    some = having(every, *SOME, "header claims: ", "aud of", "both headers")
    yield from cases_of("test_verify", "verify_token with a ring of keys", f"ring i:{ring} #15 {shapes.NOW} {POLICY} {{}}", some)
    yield from cases_of("test_verify", "judge", f"judge yes {shapes.NOW} {{}}", having(every, *SOME, "payload, ", "both headers"))
    headers = {name: make for name, make in having(every, "crit", "both headers", "in random order").items() if "payload" not in name}
    yield from cases_of("growth", "coset_token_open, no layer opened", "token 0 0", headers)
    yield from cases_of("growth", "coset_token_open, all layers opened", "token 0 1", every | {"four layers": layered})


def keyed():
    """Yields the cases of rings with n keys, of keys that fit, and of claims that name keys."""
    few = shapes.zeros(shapes.integers(100))

    def ring(make):
        return lambda n: f"ring i:{make(n).hex()} none {shapes.NOW} {POLICY} {signed(few).hex()}"

    # A ring stops at the keys that fit, so these don't.
    for shape, make in having(shapes.key_sets(), "type alone", "identifiers").items():
        yield Case("test_verify", "a ring of these keys", shape, ring(make), make)
    yield from cases_of("test_verify", "keys_from_slice", "keys {}", shapes.key_sets())
    labels = {f"labels: {name}": (lambda n, of=of: shapes.es256(0, shapes.zeros(of(n)))) for name, of in shapes.LABELS.items() if "twice" not in name}
    operations = {"key_ops": lambda n: shapes.es256(0, [b"\x04" + shapes.array([*shapes.shuffled(shapes.texts(n)), b"\x02"])])}
    yield from cases_of("test_verify", "fits", "fits {} sign a10126 a0 64", labels)
    yield from cases_of("test_keys_and_claims", "thumbprint_input", "CoseKey::thumbprint_input {}", labels)
    yield from cases_of("growth", "coset_key_fits", "key_fits 10 0", labels | operations)
    made = {name: (lambda n, make=make: shapes.pairs([make(n)])) for name, make in shapes.confirmations().items()}
    yield from cases_of("test_verify", "confirmation", "confirm sign {}", made)
    yield from cases_of("test_verify", "confirmation in an encrypted token", "confirm enc {}", made)
    nonces = {
        "nonces": lambda n: shapes.pairs([b"\x0a" + shapes.array([byte_string(b"n" * 8)] * n)]),
        "nonces, the last one too short": lambda n: shapes.pairs([b"\x0a" + shapes.array([byte_string(b"n" * 8)] * n + [b"\x40"])]),
        "nonces behind other claims": lambda n: shapes.pairs(
            [*shapes.zeros(shapes.shuffled(shapes.integers(n))), b"\x0a" + shapes.array([byte_string(b"n" * 8)] * n)]),
    }
    yield from cases_of("test_verify", "nonces", "nonces {}", nonces)


# ---- messages that are seen


def in_sign1(name, kind="sign1", place="protected"):
    """Returns the function that makes a message with a header of that name."""
    make = shapes.headers()[name]
    return lambda n: shapes.message(kind, **{place: make(n)})


def seen():
    """Yields the cases of coset_seen."""
    headers = {f"{place} header, {name}": in_sign1(name, place=place) for name in SOME for place in ("protected", "unprotected")}
    for call in ("see", "lay"):
        yield from cases_of("test_seen", call, f"{call} sign1 {{}}", headers | shapes.messages("sign1"))
    yield from cases_of("test_seen", "lay, with recipients", "lay mac {}", shapes.messages("mac"))
    yield from cases_of("test_seen", "is_plain_header", "header {}",
                        {name: (lambda n, make=make: shapes.pairs(make(n))) for name, make in shapes.headers().items()})


# ---- C


def messages_of_c():
    """Yields the cases of the calls of C that read messages and headers."""
    headers = {name: (lambda n, make=make: shapes.pairs(make(n))) for name, make in shapes.headers().items()}
    yield from cases_of("growth", "coset_check of headers", "check 9 0", headers)
    for call in ("write", "structure_of", "recipient_structure_of", "make"):
        kind = KINDS["header"] if call == "write" else number_of("sign1")
        yield from cases_of("growth", f"coset_{call} of headers", f"{call} {kind} 0", chosen(headers, *SOME))
    sign1 = {f"protected header, {name}": in_sign1(name) for name in shapes.headers()}
    sign1 |= {f"unprotected header, {name}": in_sign1(name, place="unprotected") for name in SOME}
    some = {name: make for name, make in sign1.items() if name.partition(", ")[2] in SOME}
    few = having(some, "in random order", "positive")
    kind = number_of("sign1") + TAGGED
    yield from cases_of("growth", "coset_check of sign1", f"check {kind} 0", sign1)
    for call in ("message", "message_spans", "sign1", "write"):
        yield from cases_of("growth", f"coset_{call} of sign1", f"{call} {kind} 0", some)
    for call, number in (("structure", 0), ("part", 1), ("countersigned", 11), ("label", -1), ("label_bytes", -1), ("label_int", -1),
                         ("label_span", -1), ("text_label", 0)):
        yield from cases_of("growth", f"coset_{call} of sign1", f"{call} {kind} {number}", few)


def lists_of_c():
    """Yields the cases of the calls of C that read messages of all kinds."""
    for name in MESSAGES:
        made, kind = shapes.messages(name), number_of(name) + TAGGED
        last = next((n for n in ("signatures", "recipients") if any(n in it for it in made)), None)
        is_first = name in ("sign1", "sign", "mac")
        for call in ("check", "message", "message_spans", "write", *(["structure", "part", "countersigned"] if is_first else [])):
            number = {"part": 1, "countersigned": 7}.get(call, 0)
            yield from cases_of("growth", f"coset_{call} of {name}", f"{call} {kind} {number}", made)
        if last:
            some = {shape: make for shape, make in made.items() if "of empty ones" in shape}
            for call in ("count", "member", "member_span", *(["structure", "message"] if name == "sign" else [])):
                yield from cases_of("growth", f"coset_{call} of {name}, the last", lambda n, call=call, kind=kind: f"{call} {kind} {n - 1}", some)
    nested = {"recipients, 120 levels deep": lambda n: shapes.recipient(inner=shapes.nested_recipients(n))}
    nested |= {name: (lambda n, make=make: shapes.recipient(shapes.pairs(make(n)))) for name, make in having(shapes.headers(), "s in random").items()}
    for call in ("check", "count", "recipient_structure", "write", "countersigned"):
        yield from cases_of("growth", f"coset_{call} of recipient", f"{call} {KINDS['recipient']} 7",
                            nested if call != "count" else chosen(nested, "recipients, 120 levels deep"))


def maps_of_c():
    """Yields the cases of the calls of C that read keys, sets, claims and items."""
    made = {"key": shapes.keys(), "claims": shapes.claim_sets(), "value": shapes.VALUES, "keyset": shapes.key_sets()}
    for name, every in made.items():
        kind = KINDS[name]
        yield from cases_of("growth", f"coset_check of {name}", f"check {kind} 0", every)
        written = every if name in ("value", "keyset") else having(every, "s in random", "aud of", "key_ops", "levels")
        yield from cases_of("growth", f"coset_write of {name}", f"write {kind} 0", written)
    for order, name in ((1, "lexicographic"), (2, "length first")):
        yield from cases_of("growth", f"coset_canonical_key, {name}", f"canonical_key {KINDS['key']} {order}", having(made["key"], "labels"))
    some = {name: having(made[name], "s in random order") for name in ("key", "claims", "value")}
    for name, of in some.items():
        last = lambda n, extra=(6 if name == "claims" else 0): n - 1 + extra
        for call in ("label", "label_int", "label_span", "text_label", "label_at", "value_at", "pair_spans", "put", "put_int", "put_bytes", "put_text",
                     "put_text_label", "put_all"):
            at = call.endswith(("_at", "_spans"))
            shapes_of = {shape: make for shape, make in of.items() if not (at and "value:" in shape)}
            told = lambda n, call=call, kind=KINDS[name], at=at: f"{call} {kind} {last(n) if at else -1}"
            yield from cases_of("growth", f"coset_{call} of {name}", told, shapes_of)
    arrays = chosen(shapes.VALUES, "an array")
    for call in ("count", "member", "member_span"):
        yield from cases_of("growth", f"coset_{call} of value", lambda n, call=call: f"{call} {ITEM} {n - 1}", arrays)
        sets = chosen(shapes.key_sets(), "keys with their type alone", "keys with identifiers")
        yield from cases_of("growth", f"coset_{call} of keyset", lambda n, call=call: f"{call} {KINDS['keyset']} {n - 1}", sets)
    for call, number in (("key_of", 0), ("add", 0)):
        yield from cases_of("growth", f"coset_{call} of keyset", f"{call} {KINDS['keyset']} {number}", sets)
    for call in ("item_span", "deeper"):
        yield from cases_of("growth", f"coset_{call}", f"{call} {ITEM} 255", shapes.VALUES)
    yield from cases_of("growth", "coset_string_span", f"string_span {ITEM} 0", chosen(shapes.VALUES, "a long text"))


# ---- programs


def runs():
    """Yields the cases of `./run`."""
    for name in MESSAGES:
        few = shapes.messages(name) if name == "sign1" else having(shapes.messages(name), "both", "signatures", "recipients, of")
        few |= {f"header, {shape}": in_sign1(shape) for shape in SOME if name == "sign1"}
        yield from cases_of("coset_show", f"./run {name}", name, few)
    signature = lambda n: shapes.signature(shapes.pairs(shapes.zeros(shapes.shuffled(shapes.integers(n)))))
    yield from cases_of("coset_show", "./run countersignature", "countersignature", {"labels: integers in random order": signature})
    made = {"key": having(shapes.keys(), "s in random order"), "claims": having(shapes.claim_sets(), "s in random order", "aud of names"),
            "keyset": having(shapes.key_sets(), "for ES256", "120 labels"), "kdf": having(shapes.contexts(), "labels", "private"),
            "value": having(shapes.VALUES, "levels", "chunks", "order")}
    for name, made in made.items():
        yield from cases_of("coset_show", f"./run {name}", name, made)


def dump(data):
    """Returns a dump as that of xxd."""
    lines = (data[at : at + 16] for at in range(0, len(data), 16))
    shown = lambda line: "".join(chr(byte) if 32 <= byte < 127 else "." for byte in line)
    return "".join(f"{16 * i:08x}: {line.hex(' ', 2):39}  {shown(line)}\n" for i, line in enumerate(lines))


def spellings():
    """Returns the ways to spell bytes, by name."""
    return {
        "hexadecimal": lambda data: data.hex(),
        "hexadecimal with spaces": lambda data: data.hex(" "),
        "hexadecimal with comments": lambda data: "".join(f"{byte:02x} # {byte}\n" for byte in data),
        "base64": lambda data: base64.b64encode(data).decode(),
        "a dump": dump,
        "an array of C": lambda data: "uint8_t x[] = {" + ", ".join(map(str, data)) + "};",
        "escapes of Python": lambda data: "b'" + "".join(f"\\x{byte:02x}" for byte in data) + "'",
        "percent-encoding": lambda data: "".join(f"%{byte:02x}" for byte in data),
    }


def notations():
    """Returns texts in diagnostic notation with n parts, by name."""
    return {
        "an array": lambda n: ("[" + ", ".join("1" for _ in range(n)) + "]").encode(),
        "a map": lambda n: ("{" + ", ".join(f"{i}: 'a'" for i in range(10_000, 10_000 + n)) + "}").encode(),
        "strings side by side": lambda n: ("[" + "'a' " * n + "]").encode(),
        "chunks": lambda n: ("[(_ " + ", ".join("'a'" for _ in range(n)) + ")]").encode(),
        "escapes": lambda n: ('["' + "\\u00e9\\n" * n + '"]').encode(),
        "comments": lambda n: ("[" + "/ c / " * n + "1]").encode(),
        "a sequence": lambda n: ("[], " * n + "[]").encode(),
        "embedded items 60 levels deep": lambda n: ("<<[" * 60 + "1, " * n + "1" + "]>>" * 60).encode(),
        "arrays 240 levels deep": lambda n: (("[" + "1, " * (n // 240)) * 240 + "1" + "]" * 240).encode(),
        "long numbers": lambda n: f"[{', '.join(['9' * 90] * (n // 10))}]".encode(),
        "base64 in quotes": lambda n: f"[b64'{'AAAA' * n}']".encode(),
        "a string without an end": lambda n: ('["' + "a" * 16 * n).encode(),
    }


def looks():
    """Yields the cases of `./look`."""
    every = tokens()
    names = ["header, labels: integers in random order", "payload, labels: texts in random order", "payload, a value: arrays 240 levels deep",
             "header, crit of equal labels, and other parameters", "header claims: integers in random order", "header, countersignatures, label 11",
             "header, protected headers 4 levels deep", "a payload in chunks", "payload, aud of names", "payload, a value: a long text"]
    yield from cases_of("tool_look", "./look", "", chosen(every, *names) | {"four layers": layered, "four signatures": listed})
    for options in ("--json", "--edn", "--html", "--where", "--short"):
        yield from cases_of("tool_look", f"./look {options}", options, chosen(every, *names[:3]))
    made = {"key": chosen(shapes.keys(), "labels: texts in random order", "key_ops, texts in random order"),
            "keyset": chosen(shapes.key_sets(), "keys for ES256"),
            "claims": chosen(shapes.claim_sets(), "labels: integers in random order", "aud of names"),
            "mac": chosen(shapes.messages("mac"), "recipients, of empty ones", "recipients, 120 levels deep"),
            "sign": chosen(shapes.messages("sign"), "signatures, of empty ones")}
    for kind, of in made.items():
        yield from cases_of("tool_look", f"./look {kind}", kind, of)
    values = chosen(shapes.VALUES, "a map of one label", "a text in chunks", "tags 200 levels deep, again and again", "floats and big integers")
    values |= {"a sequence": lambda n: b"\x81\x00" * n, "items that end early": lambda n: b"\x9f" + b"\x81\x00" * n}
    yield from cases_of("tool_look", "./look of items", "", values)
    spelled = {name: (lambda n, spell=spell: spell(every[names[0]](n)).encode()) for name, spell in spellings().items()}
    yield from cases_of("tool_look", "./look of spellings", "", spelled)
    yield from cases_of("tool_look", "./look of notation", "--from=edn", notations())


# ---- all of them

# The readers that a usual run gives each of their shapes. They and `./look` stand for others that pass over the same bytes.
WHOLE = {"coset_token_open, all layers opened", "coset_check of headers", "coset_check of claims", "coset_check of key",
         "coset_check of value", "coset_check of keyset", "keys_from_slice", "nonces", "a ring of these keys"}
# The words of the shapes that it gives any other reader, and of more shapes for some.
USUAL = ("labels: texts in random order", "a map, integers", "positive integers", "of empty ones", "120 levels deep", "an array", "in turn",
         "keys with identifiers", "crit of equal labels, and", "labels: integers ascending", "a protected header in chunks")
MORE = {
    "verify_token without a key": ("crit", "both headers", "four", "too many"),
    "verify_token with keys that accept": ("crit", "header claims", "four", "too many", "both headers", "aud of", "claims and labels"),
    "verify_token with a ring of keys": ("header claims: integers in", "crit of texts"),
    "judge": ("aud of", "240 levels deep"),
    "confirmation": ("members", "key_ops", "both headers", "recipients"),
    "lay": ("levels deep", "crit"),
}


def has_words(case):
    """Returns true if the shape has one of these words, or its reader gets all shapes."""
    words = (*USUAL, *MORE.get(case.reader, ()))
    return case.reader in WHOLE or case.program == "tool_look" or any(word in case.shape for word in words)


def usual(cases):
    """Returns the cases of a usual run: those with these words, or the first one of a reader without any."""
    by_words = {case.reader for case in cases if has_words(case)}
    first = {}
    for case in cases:
        first.setdefault(case.reader, case)
    return [case for case in cases if has_words(case) or (case.reader not in by_words and case is first[case.reader])]


def every_case():
    """Returns all cases."""
    return [*verified(), *keyed(), *seen(), *messages_of_c(), *lists_of_c(), *maps_of_c(), *runs(), *looks()]
