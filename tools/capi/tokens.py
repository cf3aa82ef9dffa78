"""The calls for the rows of test_verify: web tokens with the policies of their rows, and keys that fit layers.

crates/test_verify/src/verify.rt says what the words of a row mean. `asked` is what the caller's function was asked: the number of
layers, their proofs and structures, and the rest of each question."""
import re
import sys

from capi.kinds import ABSENT, BY_KEYS, LAYER, NAMES, NOT_ALLOWED, OK, REFUSED, TOO_MANY_KEYS, UNFIT, pairs_of
from capi.vectors import rows_of, status_of
from cbor import byte_string, decode, encode, head

# The errors that have the names of statuses, and the others with their statuses.
OF_TOKEN = ("TooDeep Unauthenticated NoExpiration Expired NotYetValid TooOld Issuer Audience Headers Critical HeaderClaims "
            "Missing").split()
ERRORS = {name: NAMES.index(name) for name in OF_TOKEN}
ERRORS |= {"Algorithm": NOT_ALLOWED, "NoPayload": ABSENT, "Keys": REFUSED, "IssuedInFuture": NAMES.index("IssuedLater"),
           "Type": NAMES.index("TokenType"), "Claims": NAMES.index("NotClaims")}
CLAIMS = {"Iss": 1, "Sub": 2, "Aud": 3, "Exp": 4, "Nbf": 5, "Iat": 6, "Cti": 7, "Cnf": 8}
FORMS = {"sign": 1, "mac": 3, "enc": 5}
FORMS_BY_TAG = {16: 5, 17: 3, 18: 1}
CONTEXTS = {1: b"Signature1", 3: b"MAC0", 5: b"Encrypt0"}
NIL = ("simple", 22, 22)
SIZE = 48
ACCEPTED = r"ok (\S+) aud (.*) others (\S+) iss (.*) layers (.*?)(?: calls(.*))? asked (\d+)(?: (\S+))?"
REFUSAL = r"(?:Layer\((\d+), )?(\w+)(?:\((.*?)\))?\)?;.*?(?: calls(.*))? asked (\d+)(?: (\S+))?"
# A refusal of the keys, with the bytes of the layer's key identifier.
BY_THE_KEYS = r"Keys \{ key_id: \[(.*?)\], error: (.*?) \}\);"


def text(content):
    """Returns a text as a word: `t` and its bytes. None is `-`."""
    return "-" if content is None else "t" + content.hex()


def listed(words):
    return ",".join(map(str, words)) or "-"


def item(value):
    """Returns the encoding of an integer, a boolean, a text, a byte string, a list, or a map of such values."""
    if isinstance(value, bool):
        return b"\xf5" if value else b"\xf4"
    if isinstance(value, int):
        return encode(("int", value))
    if isinstance(value, bytes):
        return byte_string(value)
    if isinstance(value, str):
        return encode((3, value.encode()))
    if isinstance(value, dict):
        return head(5, len(value)) + b"".join(item(key) + item(it) for key, it in value.items())
    return head(4, len(value)) + b"".join(map(item, value))


# ---- The policy and the answers of a row


def policy_of(word):
    """Returns the rules, the three lists of numbers and the two lists of texts of a policy, as words of `token`.

    Returns None if C can't express it: a form with a list, a critical label that is a text, a list of audiences without one, a
    greatest age of 0, or seconds above INT64_MAX."""
    rules, lists = [0] * 7, {name: "-" for name in ("algs", "crit", "need", "aud", "types")}
    for name, _, value in (part.partition("=") for part in word.split(",")):
        if (name, value) == ("age", "0") or name == "lists" or (name == "plain" and value not in FORMS):
            return None
        if name in ("leeway", "age"):
            if int(value) >= 1 << 63:
                return None
            rules[name == "age"] = int(value)
        elif name in ("plain", "by"):
            rules[2 if name == "plain" else 3] = FORMS[value] if name == "plain" else {"sign": 1, "mac": 0, "any": 2}[value]
        elif name in ("forever", "later"):
            rules[5 if name == "forever" else 6] = 1
        elif name in ("algs", "need"):
            lists[name] = value.replace("|", ",")
        elif name == "crit":
            labels = [decode(bytes.fromhex(label))[0] for label in value.split("|")]
            if any(label[0] != "int" for label in labels):
                return None
            lists[name] = listed(label[1] for label in labels)
        elif name == "aud" and value in ("any", "absent"):
            rules[4] = int(value == "any")
        elif name == "aud" and not value:
            return None
        elif name in ("aud", "types"):
            lists[name] = listed(text(name.encode()) for name in value.split("|"))
        elif name != "strict":
            raise ValueError(name)
    return [listed(rules), *lists.values()]


class Answer:
    """The answer of the caller's function for a layer: yes, no or a plaintext, and the issuer's name."""

    def __init__(self, word):
        said, at, name = word.partition("@")
        self.is_yes, self.name = said != "no", name.encode() if at else None
        self.plain = None if said in ("yes", "no") else bytes.fromhex(said)

    def __str__(self):
        said = "no" if not self.is_yes else "yes" if self.plain is None else "p" + self.plain.hex()
        return said + ("" if self.name is None else "@" + self.name.hex())


# ---- The layers of a token


class Layer:
    """A layer of a token, as a caller who opens it sees it."""

    def __init__(self, item, form, answer):
        message = item[1]
        self.form, self.answer = form, answer
        protected = message[0][1]
        headers = [dict(pairs_of(held)) for held in (decode(protected or b"\xa0")[0], message[1])]
        self.algorithm = headers[0][("int", 1)][1]
        kids, ivs, partials = ([header.get(("int", label), (2, b""))[1] for header in headers] for label in (4, 5, 6))
        self.where = 1 if kids[0] else 2 if kids[1] else 0
        self.texts = [first or second for first, second in (kids, ivs, partials)]
        self.proof = message[2 if form == 5 else 3][1]
        content = [] if form == 5 else [message[2]]
        self.structure = encode(("array", [(3, CONTEXTS[form]), (2, protected), (2, b""), *content]))
        self.content = None if answer is None else (answer.plain or b"") if form == 5 else message[2][1]

    def facts(self):
        return "/".join(map(str, [self.form, self.algorithm, self.where, *(it.hex() for it in self.texts)]))

    def numbers(self, index):
        """Returns the numbers of coset_layer."""
        return [self.form, self.where, self.algorithm, 0, index, len(self.structure), len(self.proof), *map(len, self.texts)]

    def waiting(self, index):
        """Returns what coset_token_open writes for this layer while it waits."""
        told = Opening(b"".join([self.structure, self.proof, *self.texts]))
        told.layer = self.numbers(index)
        return told


def layers_of(data, untagged, answers, count):
    """Returns the first layers of a token. An answer that is missing is no."""
    found = []
    for answer in (answers + [Answer("no")] * count)[:count]:
        item = decode(data)[0]
        item = item[2] if not found and item[:2] == ("tag", 61) else item
        form = FORMS_BY_TAG[item[1]] if item[0] == "tag" else untagged or 1
        found.append(Layer(item[2] if item[0] == "tag" else item, form, answer))
        data = found[-1].content
    return found


# ---- The results


class Opening(bytes):
    """What coset_token_open writes. `layer` are the numbers of coset_layer."""


class Verified(bytes):
    """The parts of a token that was accepted. `words` are the words by which the programs print them, and `asked` what the
    caller's function was asked. `bytes` are what coset_token_open writes."""


class Refused:
    """The layer, the algorithm and the claim that a refusal is about, and what the caller's function was asked. The layer's key
    identifier is given for a layer that no key opens."""

    def __init__(self, numbers, asked, key_id=b""):
        words = [*numbers, None if key_id is None else key_id.hex() or "-"]
        self.words, self.asked = [None if word is None else str(word) for word in words], asked


def issuer_of(word):
    """Returns an issuer's name, or None."""
    return word[1:].encode() if word.startswith("@") else None


def text_or_nil(name):
    return NIL if name is None else (3, name)


def verified(told):
    """Returns the parts of a token that was accepted."""
    claims, audience, others, issuer, layers = told
    names = [] if audience == "-" else [name.encode() for name in audience.split("|")]
    rest = ("map", [] if others == "-" else decode(bytes.fromhex(others))[0][1])
    found = []
    for form, protected, *more in re.findall(r"(sign|mac|enc)/(\S+?)/(\S+?)/(-|@.*?)(?= (?:sign|mac|enc)/|$)", layers):
        found.append((FORMS[form], bytes.fromhex(protected.strip("-")), bytes.fromhex(more[0]), issuer_of(more[1])))
    name = issuer_of(issuer)
    wrapped = [encode(("array", [("int", form), (2, protected)]))[1:] + unprotected + encode(text_or_nil(of))
               for form, protected, unprotected, of in found]
    made = Verified(head(4, 5) + bytes.fromhex(claims) + encode(("array", [(3, it) for it in names])) + encode(rest)
                    + encode(text_or_nil(name)) + head(4, len(found)) + b"".join(head(4, 4) + it for it in wrapped))
    shown = ["/".join([str(form), protected.hex(), unprotected.hex(), text(of)]) for form, protected, unprotected, of in found]
    made.words = [claims, listed(map(text, names)), encode(rest).hex(), text(name), listed(shown)]
    return made


def refused(index, name, told, layers):
    """Returns the status and the numbers of a refusal: the layer, the algorithm and the claim."""
    index = int(index or 0)
    if name == "Message":
        return status_of("error: " + told), [index, 0, 0]
    if name == "Algorithm":
        return NOT_ALLOWED, [index, int((re.findall(r"-?\d+", told) or [0])[0]), 0]
    if name == "Keys":
        by_ring = {"NoKey": UNFIT, "TooManyKeys": TOO_MANY_KEYS}
        return by_ring.get(re.match(r"\w*", told or "")[0], REFUSED), [index, layers[-1].algorithm if layers else None, 0]
    return ERRORS[name], [index, 0, CLAIMS[told] if name == "Missing" else 0]


def result_of(answer, layers):
    """Returns the status and the result of a row."""
    accepted = re.fullmatch(ACCEPTED, answer)
    told = accepted or re.fullmatch(REFUSAL, re.sub(BY_THE_KEYS, r"Keys(\2));", answer))
    count, texts, made = *told.groups()[-2:], told.groups()[-3]
    facts = listed(layer.facts() for layer in layers) if made is None else listed(made.split())
    asked = [count, texts or "-", facts]
    if accepted:
        result = verified(accepted.groups()[:5])
        result.asked = asked
        return OK, result
    status, numbers = refused(*told.groups()[:3], layers)
    named = re.search(BY_THE_KEYS, answer)
    named = bytes(map(int, re.findall(r"\d+", named[1]))) if named else layers[-1].texts[0] if layers else None
    return status, Refused(numbers, asked, named if status in BY_KEYS else b"")


# ---- The calls


def opened_words(layers):
    """Returns the words OPENED and BYTES of `open` for these layers."""
    rows, held = [], b""
    for layer in layers:
        at, name = len(held), layer.answer.name
        held += layer.structure + layer.proof
        plain = [len(held), len(layer.content)] if layer.form == 5 else [0, 0]
        held += layer.content if layer.form == 5 else b""
        issuer = [0, 0] if name is None else [len(held), len(name)]
        held += name or b""
        rows.append("/".join(map(str, [layer.form, at, len(layer.structure), len(layer.proof), *plain, *issuer])))
    return [",".join(rows) or "-", held]


def openings(data, now, policy, layers, status, result):
    """Yields the calls of coset_token_open for a token, with more layers opened each time."""
    words = [now, f"{SIZE},{policy[0]}", *policy[1:]]
    for index, layer in enumerate(layers):
        yield ("open", 0, data, [*words, *opened_words(layers[:index])], LAYER, layer.waiting(index))
    if status in BY_KEYS:
        return
    told = Opening(result if status == OK else b"")
    told.layer = [0] * 10
    if status != OK:
        index, algorithm, claim = map(int, result.words[:3])
        told.layer = [0, 0, algorithm, claim, index, 0, 0, 0, 0, 0]
    yield ("open", 0, data, [*words, *opened_words(layers)], status, told)


def enough_room(data, names, audience=b""):
    """Returns the size of the memory to work in that is enough, as docs/C.md says. `names` are the issuers of the layers, and
    `audience` is aud if that is one text."""
    return 9 * len(data) + 64 * max(1, len(names)) + 3 * sum(map(len, names)) + len(audience)


def audience_of(result):
    """Returns aud of a token that was accepted, if it is one text."""
    claims = dict(pairs_of(decode(bytes.fromhex(result.words[0]))[0])) if isinstance(result, Verified) else {}
    return claims[("int", 3)][1] if ("int", 3) in claims else b""


def verifications(row, answer):
    """Yields the call for a row `verify`, and the token's layers.

    There is none if C can't express the policy, or for an issuer whose name is empty, which is none in C."""
    _, said, now, policy, spelled = row
    words, answers = policy_of(policy), [Answer(word) for word in said.split(",")]
    if words is None or any(answer.name == b"" for answer in answers):
        return
    data = b"" if spelled == "-" else bytes.fromhex(spelled)
    count = int(re.search(r" asked (\d+)", answer)[1])
    layers = layers_of(data, int(words[0].split(",")[2]), answers, count)
    status, result = result_of(answer, layers)
    yield ("token", 0, data, [now, *words, listed(answers)], status, result), layers


def without_empty(call, layers):
    """Returns the call as coset_token_verify answers it: it refuses the first layer with an empty signature or MAC, unasked."""
    empty = next((index for index, layer in enumerate(layers) if layer.form != 5 and not layer.proof), None)
    if empty is None:
        return call
    asked = layers[:empty]
    texts = b"".join(layer.proof + layer.structure for layer in asked).hex() or "-"
    asked = [str(empty), texts, listed(layer.facts() for layer in asked)]
    told = Refused([empty, layers[empty].algorithm, 0], asked, layers[empty].texts[0])
    return (*call[:4], REFUSED, told)


def rings(row, answer):
    """Yields the call for a row `ring`, from C alone. There is none if C can't express the policy."""
    _, sets, said, now, policy, spelled = row
    words = policy_of(policy)
    if words is None:
        return
    issuers = [word.rpartition(":") for word in sets.split(",")]
    spelled_sets = listed(f"{text(name.encode() or None)}:{keys}" for name, _, keys in issuers)
    data, form = bytes.fromhex(spelled), int(words[0].split(",")[2])
    outermost = layers_of(data, form, [], 1) if answer.startswith("Layer(0, Keys {") else []
    status, result = result_of(answer, outermost)
    yield ("ring", 0, data, [now, *words, spelled_sets, said], status, result)


def fittings(row, answer):
    """Yields the call for a row `fits`. There is none if the layer's algorithm has no number, or for a form with a list."""
    _, key, form, protected, unprotected, length, *_ = row
    if form not in FORMS:
        return
    headers = [dict(pairs_of(decode(bytes.fromhex(header))[0])) for header in (protected, unprotected)]
    algorithm = headers[0].get(("int", 1), (None,))
    texts = [next((header[("int", label)][1] for header in headers if header.get(("int", label), (2, b""))[1]), b"")
             for label in (4, 5, 6)]
    if algorithm[0] == "int":
        status, nonce = (UNFIT, None) if answer == "no" else (OK, bytes.fromhex(answer.replace("-", "")))
        yield ("fits", FORMS[form], bytes.fromhex(key), [algorithm[1], *texts, bytes(int(length))], status, nonce)


def rows(name):
    """Returns the words of each row that begins with this word, and the row's result. There must be such rows. `requests=0`,
    a word for tools/refuse, is left out."""
    known = [(row.removesuffix(" requests=0").split(), answer) for row, answer in rows_of("test_verify")]
    found = [(words, answer) for words, answer in known if words[:1] == [name]]
    if not found:
        sys.exit(f"test_verify has no row that begins with {name}")
    return found


def calls():
    """Yields the calls for all languages. Rows with a policy that C can't express are left out."""
    for row, answer in rows("verify"):
        for call, layers in verifications(row, answer):
            yield without_empty(call, layers)
    for row, answer in rows("fits"):
        yield from fittings(row, answer)


def calls_from_c(check):
    """Yields the calls from C alone."""
    for row, answer in rows("verify"):
        for call, layers in verifications(row, answer):
            _, _, data, (now, *policy, said), status, result = call
            texts = b"".join(layer.proof + layer.structure for layer in layers).hex() or "-"
            check(result.asked[1] == texts, f"the questions of {' '.join(row)}")
            yield from openings(data, now, policy, layers, status, result)
            names = [layer.answer.name or b"" for layer in layers]
            *_, status, result = without_empty(call, layers)
            yield ("room", 0, data, [now, *policy, said], status, enough_room(data, names, audience_of(result)))
    for row, answer in rows("ring"):
        yield from rings(row, answer)
