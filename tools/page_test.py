"""Tests the page for `tools/page --test`: in the browsers that are installed, against the native program, and with signatures."""
import base64
import hashlib
import json
import os
import re
import subprocess
import sys
import tempfile
import time

import browser
import common
import forged
import page_keys
import page_use
import webdriver
from cbor import byte_string, head

HERE = common.HERE
KINDS = "auto cwt value sign1 sign mac mac0 encrypt encrypt0 countersignature key keyset claims kdf".split()
FORMS = {1: ["--color=always"], 2: ["--edn"], 3: ["--where"]}
MOMENT = 1_500_000_000
AAD = b"more"
MEGABYTE = 1 << 20
NESTED = ("deepest", "nested", "recipients", "layers")  # hostile input whose headers or recipients nest as deeply as the library allows
STEPS, BYTES = 32, 32  # as many levels are indented, and as many digits are in a row
COLORS = {"s": "\33[94m", "a": "\33[94m", "n": "\33[33m", "u": "\33[33m", "c": "\33[36m", "r": "\33[1;31m", "": ""}
WORDS = {"s": "covered by the signature", "a": "covered by MAC or cipher", "n": "not covered", "u": "not covered", "c": "", "r": "refused", "-": ""}
ENGINES = (browser.Browser, webdriver.Firefox, webdriver.WebKit)
# Functions for the page: the module's output for an input, the page's rows for it with their colours, and the hash of an output. A
# row's colour is that of the legend's entry with the same border and background.
SCRIPT = """
globalThis.bytesOf = text => Uint8Array.from(atob(text), it => it.charCodeAt(0));
globalThis.textOf = bytes => new TextDecoder().decode(bytes);
globalThis.asked = async (text, kind, form, now, aad) => {
  const told = await call("look", bytesOf(text), kind, form, now ?? NaN, bytesOf(aad));
  return [told.status, textOf(told.text)];
};
globalThis.field = (id, value) => { const it = at(id); it[it.type === "checkbox" ? "checked" : "value"] = value; };
globalThis.localTime = now => now === null ? "" : new Date(1000 * now - 60000 * new Date(1000 * now).getTimezoneOffset()).toISOString().slice(0, 19);
globalThis.settled = async action => {
  const before = globalThis.showing;
  action();
  while (globalThis.showing === before) await new Promise(done => setTimeout(done));
  await globalThis.showing;
};
globalThis.paint = it => { const style = getComputedStyle(it); return style.borderLeftStyle + style.borderLeftColor + style.backgroundColor; };
globalThis.shownRows = () => {
  for (const it of at("rows").querySelectorAll(".hovered")) it.classList.remove("hovered");
  const legend = Object.fromEntries([...at("legend").children].map(it => [paint(it), it.className]));
  return [...at("rows").querySelectorAll(".row")].map(it => [it.children[2].textContent, it.children[0].style.getPropertyValue("--depth"),
    it.children[0].querySelector("code").textContent, it.children[0].querySelector("em")?.textContent ?? "", it.children[1].textContent,
    it.className, legend[paint(it)] ?? ""]);
};
globalThis.shownOf = async (text, kind, now, aad, isTyped) => {
  field("kind", kind), field("clock", false), field("moment", localTime(now)), field("key", "");
  field("aad", [...bytesOf(aad)].map(it => it.toString(16).padStart(2, "0")).join(""));
  await settled(() => isTyped ? type(textOf(bytesOf(text))) : open([new File([bytesOf(text)], "input")]));
  const isShown = !at("result").hidden, notes = [...at("notes").children].map(it => it.children[0].textContent + ": " + it.children[1].textContent);
  return [at("status").className, isShown ? shownRows() : [], isShown ? notes : []];
};
globalThis.verdictsOf = async (text, aad, key) => {
  field("kind", "auto"), field("clock", true), field("key", key);
  field("aad", [...bytesOf(aad)].map(it => it.toString(16).padStart(2, "0")).join(""));
  await settled(() => open([new File([bytesOf(text)], "input")]));
  const found = [...at("verdicts").children].map(it => [it.className, it.firstChild.textContent, ...[...it.querySelectorAll("li")].map(it => it.textContent)]);
  return [found, [...at("key-said").children].map(it => it.textContent), shownRows().map(it => [it[0], it[5].split(" ")[1], it[6]])];
};
globalThis.hashOf = async (text, kind, form) => {
  const begun = performance.now(), told = await call("look", bytesOf(text), kind, form, NaN, new Uint8Array(0)), took = performance.now() - begun;
  const hash = await crypto.subtle.digest("SHA-256", told.text);
  return [told.status, [...new Uint8Array(hash)].map(it => it.toString(16).padStart(2, "0")).join(""), took];
};
"""


def answers(program, form, some, now, aad):
    """Returns the native program's output for inputs with their kinds. It gets many at once, as files."""
    with tempfile.TemporaryDirectory() as folder:
        words, names = [], [f"{folder}/{place}" for place in range(len(some))]
        for name, (data, kind) in zip(names, some):
            with open(name, "wb") as file:
                file.write(data)
            words += [kind, name]
        more = ([] if now is None else [f"--now={now}"]) + ([f"--external-aad={aad.hex()}"] if aad else [])
        ran = subprocess.run([program, *FORMS[form], *more, *words], capture_output=True, check=False)
        _, *found = re.split("|".join("^/ " + re.escape(name.replace("/", "//")) + " /\n" for name in reversed(names)), ran.stdout.decode(), flags=re.M)
        return found


def native(program, every):
    """Returns the native program's status and output for each case and form. The status is 0 if the input is accepted."""
    told = {}
    for now, aad in dict.fromkeys(case[2:] for case in every):
        some = [case for case in every if case[2:] == (now, aad)]
        for begin in range(0, len(some), 150):
            part = some[begin : begin + 150]
            texts = {form: answers(program, form, [case[:2] for case in part], now, aad) for form in FORMS}
            for place, case in enumerate(part):
                status = int(texts[3][place] != "accepted\n")
                told |= {(case, form): (status, texts[form][place]) for form in FORMS}
    return told


def ask(program, data, kind, form):
    """Returns the native program's status and output for one input."""
    ran = subprocess.run([program, *FORMS[form], kind], input=data, capture_output=True, check=False)
    return ran.returncode, ran.stdout


def text(data):
    return base64.b64encode(data).decode()


# ---- inputs


def rows():
    """Yields the rows of coset_vectors of a kind that the viewer knows."""
    with open(f"{HERE}/crates/coset_vectors/stdin", encoding="utf-8") as file:
        for line in file:
            words = line.split()
            words = words[words[:1] == ["tagged"] :]
            if len(words) == 2 and words[0] in KINDS:
                yield words[0], words[1].encode()


def cases():
    """Yields each input with a kind, a moment or None, and external_aad."""
    for kind, data in rows():
        for it in (kind, "auto", "cwt"):
            yield data, it, None, b""
        if kind == "claims":
            yield data, kind, MOMENT, b""
        if kind in KINDS[3:9]:
            yield data, kind, None, AAD
    folder = f"{HERE}/crates/tool_look/data"
    for name in sorted(os.listdir(folder)):
        with open(f"{folder}/{name}", "rb") as file:
            data = file.read()
        for kind in KINDS:
            yield data, kind, MOMENT, b""
    for data in forged.inputs():
        yield data, "auto", None, b""


def layered(count):
    """Returns a message with a countersignature in its protected header, which has one in its own, and so on `count` times."""
    held = b"\xa0"
    for _ in range(count):
        held = b"\xa1\7\x83" + byte_string(held) + b"\xa0\x40"
    return b"\xd2\x84" + byte_string(held) + b"\xa0\xf6\x40"


def hostile():
    """Returns deep and long inputs by name. The long ones have about a megabyte."""
    found = {f"levels {n}": b"\x81" * (n - 1) + b"\0" for n in (256, 257, 258)}
    found |= {f"tags {n}": b"\xc6" * (n - 1) + b"\0" for n in (256, 300)} | {f"layers {n}": layered(n) for n in (15, 16, 17, 18)}
    found |= {"maps 256": b"\xa1\0" * 255 + b"\0", "long opened": b"\x9f" * MEGABYTE}
    found["long payload"] = bytes.fromhex("d28443a10126a0") + byte_string(b"\7" * MEGABYTE) + byte_string(b"\1" * 64)
    found["long integers"] = head(4, MEGABYTE) + b"\1" * MEGABYTE
    found["long text"] = head(3, MEGABYTE) + b"a" * MEGABYTE
    found["long map"] = head(5, MEGABYTE // 6) + b"".join(head(0, MEGABYTE | i) + b"\xf6" for i in range(MEGABYTE // 6))
    with tempfile.TemporaryDirectory() as folder:
        subprocess.run([sys.executable, f"{HERE}/crates/tool_bench/hostile.py", folder], check=True, stdout=subprocess.DEVNULL)
        for name in sorted(os.listdir(folder)):
            with open(f"{folder}/{name}", "rb") as file:
                found[name] = file.read()
    return found


# ---- comparing the page with the native program


def annotated(shown, notes):
    """Returns the rows and notes of the page as the text that the native program writes, in the colours that the page has."""
    comment = lambda note: f" / {note.replace('/', '//')} /" if note else ""
    lines = []
    for digits, depth, words, note, _, _, color in shown:
        begin = COLORS.get(color, color)
        line = [f"{digits[:BYTES]:32}  {'  ' * int(depth)}{words}{comment(note)}"] + [digits[i : i + BYTES] for i in range(BYTES, len(digits), BYTES)]
        lines += [f"{begin}{it}\33[0m" if begin else it for it in line]
    return "".join(f"{line}\n" for line in lines + [f"{'':32} {comment(note)}" for note in notes])


def plain(colored):
    """Returns a text without colours, and without the characters that isolate strings, for which the page has elements."""
    return re.sub("\33\\[[0-9;]*m|[\u2068\u2069]", "", colored)


def is_short(row, lengths):
    """Returns true if the row is red because its MAC has none of these lengths. The page needs no key to see that."""
    digits, _, _, note, word, classes, color = row
    if (note.split(",")[0], word, classes, color) != ("tag", "does not verify", "row c wrong", "r"):
        return False
    head = int(digits[:2], 16) % 32
    return len(digits) // 2 - (1 if head < 24 else 1 + (1 << head - 24)) not in lengths


def without_verdicts(shown):
    """Returns the rows as they are if no MAC is judged by its length."""
    lengths = {int(it) // 8 for *_, note, _, _, _ in shown for it in re.findall(r"alg: HMAC \d+/(\d+)", note)}
    return [[*row[:4], "", "row c", "c"] if lengths and is_short(row, lengths) else row for row in shown]


def has_words(shown):
    """Returns true if each row has the word of its cover."""
    return all(WORDS[classes.split()[1]] == word for _, _, _, _, word, classes, _ in shown)


def compare(page, program, wrong, every, told):
    """Compares each case with the native program: the page's rows, words and colours, and the module's output in each form. Each tenth
    text is typed. Returns a line."""
    count = 0
    for begin in range(0, len(every), 100):
        some = every[begin : begin + 100]
        # A field for text changes line breaks.
        typed = [(begin + i) % 10 == 0 and data.isascii() and b"\r" not in data for i, (data, *_) in enumerate(some)]
        given = json.dumps([[text(data), kind, KINDS.index(kind), now, text(aad), is_typed] for (data, kind, now, aad), is_typed in zip(some, typed)])
        shown, forms = page.run(f"""(async all => {{ const shown = [], forms = []; for (const [a, kind, b, c, d, e] of all) {{
          shown.push(await shownOf(a, kind, c, d, e)); for (const form of [1, 2, 3]) forms.push(await asked(a, b, form, c, d)); }}
          return [shown, forms]; }})({given})""")
        for place, case in enumerate(some):
            status, wanted = told[case, 1]
            wanted = re.sub("[\u2068\u2069]", "", wanted)  # the page isolates strings by elements
            said, lines, notes = shown[place][0], without_verdicts(shown[place][1]), shown[place][2]
            count += len(lines)
            is_sequence = "/ item 1 of " in wanted and "/ refused" not in wanted  # its status is 1, and nothing in it is refused
            if said != ["", "refused"][status and not is_sequence] or annotated(lines, notes) != wanted or not has_words(lines):
                wrong.append(f"{page.name} shown {case}: {said} {lines} {annotated(lines, notes)} and not {wanted}")
            for form, (status, answer) in zip(FORMS, forms[3 * place : 3 * place + 3]):
                if (status, answer) != (told[case, form][0], plain(told[case, form][1])):
                    wrong.append(f"{page.name} form {form} of {case}: {status} {answer} and not {told[case, form]}")
    return f"inputs with kinds {len(every)}, rows shown {count}, answers {4 * len(every)}"


def has_right_green(wanted, found):
    """Returns true if rows are green as the states tell: each covered row if all signatures are verified, none if none is, and not the
    content if a wrong signature covers it too."""
    states = {state == "verified" for state, *_ in wanted}
    green = [(digits, cover) for digits, cover, color in found if color == "s verified"]
    if states == {True}:
        return bool(green) and all(color == "s verified" for _, cover, color in found if cover in ("s", "a"))
    return not green if states == {False} else not any(page_keys.CONTENT.hex() in digits for digits, _ in green)


def verify(page, wrong, every):
    """Gives the page messages with keys, and compares its sentences. Only rows that a verified signature covers are green. Returns a
    line."""
    for begin in range(0, len(every), 20):
        some = every[begin : begin + 20]
        given = json.dumps([[text(made), text(aad), key] for _, made, aad, key, _ in some])
        told = page.run(f"(async all => {{ const told = []; for (const it of all) told.push(await verdictsOf(...it)); return told; }})({given})")
        for (name, _, _, key, wanted), (found, said, colors) in zip(some, told):
            noted = [page_keys.UNCHECKED] * ("CERTIFICATE" in key and found[0][0] == "verified")
            if found != [list(it) for it in wanted] or not has_right_green(wanted, colors) or (said != noted and "verified" in str(wanted)):
                wrong.append(f"{page.name} verifying {name}: {found} {said} {colors} and not {wanted}")
    return f"signatures and MACs {sum(len(it[4]) for it in every)}"


def compare_hostile(page, program, wrong, quick):
    """Compares hostile input by the hashes of outputs. An unproved module may stop. Input that nests deeply may need more stack than
    the engine has: then there is no answer."""
    tried = stopped = short = 0
    for name, data in hostile().items():
        kinds = ["encrypt", "mac"] if name.startswith("recipients") else ["auto", "claims"] if name.startswith("long") else ["auto", "sign1"]
        for kind in kinds:
            for form in (1, 3):
                status, answer = ask(program, data.hex().encode(), kind, form)
                tried += 1
                try:
                    told = page.run(f'hashOf("{text(data.hex().encode())}", {KINDS.index(kind)}, {form})')
                except RuntimeError as error:
                    stopped += 1
                    if "Maximum call stack size exceeded" in str(error) and name.startswith(NESTED):
                        short += 1
                    elif not quick:
                        wrong.append(f"{name} as {kind}: {str(error)[:300]}")
                    continue
                if told[:2] != [status, hashlib.sha256(plain(answer.decode()).encode()).hexdigest()]:
                    wrong.append(f"{name} as {kind}, form {form}: {told} and not {status}, {len(answer)} bytes")
    if stopped == tried:
        wrong.append(f"the module stopped at each of {tried} hostile inputs")
    return f"hostile {tried}, without enough stack {short}" + (f", of which the unproved module stopped at {stopped - short}" if stopped > short else "")


# ---- all of it


def times(page):
    """Returns the times in milliseconds until a megabyte is shown."""
    told = []
    for name, data in hostile().items():
        if name.startswith("long"):
            page.install(f'globalThis.text = "{data.hex()}";')
            took = page.run("""(async () => { const begun = performance.now(); type(globalThis.text); await globalThis.showing;
              await new Promise(done => requestAnimationFrame(() => requestAnimationFrame(done))); return performance.now() - begun; })()""")
            told.append(f"{name} {took:.0f} ms")
    page.run('type("")')
    return ", ".join(told)


def tried(engine, path, program, given, inputs, wrong):
    """Tests the page in one browser."""
    every, told, signed = inputs
    with engine() as page:
        page.open(f"file://{path}")
        if not page_use.wait(page, "globalThis.ready ?? 0"):
            wrong.append(f"{page.name}: the page isn't ready: {page.run('document.body.textContent')[:500]}")
            return
        print(f"{page.version}: ready {page.run('ready'):.0f} ms after it was opened", flush=True)
        first = page.run("(async () => { const begun = performance.now(); showSample(0); await globalThis.showing; return performance.now() - begun; })()")
        page.install(SCRIPT)
        print(f"  first answer after {first:.0f} ms", flush=True)
        wrong += page_use.used(page)
        print(f"  {verify(page, wrong, signed)}", flush=True)
        print(f"  {compare(page, program, wrong, every, told)}", flush=True)
        if engine is browser.Browser:
            wrong += page_use.shots(page)
            print(f"  a megabyte: {times(page)}", flush=True)
            print(f"  {compare_hostile(page, program, wrong, given.quick)}", flush=True)
        others = [it for it in page.requests if it != f"file://{path}" and not it.startswith(("blob:", "data:", "https://example.com/"))]
        wrong += [f"a request to {it}" for it in others]


def test(path, program, given):
    """Tests the page in each browser that is installed. Returns what is wrong, or None if there is no browser."""
    found = [it for it in ENGINES if it.program() and (not given.browser or it.name.lower().startswith(given.browser.lower()))]
    for it in ENGINES:
        if not it.program():
            print(f"there is no {it.name}: the page isn't tried there")
    if not page_keys.HAS_CIPHERS:
        print("there is no python3-cryptography: no signatures can be made")
    if not found or not page_keys.HAS_CIPHERS or not (given.browser or browser.Browser.program()):
        return None
    every = list(dict.fromkeys(cases()))[:: given.every]
    inputs = every, native(program, every), list(page_keys.cases())
    wrong = []
    for it in found:
        tried(it, path, program, given, inputs, wrong)
    return wrong
