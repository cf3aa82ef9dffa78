/** Makes the calls that it reads through the wrapper, as c/wrappers/c/calls.c does, and prints their results (tools/c). A
 * result is `ok` and a value, or the error. tools/capi/wasm.py runs it in node and in Chromium. */
import * as coset from "coset-rattle";
import { accepted } from "./accept.mjs";
import { issued } from "./issue.mjs";
import { verified } from "./verify.mjs";

const NAMES = Object.fromEntries(Object.keys(coset.Status).map(name => [name, name.toLowerCase().replace(/(?:^|_)(.)/g, (_, first) => first.toUpperCase())]));

function data(word) {
  return Uint8Array.from((word === "-" ? "" : word).match(/../g) ?? [], byte => parseInt(byte, 16));
}

function hex(bytes) {
  return Array.from(bytes, byte => byte.toString(16).padStart(2, "0")).join("");
}

function text(word) {
  return new TextDecoder("utf-8", { fatal: true, ignoreBOM: true }).decode(data(word));
}

function listed(word, read) {
  return word === "-" ? [] : word.split(",").map(read);
}

function concat(texts) {
  return data(texts.map(hex).join(""));
}

/** Returns a payload, or null if `has` says that there is none. */
function detached(has, content) {
  return has === "0" ? null : data(content);
}

/** Returns a float as Python writes it. */
function float(word) {
  return word.endsWith("inf") ? Number(word.replace("inf", "Infinity")) : word === "nan" ? NaN : Number(word);
}

/** Returns the pairs in the word of `put_all`. */
function pairs(word) {
  const values = { i: BigInt, f: it => new coset.Float(float(it)), t: text, b: data, e: it => new coset.Encoded(data(it)) };
  return word.split(",").filter(pair => pair.includes("=")).map(pair => pair.split("=").map(half => values[half[0]](half.slice(1))));
}

/** Returns the token for the words of `issued`. */
async function token(keyId, issuer, subject, audience, tokenId, ...words) {
  const claims = new Map([...[issuer, subject, audience].map(text), ...words.slice(0, 3).map(Number), data(tokenId)].map((it, i) => [i + 1, it]));
  const found = await issued(claims, keyId, signed => hex(signed) === words[3] ? data(words[4]) : null);
  return found === null ? "no" : hex(found);
}

/** Returns the texts of a message one after another, and the numbers of its view. */
function viewed(m, texts, critical) {
  const numbers = [m.algorithm ?? 0, m.algorithmForm, m.keyIdMap ?? 0, Number(critical), Number(m.isTagged), ...texts.map(it => it.length)];
  return [hex(concat(texts)), ...numbers].join(" ");
}

function told(kind, given, aad, has, content) {
  const m = coset.sign1(kind, given, { externalAad: data(aad), detached: detached(has, content) });
  return viewed(m, [m.signed, m.signature, m.payload, m.keyId], m.hasCritical);
}

function message(kind, given, index, aad, has, content, known) {
  const options = { index: Number(index), critical: listed(known, BigInt), externalAad: data(aad), detached: detached(has, content) };
  const m = coset.message(kind, given, options);
  return viewed(m, [m.input, m.proof, m.content, m.keyId], m.critical);
}

/** Returns the result of `verify` or `decrypt`, as calls.c describes it. */
async function safe(kind, given, index, aad, has, content, algorithms, known, ...words) {
  const isAsked = q => q.kind === (kind & 0xff) && [q.input, q.proof, q.keyId ?? []].every((it, i) => hex(it) === (words[i] === "-" ? "" : words[i]));
  const ivs = q => [[q.ivMap, q.iv], [q.partialIvMap, q.partialIv]].flatMap(([which, iv]) => which ? [[which], iv] : []);
  const plain = q => isAsked(q) ? concat([...ivs(q), q.proof.map(byte => byte ^ 0x5a)]) : null;
  const options = { algorithms: listed(algorithms, BigInt), critical: listed(known, BigInt), externalAad: data(aad), detached: detached(has, content) };
  if ((kind & 0xff) === coset.ENCRYPT0) return hex(await coset.decrypt(kind, given, options, async q => plain(q)));
  return hex(await coset.verify(kind, given, { ...options, index: Number(index) }, async q => isAsked(q)));
}

function name(issuer) {
  return issuer === null ? "-" : `t${hex(new TextEncoder().encode(issuer))}`;
}

function toldToken({ claims, audience, others, issuer, layers }) {
  const each = layers.map(it => [it.form, hex(it.protected), hex(it.unprotected), name(it.issuer)].join("/"));
  return [hex(claims), audience.map(name).join(",") || "-", hex(others), name(issuer), each.join(",")].join(" ");
}

/** The questions that were asked about a token. */
class Asked {
  texts = [];
  heard = [];

  told() {
    return [this.heard.length, hex(concat(this.texts)) || "-", this.heard.join(",") || "-"].join(" ");
  }
}

/** The answers for the layers of a token. The answer `wrong` has the wrong type. */
class Script extends Asked {
  constructor(word) {
    super();
    this.answers = word.split(",");
    this.keys = async layer => this.answer(layer);
  }

  answer(layer) {
    this.texts.push(layer.proof, layer.input);
    const held = [layer.keyId, layer.iv, layer.partialIv].map(it => hex(it ?? []));
    this.heard.push([layer.form, layer.algorithm, layer.keyIdMap ?? 0, ...held].join("/"));
    if (layer.index !== this.heard.length - 1) throw new Error(`the index ${layer.index}`);
    const [said, issuer] = (this.answers.shift() ?? "no").split("@"), isEncrypted = layer.form === coset.ENCRYPT0;
    if (said === "no") return null;
    if (said === "wrong") return isEncrypted ? true : new Uint8Array();
    const answer = !isEncrypted || data(said[0] === "p" ? said.slice(1) : "-");
    return issuer ? [answer, text(issuer)] : answer;
  }
}

/** A ring of keys with ciphers that a line describes, and their calls, as in calls.py. */
class Ring extends Asked {
  constructor(sets, says) {
    super();
    const named = sets.split(",").map(word => word.split(":")).map(([issuer, keys]) => [issuer === "-" ? null : text(issuer.slice(1)), data(keys)]);
    this.rules = says.split(",").map(rule => rule.split(":"));
    this.ring = new coset.KeyRing(named, {
      verify: async (key, algorithm, input, proof) => this.plaintext(key, algorithm, new Uint8Array(), input, proof) !== null,
      decrypt: async (...words) => this.plaintext(...words),
    });
    this.keys = layer => this.ring.open(layer);
  }

  plaintext(key, algorithm, nonce, input, proof) {
    const keyId = coset.has(coset.KEY, key, coset.IN_ITEM, 2) ? hex(coset.labelBytes(coset.KEY, key, coset.IN_ITEM, 2)) : "-";
    const number = `#${this.heard.length}`;
    this.texts.push(proof, input);
    this.heard.push([keyId, algorithm, hex(nonce) || "-"].join("/"));
    const rule = this.rules.find(([it]) => it === keyId || it === number);
    if (!rule) return null;
    return data(rule.splice(1, 1, "")[0] || "-");
  }
}

/** Returns the result of `verifyToken` and the questions that it asked. After a refusal, the layer, the number and the key
 * identifier are in place of the token. */
async function opened(asked, given, now, rules, algorithms, critical, required, audiences, types) {
  const [leeway, age, untaggedForm, authenticatedBy, anyAudience, forever, later] = rules.split(",").map(BigInt);
  try {
    return `ok ${toldToken(await coset.verifyToken(given, asked.keys, {
      algorithms: listed(algorithms, BigInt), audience: listed(audiences, it => text(it.slice(1))), types: listed(types, it => text(it.slice(1))),
      required: listed(required, BigInt), critical: listed(critical, BigInt), leeway, maxAge: age || null, untaggedForm: Number(untaggedForm),
      authenticatedBy: Number(authenticatedBy), anyAudience: anyAudience !== 0n, mayNotExpire: forever !== 0n, mayBeIssuedLater: later !== 0n,
      now: BigInt(now),
    }))} ${asked.told()}`;
  } catch (refused) {
    if (refused instanceof coset.InvalidToken) {
      const keyId = refused.keyId === null ? "-" : hex(refused.keyId);
      return [NAMES[refused.reason], refused.layer ?? "-", refused.number ?? "-", keyId, asked.told()].join(" ");
    }
    if (refused instanceof coset.Misuse) return ["Misuse", asked.heard.length - 1, "- -", asked.told()].join(" ");
    throw refused;
  }
}

/** Returns the token that `accepted` accepts by a set of keys of this issuer. The signature is good if it and the structure
 * are those of the words. `webcrypto` leaves this to WebCrypto. */
async function acceptance(given, now, issuer, keys, ...words) {
  const ciphers = words[0] === "webcrypto" ? undefined : { verify: (key, algorithm, input, proof) => [input, proof].map(hex).join() === words.join() };
  return toldToken(await accepted(given, new Map([[text(issuer), data(keys)]]), BigInt(now), ciphers));
}

function fits(form, key, algorithm, ...words) {
  const [keyId, iv, partialIv, proof] = words.map(word => data(word));
  const nonce = coset.keyFits(key, { form, algorithm: BigInt(algorithm), keyId, iv, partialIv, proof });
  return nonce === null ? "Unfit" : `ok ${hex(nonce)}`;
}

function span({ start, end }) {
  return `${start} ${end - start}`;
}

function floating(value) {
  const view = new DataView(new ArrayBuffer(8));
  view.setFloat64(0, value);
  return Number.isNaN(value) ? "nan" : view.getBigUint64(0).toString(16).padStart(16, "0");
}

async function verification(given, ...words) {
  const texts = q => [String(q.algorithm), hex(q.keyId ?? []), hex(q.input), hex(q.proof)];
  const isAsked = q => q.kind === coset.SIGN1 && texts(q).join() === words.join();
  return hex(await verified(given, async q => isAsked(q)));
}

// Calls without a buffer for their result, and their results as texts.
const WITHOUT_ROOM = {
  text: status => `${coset.version()} ${coset.versionNumber().toString(16).padStart(8, "0")}: ${coset.statusText(status)}`,
  check: (kind, given) => coset.check(kind, given) ?? "",
  count: (kind, given) => coset.count(kind, given),
  integer: (_, given) => coset.integer(given),
  label_int: (kind, given, which, label) => coset.labelInt(kind, given, Number(which), BigInt(label)),
  member_span: (kind, given, index) => span(coset.memberSpan(kind, given, Number(index))),
  pair_spans: (kind, given, index) => coset.pairSpans(kind, given, Number(index)).map(span).join(" "),
  label_span: (kind, given, which, label) => span(coset.labelSpan(kind, given, Number(which), BigInt(label))),
  item_span: (_, given, at) => span(coset.itemSpan(given, Number(at))),
  string_span: (_, given) => span(coset.stringSpan(given)),
  major_type: (_, given) => coset.majorType(given),
  simple_value: (_, given) => [false, true, null].indexOf(coset.simpleValue(given)) + 20,
  float_value: (_, given) => floating(coset.floatValue(given)),
  map_spans: (kind, given) => {
    const found = coset.mapSpans(kind, given);
    return [found.length, ...found.flat().map(span)].join(" ");
  },
};
// Calls with several results, as texts.
const SEVERAL = {
  sign1: told,
  message,
  spans: message,
  safe,
  keys: (_, given) => coset.readableKeys(given).map(hex).join(" "),
  accepted: (_, given, ...words) => acceptance(given, ...words),
  verified: (_, given, ...words) => verification(given, ...words),
  issued: (_, keyId, ...words) => token(keyId, ...words),
};
// Calls whose results begin with `ok` or with a refusal.
const WHOLE = {
  token: (_, given, ...words) => opened(new Script(words.at(-1)), given, ...words.slice(0, -1)),
  ring: (_, given, ...words) => opened(new Ring(...words.slice(-2)), given, ...words.slice(0, -2)),
  fits,
};
// Calls that return bytes.
const BYTES = {
  part: (kind, given, part) => coset.part(kind, given, Number(part)),
  member: (kind, given, index) => coset.member(kind, given, Number(index)),
  label: (kind, given, which, label) => coset.label(kind, given, Number(which), BigInt(label)),
  label_bytes: (kind, given, which, label) => coset.labelBytes(kind, given, Number(which), BigInt(label)),
  text_label: (kind, given, which, label) => coset.label(kind, given, Number(which), text(label)),
  label_at: (kind, given, index) => coset.labelAt(kind, given, Number(index)),
  value_at: (kind, given, index) => coset.valueAt(kind, given, Number(index)),
  key_of: (_, given, keyId) => coset.keyOf(given, data(keyId)),
  structure: (kind, given, index, aad, ...payload) =>
    coset.structure(kind, given, { index: Number(index), externalAad: data(aad), detached: detached(...payload) }),
  structure_of: (kind, given, signer, aad, content) =>
    coset.structureOf(kind, given, { content: data(content), signer: data(signer), externalAad: data(aad) }),
  recipient_structure: (kind, given, aad) => coset.recipientStructure(kind, given, { externalAad: data(aad) }),
  recipient_structure_of: (kind, given, aad) => coset.recipientStructureOf(kind, given, { externalAad: data(aad) }),
  countersign_structure: (kind, given, label, signer, aad, ...payload) =>
    coset.countersignStructure(kind, given, BigInt(label), { signer: data(signer), externalAad: data(aad), detached: detached(...payload) }),
  put: (kind, given, label, value) => coset.putEncoded(kind, given, BigInt(label), data(value)),
  put_int: (kind, given, label, value) => coset.put(kind, given, BigInt(label), BigInt(value)),
  put_float: (kind, given, label, value) => coset.put(kind, given, BigInt(label), new coset.Float(float(value))),
  put_bytes: (kind, given, label, value) => coset.put(kind, given, BigInt(label), data(value)),
  put_text: (kind, given, label, value) => coset.put(kind, given, BigInt(label), text(value)),
  put_text_label: (kind, given, label, value) => coset.putEncoded(kind, given, text(label), data(value)),
  put_all: (kind, given, word) => coset.putAll(kind, given, pairs(word)),
  make: (kind, given, unprotected, has, content, proof) =>
    coset.make(kind, given, data(unprotected), { content: detached(has, content), proof: data(proof) }),
  add: (kind, given, member) => coset.add(kind, given, data(member)),
  write: coset.write,
  canonical_key: coset.canonicalKey,
};

/** Returns the result of a call. The first of `words` is the size of the buffer in C, if the call has one. */
async function answer(name, kind, given = "-", ...words) {
  const [number, input] = [Number(kind), data(given)];
  if (name in WITHOUT_ROOM) return `ok ${WITHOUT_ROOM[name](number, input, ...words)}`;
  if (name in WHOLE) return WHOLE[name](number, input, ...words.slice(1));
  if (name in SEVERAL) return `ok ${await SEVERAL[name](number, input, ...words.slice(1))}`;
  return `ok ${hex(BYTES[name](number, input, ...words.slice(1)))}`;
}

/** Returns the results of the calls in these lines. */
export async function answers(lines) {
  const found = [];
  for (const line of lines) {
    found.push(await answer(...line.split(" ")).catch(error => {
      if (!(error instanceof coset.CosetError)) throw error;
      return NAMES[error.reason];
    }));
  }
  return found;
}

if (globalThis.process) {
  const { readFileSync } = await import("node:fs");
  const found = await answers(readFileSync(0, "utf8").split("\n").filter(Boolean));
  process.stdout.write(`${found.join("\n")}\n`);
}
