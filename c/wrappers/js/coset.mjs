/** coset from JavaScript: the calls of coset.h, by the WebAssembly module coset.wasm next to this file.
 *
 * A call takes bytes (a Uint8Array, another view of bytes, or a buffer) and returns a Uint8Array, a number, an object or null. An
 * integer of CBOR is a number if that is exact, else a bigint. Each error of a call of the library is a CosetError; its
 * `reason` is the name of a Status.
 * - Fault if the bytes aren't an item of the kind, or the new item wouldn't be.
 * - Absent if the bytes don't have the requested part. Or items of the kind, or the bytes that something is added to,
 *   have no place for an argument.
 * - WrongType if the requested value is of another type.
 * - Empty, Misuse and OutOfMemory.
 *
 * `verifyToken` verifies a web token (RFC 8392) with the keys of a `KeyRing`. It throws InvalidToken if the token is
 * refused. `verify` and `decrypt` return a message's contents only after the caller's function said yes. They also throw
 * NotAllowed, Critical, WrongHeaders or Refused. The header and docs/C.md say what each call promises.
 *
 * An option that is undefined is a Misuse. So a field that doesn't exist doesn't drop a rule. */

export const SIGN1 = 1, SIGN = 2, MAC0 = 3, MAC = 4, ENCRYPT0 = 5, ENCRYPT = 6, SIGNATURE = 7, RECIPIENT = 8;
export const HEADER = 9, KEY = 10, KEY_SET = 11, CLAIMS = 12, ITEM = 13, KDF_CONTEXT = 14;
export const TAGGED = 0x100, EITHER = 0x200; // added to a message's kind, one of the first six
export const PROTECTED = 1, PAYLOAD = 2, CIPHERTEXT = 3, PROOF = 4;
export const IN_PROTECTED = 1, IN_UNPROTECTED = 2, IN_ITEM = 3;
export const LEXICOGRAPHIC = 1, LENGTH_FIRST = 2; // orders of labels
export const BY_SIGNATURE = 1, BY_ANY = 2; // the layers that authenticate the sender of a token
export const MOST_TRIES = 16; // the greatest number of keys that a KeyRing tries for a layer
export const NONE = 0, INT = 1, TEXT = 2, BYTES = 3, ENCODED = 4; // forms of algorithms (the first three), labels and values
export const UNDERSTOOD = 1, NOT_UNDERSTOOD = 2; // the state of critical labels; NONE if there are none

/** Major types of items (RFC 8949, section 3.1). SIMPLE is a float or a simple value. */
export const MajorType = Object.freeze({ UNSIGNED: 0, NEGATIVE: 1, BYTE_STRING: 2, TEXT_STRING: 3, ARRAY: 4, MAP: 5, TAG: 6, SIMPLE: 7 });

// Algorithms by their numbers (IANA, "COSE Algorithms").
export const ES256 = -7, ES384 = -35, ES512 = -36, ES256K = -47, ESP256 = -9, ESP384 = -51, ESP512 = -52;
export const EDDSA = -8, ED25519 = -19, ED448 = -53;
export const PS256 = -37, PS384 = -38, PS512 = -39, RS256 = -257, RS384 = -258, RS512 = -259;
export const HMAC_256_64 = 4, HMAC_256_256 = 5, HMAC_384_384 = 6, HMAC_512_512 = 7;
export const A128GCM = 1, A192GCM = 2, A256GCM = 3, CHACHA20_POLY1305 = 24;

/** The statuses of the header, by their names without COSET_. */
export const Status = Object.freeze({
  OK: 0, SHORT: 1, MEMORY: 2, ENDS: 3, MALFORMED: 4, DEEP: 5, EXTRANEOUS: 6, UNEXPECTED: 7, DUPLICATE: 8, OUT_OF_RANGE: 9,
  UNREGISTERED: 10, NOT_PRIVATE: 11, ABSENT: 12, MISUSE: 13, TYPE: 14, EMPTY: 15, NOT_ALLOWED: 16, CRITICAL: 17, REFUSED: 18,
  LAYER: 19, TOO_DEEP: 20, UNAUTHENTICATED: 21, NOT_CLAIMS: 22, NO_EXPIRATION: 23, EXPIRED: 24, NOT_YET_VALID: 25,
  ISSUED_LATER: 26, TOO_OLD: 27, ISSUER: 28, AUDIENCE: 29, HEADERS: 30, TOKEN_TYPE: 31, HEADER_CLAIMS: 32, MISSING: 33, UNFIT: 34,
  TOO_MANY_KEYS: 35,
});
const NAMES = Object.keys(Status);

// ---- Errors

/** `status` is a Status, and `reason` its name, such as "EXPIRED". */
export class CosetError extends Error {
  constructor(status, text = statusText(status), options = undefined) {
    super(text, options);
    this.name = new.target.name;
    this.status = status;
    this.reason = NAMES[status];
  }
}

/** The bytes aren't an item of the kind, or the new item wouldn't be. `offset` is where the bytes stop being one item of
 * CBOR, or null. Only `check` knows it. */
export class Fault extends CosetError {
  constructor(status, offset = null, text = undefined) {
    super(status, text);
    this.offset = offset;
  }
}

/** The bytes don't have the requested part. Or items of the kind, or the bytes that something is added to, have no place
 * for an argument. */
export class Absent extends CosetError {}

/** The counted list is empty: verifying each of its signatures would verify none. */
export class Empty extends CosetError {}

/** The value is there, but isn't a string, or isn't an integer of 64 bits with a sign. From a call that returns a place
 * also: a string is in chunks. */
export class WrongType extends CosetError {}

/** An argument has no meaning for the call, or has another type, or a payload or ciphertext is given although the message
 * carries one. Or an option is undefined, or an index isn't 0 for a kind without signers. */
export class Misuse extends CosetError {
  constructor(text = undefined) {
    super(Status.MISUSE, text);
  }
}

/** The module gets no more memory, or the call needs more stack than is left. */
export class OutOfMemory extends CosetError {
  constructor(options = undefined) {
    super(Status.MEMORY, undefined, options);
  }
}

/** The caller's function said no to the signature, the tag or the ciphertext. Or a signature or tag is empty. */
export class Refused extends CosetError {}

/** The protected header doesn't name an allowed algorithm by its number. */
export class NotAllowed extends Refused {}

/** A critical label isn't understood, or isn't protected. */
export class Critical extends Refused {}

/** A message has both an IV and a partial IV (RFC 8152, section 3.1). */
export class WrongHeaders extends Refused {}

/** The token is refused. `reason` is the first reason against it, such as "EXPIRED". It is "UNFIT" if no key of a
 * KeyRing fits a layer. It is "TOO_MANY_KEYS" if a KeyRing tried MOST_TRIES keys for a layer, each is refused, and more
 * fit. `layer` is the index of the refused layer, counted from 0, the outermost, or null. `number` is the number of the
 * algorithm for "NOT_ALLOWED", and of the missing claim for "MISSING", else null. It is null also for the algorithm 0,
 * which is reserved. `keyId` is the key identifier of the layer for "UNFIT", "TOO_MANY_KEYS" and "REFUSED". It is null
 * for another reason, and if the layer names no key. */
export class InvalidToken extends CosetError {
  constructor(status, layer = null, number = null, keyId = null) {
    const subject = layer === null ? "the token" : `layer ${layer} of the token`;
    const told = AGAINST[status] ?? statusText(status);
    super(status, `${subject} is refused: ${told}${number === null ? "" : ` (${number})`}`);
    this.layer = layer;
    this.number = number;
    this.keyId = keyId;
  }
}

// The reasons against a token whose texts depend on the call.
const AGAINST = { [Status.ABSENT]: "it carries no payload or ciphertext", [Status.UNFIT]: "no key fits it" };
// The statuses against a layer of a token, besides the faults. The others are against the whole token.
const OF_LAYER = [Status.ABSENT, Status.NOT_ALLOWED, Status.CRITICAL, Status.REFUSED, Status.HEADERS];
const ERRORS = {
  [Status.ABSENT]: Absent, [Status.TYPE]: WrongType, [Status.EMPTY]: Empty, [Status.NOT_ALLOWED]: NotAllowed, [Status.CRITICAL]: Critical,
  [Status.HEADERS]: WrongHeaders,
};

function isFault(status) {
  return status >= Status.ENDS && status <= Status.NOT_PRIVATE;
}

/** Throws the error of a status other than success. */
function must(status, offset = null) {
  if (status === Status.OK) return;
  if (status === Status.MEMORY) throw new OutOfMemory();
  if (status === Status.MISUSE) throw new Misuse();
  throw ERRORS[status] ? new ERRORS[status](status) : new Fault(status, offset);
}

// ---- The module

async function contents(at) {
  if (at.protocol === "file:") return (await import("node:fs/promises")).readFile(at);
  const told = await fetch(at);
  if (!told.ok) throw new Error(`${at}: ${told.status}`);
  return told.arrayBuffer();
}

// A larger memory is given back after the call.
const KEPT = 64 << 20;
const compiled = await WebAssembly.compile(await contents(new URL("coset.wasm", import.meta.url)));
let instance = await WebAssembly.instantiate(compiled);
// The version of this file. Structs and statuses may differ in another version's module.
const VERSION_NUMBER = 0x00040207;
if (versionNumber() !== VERSION_NUMBER) throw new Error(`coset.wasm is of version ${version()}, and coset.mjs of another one`);

function loaded() {
  instance ??= new WebAssembly.Instance(compiled);
  return instance.exports;
}

/** Memory for the bytes that a call writes: its arguments out, cap and len. */
class Room {
  constructor(cap) {
    Object.assign(this, { cap, length: 0, bytes: null });
  }
}

/** Memory for a struct or a number. */
class Place {
  constructor(bytes) {
    this.bytes = bytes;
  }
}

/** An array of `count` numbers or structs. */
class List {
  constructor(bytes, count) {
    Object.assign(this, { bytes, count });
  }
}

/** An array of texts, as coset_text. */
class Texts {
  constructor(texts) {
    this.texts = texts;
  }

  /** Returns the structs for the address `at`, with the texts after them. */
  at(at) {
    let end = 16 * this.texts.length;
    const bytes = new Uint8Array(this.texts.reduce((sum, text) => sum + text.length, end)), view = new DataView(bytes.buffer);
    this.texts.forEach((text, place) => {
      view.setBigUint64(16 * place, BigInt(at + end), true);
      view.setBigUint64(16 * place + 8, BigInt(text.length), true);
      bytes.set(text, end);
      end += text.length;
    });
    return bytes;
  }
}

/** Returns the number of bytes that an argument takes in the module's memory. */
function sizeOf(it) {
  if (it instanceof Room) return it.cap + 8;
  if (it instanceof Texts) return it.at(0).length;
  return it instanceof Uint8Array ? it.length : it.bytes.length;
}

/** Writes an argument to the module's memory. Returns the words that are passed to the function. */
function passed(it, at, memory) {
  if (it instanceof Room) return [BigInt(at + 8), BigInt(it.cap), BigInt(at)];
  memory.set(it instanceof Texts ? it.at(at) : it instanceof Uint8Array ? it : it.bytes, at);
  if (it instanceof Place) return [BigInt(at)];
  return [BigInt(at), BigInt(it instanceof Texts ? it.texts.length : it instanceof List ? it.count : it.length)];
}

/** Copies a result out of the module's memory. */
function taken(it, at, memory) {
  if (it instanceof Place) it.bytes = memory.slice(at, at + it.bytes.length);
  if (it instanceof Room) {
    it.length = Number(new DataView(memory.buffer).getBigUint64(at, true));
    it.bytes = memory.slice(at + 8, at + 8 + Math.min(it.length, it.cap));
  }
}

/** Makes a call in memory of its own, which is wiped and freed before it returns. Returns the status. A number is a
 * uint32_t, and a bigint a size_t or an int64_t. A module that stopped isn't called again. */
function call(name, ...given) {
  const { memory, malloc, free, [`coset_${name}`]: make } = loaded(), places = [];
  const isMemory = it => typeof it === "object";
  const size = given.reduce((sum, it) => (places.push(sum), isMemory(it) ? sum + Math.ceil(sizeOf(it) / 16) * 16 : sum), 0);
  const base = Number(malloc(BigInt(size + 16)));
  if (!base) throw new OutOfMemory();
  try {
    const before = new Uint8Array(memory.buffer);
    const words = given.flatMap((it, i) => isMemory(it) ? passed(it, base + places[i], before) : it);
    if (words.length !== make.length) throw new Error(`coset_${name} has ${make.length} arguments`);
    const status = make(...words), after = new Uint8Array(memory.buffer);
    given.forEach((it, i) => taken(it, base + places[i], after));
    after.fill(0, base, base + size);
    free(BigInt(base));
    if (after.length > KEPT) instance = undefined;
    return status;
  } catch (stopped) {
    new Uint8Array(memory.buffer).fill(0);
    instance = undefined;
    throw stopped instanceof RangeError ? new OutOfMemory({ cause: stopped }) : stopped;
  }
}

/** Returns the status of a call that writes bytes, and the bytes. The memory has room for any usual result. If it is too
 * small all the same, the call is made again. */
function writing(name, given, behind = []) {
  let room = given.reduce((sum, it) => it instanceof Uint8Array ? sum + 2 * it.length : sum, 512);
  for (;;) {
    const out = new Room(room), status = call(name, ...given, out, ...behind);
    if (status !== Status.SHORT) return [status, out.bytes];
    room = out.length;
  }
}

function written(name, ...given) {
  const [status, bytes] = writing(name, given);
  must(status);
  return bytes;
}

// ---- The structs of the header

/** Returns the layout of a struct: the offset and the type of each field, and the size. */
function struct(fields) {
  let size = 0;
  const found = Object.entries(fields).map(([name, type]) => {
    const width = type === "u32" ? 4 : 8, at = Math.ceil(size / width) * width;
    size = at + width;
    return { name, type, at };
  });
  return { fields: found, size: Math.ceil(size / 8) * 8 };
}

function blank(shape, count = 1) {
  return new Uint8Array(shape.size * count);
}

/** Writes a struct to the bytes of a list of them. Fields that aren't given are 0. */
function writeStruct(shape, values, bytes, index = 0) {
  const view = new DataView(bytes.buffer, shape.size * index, shape.size);
  for (const { name, type, at } of shape.fields) {
    const value = Object.hasOwn(values, name) ? values[name] : 0;
    if (type === "u32") view.setUint32(at, value, true);
    else view.setBigUint64(at, BigInt.asUintN(64, BigInt(value)), true);
  }
}

function readStruct(shape, place) {
  const view = new DataView(place.bytes.buffer);
  return Object.fromEntries(shape.fields.map(({ name, type, at }) => {
    if (type === "u32") return [name, view.getUint32(at, true)];
    return [name, type === "i64" ? exact(view.getBigInt64(at, true)) : Number(view.getBigUint64(at, true))];
  }));
}

const SPAN = struct({
  at: "usize",
  len: "usize",
});
const PAIR = struct({
  label_form: "u32",
  value_form: "u32",
  label: "i64",
  label_at: "usize",
  label_len: "usize",
  value: "i64",
  value_at: "usize",
  value_len: "usize",
});
const SPANS = struct({
  algorithm: "i64",
  algorithm_form: "u32",
  key_id_map: "u32",
  critical: "u32",
  is_tagged: "u32",
  is_proof_in_input: "u32",
  is_content_in_input: "u32",
  is_key_id_in_input: "u32",
  structure_len: "usize",
  proof_at: "usize",
  proof_len: "usize",
  content_at: "usize",
  content_len: "usize",
  key_id_at: "usize",
  key_id_len: "usize",
});
const RULES = struct({
  size: "usize",
  leeway: "u64",
  max_age: "u64",
  untagged_form: "u32",
  authenticated_by: "u32",
  any_audience: "u32",
  may_not_expire: "u32",
  may_be_issued_later: "u32",
});
const OPENED = struct({
  form: "u32",
  offset: "usize",
  structure_len: "usize",
  proof_len: "usize",
  plaintext: "usize",
  plaintext_len: "usize",
  issuer: "usize",
  issuer_len: "usize",
});
const LAYER = struct({
  form: "u32",
  key_id_map: "u32",
  algorithm: "i64",
  claim: "i64",
  index: "usize",
  structure_len: "usize",
  proof_len: "usize",
  key_id_len: "usize",
  iv_len: "usize",
  partial_iv_len: "usize",
});

// ---- Arguments

const NOTHING = new Uint8Array(0);

// Getters of the language. They take no object that only looks like a view or a buffer.
const nameOfView = Object.getOwnPropertyDescriptor(Object.getPrototypeOf(Uint8Array.prototype), Symbol.toStringTag).get;
const lengthOfUnshared = Object.getOwnPropertyDescriptor(ArrayBuffer.prototype, "byteLength").get;
// The views with elements of one byte. A DataView has no name here.
const OF_BYTES = [undefined, "Uint8Array", "Uint8ClampedArray", "Int8Array"];

/** Returns a view of the bytes of a view or a buffer. Throws an error if it is neither, if its elements are longer than a byte, or
 * if its memory is detached or has become too short. */
function viewed(data) {
  if (!ArrayBuffer.isView(data)) return new Uint8Array(new DataView(data).buffer);
  const name = nameOfView.call(data);
  if (!OF_BYTES.includes(name)) throw new TypeError(name);
  if (name) Uint8Array.prototype.at.call(data, 0); // such a view over too little memory has the length 0
  return new Uint8Array(data.buffer, data.byteOffset, data.byteLength);
}

function isShared(buffer) {
  try {
    return lengthOfUnshared.call(buffer) < 0;
  } catch {
    return true;
  }
}

/** Returns the bytes of a view or a buffer. Those of shared memory are copied, since another thread might change them. */
function bytes(data) {
  let view;
  try {
    view = viewed(data);
  } catch {
    throw new Misuse("bytes are a Uint8Array, another view of bytes, or a buffer");
  }
  return isShared(view.buffer) ? view.slice() : view;
}

/** Returns a copy, which the caller can't change. */
function own(data) {
  return bytes(data).slice();
}

function optional(data) {
  return data === null ? null : own(data);
}

/** Returns a flag and the bytes, for a content that may be null. */
function flagged(content) {
  return content === null ? [0, NOTHING] : [1, bytes(content)];
}

/** Returns true for an object of no class, such as a literal, that inherits nothing of the caller's. Its prototype is null, or
 * the Object.prototype of any realm. */
function isPlain(it) {
  const proto = typeof it === "object" && it !== null ? Object.getPrototypeOf(it) : undefined;
  if (proto === null || proto === undefined) return proto === null;
  return Object.getPrototypeOf(proto) === null && Object.hasOwn(proto, "isPrototypeOf");
}

/** Returns the options, with defaults for those that aren't given. Nothing is taken from a class or a prototype. An option
 * that is undefined is a Misuse, because it may be a field that doesn't exist. */
function settled(options, defaults) {
  if (!isPlain(options)) throw new Misuse("options are a plain object");
  const given = Object.fromEntries(Object.getOwnPropertyNames(options).map(name => [name, options[name]]));
  const unknown = Object.keys(given).find(name => !Object.hasOwn(defaults, name));
  if (unknown !== undefined) throw new Misuse(`there is no option ${unknown}`);
  const empty = Object.keys(given).find(name => given[name] === undefined);
  if (empty !== undefined) throw new Misuse(`the option ${empty} is undefined`);
  return { ...defaults, ...given };
}

function number(value) {
  if (!Number.isInteger(value) || value < 0 || value >= 2 ** 32) throw new Misuse("a number of no kind, part, map or order");
  return value;
}

function size(value) {
  if (!Number.isSafeInteger(value) || value < 0) throw new Misuse("an index is a whole number");
  return BigInt(value);
}

function isInteger(value) {
  return typeof value === "bigint" || Number.isSafeInteger(value);
}

function int64(value) {
  if (!isInteger(value)) throw new Misuse("an integer is a safe integer or a bigint");
  const whole = BigInt(value);
  if (BigInt.asIntN(64, whole) !== whole) throw new Misuse("an integer of more than 64 bits");
  return whole;
}

/** Returns the integer as a number if that is exact, else as a bigint. */
function exact(value) {
  const found = Number(value);
  return Number.isSafeInteger(found) ? found : value;
}

function int64s(values, name) {
  if (!Array.isArray(values)) throw new Misuse(`${name} is a list of integers`);
  const found = BigInt64Array.from(values, int64);
  return new List(new Uint8Array(found.buffer), found.length);
}

/** Returns the UTF-8 bytes of a text. A surrogate by itself has none. */
function utf8(text) {
  if (typeof text !== "string" || /\p{Surrogate}/u.test(text)) throw new Misuse("a text is a string without a surrogate by itself");
  return new TextEncoder().encode(text);
}

function decoded(data) {
  return new TextDecoder("utf-8", { fatal: true, ignoreBOM: true }).decode(data);
}

function texts(names, name) {
  if (!Array.isArray(names)) throw new Misuse(`${name} is a list of texts`);
  return new Texts(Array.from(names, utf8)); // unlike `map`, it doesn't pass over holes
}

function joined(parts) {
  const found = new Uint8Array(parts.reduce((sum, part) => sum + part.length, 0));
  parts.reduce((at, part) => (found.set(part, at), at + part.length), 0);
  return found;
}

// ---- Reading

/** Throws Fault, with the offset, unless the bytes are an item of the kind. */
export function check(kind, data) {
  const place = new Place(new Uint8Array(8)), status = call("check", number(kind), bytes(data), place);
  const offset = new DataView(place.bytes.buffer).getBigUint64(0, true);
  must(status, offset === 2n ** 64n - 1n ? null : Number(offset));
}

/** Returns the number of signatures, recipients, keys or elements, which is at least 1. */
export function count(kind, data) {
  const place = new Place(new Uint8Array(8));
  must(call("count", number(kind), bytes(data), place));
  return Number(new DataView(place.bytes.buffer).getBigUint64(0, true));
}

/** Returns a part: PROTECTED, PAYLOAD, CIPHERTEXT or PROOF. */
export function part(kind, data, which) {
  return written("part", number(kind), bytes(data), number(which));
}

/** Returns the signature, recipient, key or element at `index`, in its shortest encoding. */
export function member(kind, data, index) {
  return written("member", number(kind), bytes(data), size(index));
}

/** Returns the places that a call sets, as `{ start, end }` for `subarray`. */
function spans(name, count, ...given) {
  const places = Array.from({ length: count }, () => new Place(blank(SPAN)));
  must(call(name, ...given, ...places));
  return places.map(place => {
    const { at, len } = readStruct(SPAN, place);
    return Object.freeze({ start: at, end: at + len });
  });
}

/** Returns the place of the signature, recipient, key or array element at `index`, as received: `{ start, end }`. */
export function memberSpan(kind, data, index) {
  return spans("member_span", 1, number(kind), bytes(data), size(index))[0];
}

/** Returns the places of the label and the value of a map's pair, as received. `index` counts the pairs from 0. */
export function pairSpans(kind, data, index) {
  return spans("pair_spans", 2, number(kind), bytes(data), size(index));
}

/** Returns the place of an integer label's value, as received. */
export function labelSpan(kind, data, which, label) {
  return spans("label_span", 1, number(kind), bytes(data), number(which), int64(label))[0];
}

/** Returns the place of the item that begins at the offset `at`, as received. The next element of an array, or the next
 * label or value of a map, begins where the item ends. */
export function itemSpan(data, at) {
  return spans("item_span", 1, bytes(data), size(at))[0];
}

/** Returns the place of the item at the offset `at` of a longer input, as itemSpan does. Each attempt copies eight times as many
 * bytes into the module. So a walk over all items doesn't copy the whole input for each of them. */
function nextSpan(input, at) {
  for (let width = 64; ; width *= 8) {
    try {
      const { start, end } = itemSpan(input.subarray(at, at + width), 0);
      return Object.freeze({ start: at + start, end: at + end });
    } catch (error) {
      if (!(error instanceof Fault) || at + width >= input.length) throw error;
    }
  }
}

/** Returns the place of a string's content. The string has definite length. */
export function stringSpan(data) {
  return spans("string_span", 1, bytes(data))[0];
}

function int(name, ...given) {
  const place = new Place(new Uint8Array(8));
  must(call(name, ...given, place));
  return exact(new DataView(place.bytes.buffer).getBigInt64(0, true));
}

/** Returns the integer that the bytes encode. */
export function integer(data) {
  return int("integer", bytes(data));
}

/** Returns the bytes of one item. */
function oneItem(data) {
  const item = bytes(data);
  check(ITEM, item);
  return item;
}

/** Returns the MajorType of an item. */
export function majorType(data) {
  return oneItem(data)[0] >> 5;
}

/** Returns the simple value that an item is: false, true or null. The library supports no others. */
export function simpleValue(data) {
  const item = oneItem(data);
  if (item[0] < 0xf4 || item[0] > 0xf6) throw new WrongType(Status.TYPE);
  return [false, true, null][item[0] - 0xf4];
}

/** Returns the value of a float of 16 bits. */
function halfFloat(bits) {
  const sign = bits >> 15 ? -1 : 1, exponent = bits >> 10 & 31, fraction = bits & 1023;
  if (exponent === 31) return fraction ? NaN : sign * Infinity;
  return sign * (exponent ? 2 ** (exponent - 15) * (1 + fraction / 1024) : 2 ** -24 * fraction);
}

/** Returns the float that an item is, of 16, 32 or 64 bits. */
export function floatValue(data) {
  const item = oneItem(data).slice(), view = new DataView(item.buffer);
  if (item[0] < 0xf9 || item[0] > 0xfb) throw new WrongType(Status.TYPE);
  if (item[0] === 0xf9) return halfFloat(view.getUint16(1));
  return item[0] === 0xfa ? view.getFloat32(1) : view.getFloat64(1);
}

/** Returns the places of the labels and values of all pairs of a map, as received: an array of two places each, in their
 * order. They are found in one walk. */
export function mapSpans(kind, data) {
  const input = bytes(data), first = orNull(() => pairSpans(kind, input, 0));
  if (!first) {
    if (input[0] >> 5 !== MajorType.MAP) throw new Absent(Status.ABSENT);
    return [];
  }
  const found = [first];
  for (let at = first[1].end; at < input.length && input[at] !== 0xff; at = found.at(-1)[1].end) {
    const name = nextSpan(input, at);
    found.push([name, nextSpan(input, name.end)]);
  }
  return found;
}

/** Returns the value of a label, an integer or a string, in its shortest encoding. `which` is the map: IN_PROTECTED,
 * IN_UNPROTECTED or IN_ITEM. */
export function label(kind, data, which, name) {
  if (typeof name === "string") return written("text_label", number(kind), bytes(data), number(which), utf8(name));
  return written("label", number(kind), bytes(data), number(which), int64(name));
}

/** Returns the result of a function, or null if it throws Absent. */
function orNull(found) {
  try {
    return found();
  } catch (error) {
    if (error instanceof Absent) return null;
    throw error;
  }
}

/** Returns true if the map has the label. */
export function has(kind, data, which, name) {
  return orNull(() => label(kind, data, which, name)) !== null;
}

/** Returns the content of the byte string or text string that is the value of an integer label. */
export function labelBytes(kind, data, which, name) {
  return written("label_bytes", number(kind), bytes(data), number(which), int64(name));
}

/** Returns the integer that is the value of an integer label. */
export function labelInt(kind, data, which, name) {
  return int("label_int", number(kind), bytes(data), number(which), int64(name));
}

/** Returns the label of a map's pair, in its shortest encoding. `index` counts the pairs from 0. */
export function labelAt(kind, data, index) {
  return written("label_at", number(kind), bytes(data), size(index));
}

/** Returns the value of a map's pair, in its shortest encoding. `index` counts the pairs from 0. */
export function valueAt(kind, data, index) {
  return written("value_at", number(kind), bytes(data), size(index));
}

/** Returns the first key of a set with this identifier, in its shortest encoding. */
export function keyOf(data, keyId) {
  return written("key_of", bytes(data), bytes(keyId));
}

/** Returns the structure that is signed (by the signer at `index`), authenticated, or goes with the ciphertext. Its
 * payload is the one that the message carries. If the message carries none, it is `detached`. An index other than 0 is for a
 * SIGN alone. */
export function structure(kind, data, options = {}) {
  const { index, externalAad, detached } = settled(options, { index: 0, externalAad: NOTHING, detached: null });
  return written("structure", number(kind), bytes(data), size(index), bytes(externalAad), ...flagged(detached));
}

/** Returns the structure that goes with the ciphertext of a recipient, by the kind that contains it: ENCRYPT, MAC or
 * RECIPIENT. */
export function recipientStructure(holder, data, options = {}) {
  const { externalAad } = settled(options, { externalAad: NOTHING });
  return written("recipient_structure", number(holder), bytes(data), bytes(externalAad));
}

/** Returns the structure that a countersignature of a message, a signature or a recipient signs. `label` is 7, 9, 11 or
 * 12 (RFC 8152, section 4.5 and appendix A.2; RFC 9338, section 2). `signer` is the content of the countersignature's own
 * protected header. If the item carries no payload, ciphertext or signature, it is `detached`. */
export function countersignStructure(kind, data, label, options = {}) {
  const { signer, externalAad, detached } = settled(options, { signer: NOTHING, externalAad: NOTHING, detached: null });
  return written("countersign_structure", number(kind), bytes(data), int64(label), bytes(signer), bytes(externalAad), ...flagged(detached));
}

/** Returns everything that verifying or decrypting a message takes. For a message with signers, it is for the signer at
 * `index`; for another kind, an index other than 0 is a Misuse. `critical` are the critical labels that the caller
 * understands. */
export function message(kind, data, options = {}) {
  const given = settled(options, { index: 0, critical: [], externalAad: NOTHING, detached: null });
  const input = bytes(data), view = new Place(blank(SPANS));
  const words = [number(kind), input, size(given.index), bytes(given.externalAad), ...flagged(given.detached)];
  const [status, text] = writing("message_spans", [...words, int64s(given.critical, "critical")], [view]);
  must(status);
  const told = readStruct(SPANS, view);
  const held = name => (told[`is_${name}_in_input`] ? input : text).slice(told[`${name}_at`], told[`${name}_at`] + told[`${name}_len`]);
  return Object.freeze({
    algorithm: told.algorithm_form === INT ? told.algorithm : null, algorithmForm: told.algorithm_form,
    keyIdMap: told.key_id_map || null, critical: told.critical, isTagged: told.is_tagged !== 0,
    input: text.slice(0, told.structure_len), proof: held("proof"), content: held("content"), keyId: held("key_id"),
  });
}

/** Returns everything that verifying a message with one signature takes. `kind` is SIGN1, with TAGGED, EITHER or neither
 * added. Before you use the payload, verify the signature over `signed`, and refuse a message with critical labels. */
export function sign1(kind, data, options = {}) {
  if ((number(kind) & 0xff) !== SIGN1) throw new Misuse("a kind of another call");
  const found = message(kind, data, settled(options, { externalAad: NOTHING, detached: null }));
  const { algorithm, algorithmForm, keyIdMap, critical, isTagged, input: signed, proof: signature, content: payload, keyId } = found;
  return Object.freeze({ algorithm, algorithmForm, keyIdMap, hasCritical: critical !== NONE, isTagged, signed, signature, payload, keyId });
}

// ---- Verifying messages

/** Returns the question about a message, or throws an error if the message isn't allowed. */
function asked(kind, found, algorithms, proof) {
  if (!Array.isArray(algorithms)) throw new Misuse("algorithms is a list of integers");
  const allowed = Array.from(algorithms, it => exact(int64(it)));
  if (found.critical === NOT_UNDERSTOOD) throw new Critical(Status.CRITICAL);
  if (found.algorithm === null || !allowed.includes(found.algorithm)) throw new NotAllowed(Status.NOT_ALLOWED);
  const { algorithm, keyId, keyIdMap, input } = found;
  const ivs = { iv: null, partialIv: null, ivMap: null, partialIvMap: null };
  return { kind: kind & 0xff, algorithm, keyId: keyIdMap ? keyId : null, keyIdMap, input, proof, ...ivs };
}

/** Returns the payload of a message with signatures or a MAC, after `ask` said yes. `kind` is SIGN1, SIGN, MAC0 or MAC,
 * with TAGGED, EITHER or neither added. Nothing else is checked: for a web token call `verifyToken`.
 *
 * `ask` gets the question: `{ kind, algorithm, keyId, keyIdMap, input, proof }`, and no IV. `kind` is SIGN1, SIGN, MAC0 or
 * MAC. `ask` returns true, or a promise of true, if the proof is a signature or MAC of the input, by a key that the caller
 * trusts for that algorithm. Any other answer refuses the message. The bytes are copied before `ask` is called. It isn't
 * called for an empty proof, which is refused. No other length of a proof is checked, so compare its length with the
 * algorithm's before its bytes.
 *
 * `algorithms` are those that are allowed. List only algorithms for that kind: a MAC0's algorithm in a SIGN1's list would be
 * accepted. `critical` are the critical labels that the caller understands, and acts on. Those of a MAC's recipients aren't
 * looked at.
 *
 * For a message with signers, the question is about the signer at `index`. The caller decides which signers are enough. A
 * signature may be in the list twice: count keys, not indices. For another kind, an index other than 0 is a Misuse. */
export async function verify(kind, data, options, ask) {
  const given = settled(options, { algorithms: [], index: 0, critical: [], externalAad: NOTHING, detached: null });
  const { algorithms, ...rest } = { ...given, detached: optional(given.detached) };
  if (![SIGN1, SIGN, MAC0, MAC].includes(number(kind) & 0xff)) throw new Misuse("a kind without a signature or a tag");
  if (typeof ask !== "function") throw new Misuse("the verifier is a function");
  const found = message(kind, data, rest), payload = rest.detached ?? found.content;
  const question = Object.freeze(asked(kind, found, algorithms, found.proof));
  if (!found.proof.length || await ask(question) !== true) throw new Refused(Status.REFUSED);
  return payload;
}

/** Returns the content of the string under a label of a message, from the protected header, else from the unprotected one,
 * and that header. Both are null if neither has it. */
function inEither(kind, data, label) {
  for (const which of [IN_PROTECTED, IN_UNPROTECTED]) {
    const value = orNull(() => labelBytes(kind, data, which, label));
    if (value) return [value, which];
  }
  return [null, null];
}

/** Returns the plaintext of an ENCRYPT0, with TAGGED, EITHER or neither added. `open` gets the question, whose proof is
 * the ciphertext. It also has `iv` and `partialIv`, the strings under the labels 5 and 6, and the headers that have them,
 * `ivMap` and `partialIvMap`, each null if there is none. A message with both is refused with WrongHeaders (RFC 8152, section
 * 3.1).
 *
 * `open` returns the plaintext as bytes, or a promise of it. Null, undefined or false refuses the message. The options are
 * those of `verify`. */
export async function decrypt(kind, data, options, open) {
  const given = settled(options, { algorithms: [], critical: [], externalAad: NOTHING, detached: null });
  if ((number(kind) & 0xff) !== ENCRYPT0) throw new Misuse("a kind of another call");
  if (typeof open !== "function") throw new Misuse("the decrypter is a function");
  const input = own(data), detached = optional(given.detached), { critical, externalAad } = given;
  const found = message(kind, input, { critical, externalAad, detached });
  const ciphertext = detached ?? part(kind, input, CIPHERTEXT);
  const [[iv, ivMap], [partialIv, partialIvMap]] = [5, 6].map(name => inEither(kind, input, name));
  const question = asked(kind, found, given.algorithms, ciphertext);
  if (ivMap !== null && partialIvMap !== null) throw new WrongHeaders(Status.HEADERS);
  const plain = await open(Object.freeze({ ...question, iv, partialIv, ivMap, partialIvMap }));
  if (plain === null || plain === undefined || plain === false) throw new Refused(Status.REFUSED);
  return own(plain);
}

// ---- Verifying tokens

/** Yields the elements of an array, as received. */
function* elements(array) {
  let number;
  try {
    number = count(ITEM, array);
  } catch (error) {
    if (error instanceof Empty) return;
    throw error;
  }
  let at = memberSpan(ITEM, array, 0).start;
  for (; number > 0; number--) {
    const { start, end } = nextSpan(array, at);
    yield array.slice(start, end);
    at = end;
  }
}

/** Returns the content of a string. */
function content(item) {
  const { start, end } = stringSpan(item);
  return item.slice(start, end);
}

/** Returns the text, or null. */
function nameIn(item) {
  return item[0] === 0xf6 ? null : decoded(content(item));
}

/** Returns the verified token that the module wrote. */
function verified(text) {
  const [claims, audience, others, issuer, layers] = elements(text);
  const read = Array.from(elements(layers), layer => {
    const [form, header, unprotected, vouched] = elements(layer);
    return Object.freeze({ form: integer(form), protected: content(header), unprotected, issuer: nameIn(vouched) });
  });
  const names = Array.from(elements(audience), name => decoded(content(name)));
  return Object.freeze({ claims, audience: names, others, issuer: nameIn(issuer), layers: read });
}

/** Returns the layer that waits. */
function waiting(view, text) {
  let at = 0;
  const [input, proof, keyId, iv, partialIv] = ["structure", "proof", "key_id", "iv", "partial_iv"].map(name => {
    at += view[`${name}_len`];
    return text.slice(at - view[`${name}_len`], at);
  });
  const orNone = text => text.length ? text : null;
  return Object.freeze({
    form: view.form, algorithm: view.algorithm, keyId: orNone(keyId), keyIdMap: view.key_id_map || null, input, proof,
    iv: orNone(iv), partialIv: orNone(partialIv), index: view.index,
  });
}

/** Returns the name of an issuer as bytes, or null if it is null. */
function issuerOf(name) {
  if (name === null) return null;
  if (name === undefined) throw new Misuse("an issuer's name is missing: it is a text, or null for none");
  if (typeof name !== "string") throw new Misuse("an issuer's name is a text, or null for none");
  if (name === "") throw new Misuse("an issuer's name is empty");
  return utf8(name);
}

/** Returns true for a signature or a MAC, the plaintext of a ciphertext, or null for a refusal. Any other answer is an
 * error. */
function accepted(form, said) {
  if (said === null || said === undefined || said === false) return null;
  if (form === ENCRYPT0) return own(said);
  if (said !== true) throw new Misuse("for a signature or a MAC the answer is true, false or null");
  return true;
}

/** Returns the plaintext of the layer that waits, and the name of an issuer or null. */
function answered(view, text, said) {
  let name = null;
  if (Array.isArray(said)) {
    if (said.length !== 2) throw new Misuse("the answer is one value, or a pair of it and the issuer's name");
    [said, name] = [said[0], issuerOf(said[1])];
  }
  const answer = accepted(view.form, said);
  if (answer === null) throw new InvalidToken(Status.REFUSED, view.index, null, waiting(view, text).keyId);
  return [answer === true ? NOTHING : answer, name ?? NOTHING];
}

/** Returns the entry for an opened layer, and its bytes, which begin at `start`. */
function handed(view, text, plaintext, issuer, start) {
  const length = view.structure_len + view.proof_len, plain = start + length;
  const entry = { form: view.form, offset: start, structure_len: view.structure_len, proof_len: view.proof_len };
  if (view.form === ENCRYPT0) Object.assign(entry, { plaintext: plain, plaintext_len: plaintext.length });
  if (issuer.length) Object.assign(entry, { issuer: plain + plaintext.length, issuer_len: issuer.length });
  return [entry, joined([text.subarray(0, length), plaintext, issuer])];
}

function opened(layers) {
  const found = blank(OPENED, layers.length);
  layers.forEach((entry, index) => writeStruct(OPENED, entry, found, index));
  return new List(found, layers.length);
}

/** Throws the error of a status other than success. */
function refuse(status, view) {
  if (status === Status.MISUSE) throw new Misuse("an algorithm or a required claim isn't assigned, a number has no meaning, or there are audiences with anyAudience");
  if (status === Status.MEMORY) throw new OutOfMemory();
  const number = status === Status.NOT_ALLOWED ? view.algorithm || null : status === Status.MISSING ? view.claim : null;
  throw new InvalidToken(status, isFault(status) || OF_LAYER.includes(status) ? view.index : null, number);
}

function seconds(value, name, least) {
  if (!isInteger(value) || BigInt(value) < least || BigInt(value) >= 2n ** 63n) throw new Misuse(`${name} is a whole number of seconds, at least ${least}`);
  return value;
}

function flag(value, name) {
  if (typeof value !== "boolean") throw new Misuse(`${name} is true or false`);
  return Number(value);
}

/** Returns the whole seconds before and after `now`. A token must be valid at each of them. It is then valid at `now` too,
 * because the moments at which it is valid have no gap. */
function moments(now) {
  const moment = now === null ? Date.now() / 1000 : now;
  if (typeof moment === "bigint") return [int64(moment)];
  if (!Number.isFinite(moment)) throw new Misuse("now is a number of seconds");
  return [...new Set([Math.floor(moment), Math.ceil(moment)])].map(int64);
}

/** Returns the arguments of coset_token_open for the options of `verifyToken`. */
function policy(options) {
  const given = settled(options, {
    algorithms: [], audience: [], types: [], required: [], critical: [], leeway: 0, maxAge: null, untaggedForm: SIGN1, authenticatedBy: 0,
    anyAudience: false, mayNotExpire: false, mayBeIssuedLater: false, now: null,
  });
  const rules = new Place(blank(RULES));
  writeStruct(RULES, {
    size: RULES.size, leeway: seconds(given.leeway, "leeway", 0), max_age: given.maxAge === null ? 0 : seconds(given.maxAge, "maxAge", 1),
    untagged_form: number(given.untaggedForm), authenticated_by: number(given.authenticatedBy),
    any_audience: flag(given.anyAudience, "anyAudience"), may_not_expire: flag(given.mayNotExpire, "mayNotExpire"),
    may_be_issued_later: flag(given.mayBeIssuedLater, "mayBeIssuedLater"),
  }, rules.bytes);
  const lists = ["algorithms", "critical", "required"].map(name => int64s(given[name], name));
  return [[rules, ...lists, texts(given.audience, "audience"), texts(given.types, "types")], moments(given.now)];
}

/** Verifies a web token (RFC 8392) and returns a promise of the verified token:
 * `{ claims, audience, others, issuer, layers }`.
 *
 * `keys` is a KeyRing, or a function that is called with each layer:
 * `{ form, algorithm, keyId, keyIdMap, input, proof, iv, partialIv, index }`. It returns true if a key that fits verifies
 * the signature or the MAC. For an ENCRYPT0 it returns the plaintext, as bytes. Null, undefined or false refuses the token.
 * The answer may be an array of one of these and the name of the key's issuer. It may be a promise of any of these. The
 * function isn't called for an empty signature or MAC, which is refused.
 *
 * The options are those of the policy in docs/C.md, and `now`, in seconds since 1970 began in UTC. If `now` is null, it is
 * the clock's time. The token must be valid at the whole seconds before and after it. */
export async function verifyToken(data, keys, options) {
  const [words, times] = policy(options), input = own(data), layers = [];
  const ask = keys instanceof KeyRing ? layer => keys.open(layer) : keys;
  if (typeof ask !== "function") throw new Misuse("keys is a KeyRing or a function");
  for (let known = NOTHING; ;) {
    const place = new Place(blank(LAYER));
    const [status, text] = writing("token_open", [...words, input, times[0], opened(layers), known], [place]);
    const view = readStruct(LAYER, place);
    if (status === Status.LAYER) {
      const isEmpty = view.form !== ENCRYPT0 && !view.proof_len;
      const said = answered(view, text, isEmpty ? null : await ask(waiting(view, text)));
      const [entry, more] = handed(view, text, ...said, known.length);
      layers.push(entry);
      known = joined([known, more]);
    } else if (status !== Status.OK) {
      refuse(status, view);
    } else {
      times.shift();
      if (!times.length) return verified(text);
    }
  }
}

/** Throws Misuse if a layer is no object. */
function objectOf(layer) {
  if (typeof layer !== "object" || layer === null) throw new Misuse("a layer is an object, as verifyToken passes it");
}

/** Returns the nonce by which a key fits a layer, or null if it doesn't fit. For an algorithm without a nonce, such as a
 * signature's, it is empty. The layer's `keyId`, `iv` and `partialIv` are bytes or null. */
export function keyFits(key, layer) {
  objectOf(layer);
  const given = [layer.keyId, layer.iv, layer.partialIv, layer.proof].map(text => text === null ? NOTHING : bytes(text));
  const [status, nonce] = writing("key_fits", [bytes(key), number(layer.form), int64(layer.algorithm), ...given]);
  if (status === Status.UNFIT) return null;
  must(status);
  return nonce;
}

/** Returns the keys of a KEY_SET that can be read, as received (RFC 9052, section 7). A single KEY is no KEY_SET, but a Fault. */
export function readableKeys(keys) {
  const found = orNull(() => Array.from(elements(own(keys))));
  if (!found) throw new Fault(Status.UNEXPECTED, null, "a COSE_KeySet is needed, an array of keys");
  return found.filter(key => {
    try {
      check(KEY, key);
      return true;
    } catch (error) {
      if (error instanceof Fault) return false;
      throw error;
    }
  });
}

/** Returns the pairs of a Map or of an array of pairs. */
function pairsOf(pairs) {
  if (typeof pairs?.[Symbol.iterator] !== "function" || typeof pairs === "string") throw new Misuse("pairs are a Map or an array of pairs");
  const found = [...pairs];
  if (!found.every(pair => Array.isArray(pair) && pair.length === 2)) throw new Misuse("a pair is an array of two");
  return found;
}

/** Returns pairs of the issuers' names and sets of keys. An object of a class, such as a buffer, isn't one with names. */
function issuersOf(issuers) {
  if (isPlain(issuers) && !issuers[Symbol.iterator]) return Object.entries(issuers);
  if (typeof issuers?.[Symbol.iterator] === "function" && !ArrayBuffer.isView(issuers)) return pairsOf(issuers);
  throw new Misuse("issuers are a plain object, a Map or an array of pairs: a name and a COSE_KeySet for each");
}

/** The keys of issuers, for `verifyToken`. It says whose key accepted a layer. A layer is compared with each key of the
 * ring. If it names a key identifier, only keys with that identifier are decoded. At most MOST_TRIES keys that fit are tried.
 *
 * `issuers` is a plain object, a Map or an array of pairs: for each issuer's name, as in `iss`, a KEY_SET. The name null is for
 * an issuer whose tokens have no `iss`; undefined is a Misuse. Keys that can't be read are skipped (RFC 9052, section 7).
 *
 * `ciphers` has two methods, which may return promises. They are called only with a KEY that fits the layer:
 * - `verify(key, algorithm, input, proof)` returns true if the proof is a signature or a MAC of the input, else false.
 * - `decrypt(key, algorithm, nonce, aad, ciphertext)` returns the plaintext, or null if the ciphertext isn't authentic. It may
 *   be left out. A ciphertext for which a key fits is a Misuse then. */
export class KeyRing {
  #keys;
  #ciphers;

  constructor(issuers, ciphers) {
    const decrypt = ciphers?.decrypt ?? null;
    if (typeof ciphers?.verify !== "function") throw new Misuse("the ciphers have no function verify");
    if (decrypt !== null && typeof decrypt !== "function") throw new Misuse("decrypt of the ciphers isn't a function");
    this.#ciphers = ciphers;
    this.#keys = issuersOf(issuers).flatMap(([name, keys]) => {
      issuerOf(name);
      return readableKeys(keys).map(key => [name, key, orNull(() => String(labelBytes(KEY, key, IN_ITEM, 2)))]);
    });
  }

  /** Tries each key that fits the layer, in order, and MOST_TRIES keys at most. Returns a promise of the answer for
   * `verifyToken`. Throws InvalidToken, with UNFIT, if no key fits, and with TOO_MANY_KEYS if those that it tried are
   * refused, and more fit. */
  async open(layer) {
    objectOf(layer);
    const { form, algorithm, input, proof, index } = layer, keyId = layer.keyId === null ? NOTHING : own(layer.keyId), named = String(keyId);
    const refusal = status => new InvalidToken(status, index, null, named ? keyId : null);
    let tries = 0;
    for (const [name, key, id] of this.#keys) {
      if (named && id !== named) continue;
      const nonce = keyFits(key, layer);
      if (nonce === null) continue;
      if (tries++ === MOST_TRIES) throw refusal(Status.TOO_MANY_KEYS);
      if (form === ENCRYPT0 && typeof this.#ciphers.decrypt !== "function") throw new Misuse("the ciphers have no function decrypt");
      const said = accepted(form, await (form === ENCRYPT0
        ? this.#ciphers.decrypt(key.slice(), algorithm, nonce, input.slice(), proof.slice())
        : this.#ciphers.verify(key.slice(), algorithm, input.slice(), proof.slice())));
      if (said !== null) return [said, name];
    }
    if (!tries) throw refusal(Status.UNFIT);
    return null;
  }
}

// ---- Making

/** A float for `put` and `putAll`, because a number that is whole is an integer there. */
export class Float {
  constructor(value) {
    if (typeof value !== "number") throw new Misuse("a float is a number");
    this.value = value;
  }
}

/** Returns the bits of a float of 16 bits with the value of these bits of a float of 32 bits, or null if there is none. */
function narrowed(bits) {
  const sign = bits >>> 16 & 0x8000, exponent = (bits >>> 23 & 255) - 127, fraction = bits & 0x7fffff;
  if (!(bits << 1)) return sign;
  if (exponent === 128) return sign | 0x7c00;
  const lost = 13 + Math.max(0, -14 - exponent), whole = 0x800000 | fraction;
  if (exponent > 15 || lost > 23 || whole & (1 << lost) - 1) return null;
  return sign | (Math.max(exponent, -14) + 14 << 10) + (whole >> lost);
}

/** Returns a float in its shortest encoding (RFC 8949, section 4.2.2). */
function encodedFloat({ value }) {
  if (Number.isNaN(value)) return Uint8Array.of(0xf9, 0x7e, 0);
  const found = new Uint8Array(9), view = new DataView(found.buffer);
  view.setFloat32(1, value);
  if (!Object.is(view.getFloat32(1), value)) {
    view.setFloat64(1, value);
    found[0] = 0xfb;
    return found;
  }
  const half = narrowed(view.getUint32(1));
  if (half !== null) view.setUint16(1, half);
  found[0] = half === null ? 0xfa : 0xf9;
  return found.slice(0, half === null ? 5 : 3);
}

/** Returns the header, key, claims set or map, which may be empty, with one more pair at its end. The pair is a label, an
 * integer or a string, and an integer, a Float, a string, or bytes. */
export function put(kind, data, label, value) {
  if (typeof label === "string") return putAll(kind, data, [[label, value]]);
  const given = [number(kind), bytes(data), int64(label)];
  if (value instanceof Float) return written("put", ...given, encodedFloat(value));
  if (isInteger(value)) return written("put_int", ...given, int64(value));
  if (typeof value === "string") return written("put_text", ...given, utf8(value));
  return written("put_bytes", ...given, bytes(value));
}

/** Returns such a map with one more pair: a label, an integer or a string, and a value as its encoding, one item of
 * CBOR. */
export function putEncoded(kind, data, label, value) {
  if (typeof label === "string") return written("put_text_label", number(kind), bytes(data), utf8(label), bytes(value));
  return written("put", number(kind), bytes(data), int64(label), bytes(value));
}

/** A value for `putAll` as its encoding, one item of CBOR. */
export class Encoded {
  constructor(data) {
    this.bytes = own(data);
  }
}

/** Returns the fields of a half of a pair. Appends its text or bytes to the parts. */
function half(name, value, parts) {
  if (isInteger(value)) return { [`${name}_form`]: INT, [name]: int64(value) };
  const at = parts.reduce((sum, part) => sum + part.length, 0);
  const isFloat = value instanceof Float, isEncoded = isFloat || value instanceof Encoded;
  const held = typeof value === "string" ? utf8(value) : isFloat ? encodedFloat(value) : isEncoded ? value.bytes : bytes(value);
  parts.push(held);
  const form = typeof value === "string" ? TEXT : isEncoded ? ENCODED : BYTES;
  return { [`${name}_form`]: form, [`${name}_at`]: at, [`${name}_len`]: held.length };
}

/** Returns the header, key, claims set or map, which may be empty, with these pairs at its end, in order, in one call.
 * `pairs` is a Map, or an array of pairs. A label is an integer or a string. A value is an integer, a Float, a string,
 * bytes, or an Encoded. */
export function putAll(kind, data, pairs) {
  const parts = [], listed = pairsOf(pairs), structs = blank(PAIR, listed.length);
  listed.forEach(([label, value], index) => {
    if (!isInteger(label) && typeof label !== "string") throw new Misuse("a label is an integer or a string");
    writeStruct(PAIR, { ...half("label", label, parts), ...half("value", value, parts) }, structs, index);
  });
  return written("put_all", number(kind), bytes(data), new List(structs, listed.length), joined(parts));
}

/** Does the same as `structure` for a message that isn't made yet, from its protected header. `content` is the payload; a
 * structure that goes with a ciphertext has none. `signer` is the signer's protected header, for SIGN alone. */
export function structureOf(kind, header, options = {}) {
  const { content, signer, externalAad } = settled(options, { content: NOTHING, signer: NOTHING, externalAad: NOTHING });
  return written("structure_of", number(kind), bytes(header), bytes(signer), bytes(externalAad), bytes(content));
}

/** Does the same as `recipientStructure` for a recipient that isn't made yet, from its protected header. */
export function recipientStructureOf(holder, header, options = {}) {
  const { externalAad } = settled(options, { externalAad: NOTHING });
  return written("recipient_structure_of", number(holder), bytes(header), bytes(externalAad));
}

/** Makes a message, a signature or a recipient from its headers, its content, and its signature or tag. The content is the
 * payload or the ciphertext, or null if that is detached. A message with signers or recipients is made without them. */
export function make(kind, header, unprotected, options = {}) {
  const { content, proof } = settled(options, { content: null, proof: NOTHING });
  return written("make", number(kind), bytes(header), bytes(unprotected), ...flagged(content), bytes(proof));
}

/** Returns the item with one more signature, recipient, key or element at the end. A set of keys or an array may begin with
 * no bytes. */
export function add(kind, data, item) {
  return written("add", number(kind), bytes(data), bytes(item));
}

/** Returns the item in its shortest encoding. */
export function write(kind, data) {
  return written("write", number(kind), bytes(data));
}

/** Returns the key in its shortest encoding, with its labels in this order: LEXICOGRAPHIC or LENGTH_FIRST. */
export function canonicalKey(order, data) {
  return written("canonical_key", number(order), bytes(data));
}

// ---- About the module

/** Returns the text of C at an address. */
function textAt(at) {
  const memory = new Uint8Array(loaded().memory.buffer), start = Number(at);
  return decoded(memory.slice(start, memory.indexOf(0, start)));
}

/** Returns the version of the library, followed by ` (unproved)` if it was built without a proof. */
export function version() {
  return textAt(loaded().coset_version());
}

/** Returns the version of the library with a byte for each of its four numbers, such as 0x00040207. */
export function versionNumber() {
  return loaded().coset_version_number() >>> 0;
}

/** Returns a few words for a status of the header. Anything else has one other text. */
export function statusText(status) {
  return textAt(loaded().coset_status_text(Number.isInteger(status) && NAMES[status] ? status : -1));
}
