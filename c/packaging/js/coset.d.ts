/** The types of coset.mjs, which has a comment for each call.
 *
 * An option that is undefined is a Misuse. With `exactOptionalPropertyTypes`, `tsc` reports it. */

/** Bytes that a call takes. A view with longer elements is a Misuse. */
export type Data = Uint8Array | Uint8ClampedArray | Int8Array | DataView | ArrayBufferLike;
/** An integer of CBOR: a number if that is exact, else a bigint. */
export type Integer = number | bigint;
/** The name of a status: the reason of an error. */
export type Reason = keyof typeof Status;

export const SIGN1: 1, SIGN: 2, MAC0: 3, MAC: 4, ENCRYPT0: 5, ENCRYPT: 6, SIGNATURE: 7, RECIPIENT: 8;
export const HEADER: 9, KEY: 10, KEY_SET: 11, CLAIMS: 12, ITEM: 13, KDF_CONTEXT: 14;
export const TAGGED: 0x100, EITHER: 0x200;
export const PROTECTED: 1, PAYLOAD: 2, CIPHERTEXT: 3, PROOF: 4;
export const IN_PROTECTED: 1, IN_UNPROTECTED: 2, IN_ITEM: 3;
export const LEXICOGRAPHIC: 1, LENGTH_FIRST: 2;
export const BY_SIGNATURE: 1, BY_ANY: 2;
export const MOST_TRIES: 16;
export const NONE: 0, INT: 1, TEXT: 2, BYTES: 3, ENCODED: 4;
export const UNDERSTOOD: 1, NOT_UNDERSTOOD: 2;

export const MajorType: Readonly<{ UNSIGNED: 0; NEGATIVE: 1; BYTE_STRING: 2; TEXT_STRING: 3; ARRAY: 4; MAP: 5; TAG: 6; SIMPLE: 7 }>;

export const ES256: -7, ES384: -35, ES512: -36, ES256K: -47, ESP256: -9, ESP384: -51, ESP512: -52;
export const EDDSA: -8, ED25519: -19, ED448: -53;
export const PS256: -37, PS384: -38, PS512: -39, RS256: -257, RS384: -258, RS512: -259;
export const HMAC_256_64: 4, HMAC_256_256: 5, HMAC_384_384: 6, HMAC_512_512: 7;
export const A128GCM: 1, A192GCM: 2, A256GCM: 3, CHACHA20_POLY1305: 24;

export const Status: Readonly<{
  OK: 0; SHORT: 1; MEMORY: 2; ENDS: 3; MALFORMED: 4; DEEP: 5; EXTRANEOUS: 6; UNEXPECTED: 7; DUPLICATE: 8; OUT_OF_RANGE: 9;
  UNREGISTERED: 10; NOT_PRIVATE: 11; ABSENT: 12; MISUSE: 13; TYPE: 14; EMPTY: 15; NOT_ALLOWED: 16; CRITICAL: 17; REFUSED: 18;
  LAYER: 19; TOO_DEEP: 20; UNAUTHENTICATED: 21; NOT_CLAIMS: 22; NO_EXPIRATION: 23; EXPIRED: 24; NOT_YET_VALID: 25;
  ISSUED_LATER: 26; TOO_OLD: 27; ISSUER: 28; AUDIENCE: 29; HEADERS: 30; TOKEN_TYPE: 31; HEADER_CLAIMS: 32; MISSING: 33; UNFIT: 34;
  TOO_MANY_KEYS: 35;
}>;

export class CosetError extends Error {
  readonly status: number;
  readonly reason: Reason;
}
export class Fault extends CosetError {
  readonly offset: number | null;
}
export class Absent extends CosetError {}
export class Empty extends CosetError {}
export class WrongType extends CosetError {}
export class Misuse extends CosetError {}
export class OutOfMemory extends CosetError {}
export class Refused extends CosetError {}
export class NotAllowed extends Refused {}
export class Critical extends Refused {}
export class WrongHeaders extends Refused {}
export class InvalidToken extends CosetError {
  constructor(status: number, layer?: number | null, number?: Integer | null, keyId?: Uint8Array | null);
  readonly layer: number | null;
  readonly number: Integer | null;
  readonly keyId: Uint8Array | null;
}

/** A range of the input, for `subarray(start, end)`. */
export interface Span {
  readonly start: number;
  readonly end: number;
}
/** Everything that verifying or decrypting a message takes. */
export interface Message {
  readonly algorithm: Integer | null;
  readonly algorithmForm: number;
  readonly keyIdMap: number | null;
  readonly critical: number;
  readonly isTagged: boolean;
  readonly input: Uint8Array;
  readonly proof: Uint8Array;
  readonly content: Uint8Array;
  readonly keyId: Uint8Array;
}
/** Everything that verifying a message with one signature takes. */
export interface Sign1 {
  readonly algorithm: Integer | null;
  readonly algorithmForm: number;
  readonly keyIdMap: number | null;
  readonly hasCritical: boolean;
  readonly isTagged: boolean;
  readonly signed: Uint8Array;
  readonly signature: Uint8Array;
  readonly payload: Uint8Array;
  readonly keyId: Uint8Array;
}
/** The question that the caller's function answers about a message. */
export interface Question {
  readonly kind: number;
  readonly algorithm: Integer;
  readonly keyId: Uint8Array | null;
  readonly keyIdMap: number | null;
  readonly input: Uint8Array;
  readonly proof: Uint8Array;
  readonly iv: Uint8Array | null;
  readonly partialIv: Uint8Array | null;
  readonly ivMap: number | null;
  readonly partialIvMap: number | null;
}
/** The question that the caller's function answers about a layer of a token. */
export interface Layer extends Omit<Question, "kind" | "ivMap" | "partialIvMap"> {
  readonly form: number;
  readonly index: number;
}
export interface VerifiedLayer {
  readonly form: number;
  readonly protected: Uint8Array;
  readonly unprotected: Uint8Array;
  readonly issuer: string | null;
}
export interface VerifiedToken {
  readonly claims: Uint8Array;
  readonly audience: readonly string[];
  readonly others: Uint8Array;
  readonly issuer: string | null;
  readonly layers: readonly VerifiedLayer[];
}

export interface AadOptions {
  externalAad?: Data;
}
export interface DetachedOptions extends AadOptions {
  detached?: Data | null;
}
export interface IndexOptions extends DetachedOptions {
  index?: number;
}
export interface MessageOptions extends IndexOptions {
  critical?: readonly Integer[];
}
export interface DecryptOptions extends DetachedOptions {
  algorithms: readonly Integer[];
  critical?: readonly Integer[];
}
export interface VerifyOptions extends DecryptOptions {
  index?: number;
}
export interface CountersignOptions extends DetachedOptions {
  signer?: Data;
}
export interface StructureOfOptions extends AadOptions {
  content?: Data;
  signer?: Data;
}
export interface MakeOptions {
  content?: Data | null;
  proof?: Data;
}
export interface TokenOptions {
  algorithms: readonly Integer[];
  audience?: readonly string[];
  types?: readonly string[];
  required?: readonly Integer[];
  critical?: readonly Integer[];
  leeway?: Integer;
  maxAge?: Integer | null;
  untaggedForm?: number;
  authenticatedBy?: number;
  anyAudience?: boolean;
  mayNotExpire?: boolean;
  mayBeIssuedLater?: boolean;
  now?: Integer | null;
}

export type Awaitable<T> = T | PromiseLike<T>;
/** Returns true if the question's proof is a signature or a MAC of its input. */
export type Verifier = (question: Question) => Awaitable<boolean>;
/** Returns the plaintext, or null if the ciphertext isn't authentic. */
export type Decrypter = (question: Question) => Awaitable<Data | false | null | undefined>;
/** The answer for a layer: true for a signature or a MAC, the plaintext of a ciphertext, or a refusal. */
export type Answer = boolean | Data | null | undefined;
export type Keys = (layer: Layer) => Awaitable<Answer | [Answer, string | null]>;
export interface Ciphers {
  verify(key: Uint8Array, algorithm: Integer, input: Uint8Array, proof: Uint8Array): Awaitable<boolean | null | undefined>;
  decrypt?(key: Uint8Array, algorithm: Integer, nonce: Uint8Array, aad: Uint8Array, ciphertext: Uint8Array): Awaitable<Data | null | undefined>;
}
export type Issuers = Iterable<readonly [string | null, Data]> | { readonly [name: string]: Data };
export class KeyRing {
  constructor(issuers: Issuers, ciphers: Ciphers);
  open(layer: Layer): Promise<[true | Uint8Array, string | null] | null>;
}
/** A value for `putAll` as its encoding. */
export class Encoded {
  constructor(data: Data);
  readonly bytes: Uint8Array;
}
/** A float for `put` and `putAll`. */
export class Float {
  constructor(value: number);
  readonly value: number;
}
export type Value = Integer | Float | string | Data;

export function check(kind: number, data: Data): void;
export function count(kind: number, data: Data): number;
export function part(kind: number, data: Data, which: number): Uint8Array;
export function member(kind: number, data: Data, index: number): Uint8Array;
export function memberSpan(kind: number, data: Data, index: number): Span;
export function pairSpans(kind: number, data: Data, index: number): [Span, Span];
export function labelSpan(kind: number, data: Data, which: number, label: Integer): Span;
export function itemSpan(data: Data, at: number): Span;
export function stringSpan(data: Data): Span;
export function integer(data: Data): Integer;
export function majorType(data: Data): number;
export function simpleValue(data: Data): boolean | null;
export function floatValue(data: Data): number;
export function mapSpans(kind: number, data: Data): [Span, Span][];
export function label(kind: number, data: Data, which: number, name: Integer | string): Uint8Array;
export function has(kind: number, data: Data, which: number, name: Integer | string): boolean;
export function labelBytes(kind: number, data: Data, which: number, name: Integer): Uint8Array;
export function labelInt(kind: number, data: Data, which: number, name: Integer): Integer;
export function labelAt(kind: number, data: Data, index: number): Uint8Array;
export function valueAt(kind: number, data: Data, index: number): Uint8Array;
export function keyOf(data: Data, keyId: Data): Uint8Array;
export function structure(kind: number, data: Data, options?: IndexOptions): Uint8Array;
export function recipientStructure(holder: number, data: Data, options?: AadOptions): Uint8Array;
export function countersignStructure(kind: number, data: Data, label: Integer, options?: CountersignOptions): Uint8Array;
export function message(kind: number, data: Data, options?: MessageOptions): Message;
export function sign1(kind: number, data: Data, options?: DetachedOptions): Sign1;
export function verify(kind: number, data: Data, options: VerifyOptions, ask: Verifier): Promise<Uint8Array>;
export function decrypt(kind: number, data: Data, options: DecryptOptions, open: Decrypter): Promise<Uint8Array>;
export function verifyToken(data: Data, keys: KeyRing | Keys, options: TokenOptions): Promise<VerifiedToken>;
export function keyFits(key: Data, layer: Pick<Layer, "form" | "algorithm" | "keyId" | "iv" | "partialIv" | "proof">): Uint8Array | null;
export function readableKeys(keys: Data): Uint8Array[];
export function put(kind: number, data: Data, label: Integer | string, value: Value): Uint8Array;
export function putEncoded(kind: number, data: Data, label: Integer | string, value: Data): Uint8Array;
export function putAll(kind: number, data: Data, pairs: Iterable<readonly [Integer | string, Value | Encoded]>): Uint8Array;
export function structureOf(kind: number, header: Data, options?: StructureOfOptions): Uint8Array;
export function recipientStructureOf(holder: number, header: Data, options?: AadOptions): Uint8Array;
export function make(kind: number, header: Data, unprotected: Data, options?: MakeOptions): Uint8Array;
export function add(kind: number, data: Data, item: Data): Uint8Array;
export function write(kind: number, data: Data): Uint8Array;
export function canonicalKey(order: number, data: Data): Uint8Array;
export function version(): string;
export function versionNumber(): number;
export function statusText(status: number): string;
