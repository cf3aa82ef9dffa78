// ---- Keys as people have them, as COSE_Keys: JWK (RFC 7517), PEM (RFC 7468), and COSE_Keys in each spelling that the module reads
const KEY_LABELS = { kty: 1, kid: 2, alg: 3, key_ops: 4 };
const KEY_TYPES = { OKP: 1, EC: 2, RSA: 3, oct: 4 };
const CURVES = { "P-256": 1, "P-384": 2, "P-521": 3, X25519: 4, X448: 5, Ed25519: 6, Ed448: 7, secp256k1: 8 };
const ALGORITHMS = { ES256: -7, ES384: -35, ES512: -36, EdDSA: -8, Ed25519: -19, PS256: -37, PS384: -38, PS512: -39, RS256: -257, RS384: -258,
  RS512: -259, HS256: 5, HS384: 6, HS512: 7, ES256K: -47, ESP256: -9, ESP384: -51, ESP512: -52 };
// The algorithms of a key without alg, by its curve or type. JOSE's ES256 is COSE's ESP256 too, since both fix the curve (RFC 9864).
const ALGORITHMS_OF = { "P-256": ["ES256", "ESP256"], "P-384": ["ES384", "ESP384"], "P-521": ["ES512", "ESP512"], Ed25519: ["EdDSA", "Ed25519"],
  RSA: ["PS256", "PS384", "PS512", "RS256", "RS384", "RS512"] };
const OPERATIONS = { sign: 1, verify: 2, encrypt: 3, decrypt: 4, wrapKey: 5, unwrapKey: 6, deriveKey: 7, deriveBits: 8 };
const MAC_OPERATIONS = { sign: 9, verify: 10 };
const MEMBERS = { OKP: [[-2, "x"]], EC: [[-2, "x"], [-3, "y"]], RSA: [[-1, "n"], [-2, "e"]], oct: [[-1, "k"]] };
const EDWARDS = "06032b6570", NIST = { "06082a8648ce3d030107": "P-256", "06052b81040022": "P-384", "06052b81040023": "P-521" };
const PEM = /-----BEGIN ((?:[A-Z0-9]+ )*(?:KEY|CERTIFICATE|REQUEST|PARAMETERS))-----([^-]*)-----END/g;
const RSA = "06092a864886f70d0101";  // object identifiers of keys
const USAGE = "0603551d0f0101ff";  // the object identifier of keyUsage, and that it is critical
const NO_CIPHERS = "this browser has no ciphers for this page";
const UNCHECKED = "The certificate's dates, usage and issuer aren't checked.";

function headOf(major, n) {
  const width = n < 24 ? 0 : n < 256 ? 1 : n < 65536 ? 2 : 4, first = 32 * major + (width ? 23 + [1, 2, 4].indexOf(width) + 1 : n);
  return [first, ...Array.from({ length: width }, (_, i) => n >>> 8 * (width - 1 - i) & 255)];
}

function integerOf(n) {
  return n < 0 ? headOf(1, -1 - n) : headOf(0, n);
}

function stringOf(bytes) {
  return [...headOf(2, bytes.length), ...bytes];
}

function bytesOfBase64(text) {
  return Uint8Array.from(atob(text.replace(/-/g, "+").replace(/_/g, "/").replace(/\s/g, "")), it => it.charCodeAt(0));
}

// Returns the encoding of a COSE_KeySet.
function setOf(keys) {
  return Uint8Array.from([...headOf(4, keys.length), ...keys.flat()]);
}

// Returns what a table has under a name, or nothing. A table also inherits names, such as "constructor".
function under(table, name) {
  return typeof name === "string" && Object.hasOwn(table, name) ? table[name] : undefined;
}

// Returns the algorithms that a key is for: of those of a message, all that its alg, or else its curve or type, allows.
function algorithmsOf({ alg, crv, kty }, names) {
  const own = under(ALGORITHMS_OF, crv ?? kty) ?? [], isOwn = alg === undefined || (/^ES\d/.test(alg) && own[0] === alg);
  const found = isOwn ? own.filter(it => names.includes(it)) : [];
  return found.length ? found : [alg ?? own[0]];
}

function operationsOf({ key_ops, kty }) {
  if (!Array.isArray(key_ops)) throw new Error("its key_ops are no list");
  const numbers = key_ops.map(it => (kty === "oct" && under(MAC_OPERATIONS, it)) || under(OPERATIONS, it));
  if (numbers.includes(undefined)) throw new Error(`its key_ops "${key_ops}" have no number in COSE`);
  return [...headOf(4, numbers.length), ...numbers.flatMap(integerOf)];
}

// Returns the encoding of a JWK as COSE_Key for an algorithm, if one is given, without its private members.
function coseKey(jwk, algorithm) {
  const members = under(MEMBERS, jwk.kty), number = under(ALGORITHMS, algorithm);
  if (!members) throw new Error(`its kty "${jwk.kty}" isn't known here`);
  if (jwk.use !== undefined && jwk.use !== "sig") throw new Error(`its use is "${jwk.use}", so it checks no signature`);
  if (jwk.crv !== undefined && !under(CURVES, jwk.crv)) throw new Error(`its crv "${jwk.crv}" isn't known here`);
  if (algorithm !== undefined && !number) throw new Error(`its alg "${algorithm}" has no number in COSE that this page knows`);
  if (jwk.kid !== undefined && typeof jwk.kid !== "string") throw new Error("its kid is no text");
  const pairs = [[KEY_LABELS.kty, integerOf(KEY_TYPES[jwk.kty])]];
  if (jwk.kid !== undefined) pairs.push([KEY_LABELS.kid, stringOf(encoder.encode(jwk.kid))]);
  if (number) pairs.push([KEY_LABELS.alg, integerOf(number)]);
  if (jwk.key_ops !== undefined) pairs.push([KEY_LABELS.key_ops, operationsOf(jwk)]);
  if (jwk.crv !== undefined) pairs.push([-1, integerOf(CURVES[jwk.crv])]);
  for (const [label, name] of members) {
    if (typeof jwk[name] !== "string") throw new Error(`its member "${name}" is missing`);
    pairs.push([label, stringOf(bytesOfBase64(jwk[name]))]);
  }
  return [...headOf(5, pairs.length), ...pairs.flatMap(([label, value]) => [...integerOf(label), ...value])];
}

function jwksOf(text) {
  const told = JSON.parse(text), keys = Array.isArray(told) ? told : told.keys ?? [told];
  const isSet = Array.isArray(keys) && keys.every(it => it && typeof it === "object" && it.kty !== undefined);
  if (!isSet) throw new Error("the JSON is neither a JWK nor a JWK set");
  return keys;
}

// ---- PEM and DER

// Returns the elements of a DER sequence, each with its content and as a whole.
function elementsOf(der) {
  const found = [];
  for (let place = 0; place < der.length;) {
    let start = place + 2, length = der[place + 1];
    if (length > 127) {
      length = der.subarray(start, start + length - 128).reduce((sum, it) => 256 * sum + it, 0);
      start += der[place + 1] - 128;
    }
    found.push({ tag: der[place], content: der.subarray(start, start + length), whole: der.subarray(place, start + length) });
    if (!(start + length <= der.length)) throw new Error("its DER ends too early");
    place = start + length;
  }
  return found;
}

// Returns the SubjectPublicKeyInfo of a certificate: the seventh element, or the sixth if there is no version. Of the extensions, only a
// critical keyUsage is read: the first bit of its octets is digitalSignature (RFC 5280, section 4.2.1.3).
function keyOfCertificate(der) {
  const elements = elementsOf(elementsOf(elementsOf(der)[0].content)[0].content), extensions = elements.find(it => it.tag === 0xa3);
  for (const { content } of extensions ? elementsOf(elementsOf(extensions.content)[0].content) : []) {
    const digits = hexOf(content);
    if (digits.startsWith(USAGE) && !/^04..03....[89a-f]/.test(digits.slice(USAGE.length))) throw new Error("the certificate's key is not for signatures");
  }
  return elements[elements[0].tag === 0xa0 ? 6 : 5].whole;
}

// Returns the name by which WebCrypto imports a key, by the object identifiers in its DER.
function importerOf(spki) {
  const digits = hexOf(spki.subarray(0, 40)), curve = Object.keys(NIST).find(it => digits.includes(it));
  if (digits.includes(RSA)) return { name: "RSA-PSS", hash: "SHA-256" };
  if (digits.includes(EDWARDS)) return { name: "Ed25519" };
  if (curve) return { name: "ECDSA", namedCurve: NIST[curve] };
  throw new Error("its kind of key isn't known here: P-256, P-384, P-521, Ed25519 and RSA are");
}

// Returns a key of PEM as JWK. An RSA key names no algorithm.
async function jwkOfPem([, label, body]) {
  if (!["PUBLIC KEY", "CERTIFICATE"].includes(label)) throw new Error(`PEM of a ${label} isn't read: give a PUBLIC KEY or a CERTIFICATE`);
  if (!crypto.subtle) throw new Error(NO_CIPHERS);
  const der = bytesOfBase64(body), spki = label === "CERTIFICATE" ? keyOfCertificate(der) : der;
  const key = await crypto.subtle.importKey("spki", spki, importerOf(spki), true, ["verify"]);
  const { kty, crv, x, y, n, e } = await crypto.subtle.exportKey("jwk", key);
  return Object.fromEntries(Object.entries({ kty, crv, x, y, n, e }).filter(([, it]) => it !== undefined));
}

// ---- The key field

// Returns the bytes that a text spells, as the module reads it.
async function bytesOfText(text) {
  const { status, text: told } = await call("look", encoder.encode(text), VALUE, ROWS, NaN, NO_BYTES), found = parsed(new Uint8Array(told));
  if (status !== 0) throw new Error(found.said.startsWith("error: ") ? found.said.slice(7) : found.summary || found.said);
  return bytesOfHex(digitsOf(0, found.count, found));
}

// Returns the COSE_Keys of JWKs, the place of each in the list of JWKs, and a sentence on each JWK that isn't one or is an error.
// `names` are the message's algorithms. A JWK becomes a key for each of them that it is for.
function keysOfJwks(jwks, names) {
  const keys = [], problems = [], places = [];
  for (const [i, jwk] of jwks.entries()) {
    try {
      if (jwk instanceof Error) throw jwk;
      const made = algorithmsOf(jwk, names).map(it => coseKey(jwk, it));
      keys.push(...made);
      places.push(...made.map(() => i));
    } catch (error) {
      problems.push(`key ${i}: ${error.message || error}`);
    }
  }
  return { bytes: setOf(keys), problems, places };
}

// Reads the key field. Returns a function from the algorithms of the message to the bytes of a COSE_Key or a COSE_KeySet, with
// sentences on keys that aren't read, and the places of certificates. Returns null if the field is empty.
async function keysGiven() {
  const text = at("key").value.trim();
  if (text === "") return null;
  try {
    if (/^[[{]\s*["{]/.test(text)) return (jwks => names => keysOfJwks(jwks, names))(jwksOf(text));
    const blocks = [...text.matchAll(PEM)].filter(it => !it[1].includes("COSE"));
    if (!blocks.length) return (bytes => () => ({ bytes, problems: [] }))(await bytesOfText(text));
    const jwks = await Promise.all(blocks.map(it => jwkOfPem(it).catch(error => error)));
    const certificates = [...blocks.keys()].filter(i => blocks[i][1] === "CERTIFICATE" && !(jwks[i] instanceof Error));
    return names => ({ ...keysOfJwks(jwks, names), certificates });
  } catch (error) {
    return () => ({ bytes: null, problems: [error.message || String(error)] });
  }
}
