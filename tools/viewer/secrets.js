// ---- Private and symmetric keys in bytes, of which the page makes no link. In doubt, it makes none
// For each key type (kty): the labels of private and symmetric parts.
const SECRETS = { 1: [-4], 2: [-4], 3: [-3, -4, -5, -6, -7, -8, -9, -10, -11, -12], 4: [-1], 5: [], 6: [], 7: [-2] };
const PARTS = ["d", "p", "q", "dp", "dq", "qi", "oth", "k", "priv"];  // such parts of a JWK
const ANY = [...PARTS, ...Object.values(SECRETS).flat().map(String)];  // such labels of any type
const KTY = /\bkty["'\\]*\s*:/, PART = /\b(?:d|p|q|dp|dq|qi|oth|k|priv)["'\\]*\s*:/;
const FILES = /BEGIN[^-]*PRIVATE.KEY|openssh-key-v1|PuTTY-User-Key-File|AGE-SECRET-KEY/s;  // PEM, and files of other programs
// DER of PKCS #1, SEC 1, PKCS #8 and PKCS #12: a sequence that begins with a version. A number, a string, or a sequence with an object
// identifier follows it. The last part is that of encrypted keys: the object identifier of PKCS #5 or of PKCS #12.
const SEQUENCE = String.raw`\x30(?:[^]|\x81[^]|\x82[^]{2}|\x83[^]{3}|\x84[^]{4})`;
const VERSION = String.raw`\x02\x01(?:[\0\x01]\x02|\x01\x04|[\0\x01\x03]${SEQUENCE}\x06)`;
const DER = new RegExp(String.raw`${SEQUENCE}${VERSION}|\x2a\x86\x48\x86\xf7\x0d\x01(?:\x05|\x0c\x01)`);
const LEVELS = 5, MANY = 1e6;  // the most spellings inside one another, and the most bytes in all of them, that are looked through
const WHOLE = 24, SHORTEST = 8;  // the fewest characters of a key, and bytes of its private part, if its type isn't known

// Reads the head of an item: its major type, its number (infinite for an indefinite length), and the places of its content and after it.
function headAt(bytes, place) {
  const low = bytes[place] & 31, width = low < 24 || low === 31 ? 0 : 2 ** (low - 24), next = place + 1 + width;
  let number = low === 31 ? Infinity : width ? 0 : low;
  for (let i = 1; i <= width; i++) number = 256 * number + bytes[place + i];
  const major = bytes[place] >> 5, isString = major === 2 || major === 3;
  return { major, number, isString, next, after: isString && number !== Infinity ? next + number : next };
}

// Returns the place after an item. It is infinite if the bytes end within the item.
function placeAfter(bytes, place) {
  for (const left = [1]; left.length;) {
    if (!(place < bytes.length)) return Infinity;
    const { major, number, isString, after } = headAt(bytes, place);
    place = after;
    if (major === 7 && number === Infinity) left.pop();
    else {
      left[left.length - 1]--;
      left.push(major === 4 || (isString && number === Infinity) ? number : major === 5 ? 2 * number : major === 6 ? 1 : 0);
    }
    while (left[left.length - 1] === 0) left.pop();
  }
  return place <= bytes.length ? place : Infinity;
}

// Returns the content of a string in chunks. The bytes may end within it.
function chunksAt(bytes, start) {
  const found = [];
  for (let place = start + 1; place < bytes.length && bytes[place] >> 5 === bytes[start] >> 5;) {
    const { number, next, after } = headAt(bytes, place);
    if (number === Infinity) break;
    found.push(...bytes.subarray(next, after));
    place = after;
  }
  return Uint8Array.from(found);
}

// Returns the label at a place as a text, or nothing if it is neither a number nor a text.
function labelAt(bytes, place) {
  const { major, number, next, after } = headAt(bytes, place);
  if (major < 2) return String(major ? -1 - number : number);
  const text = major < 4 && decoder.decode(number === Infinity ? chunksAt(bytes, place) : bytes.subarray(next, after));
  return text && isText(text) ? text : undefined;
}

// Returns the pairs of a map, each with its label and the head of its value, and whether the bytes end within the map. The pairs end
// at a label that is neither a number nor a text, unless an item begins there for sure.
function pairsAt(bytes, start, isItem) {
  const { number, next } = headAt(bytes, start), pairs = [];
  let place = next, left = number;
  for (; left > 0 && place < bytes.length && bytes[place] !== 255; left--) {
    const label = labelAt(bytes, place);
    if (label === undefined && !isItem) break;
    const value = placeAfter(bytes, place);
    pairs.push({ label, ...headAt(bytes, value) });
    place = placeAfter(bytes, value);
  }
  return { pairs, isCut: number === Infinity ? bytes[place] !== 255 : left !== 0 || place > bytes.length };
}

// Returns true if a map at a place is a COSE_Key or JWK with a private or symmetric part. If an item begins there for sure, it also
// returns true if the type is none that is known here, if the bytes end before it, or if a label is neither a number nor a text.
function isKeyAt(bytes, start, isItem) {
  if (bytes[start] >> 5 !== 5) return false;
  const { pairs, isCut } = pairsAt(bytes, start, isItem), isOne = labels => pairs.some(it => labels.includes(it.label));
  const types = pairs.filter(it => it.label === "1").map(it => it.major === 0 ? it.number : "another");
  if (types.some(it => isOne((SECRETS[it] ?? []).map(String))) || (isOne(["kty"]) && isOne(PARTS))) return true;
  const isOdd = isOne([undefined]), isOpen = types.length ? types.some(it => !SECRETS[it]) : isCut && !isOdd;
  const isAny = pairs.some(it => ANY.includes(it.label) && it.isString && it.number >= SHORTEST);
  return isItem && ((types.length > 0 && isOdd) || (isOpen && isAny));
}

// Returns the heads of the first item and of those in it, or of all items of a sequence. Those in strings are left out.
function headsOf(bytes, isSequence) {
  const found = [], end = Math.min(isSequence ? Infinity : placeAfter(bytes, 0), bytes.length);
  for (let place = 0; place < end; place = found[found.length - 1].after) found.push({ place, ...headAt(bytes, place) });
  return found;
}

// Returns the characters of bytes, one for each.
function charactersOf(bytes) {
  return Array.from(bytes, it => String.fromCharCode(it)).join("");
}

function bytesOfCharacters(text) {
  return Uint8Array.from(text, it => it.charCodeAt(0));
}

// Returns true if JSON has no end, and has the name of a private or symmetric part. The name of its type may be missing.
function isCutJson(text) {
  try {
    JSON.parse(text);
    return false;
  } catch {
    return /^\s*[[{]/.test(text) && PART.test(text);
  }
}

// Returns true if a part contains a private or symmetric key: as a map, as JSON, or in PEM or DER.
function holdsKey({ bytes, isItem, level }, text) {
  if (FILES.test(text) || DER.test(text) || (KTY.test(text) && PART.test(text))) return true;
  if (bytes.some((_, i) => isKeyAt(bytes, i, false))) return true;
  if (!isItem) return false;
  return isText(decoder.decode(bytes)) ? isCutJson(text) : headsOf(bytes, !level).some(it => isKeyAt(bytes, it.place, true));
}

// Returns a text without escapes and without the zeros of UTF-16.
function unescaped(text) {
  const plain = text.replace(/\0/g, "").replace(/(?:%|\\+(?:x|u00))([0-9a-f]{2})/gi, (_, it) => String.fromCharCode(parseInt(it, 16)));
  return plain.replace(/\\+[nrt]/g, "\n").replace(/\\+(["'/])/g, "$1");
}

// Returns the parts of a text that its digits in hexadecimal or base64 may spell. A spelling may begin anywhere in such a run.
function spelledIn(text) {
  const hex = text.replace(/0x|[\s,:;'"]/gi, ""), base64 = text.replace(/[\s,'"]/g, "");
  const parts = (of, run, ways, bytesOf) => [...of.matchAll(run)].flatMap(([it]) =>
    Array.from({ length: ways }, (_, i) => ({ bytes: bytesOf(it.slice(i)), isItem: i === 0 && it.length >= WHOLE })));
  const bytesOf = it => bytesOfBase64(it.length % 4 === 1 ? it.slice(0, -1) : it);
  const digits = [text, hex].flatMap(it => parts(it, /[0-9a-f]{8,}/gi, 2, bytesOfHex));
  return [...digits, ...[text, base64].flatMap(it => parts(it, /[0-9A-Za-z+/_-]{8,}/g, 4, bytesOf))];
}

// Returns the parts inside a part: strings, also those in chunks, the text without escapes, and what it spells.
function partsOf({ bytes, isItem, level }, text) {
  const strings = isItem ? headsOf(bytes, !level).filter(it => it.isString) : [];
  const held = strings.map(it => ({ bytes: it.number === Infinity ? chunksAt(bytes, it.place) : bytes.subarray(it.next, it.after), isItem: true }));
  const chunked = [...bytes.keys()].filter(i => bytes[i] === 0x5f || bytes[i] === 0x7f).map(i => ({ bytes: chunksAt(bytes, i) }));
  return [...held, ...chunked, { bytes: bytesOfCharacters(unescaped(text)) }, ...spelledIn(text)];
}

// Returns true if bytes contain a private or symmetric key in any spelling, or if they have too many parts to tell.
function mayHoldKey(whole) {
  const parts = [{ bytes: whole, isItem: true, level: 0 }], seen = new Set();
  let length = 0;
  for (const part of parts) {
    const text = charactersOf(part.bytes), name = `${Boolean(part.isItem)} ${text}`;
    if (seen.has(name)) continue;
    seen.add(name);
    length += text.length;
    if (length > MANY || holdsKey(part, text)) return true;
    if (part.level < LEVELS) parts.push(...partsOf(part, text).map(it => ({ ...it, level: part.level + 1 })));
  }
  return false;
}

// Returns true if a link would contain a private or symmetric key, whether the rows show it or not.
function hasSecret() {
  return mayHoldKey(bytesOfHex(digitsOf(0, rows.count)));
}

// Returns true if a row is the private information in the context of a key derivation (RFC 8152, section 11.2).
function hasPrivateInformation() {
  return Array.from({ length: rows.count }, (_, i) => row(i).note).some(it => it.startsWith("SuppPrivInfo"));
}

// Returns true if bytes that aren't taken apart may be a key's: DER, and what follows a fault outside messages.
function mayHide() {
  return /\bDER\b/.test(rows.said) || (firstRefused() >= 0 && messageFrom(0) < 0);
}
