// ---- Signatures and MACs, checked by the browser's ciphers. The module says which key fits which, and what is signed
const VALUE = 2;  // the kind of any CBOR
// For an algorithm's number: its name, and WebCrypto's cipher, the bits of its hash, and the length of a MAC.
const CHECKS = {
  "-7": ["ES256", "ECDSA", 256], "-35": ["ES384", "ECDSA", 384], "-36": ["ES512", "ECDSA", 512], "-9": ["ESP256", "ECDSA", 256],
  "-51": ["ESP384", "ECDSA", 384], "-52": ["ESP512", "ECDSA", 512], "-8": ["EdDSA", "Ed25519"], "-19": ["Ed25519", "Ed25519"],
  "-37": ["PS256", "RSA-PSS", 256], "-38": ["PS384", "RSA-PSS", 384], "-39": ["PS512", "RSA-PSS", 512],
  "-257": ["RS256", "RSASSA-PKCS1-v1_5", 256], "-258": ["RS384", "RSASSA-PKCS1-v1_5", 384], "-259": ["RS512", "RSASSA-PKCS1-v1_5", 512],
  4: ["HMAC 256/64", "HMAC", 256, 8], 5: ["HMAC 256/256", "HMAC", 256, 32], 6: ["HMAC 384/384", "HMAC", 384, 48], 7: ["HMAC 512/512", "HMAC", 512, 64],
};
const REASONS = {
  algorithm: "no key fits, because the message's algorithm isn't in the table", alg: "it has no alg, or another than the message's",
  kty: "its kty isn't one for the algorithm", crv: "its crv isn't one for the algorithm", length: "a member or the signature has a length that the algorithm doesn't allow",
  key_ops: "its key_ops don't allow this", kid: "the message names a key with another kid",
};
const UNUSED = "The key checks nothing here. Only signatures and MACs of a message that is the whole input, and of messages in its payload, are checked.";
const CURVE_NAMES = Object.fromEntries(Object.entries(CURVES).map(([name, number]) => [number, name]));
const MESSAGE = /^COSE_(Sign1|Sign|Mac0|Mac|Encrypt0|Encrypt)\b/;

// Marks keys that have the same kid, so that sentences name them by their places too.
function nameTwins(keys) {
  const places = new Map();
  for (const { kid, index } of keys) places.set(kid, (places.get(kid) ?? new Set()).add(index));
  for (const it of keys) it.isTwin = places.get(it.kid).size > 1;
}

// Parses the module's lines on signatures. Returns these, each with its keys, and the errors of keys that can't be read. `places` has
// the place of each key in what the user gave, if that differs.
function sealsIn(text, places) {
  const seals = [], unread = [], placeOf = index => places?.[index] ?? index;
  for (const line of text.split("\n")) {
    const [sort, ...fields] = line.split("\t");
    if (sort === "S") {
      const [name, form, algorithm, structure, proof, headers] = fields;
      seals.push({ name, form, algorithm, structure, proof: proof === "-" ? "" : proof, headers: headers || "-", keys: [] });
    } else if (sort === "K") {
      const [index, kid, verdict, kty, crv, ...members] = fields;
      seals[seals.length - 1].keys.push({ index: placeOf(index), kid, verdict, kty, crv, ...Object.fromEntries(members.map(it => it.split("="))) });
    } else if (sort === "X") unread.push(fields[0] === "-" ? `the keys: ${fields[1]}` : `key ${placeOf(fields[0])}: ${fields[1]}`);
  }
  for (const { keys } of seals) nameTwins(keys);
  return { seals, unread, isCut: /^\.\. more/m.test(text) };
}

async function sealsOf([input, kind, , , aad], keys, places) {
  const { status, text } = await call("seals", input, kind, keys, aad);
  return status === 0 ? sealsIn(decoder.decode(text), places) : { seals: [], unread: [], isCut: false };
}

// ---- WebCrypto

function base64url(digits) {
  return btoa(String.fromCharCode(...bytesOfHex(digits))).replace(/\+/g, "-").replace(/\//g, "_").replace(/=/g, "");
}

function importable({ kty, crv, x, y, n, e }) {
  if (kty === "3") return { kty: "RSA", n: base64url(n), e: base64url(e) };
  if (kty === "1") return { kty: "OKP", crv: CURVE_NAMES[crv], x: base64url(x) };
  if (/^sign/.test(y)) throw new Error("its y is given by its sign alone, which the browser can't use");
  return { kty: "EC", crv: CURVE_NAMES[crv], x: base64url(x), y: base64url(y) };
}

// Returns the bytes of a structure, which are made once for all keys.
function structureOf(seal) {
  return seal.bytes ??= bytesOfHex(seal.structure);
}

// Returns true if the signature or MAC is the key's.
async function isMadeBy(seal, key) {
  const [, name, bits, length] = CHECKS[seal.algorithm], hash = bits && `SHA-${bits}`, structure = structureOf(seal);
  if (!crypto.subtle) throw new Error(NO_CIPHERS);
  if (name === "HMAC") {
    const made = await crypto.subtle.importKey("raw", bytesOfHex(key.k), { name, hash }, false, ["sign"]);
    return hexOf(new Uint8Array(await crypto.subtle.sign(name, made, structure), 0, length)) === seal.proof;
  }
  if (name === "Ed25519" && CURVE_NAMES[key.crv] !== name) throw new Error("this page checks no other Edwards curve than Ed25519");
  const jwk = importable(key), made = await crypto.subtle.importKey("jwk", jwk, { name, hash, namedCurve: jwk.crv }, false, ["verify"]);
  return crypto.subtle.verify({ name, hash, saltLength: bits / 8 }, made, bytesOfHex(seal.proof), structure);
}

// Returns the protected headers in a structure: its second element, and the third if the signature has its own.
function headersOf(structure) {
  const found = [];
  for (let place = 1; found.length < 3;) {
    const width = [0, 0, 0, 0, 0, 0, 0, 0, 1, 2, 4, 8][(structure[place] & 31) - 16] ?? 0;
    const length = width ? structure.subarray(place + 1, place + 1 + width).reduce((sum, it) => 256 * sum + it, 0) : structure[place] & 31;
    found.push(structure.subarray(place + 1 + width, place + 1 + width + length));
    place += 1 + width + length;
  }
  const hasOwn = ["Signature", "CounterSignature", "CounterSignatureV2"].includes(decoder.decode(found[0]));
  return found.slice(1, hasOwn ? 3 : 2);
}

// Returns true if a protected header has the label crit (2). This page processes no critical label (RFC 8152, section 3.1).
async function isCritical(seal) {
  for (const header of headersOf(structureOf(seal))) {
    const { text } = await call("look", encoder.encode(hexOf(header)), VALUE, ROWS, NaN, NO_BYTES), of = parsed(new Uint8Array(text));
    for (let i = 0; i < of.count; i++) if (row(i, of).depth === 1 && /^2(_\d)?: /.test(row(i, of).text)) return true;
  }
  return false;
}

// ---- What is said of a signature

function hasKid({ kid }) {
  return kid !== "-" && kid !== "";
}

function nameOfKey(key) {
  const { index, kid, isTwin } = key, text = hasKid(key) ? decoder.decode(bytesOfHex(kid)) : "";
  const name = /^[\x20-\x26\x28-\x5b\x5d-\x7e]+$/.test(text) ? `'${text}'` : `h'${kid}'`;
  return text === "" ? `key ${index}` : `key ${isTwin ? `${index} ` : ""}${name}`;
}

function titleOf({ name, form }) {
  const title = form === "mac" ? name.replace(/\btag\b/, "MAC") : name;
  return title[0].toUpperCase() + title.slice(1);
}

async function tried(seal, key) {
  try {
    return { key, isRight: await isMadeBy(seal, key) };
  } catch (error) {
    return { key, problem: `${nameOfKey(key)}: ${error.message || error}` };
  }
}

// Returns why a signature isn't verified although a key made it. The word on its headers is the module's.
async function doubtsOf(seal) {
  const found = [], isCrit = /critical/.test(seal.headers) || await isCritical(seal);
  if (isCrit) found.push("the message has critical labels (crit), and this page processes none");
  if (seal.headers !== "-" && seal.headers !== "critical") found.push("a label is in both of its headers");
  const [, layer = "0"] = /^layer (\d+): /.exec(seal.name) ?? [];
  if (messageOfLayer(Number(layer)) < 0) found.push("the rows don't show its message");
  return found.join(", and ");
}

// Returns true if a key fits, or if it has no kid and nothing else is against it. A kid only helps to find a key (RFC 9052, section 3.1).
function mayFit(key) {
  return key.verdict === "fits" || (key.verdict === "kid" && !hasKid(key));
}

// Returns a sentence for each key that doesn't fit. A key without alg is one key for each algorithm, and the reason of the nearest counts.
function misfitsOf({ keys }) {
  const near = new Set(keys.filter(it => it.verdict !== "alg").map(it => it.index));
  const told = keys.filter(it => !mayFit(it) && (it.verdict !== "alg" || !near.has(it.index)));
  return [...new Set(told.map(it => `${nameOfKey(it)} doesn't fit: ${REASONS[it.verdict] ?? it.verdict}`))];
}

// Returns the verdict on a signature that no key is needed for, or nothing.
function plainVerdict(seal) {
  const title = titleOf(seal), [name, cipher, , length] = CHECKS[seal.algorithm] ?? [], isMac = seal.form === "mac";
  const open = why => ({ seal, state: "open", said: [`${title} not checked: ${why}.`] });
  if (seal.structure === "-") return open("its content is detached, or isn't known here");
  if (seal.algorithm === "-") return open("its protected header names no algorithm");
  if (!name) return open(`this page doesn't check ${seal.algorithm.length < 100 ? `algorithm ${seal.algorithm}` : "an algorithm with a long name"}`);
  if ((cipher === "HMAC") !== isMac) return open(`${name} is no algorithm for a ${isMac ? "MAC" : "signature"}, so the message may be of another kind`);
  if (!length || seal.proof.length === 2 * length) return null;
  return { seal, state: "wrong", isByLength: true, said: [`${title} can't be right: ${name} has ${length} bytes, and this one ${seal.proof.length / 2}.`] };
}

// Returns the state of a signature by its keys, and the sentences on it. `certificates` has the indices of keys from certificates.
async function verdictOf(seal, certificates) {
  const plain = plainVerdict(seal);
  if (plain) return plain;
  const title = titleOf(seal), name = CHECKS[seal.algorithm][0], open = said => ({ seal, state: "open", said });
  const tries = await Promise.all(seal.keys.filter(mayFit).map(it => tried(seal, it)));
  const right = tries.find(it => it.isRight && it.key.verdict === "fits") ?? tries.find(it => it.isRight);
  const wrong = tries.filter(it => it.isRight === false), problems = tries.filter(it => it.problem).map(it => it.problem);
  const doubts = right ? await doubtsOf(seal) : "";
  if (doubts) return { ...open([`${title} is of ${nameOfKey(right.key)} (${name}), but ${doubts}.`]), isChecked: true };
  const how = at("aad").value.trim() === "" ? name : `${name}, with the given external_aad`;
  const more = certificates.includes(right?.key.index) ? [UNCHECKED] : [];
  if (right?.key.verdict === "kid") more.push("The message names a kid, and this key has none.");
  if (right) return { seal, state: "verified", said: [`${title} verified by ${nameOfKey(right.key)} (${how}).`, ...more] };
  const names = wrong.map(it => nameOfKey(it.key)).join(", ");
  const guesses = wrong.some(it => it.key.verdict === "kid") ? ["The message names a kid, and a key without one may be of somebody else."] : [];
  if (wrong.length) return { seal, state: "wrong", said: [`${title} does not verify with ${names} (${name}).`, ...guesses, ...problems] };
  if (!seal.keys.length) return open([`${title} (${name}) not checked: there is no key to check it with.`]);
  const why = problems.length ? "no key that fits can be used here" : "no key fits";
  return open([`${title} (${name}) not checked: ${why}.`, ...misfitsOf(seal), ...problems]);
}

// ---- The rows that a signature covers

let verdicts = [];  // each with its rows

function elementsAt(i) {
  const found = [];
  for (let j = i + 1, depth = depthOf(i); i < rows.count && j < rows.count && depthOf(j) > depth; j = behind(j)) found.push(j);
  return found;
}

// Returns the row of the message that begins at a row, after its tags, or -1.
function messageFrom(i) {
  while (i < rows.count && /^\d+(_\d)?\($/.test(row(i).text)) i++;
  return i < rows.count && MESSAGE.test(row(i).note) ? i : -1;
}

function messageOfLayer(layer) {
  let message = messageFrom(0);
  for (let i = 0; i < layer && message >= 0; i++) {
    const content = elementsAt(message)[2];
    message = content !== undefined && isParent(content) ? messageFrom(content + 1) : -1;
  }
  return message;
}

// Returns the ranges of an element without the messages inside it, which have signatures of their own.
function ownRanges(element) {
  const end = behind(element), found = [];
  let from = element;
  for (let i = element; i < end; i++) {
    if (!MESSAGE.test(row(i).note)) continue;
    found.push({ from, to: i });
    i = behind(i) - 1;
    from = i + 1;
  }
  return [...found, { from, to: end }];
}

// Returns the ranges of rows that a signature covers, with its own. Returns none for a countersignature, and if the rows differ from it.
function rangesOf({ name, proof }) {
  const [, layer = "0", sort, index] = /^(?:layer (\d+): )?(signature|tag)(?: (\d+))?$/.exec(name) ?? [];
  const message = sort ? messageOfLayer(Number(layer)) : -1;
  if (message < 0) return [];
  const elements = elementsAt(message), signer = index === undefined ? null : elementsAt(elementsAt(elements[3])[Number(index)] ?? rows.count);
  const seal = signer ? signer[2] : elements[3], covered = [elements[0], elements[2], ...(signer ? [signer[0]] : [])];
  if (seal === undefined || covered.includes(undefined)) return [];
  const digits = digitsOf(seal, behind(seal)), head = digits.length - proof.length;
  if (head < 2 || head > 18 || !digits.endsWith(proof)) return [];
  return [...covered.flatMap(ownRanges), { from: seal, to: behind(seal) }];
}

function isIn(ranges, i) {
  return ranges.some(it => it.from <= i && i < it.to);
}

// Returns the state of a row: verified, or wrong for a signature that is. A row that a wrong signature covers too isn't verified.
function stateOf(i, cover) {
  const wrong = verdicts.filter(it => it.state === "wrong").map(it => it.ranges), right = verdicts.filter(it => it.state === "verified");
  if (isIn(wrong.flatMap(it => it.slice(-1)), i)) return "wrong";
  if (cover === "c" && !isIn(right.flatMap(it => it.ranges.slice(-1)), i)) return "";  // a signature inside a covered part has another key
  return "sac".includes(cover) && isIn(right.flatMap(it => it.ranges), i) && !isIn(wrong.flat(), i) ? "verified" : "";
}

// Colours the rows by their states, and says them in words.
function colourVerified() {
  if (!verdicts.length) return;
  for (const made of at("rows").getElementsByClassName("row")) {
    const [, cover] = made.className.split(" "), state = stateOf(numberOf(made), cover);
    made.classList.toggle("verified", state === "verified");
    made.classList.toggle("wrong", state === "wrong");
    made.children[1].textContent = { verified: "verified", wrong: "does not verify" }[state] ?? COVERS[cover] ?? "";
  }
}

function verdictElement({ state, said: [first, ...others] }) {
  const made = element("li", "", state);
  addText(made, first);
  if (others.length) {
    const list = element("ul");
    for (const it of others) addText(list.appendChild(element("li")), it);
    made.append(list);
  }
  return made;
}

// Returns a sentence on a key that isn't read. It may have a text of the key, which can't move its neighbours.
function problemElement(problem) {
  const made = element("li");
  made.append(element("bdi", cut(visible(problem), "cut")));
  return made;
}

// Returns the sort of a seal by its name, as the summary calls it.
function sortOf(name) {
  return /\btag\b/.test(name) ? "mac" : /\b(?:counter)?signature\b/.exec(name)?.[0];
}

// Returns the summary with the numbers of signatures and MACs that no key checked. It counts all in the input, and the module lists
// those of the outermost message and of messages that are its payload.
function uncheckedSummary(summary) {
  return summary.replace(/ (\d+ )?((?:counter)?signature|mac)s? not checked\./gi, (sentence, number, sort) => {
    const all = Number(number ?? 1), listed = verdicts.filter(it => it.seal && sortOf(it.seal.name) === sort.toLowerCase());
    const open = listed.filter(it => it.state === "open" && !it.isChecked).length, left = Math.max(all - listed.length, 0) + open;
    return left >= all ? sentence : left > 0 ? ` ${left} of ${all} ${sort}s not checked.` : "";
  });
}

// Returns the sentences on each signature, with its rows, and those on keys that aren't read.
async function judged(asked) {
  if (at("aad").getAttribute("aria-invalid") === "true") throw new Error("external_aad isn't hexadecimal");
  const given = await keysGiven(), bare = await sealsOf(asked, NO_BYTES);
  const names = [...new Set(bare.seals.map(it => CHECKS[it.algorithm]?.[0]))];
  const { bytes, problems, places, certificates = [] } = given ? given(names) : { bytes: null, problems: [] };
  const found = bytes ? await sealsOf(asked, bytes, places) : bare;
  const more = found.isCut ? [{ state: "open", said: ["Further signatures are not checked."] }] : [];
  if (given && !found.seals.length) more.push({ state: "open", said: [UNUSED] });
  const told = await Promise.all(found.seals.map(it => verdictOf(it, certificates)));
  return { told: [...told, ...more], problems: [...problems, ...(bytes ? found.unread : []), ...(certificates.length ? [UNCHECKED] : [])] };
}

// Says what is known of each signature, and colours its rows. `isCurrent` returns false once another input is asked for.
async function verify(asked, isCurrent) {
  const failed = error => ({ told: [{ state: "open", said: [`Signatures not checked: ${error.message}.`] }], problems: [] });
  const { told, problems } = await judged(asked).catch(failed);
  if (!isCurrent()) return;
  verdicts = told.map(it => ({ ...it, ranges: it.seal && it.state !== "open" ? rangesOf(it.seal) : [] }));
  colourVerified();
  at("verdicts").replaceChildren(...verdicts.map(verdictElement));
  at("key-said").replaceChildren(...problems.map(problemElement));
  const isChecked = verdicts.some(it => it.state !== "open" || it.isChecked);
  at("ciphers").hidden = !verdicts.some(it => it.isChecked || (it.state !== "open" && !it.isByLength));
  if (isChecked) saySummary(uncheckedSummary(rows.summary));
}
