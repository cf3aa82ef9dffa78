/** Tests of the package for JavaScript (tools/c): promises that interleave, input that changes meanwhile, and answers and arguments
 * that aren't what they should be. The expected values follow from the calls' comments, or are parts of what the test made. */
import assert from "node:assert/strict";
import { readFileSync } from "node:fs";
import { runInNewContext } from "node:vm";
import { Worker } from "node:worker_threads";
import * as coset from "coset-rattle";

const { SIGN1, MAC0, ENCRYPT0, CLAIMS, HEADER, KEY, KEY_SET, ITEM, TAGGED, EITHER, IN_ITEM, PAYLOAD } = coset;
const NONE = new Uint8Array(), ENCODER = new TextEncoder();
const ES256 = coset.put(HEADER, NONE, 1, coset.ES256);

/** Returns the first of the errors that the function throws, or its promise. */
async function thrown(make) {
  try {
    await make();
  } catch (error) {
    return error;
  }
  return assert.fail("nothing is thrown");
}

function signed(payload, kind = SIGN1 + TAGGED) {
  return coset.make(kind, ES256, NONE, { content: ENCODER.encode(payload), proof: new Uint8Array(64) });
}

function text(bytes) {
  return new TextDecoder().decode(bytes);
}

/** A promise that is kept from outside. */
function later() {
  let keep;
  const promise = new Promise(done => { keep = done; });
  return { promise, keep };
}

function claims(id, more = []) {
  return coset.putAll(CLAIMS, NONE, [[1, "as"], [4, 2000], [7, Uint8Array.of(id)], ...more]);
}

/** Returns a token of two layers: an encrypted one around a signed one. Its ciphertext is the plaintext itself. */
function nested(id) {
  const inner = coset.make(SIGN1 + TAGGED, ES256, NONE, { content: claims(id), proof: new Uint8Array(64) });
  const header = coset.put(HEADER, NONE, 1, coset.A128GCM);
  return coset.make(ENCRYPT0 + TAGGED, header, coset.put(HEADER, NONE, 5, new Uint8Array(12)), { content: inner });
}

const POLICY = { algorithms: [coset.ES256, coset.A128GCM], now: 1000 };

const tests = {
  async "verifications that interleave return each its own payload"() {
    const waits = Array.from({ length: 20 }, later), asked = [];
    const found = waits.map(({ promise }, i) => coset.verify(SIGN1 + EITHER, signed(`payload ${i}`), { algorithms: [-7] }, async question => {
      asked.push(text(question.input).includes(`payload ${i}`));
      await promise;
      coset.check(SIGN1 + EITHER, signed("another")); // a call of the module in between
      return i % 3 !== 0;
    }));
    waits.reverse().forEach(({ keep }) => keep());
    const ended = await Promise.allSettled(found);
    assert.deepEqual(asked, Array(20).fill(true));
    ended.forEach((it, i) => i % 3 === 0 ? assert.ok(it.reason instanceof coset.Refused) : assert.equal(text(it.value), `payload ${i}`));
  },

  async "tokens that interleave return each their own claims"() {
    const waits = Array.from({ length: 12 }, later);
    const found = waits.map(({ promise }, i) => coset.verifyToken(nested(i), async layer => {
      await promise;
      await null;
      return [layer.form === ENCRYPT0 ? layer.proof : true, "as"];
    }, POLICY));
    waits.reverse().forEach(({ keep }) => keep());
    const tokens = await Promise.all(found);
    tokens.forEach((token, i) => {
      assert.deepEqual([...coset.labelBytes(CLAIMS, token.claims, IN_ITEM, 7)], [i]);
      assert.deepEqual(token.layers.map(it => [it.form, it.issuer]), [[ENCRYPT0, "as"], [SIGN1, "as"]]);
    });
  },

  async "input that changes meanwhile doesn't change what is verified"() {
    const message = signed("good"), wait = later();
    const found = coset.verify(SIGN1 + EITHER, message, { algorithms: [-7] }, async question => {
      await wait.promise;
      question.input.fill(0);
      question.proof.fill(0);
      return true;
    });
    message.set(ENCODER.encode("evil"), Buffer.from(message).indexOf("good"));
    wait.keep();
    assert.equal(text(await found), "good");
    assert.equal(text(coset.part(SIGN1 + EITHER, message, PAYLOAD)), "evil");
  },

  async "a detached payload that changes meanwhile is returned as it was"() {
    const message = coset.make(SIGN1, ES256, NONE, { proof: new Uint8Array(64) }), payload = ENCODER.encode("good"), wait = later();
    const found = coset.verify(SIGN1, message, { algorithms: [-7], detached: payload }, async () => (await wait.promise, true));
    payload.fill(0);
    wait.keep();
    assert.equal(text(await found), "good");
  },

  async "a token and a plaintext that change meanwhile are verified as they were"() {
    const token = nested(1), wait = later();
    let plaintext;
    const found = coset.verifyToken(token, async layer => {
      if (plaintext) plaintext.fill(0);
      await wait.promise;
      layer.input.fill(0);
      if (layer.form === ENCRYPT0) plaintext = layer.proof;
      return [layer.form === ENCRYPT0 ? plaintext : true, "as"];
    }, POLICY);
    token.fill(0);
    wait.keep();
    assert.deepEqual([...coset.labelBytes(CLAIMS, (await found).claims, IN_ITEM, 7)], [1]);
  },

  async "a ciphertext and a plaintext that change meanwhile"() {
    const message = coset.make(ENCRYPT0, coset.put(HEADER, NONE, 1, 1), NONE, { content: ENCODER.encode("cipher") });
    const plain = ENCODER.encode("plain"), wait = later();
    const found = coset.decrypt(ENCRYPT0, message, { algorithms: [1] }, async question => (await wait.promise, text(question.proof) === "cipher" && plain));
    message.fill(0);
    wait.keep();
    const held = await found;
    plain.fill(0);
    assert.equal(text(held), "plain");
    for (const no of [null, undefined, false]) assert.equal((await thrown(() => coset.decrypt(ENCRYPT0, coset.make(ENCRYPT0, coset.put(HEADER, NONE, 1, 1), NONE, { content: plain }), { algorithms: [1] }, () => no))).reason, "REFUSED");
  },

  async "a text label takes each value"() {
    const item = coset.put(coset.ITEM, NONE, "a", new coset.Float(1.5));
    assert.deepEqual(item, Uint8Array.of(0xa1, 0x61, 0x61, 0xf9, 0x3e, 0)); // RFC 8949, appendix A: 1.5 is f93e00
    assert.equal(coset.floatValue(coset.label(coset.ITEM, item, IN_ITEM, "a")), 1.5);
    assert.ok(await thrown(() => coset.put(coset.ITEM, NONE, "a", 1.5)) instanceof coset.Misuse);
  },

  async "only true is a yes"() {
    for (const answer of [1, "true", {}, [true], new Boolean(true), () => true, null, undefined, false, Promise.resolve(1), new Uint8Array(1)]) {
      const error = await thrown(() => coset.verify(SIGN1 + EITHER, signed("x"), { algorithms: [-7] }, () => answer));
      assert.equal(error.reason, "REFUSED");
    }
    assert.equal(text(await coset.verify(SIGN1 + EITHER, signed("x"), { algorithms: [-7] }, () => Promise.resolve(true))), "x");
  },

  async "an error of the caller's function is thrown"() {
    const own = new Error("own");
    assert.equal(await thrown(() => coset.verify(SIGN1 + EITHER, signed("x"), { algorithms: [-7] }, () => { throw own; })), own);
    assert.equal(await thrown(() => coset.verifyToken(nested(1), () => Promise.reject(own), POLICY)), own);
  },

  async "answers for layers of the wrong type"() {
    const mac = coset.make(MAC0 + TAGGED, coset.put(HEADER, NONE, 1, 5), NONE, { content: claims(1), proof: new Uint8Array(32) });
    for (const answer of [1, "true", {}, new Uint8Array(1), [true], [true, "as", 1], [true, ""], [true, 1]]) {
      assert.equal((await thrown(() => coset.verifyToken(mac, () => answer, { algorithms: [5], now: 1000 }))).reason, "MISUSE");
    }
    for (const answer of [true, 1, "plain"]) assert.equal((await thrown(() => coset.verifyToken(nested(1), () => answer, POLICY))).reason, "MISUSE");
    for (const answer of [null, undefined, false, [false, "as"]]) {
      const error = await thrown(() => coset.verifyToken(mac, () => answer, { algorithms: [5], now: 1000 }));
      assert.deepEqual([error.name, error.reason, error.layer], ["InvalidToken", "REFUSED", 0]);
      assert.equal(error.message, "layer 0 of the token is refused: the signature, the tag or the ciphertext is refused");
    }
  },

  async "options that don't exist, and arguments of other types"() {
    const message = signed("x");
    const misused = [
      () => coset.verify(SIGN1 + EITHER, message, { algorithms: [-7], external_aad: NONE }, () => true),
      () => coset.verifyToken(nested(1), () => true, { ...POLICY, audiences: ["x"] }),
      () => coset.verifyToken(nested(1), () => true, { ...POLICY, audience: "x" }),
      () => coset.verifyToken(nested(1), () => true, { ...POLICY, leeway: 0.5 }),
      () => coset.verifyToken(nested(1), () => true, { ...POLICY, leeway: -1 }),
      () => coset.verifyToken(nested(1), () => true, { ...POLICY, maxAge: 0 }),
      () => coset.verifyToken(nested(1), () => true, { ...POLICY, anyAudience: 1 }),
      () => coset.verifyToken(nested(1), () => true, { ...POLICY, now: new Date() }),
      () => coset.verifyToken(nested(1), () => true, { ...POLICY, now: NaN }),
      () => coset.verifyToken(nested(1), true, POLICY),
      () => coset.verify(SIGN1 + EITHER, message, { algorithms: -7 }, () => true),
      () => coset.verify(SIGN1 + EITHER, message, { algorithms: [-7] }),
      () => coset.verify(ENCRYPT0, message, { algorithms: [-7] }, () => true),
      () => coset.verify(SIGN1 + EITHER, message, { algorithms: [-7], index: 1 }, () => true),
      () => coset.message(SIGN1 + EITHER, message, { index: 1 }),
      () => coset.structure(SIGN1 + EITHER, message, { index: 1 }),
      () => coset.verifyToken(nested(1), layer => [layer.form === ENCRYPT0 ? layer.proof : true, undefined], POLICY),
      () => coset.structure(SIGN1 + EITHER, message, { detached: NONE }),
      () => coset.structure(SIGN1 + EITHER, message, null),
      () => coset.check(0, message),
      () => coset.check("1", message),
      () => coset.check(SIGN1 + 2 ** 32, message),
      () => coset.check(SIGN1, "84"),
      () => coset.check(SIGN1, [0x84]),
      () => coset.check(SIGN1, null),
      () => coset.part(SIGN1 + EITHER, message, 9),
      () => coset.member(KEY_SET, message, -1),
      () => coset.member(KEY_SET, message, 0.5),
      () => coset.put(HEADER, NONE, 1, true),
      () => coset.put(HEADER, NONE, 1, 0.5),
      () => coset.put(HEADER, NONE, 2 ** 53, 1),
      () => coset.put(HEADER, NONE, 1n << 63n, 1),
      () => coset.put(CLAIMS, NONE, 1, "\ud800"),
      () => coset.putAll(CLAIMS, NONE, { 1: "a" }),
      () => coset.putAll(CLAIMS, NONE, [[true, "a"]]),
    ];
    for (const make of misused) assert.ok(await thrown(make) instanceof coset.Misuse, String(make));
  },

  async "an option that is undefined is a misuse, in each call"() {
    const message = signed("x"), key = coset.putAll(KEY, NONE, [[1, 4], [3, 5], [-1, new Uint8Array(32)]]);
    const sealed = coset.make(ENCRYPT0, coset.put(HEADER, NONE, 1, 1), NONE, { content: ENCODER.encode("cipher") });
    const calls = {
      structure: [["index", "externalAad", "detached"], options => coset.structure(SIGN1 + EITHER, message, options)],
      recipientStructure: [["externalAad"], options => coset.recipientStructure(coset.ENCRYPT, message, options)],
      countersignStructure: [["signer", "externalAad", "detached"], options => coset.countersignStructure(SIGN1 + EITHER, message, 11, options)],
      message: [["index", "critical", "externalAad", "detached"], options => coset.message(SIGN1 + EITHER, message, options)],
      sign1: [["externalAad", "detached"], options => coset.sign1(SIGN1 + EITHER, message, options)],
      verify: [["algorithms", "index", "critical", "externalAad", "detached"],
        options => coset.verify(SIGN1 + EITHER, message, { algorithms: [-7], ...options }, () => true)],
      decrypt: [["algorithms", "critical", "externalAad", "detached"],
        options => coset.decrypt(ENCRYPT0, sealed, { algorithms: [1], ...options }, () => NONE)],
      verifyToken: [["algorithms", "audience", "types", "required", "critical", "leeway", "maxAge", "untaggedForm", "authenticatedBy",
        "anyAudience", "mayNotExpire", "mayBeIssuedLater", "now"],
      options => coset.verifyToken(nested(1), layer => [layer.form === ENCRYPT0 ? layer.proof : true, "as"], { ...POLICY, ...options })],
      structureOf: [["content", "signer", "externalAad"], options => coset.structureOf(SIGN1, ES256, options)],
      recipientStructureOf: [["externalAad"], options => coset.recipientStructureOf(coset.ENCRYPT, ES256, options)],
      make: [["content", "proof"], options => coset.make(SIGN1, ES256, NONE, options)],
    };
    for (const [name, [options, make]] of Object.entries(calls)) {
      if (!name.startsWith("recipient")) await make({});
      for (const option of options) {
        const error = await thrown(() => make({ [option]: undefined }));
        assert.ok(error instanceof coset.Misuse && error.message.includes(option), `${name}: ${option}: ${error}`);
      }
    }
    const hidden = Object.defineProperty({ ...POLICY }, "required", { value: [8], enumerable: false });
    const refusal = await thrown(() => coset.verifyToken(nested(1), layer => [layer.form === ENCRYPT0 ? layer.proof : true, "as"], hidden));
    assert.deepEqual([refusal.reason, refusal.number], ["MISSING", 8]); // an option that isn't enumerable counts
    const layer = { form: MAC0, algorithm: 5, keyId: null, iv: null, partialIv: null, proof: new Uint8Array(32) };
    assert.deepEqual(coset.keyFits(key, layer), NONE);
    for (const field of Object.keys(layer)) assert.ok(await thrown(() => coset.keyFits(key, { ...layer, [field]: undefined })) instanceof coset.Misuse, field);
  },

  async "a hole in a list is a misuse, and no empty text"() {
    const hole = new Array(1), yes = layer => [layer.form === ENCRYPT0 ? layer.proof : true, "as"];
    for (const list of ["algorithms", "critical", "required", "audience", "types"]) {
      const error = await thrown(() => coset.verifyToken(nested(1), yes, { ...POLICY, [list]: [...(POLICY[list] ?? [])].concat(hole) }));
      assert.ok(error instanceof coset.Misuse, `${list}: ${error}`);
    }
    for (const list of ["algorithms", "critical"]) {
      const error = await thrown(() => coset.verify(SIGN1 + TAGGED, signed("x"), { algorithms: [-7], [list]: hole }, () => true));
      assert.ok(error instanceof coset.Misuse, `${list}: ${error}`);
    }
  },

  async "nothing is taken from a prototype"() {
    const open = layer => [layer.form === ENCRYPT0 ? layer.proof : true, "as"], required = { ...POLICY, required: [8] };
    const base = Object.assign(Object.create(null), required), { Object: Other } = runInNewContext("({ Object })");
    class Options {}
    const inherited = [Object.create(base), Object.assign(Object.create(base), POLICY), Object.create(required), Object.create(Object.create(null)),
      Object.assign(new Options(), POLICY), await import("coset-rattle"), Object.create(await import("coset-rattle")), [], () => 1, null, undefined, 1, "x"];
    for (const options of inherited) assert.ok(await thrown(() => coset.verifyToken(nested(1), open, options)) instanceof coset.Misuse, typeof options);
    for (const options of [required, base, Other.assign(new Other(), required)]) {
      assert.equal((await thrown(() => coset.verifyToken(nested(1), open, options))).reason, "MISSING");
    }
  },

  async "a prototype that was changed names no issuer"() {
    const fields = { issuer: 0, issuer_len: 2 };
    const open = layer => {
      if (layer.form !== ENCRYPT0) {
        for (const [name, value] of Object.entries(fields)) Object.defineProperty(Object.prototype, name, { value, configurable: true });
        return true;
      }
      fields.issuer = layer.input.length + Buffer.from(layer.proof).indexOf("as"); // the name in `iss` of the claims
      return layer.proof;
    };
    try {
      assert.equal((await thrown(() => coset.verifyToken(nested(1), open, POLICY))).reason, "ISSUER");
      assert.equal(Object.prototype.issuer, fields.issuer);
    } finally {
      for (const name of Object.keys(fields)) delete Object.prototype[name];
    }
  },

  async "an empty signature or MAC is refused, and nobody is asked"() {
    const never = () => assert.fail("the verifier is called");
    for (const [kind, algorithm] of [[SIGN1, -7], [MAC0, 5]]) {
      const message = coset.make(kind + TAGGED, coset.put(HEADER, NONE, 1, algorithm), NONE, { content: claims(1) });
      assert.equal((await thrown(() => coset.verify(kind + TAGGED, message, { algorithms: [algorithm] }, never))).reason, "REFUSED");
      assert.equal((await thrown(() => coset.verify(kind + TAGGED, message, { algorithms: [1] }, never))).reason, "NOT_ALLOWED");
      const error = await thrown(() => coset.verifyToken(message, never, { algorithms: [algorithm], now: 1000 }));
      assert.deepEqual([error.name, error.reason, error.layer], ["InvalidToken", "REFUSED", 0]);
    }
  },

  async "a map and an array of many items are walked in little time"() {
    const pairs = 100_000, map = new Uint8Array(5 + 10 * pairs), array = new Uint8Array(5 + 2 * pairs);
    map.set([0xba, 0, 1, 0x86, 0xa0]);
    array.set([0x9a, 0, 1, 0x86, 0xa0]);
    for (let i = 0; i < pairs; i++) {
      map.set([0x1a, 0, i >> 16, i >> 8 & 255, i & 255, 0x44, 1, 2, 3, 4], 5 + 10 * i);
      array.set([0x18, 0x40], 5 + 2 * i);
    }
    const began = process.cpuUsage(), found = coset.mapSpans(ITEM, map);
    assert.equal(found.length, pairs);
    found.forEach(([name, value], i) => assert.deepEqual([name.start, name.end, value.start, value.end], [0, 5, 5, 10].map(at => 5 + 10 * i + at)));
    assert.equal(coset.readableKeys(array).length, 0); // each element is one integer, and no key
    const { user, system } = process.cpuUsage(began);
    assert.ok(user + system < 40e6, `the walks took ${user + system} microseconds`);
  },

  async "places of long items, and at the end"() {
    const long = new Uint8Array(40_000).fill(0x61), item = coset.putAll(ITEM, NONE, [[1, long], ["a", 2], [3, long.subarray(0, 61)], [4, NONE]]);
    const found = coset.mapSpans(ITEM, item).map(places => places.map(({ start, end }) => end - start));
    assert.deepEqual(found, [[1, 40_003], [2, 1], [1, 63], [1, 1]]);
    const chunks = Uint8Array.of(0xbf, 1, 0x9f, ...Array.from({ length: 600 }, (_, i) => i % 24), 0xff, 2, 0x5f, 0x41, 1, 0xff, 0xff);
    assert.deepEqual(coset.mapSpans(ITEM, chunks).flat().map(({ start, end }) => [start, end]), [[1, 2], [2, 604], [604, 605], [605, 609]]);
  },

  async "the question has the plain kind"() {
    for (const kind of [SIGN1, MAC0]) {
      for (const form of [0, TAGGED, EITHER]) {
        const found = await coset.verify(kind + form, signed("x", kind + (form && TAGGED)), { algorithms: [-7] }, question => question.kind === kind);
        assert.equal(text(found), "x");
      }
    }
  },

  async "a message with both IVs is refused"() {
    const header = coset.put(HEADER, coset.put(HEADER, NONE, 1, 1), 5, ENCODER.encode("iv")), other = coset.put(HEADER, NONE, 6, ENCODER.encode("p"));
    const both = coset.make(ENCRYPT0, header, other, { content: ENCODER.encode("cipher") }), never = () => assert.fail("the decrypter is called");
    const error = await thrown(() => coset.decrypt(ENCRYPT0, both, { algorithms: [1] }, never));
    assert.deepEqual([error.name, error.reason, error instanceof coset.Refused], ["WrongHeaders", "HEADERS", true]);
    assert.equal((await thrown(() => coset.decrypt(ENCRYPT0, both, { algorithms: [3] }, never))).reason, "NOT_ALLOWED");
  },

  async "bytes come in views and buffers"() {
    const held = new Uint8Array(20);
    held.set([0xa1, 1, 0x26], 5);
    const shared = new Uint8Array(new SharedArrayBuffer(3));
    shared.set([0xa1, 1, 0x26]);
    const forms = [held.subarray(5, 8), new DataView(held.buffer, 5, 3), held.slice(5, 8).buffer, Buffer.from(held.subarray(5, 8)), shared, shared.buffer];
    for (const form of forms) assert.equal(coset.labelInt(HEADER, form, IN_ITEM, 1), -7);
  },

  async "memory of numbers, memory that is gone, and what only looks like bytes"() {
    const numbers = [Uint16Array, Int16Array, Uint32Array, Int32Array, Float32Array, Float64Array, BigInt64Array, BigUint64Array].map(Type => new Type(1));
    const alike = ["ArrayBuffer", "SharedArrayBuffer", "Uint8Array"].map(tag => ({ [Symbol.toStringTag]: tag, length: 1, byteLength: 1, 0: 5 }));
    const gone = [new Uint8Array(1), new DataView(new ArrayBuffer(1)), new ArrayBuffer(1)];
    gone.forEach(it => structuredClone(null, { transfer: [it.buffer ?? it] }));
    const buffer = new ArrayBuffer(4, { maxByteLength: 8 }), shrunk = buffer.resizable ? [new Uint8Array(buffer, 2, 2), new DataView(buffer, 2, 2)] : [];
    if (buffer.resizable) buffer.resize(1);
    const message = coset.make(SIGN1, ES256, NONE, { proof: new Uint8Array(64) });
    for (const wrong of [...numbers, ...alike, ...gone, ...shrunk, new Proxy(new Uint8Array(1), {}), Object.create(new Uint8Array(1)), [5]]) {
      for (const make of [it => coset.check(ITEM, it), it => coset.put(ITEM, NONE, 1, it), it => coset.verify(SIGN1, message, { algorithms: [-7], detached: it }, () => true),
        it => coset.structure(SIGN1, message, { detached: NONE, externalAad: it }), it => new coset.Encoded(it), it => coset.readableKeys(it)]) {
        assert.ok(await thrown(() => make(wrong)) instanceof coset.Misuse, `${make} ${Object.prototype.toString.call(wrong)}`);
      }
    }
    for (const Type of [Uint8Array, Uint8ClampedArray, Int8Array]) assert.equal(coset.integer(Type.of(5)), 5);
    const tracking = new Uint8Array(new ArrayBuffer(1, { maxByteLength: 8 }));
    tracking[0] = 5;
    assert.equal(coset.integer(tracking), 5);
  },

  async "shared memory that changes during a call is read once"() {
    const memory = new SharedArrayBuffer(8), shared = new Int32Array(memory), code = `const { workerData } = require("node:worker_threads");
      const it = new Uint8Array(workerData), at = new Int32Array(workerData);
      for (Atomics.store(at, 1, 1); Atomics.load(at, 1) === 1;) it[2] ^= 1;`;
    const worker = new Worker(code, { eval: true, workerData: memory });
    const view = new Uint8Array(memory, 0, 3);
    view.set([0xa1, 1, 0x26]);
    while (!Atomics.load(shared, 1)) await new Promise(done => setTimeout(done, 5));
    for (let i = 0; i < 2000; i++) assert.ok([-7, -8].includes(coset.labelInt(HEADER, coset.write(HEADER, view), IN_ITEM, 1)));
    Atomics.store(shared, 1, 2);
    await worker.terminate();
  },

  async "numbers that aren't integers, and pairs that aren't two values"() {
    const object = { valueOf: () => 1, toString: () => "1", [Symbol.toPrimitive]: () => 1 }, token = signed("x");
    for (const wrong of [true, false, "1", "", NaN, 1.5, Infinity, null, undefined, object, [1], new Number(1), Symbol("1"), 2 ** 64, new Date(1)]) {
      for (const make of [it => coset.check(it, token), it => coset.part(SIGN1 + TAGGED, token, it), it => coset.member(ITEM, token, it),
        it => coset.itemSpan(token, it), it => coset.labelInt(SIGN1 + TAGGED, token, 1, it), it => coset.message(SIGN1 + TAGGED, token, { index: it }),
        it => coset.message(SIGN1 + TAGGED, token, { critical: [it] }), it => coset.verify(SIGN1 + TAGGED, token, { algorithms: [-7, it] }, () => true),
        it => coset.decrypt(ENCRYPT0 + TAGGED, nested(1), { algorithms: [1, it] }, () => NONE), it => coset.canonicalKey(it, NONE),
        it => coset.countersignStructure(SIGN1 + TAGGED, token, it), it => coset.putEncoded(ITEM, NONE, it, Uint8Array.of(5)),
        ...["algorithms", "critical", "required"].map(name => it => coset.verifyToken(nested(1), () => true, { ...POLICY, [name]: [...POLICY.algorithms, it] })),
        ...["leeway", "maxAge", "untaggedForm", "authenticatedBy"].map(name => it => coset.verifyToken(nested(1), () => true, { ...POLICY, [name]: it })),
        ...["form", "algorithm"].map(name => it => coset.keyFits(NONE, { form: 1, algorithm: -7, keyId: null, iv: null, partialIv: null, proof: NONE, [name]: it }))]) {
        if (wrong === null && String(make).includes("[name]: it })") || typeof wrong === "string" && String(make).includes("putEncoded")) continue; // maxAge, and a text label
        assert.ok(await thrown(() => make(wrong)) instanceof coset.Misuse, `${make} ${String(wrong)}`);
      }
      assert.equal(coset.statusText(wrong), coset.statusText(-1));
    }
    assert.equal(coset.statusText(Object.create(null)), coset.statusText(-1));
    for (const number of [-0, 2n ** 63n, -(2n ** 63n) - 1n, 2 ** 53]) {
      const make = () => coset.put(ITEM, NONE, number, 5);
      if (Object.is(number, -0)) assert.deepEqual(make(), Uint8Array.of(0xa1, 0, 5));
      else assert.ok(await thrown(make) instanceof coset.Misuse);
    }
    for (const pairs of [["ab"], [[1]], [[1, 2, 3]], [{ 0: 1, 1: 2, length: 2 }], Uint8Array.of(1), new Set(["ab"]), [new Set([1, 2])], [, [1, 2]]]) {
      assert.ok(await thrown(() => coset.putAll(ITEM, NONE, pairs)) instanceof coset.Misuse, String(pairs));
      assert.ok(await thrown(() => new coset.KeyRing(pairs, { verify: () => true })) instanceof coset.Misuse, String(pairs));
    }
  },

  async "integers are numbers if they are exact"() {
    for (const [number, found] of [[2 ** 53 - 1, 2 ** 53 - 1], [1n << 53n, 1n << 53n], [-(1n << 63n), -(1n << 63n)], [5n, 5]]) {
      const item = coset.put(CLAIMS, NONE, 4, number);
      assert.equal(coset.labelInt(CLAIMS, item, IN_ITEM, 4), found);
    }
  },

  async "texts keep a byte order mark"() {
    const token = coset.make(SIGN1 + TAGGED, ES256, NONE, { content: coset.putAll(CLAIMS, NONE, new Map([[1, "\ufeffas"], [4, 2000]])), proof: new Uint8Array(64) });
    assert.equal((await coset.verifyToken(token, () => [true, "\ufeffas"], POLICY)).issuer, "\ufeffas");
    assert.equal((await thrown(() => coset.verifyToken(token, () => [true, "as"], POLICY))).reason, "ISSUER");
  },

  async "a token is valid at fractions between its first and its last second"() {
    const token = coset.make(SIGN1 + TAGGED, ES256, NONE, { content: claims(1, [[5, 1000]]), proof: new Uint8Array(64) });
    const reason = async now => coset.verifyToken(token, () => [true, "as"], { ...POLICY, now }).then(() => "OK", error => error.reason);
    const told = await Promise.all([999.9, 1000, 1000.5, 1999, 1999.1, 2000, 1500n].map(reason));
    assert.deepEqual(told, ["NOT_YET_VALID", "OK", "OK", "OK", "EXPIRED", "EXPIRED", "OK"]);
    assert.equal(await reason(null), "EXPIRED"); // the clock is later
  },

  async "faults have their offset, and refusals their number"() {
    const fault = await thrown(() => coset.check(HEADER, Uint8Array.of(0xa0, 0)));
    assert.deepEqual([fault.name, fault.reason, fault.offset], ["Fault", "EXTRANEOUS", 1]); // the first byte after the item
    const refusal = await thrown(() => coset.verifyToken(nested(1), () => null, { algorithms: [-7], now: 1000 }));
    assert.deepEqual([refusal.reason, refusal.layer, refusal.number], ["NOT_ALLOWED", 0, 1]);
    assert.ok(refusal instanceof coset.CosetError && refusal instanceof Error);
  },

  async "a ring names its issuers, and skips keys that can't be read"() {
    const key = coset.putAll(KEY, NONE, [[1, 4], [3, 5], [-1, new Uint8Array(32)]]), other = Uint8Array.of(0xa1, 1, 0x18, 0x63);
    const set = coset.add(KEY_SET, NONE, key), both = Uint8Array.of(0x82, ...other, ...key);
    assert.deepEqual(coset.readableKeys(both), [key]);
    assert.ok(await thrown(() => coset.readableKeys(key)) instanceof coset.Fault);
    const token = coset.make(MAC0 + TAGGED, coset.put(HEADER, NONE, 1, 5), NONE, { content: claims(1), proof: new Uint8Array(32) });
    const says = issuers => coset.verifyToken(token, new coset.KeyRing(issuers, { verify: async () => true }), { algorithms: [5], now: 1000 });
    for (const issuers of [{ as: both }, new Map([["as", set]]), [["as", set]]]) assert.equal((await says(issuers)).issuer, "as");
    assert.equal((await thrown(() => says({ hub: set }))).reason, "ISSUER");
    assert.equal((await thrown(() => says([[null, set]]))).reason, "ISSUER");
    assert.equal((await thrown(() => says({}))).reason, "UNFIT");
    for (const name of ["", undefined, 0, false]) assert.ok(await thrown(() => says([[name, set]])) instanceof coset.Misuse);
    assert.ok(await thrown(() => says([[undefined, Uint8Array.of(0x80)]])) instanceof coset.Misuse);
    assert.ok(await thrown(() => says({ as: undefined })) instanceof coset.Misuse);
  },

  async "a ring tries 16 keys that fit a layer, and no others"() {
    assert.deepEqual([coset.MOST_TRIES, coset.Status.TOO_MANY_KEYS], [16, 35]);
    const kid = ENCODER.encode("kid"), mac = new Uint8Array(32), header = coset.put(HEADER, NONE, 1, 5);
    const keyOf = (algorithm, secret, id) => coset.putAll(KEY, NONE, [[1, 4], ...(id ? [[2, id]] : []), [3, algorithm], [-1, new Uint8Array(64).fill(secret)]]);
    for (const id of [null, kid]) {
      const token = coset.make(MAC0 + TAGGED, header, id ? coset.put(HEADER, NONE, 4, id) : NONE, { content: claims(1), proof: mac });
      const right = keyOf(5, 1, id), wrong = Array(17).fill(keyOf(5, 2, id)), other = Array(40).fill(keyOf(6, 1, id));
      for (const [keys, want, calls] of [
        [[], "UNFIT", 0], [other, "UNFIT", 0], [wrong.slice(16), "REFUSED", 1], [wrong.slice(1), "REFUSED", 16], [[...wrong.slice(1), ...other], "REFUSED", 16], [wrong, "TOO_MANY_KEYS", 16],
        [[...wrong.slice(1), right], "TOO_MANY_KEYS", 16], [[...wrong.slice(2), right], "OK", 16], [[...other, ...wrong.slice(2), ...other, right, ...wrong], "OK", 16],
      ]) {
        let asked = 0;
        const setOf = keys => Uint8Array.from([0x98, keys.length, ...keys.flatMap(key => [...key])]);
        const ring = new coset.KeyRing([["you", setOf(keys.slice(0, 7))], ["as", setOf(keys.slice(7))]], { verify: async key => (asked++, key.at(-1) === 1) });
        const refusal = await coset.verifyToken(token, ring, { algorithms: [5], now: 1000 }).then(() => ({ reason: "OK" }), error => error);
        assert.deepEqual([refusal.reason, asked], [want, calls]);
        if (want !== "OK") assert.deepEqual([refusal.layer, refusal.number, refusal.keyId], [0, null, id]);
      }
    }
    // The key identifiers of 41 keys leave one that fits.
    const named = Array.from({ length: 40 }, (_, number) => keyOf(5, 2, Uint8Array.of(number))), right = keyOf(5, 1, kid);
    const setOf = keys => Uint8Array.from([0x98, keys.length, ...keys.flatMap(key => [...key])]), verify = key => key.at(-1) === 1;
    const token = coset.make(MAC0 + TAGGED, header, coset.put(HEADER, NONE, 4, kid), { content: claims(1), proof: mac }), policy = { algorithms: [5], now: 1000 };
    assert.equal((await coset.verifyToken(token, new coset.KeyRing({ as: setOf([...named, right]) }, { verify }), policy)).issuer, "as");
    const refusal = await thrown(() => coset.verifyToken(token, new coset.KeyRing({ as: setOf(named) }, { verify }), policy));
    assert.deepEqual([refusal.reason, refusal.keyId, refusal.message], ["UNFIT", kid, "layer 0 of the token is refused: no key fits it"]);
  },

  async "a refusal by keys has the key identifier of the layer"() {
    const kid = ENCODER.encode("kid"), named = coset.put(HEADER, NONE, 4, kid), content = claims(1), policy = { algorithms: [-7], now: 1000 };
    const token = (unprotected, proof) => coset.make(SIGN1, ES256, unprotected, { content, proof });
    const says = (keys, unprotected = named, proof = new Uint8Array(64), options = policy) => thrown(() => coset.verifyToken(token(unprotected, proof), keys, options));
    const changing = layer => (layer.keyId.fill(0), false);
    for (const keys of [() => false, async () => null, changing]) assert.deepEqual((await says(keys)).keyId, kid);
    assert.deepEqual((await says(() => true, named, NONE)).keyId, kid); // an empty signature
    assert.equal((await says(() => false, NONE)).keyId, null);
    assert.equal((await says(() => true, named, undefined, { ...policy, now: 5000 })).keyId, null);
    assert.equal((await says(() => true, named, undefined, { ...policy, algorithms: [5] })).keyId, null);
  },

  async "a ring without ciphers, or without issuers, is a misuse when it is made"() {
    const key = coset.putAll(KEY, NONE, [[1, 4], [3, 5], [-1, new Uint8Array(32)]]), set = coset.add(KEY_SET, NONE, key), verify = () => true;
    const misuses = async (make, told) => {
      const error = await thrown(make);
      assert.ok(error instanceof coset.Misuse && error.message.includes(told), `${make}: ${error}`);
    };
    await misuses(() => new coset.KeyRing({ as: set }), "no function verify");
    for (const ciphers of [undefined, null, {}, { verify: true }, { decrypt: verify }, "verify", 1]) {
      await misuses(() => new coset.KeyRing({ as: set }, ciphers), "no function verify");
    }
    for (const decrypt of [true, {}, "x"]) await misuses(() => new coset.KeyRing({ as: set }, { verify, decrypt }), "decrypt");
    const others = [NONE, set, set.buffer, new DataView(set.buffer), new SharedArrayBuffer(1), new Date(), /x/, 1, null, undefined, true];
    for (const issuers of others) await misuses(() => new coset.KeyRing(issuers, { verify }), "a name and a COSE_KeySet for each");
    await misuses(() => new coset.KeyRing([[undefined, set]], { verify }), "an issuer's name is missing");
    for (const layer of [null, undefined, 1, "x"]) {
      await misuses(() => coset.keyFits(key, layer), "a layer is an object");
      await misuses(() => new coset.KeyRing({ as: set }, { verify }).open(layer), "a layer is an object");
    }
    const sealed = coset.putAll(KEY, NONE, [[1, 4], [3, 1], [-1, new Uint8Array(16)]]), ring = new coset.KeyRing({ as: coset.add(KEY_SET, NONE, sealed) }, { verify });
    await misuses(() => coset.verifyToken(nested(1), ring, POLICY), "no function decrypt");
  },

  async "a single key is no set of keys"() {
    const key = coset.putAll(KEY, NONE, [[1, 4], [-1, new Uint8Array(32)]]);
    for (const make of [() => coset.readableKeys(key), () => new coset.KeyRing({ as: key }, { verify: () => true })]) {
      const fault = await thrown(make);
      assert.deepEqual([fault.name, fault.reason, fault.offset, fault.message], ["Fault", "UNEXPECTED", null, "a COSE_KeySet is needed, an array of keys"]);
    }
  },

  async "reasons with several causes say all of them"() {
    const token = more => coset.make(SIGN1, ES256, NONE, { content: coset.putAll(CLAIMS, NONE, [[4, 2000], ...more]), proof: new Uint8Array(64) });
    const says = (more, options) => thrown(() => coset.verifyToken(token(more), () => true, { algorithms: [-7], now: 1000, ...options }));
    for (const [more, options] of [[[[3, "there"]], { audience: ["here"] }], [[[3, "there"]], {}], [[], { audience: ["here"] }]]) {
      assert.equal((await says(more, options)).message, "the token is refused: the token isn't for one of the verifier's audiences");
    }
    assert.equal((await says([], { types: ["application/cwt"] })).message, "the token is refused: the token has none of the accepted types");
    for (const more of [[], [[6, 1]]]) {
      assert.equal((await says(more, { maxAge: 60 })).message, "the token is refused: the token is too old, or has no time of issue");
    }
    assert.match((await thrown(() => coset.check(99, NONE))).message, /^an argument has no meaning for this call/);
  },

  async "a large input leaves the module usable"() {
    const large = coset.put(CLAIMS, NONE, -70000, new Uint8Array(48 << 20)), before = coset.version();
    assert.equal(coset.labelBytes(CLAIMS, large, IN_ITEM, -70000).length, 48 << 20);
    assert.equal(coset.version(), before);
  },

  async "memory that can't grow is refused"() {
    const { exports } = await WebAssembly.instantiate(await WebAssembly.compile(readFileSync(new URL(import.meta.resolve("coset-rattle/coset.wasm")))));
    assert.notEqual(exports.malloc(1n << 20n), 0n);
    for (let pages = 1 << 15; pages; pages >>= 1) {
      try {
        for (;;) exports.memory.grow(pages);
      } catch (error) {
        assert.ok(error instanceof RangeError);
      }
    }
    assert.equal(exports.malloc(1n << 30n), 0n);
    assert.equal(exports.malloc(1n << 45n), 0n);
  },

  async "the arguments are wiped from the module's memory"() {
    const memories = [], { Instance } = WebAssembly, secret = ENCODER.encode("a secret of the caller 0123456789");
    const key = coset.putAll(KEY, NONE, [[1, 4], [-1, secret]]);
    WebAssembly.Instance = function (...given) {
      const made = new Instance(...given);
      memories.push(made.exports.memory);
      return made;
    };
    coset.put(CLAIMS, NONE, -70000, new Uint8Array(64 << 20)); // the module is made anew after it
    coset.write(KEY, key);
    coset.member(KEY_SET, coset.add(KEY_SET, NONE, key), 0);
    WebAssembly.Instance = Instance;
    assert.equal(memories.length, 1);
    const [memory] = memories.map(it => Buffer.from(it.buffer));
    const stack = 4 << 20; // the stack isn't wiped
    assert.equal(memory.indexOf(secret, stack), -1);
  },

  async "an item of any kind is at its place"() {
    const array = Uint8Array.of(0x82, 0x18, 0x2a, 0x61, 0x78);
    assert.deepEqual([coset.memberSpan(ITEM, array, 0), coset.itemSpan(array, 3)], [{ start: 1, end: 3 }, { start: 3, end: 5 }]);
    assert.equal(coset.integer(array.subarray(1, 3)), 42);
    assert.ok(await thrown(() => coset.itemSpan(array, 6)) instanceof coset.Absent);
  },
};

let wrong = 0;
for (const [name, test] of Object.entries(tests)) {
  try {
    await test();
  } catch (error) {
    wrong++;
    console.error(`${name}: ${error.stack}`);
  }
}
console.log(`JavaScript's tests ${Object.keys(tests).length}`);
process.exitCode = wrong ? 1 : 0;
