/** Uses of the package that its types allow, and others that they don't. `tsc` compiles it (tools/capi/wasm.py). */
import * as coset from "coset-rattle";

const token = new Uint8Array();
const ring = new coset.KeyRing({ as: token }, { verify: async (key, algorithm, input, proof) => key.length + input.length > proof.length && algorithm === -7 });
const options: coset.TokenOptions = { algorithms: [coset.ES256, coset.A128GCM], now: 5n, maxAge: null };
const { claims }: coset.VerifiedToken = await coset.verifyToken(token, ring, options);
await coset.verifyToken(token.buffer, layer => [layer.form === coset.ENCRYPT0 ? layer.proof : true, "as"], options);
const payload: Uint8Array = await coset.verify(coset.SIGN1 + coset.EITHER, claims, options, async question => question.keyId !== null);
await coset.decrypt(coset.ENCRYPT0, payload, { algorithms: [1] }, async question => question.iv && question.proof.buffer);
coset.putAll(coset.CLAIMS, token, new Map<number, string | Uint8Array>([[1, "as"], [7, token]]));
try {
  coset.check(coset.SIGN1, token);
} catch (error) {
  if (error instanceof coset.Fault) {
    const reason: coset.Reason = error.reason, offset: number | null = error.offset;
    console.log(reason, offset);
  }
}
// @ts-expect-error the answer is true or false
await coset.verify(coset.SIGN1, token, { algorithms: [-7] }, async () => "yes");
// @ts-expect-error an option is undefined (--exactOptionalPropertyTypes)
await coset.verify(coset.SIGN1, token, { algorithms: [-7], detached: undefined }, async () => true);
// @ts-expect-error the name of an issuer is undefined
new coset.KeyRing([[undefined, token]], { verify: () => true });
// @ts-expect-error a ring has ciphers
new coset.KeyRing({ as: token });
// @ts-expect-error the algorithms are missing
await coset.verify(coset.SIGN1, token, {}, async () => true);
