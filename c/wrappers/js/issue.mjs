/** Issues a signed web token (RFC 8392), with the caller's cryptography. */
import * as coset from "coset-rattle";

/** Returns a token with these claims, signed by ES256, or null if `sign` returns null or no bytes. `sign` gets the bytes to
 * sign. */
export async function issued(claims, keyId, sign) {
  const payload = coset.putAll(coset.CLAIMS, new Uint8Array(), claims);
  const header = coset.put(coset.HEADER, new Uint8Array(), 1, coset.ES256);
  const unprotected = coset.put(coset.HEADER, new Uint8Array(), 4, keyId);
  const proof = await sign(coset.structureOf(coset.SIGN1, header, { content: payload }));
  if (proof === null || proof?.byteLength === 0) return null;
  return coset.make(coset.SIGN1 + coset.TAGGED, header, unprotected, { content: payload, proof });
}
