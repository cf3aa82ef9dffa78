/** Accepts web tokens (RFC 8392) of the issuers whose keys are known. */
import * as coset from "coset-rattle";

/** ES256 by WebCrypto, which knows points with both coordinates. */
const webCrypto = {
  async verify(key, algorithm, input, proof) {
    if (algorithm !== coset.ES256) return false;
    const es256 = { name: "ECDSA", namedCurve: "P-256", hash: "SHA-256" };
    try {
      const [x, y] = [-2, -3].map(label => coset.labelBytes(coset.KEY, key, coset.IN_ITEM, label));
      const point = await crypto.subtle.importKey("raw", Uint8Array.of(4, ...x, ...y), es256, false, ["verify"]);
      return await crypto.subtle.verify(es256, point, proof, input);
    } catch (error) {
      if (error instanceof coset.WrongType || error instanceof DOMException) return false; // the sign of y alone, or no point
      throw error;
    }
  },
};

/** Returns a promise of a token that a key of one of the issuers signed. `issuers` has a COSE_KeySet for each issuer's
 * name. */
export function accepted(token, issuers, now = null, ciphers = webCrypto) {
  const ring = new coset.KeyRing(issuers, ciphers);
  return coset.verifyToken(token, ring, { algorithms: [coset.ES256], audience: ["coap://light.example.com"], leeway: 60, now });
}
