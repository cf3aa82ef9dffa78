/** Verifies a signed message, a COSE_Sign1, with the caller's cryptography. */
import * as coset from "coset-rattle";

/** Returns a promise of the payload of a message whose ES256 signature `verify` accepts. `verify` gets the question.
 *
 * Nothing else is checked, such as `exp`, `aud` or `iss`: for a web token call `coset.verifyToken`. */
export function verified(message, verify) {
  return coset.verify(coset.SIGN1 + coset.EITHER, message, { algorithms: [coset.ES256] }, verify);
}
