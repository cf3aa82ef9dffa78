/** Prints the payload of a signed token, which a ring without keys refuses. Both are in hexadecimal. */
import * as coset from "coset-rattle";

const token = Buffer.from(process.argv[2], "hex");
try {
  await coset.verifyToken(token, new coset.KeyRing({}, { verify: () => false }), { algorithms: [coset.ES256] });
} catch (refusal) {
  if (refusal instanceof coset.InvalidToken && refusal.reason === "UNFIT") {
    console.log(Buffer.from(coset.part(coset.SIGN1 + coset.EITHER, token, coset.PAYLOAD)).toString("hex"));
  }
}
