"""Verifies a signed message, a COSE_Sign1, with the caller's cryptography."""
import coset


def verified(message, verify):
    """Returns the payload of a message whose ES256 signature `verify` accepts. `verify` receives a coset.Question.

    Nothing else is checked, such as `exp`, `aud` or `iss`: for a web token call `coset.verify_token`."""
    return coset.verify(coset.SIGN1 + coset.EITHER, message, [coset.ES256], verify)
