package main

import "coset"

// verified returns the payload of a message whose ES256 signature the verifier accepts. Nothing else is checked, such as `exp`,
// `aud` or `iss`: for a web token call coset.VerifyToken.
func verified(message []byte, verifier coset.Verifier) ([]byte, error) {
	return coset.Verify(coset.Sign1+coset.Either, message, []int64{coset.ES256}, verifier, coset.Options{})
}
