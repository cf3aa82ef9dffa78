package main

import "coset"

// issued returns a token with these claims, signed by ES256, or nil if sign returns no bytes. sign gets the bytes to sign.
func issued(claims []coset.Pair, keyID []byte, sign func(signed []byte) []byte) ([]byte, error) {
	payload, err := coset.PutAll(coset.Claims, nil, claims)
	if err != nil {
		return nil, err
	}
	header, err := coset.PutInt(coset.Header, nil, 1, coset.ES256)
	if err != nil {
		return nil, err
	}
	unprotected, err := coset.PutBytes(coset.Header, nil, 4, keyID)
	if err != nil {
		return nil, err
	}
	signed, err := coset.StructureOf(coset.Sign1, header, payload, coset.Options{})
	if err != nil {
		return nil, err
	}
	signature := sign(signed)
	if len(signature) == 0 {
		return nil, nil
	}
	return coset.Make(coset.Sign1+coset.Tagged, header, unprotected, payload, signature)
}
