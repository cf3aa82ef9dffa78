package main

import (
	"coset"
	"crypto/ecdsa"
	"crypto/elliptic"
	"crypto/sha256"
	"math/big"
	"time"
)

// es256 verifies ES256 by crypto/ecdsa, with keys that have both coordinates.
type es256 struct{}

func (es256) Verify(key []byte, algorithm int64, input, proof []byte) bool {
	x, noX := coset.LabelBytes(coset.Key, key, coset.InItem, -2)
	y, noY := coset.LabelBytes(coset.Key, key, coset.InItem, -3)
	if algorithm != coset.ES256 || noX != nil || noY != nil || len(proof) != 64 {
		return false
	}
	number := func(data []byte) *big.Int { return new(big.Int).SetBytes(data) }
	public := ecdsa.PublicKey{Curve: elliptic.P256(), X: number(x), Y: number(y)}
	if !public.Curve.IsOnCurve(public.X, public.Y) {
		return false
	}
	hash := sha256.Sum256(input)
	return ecdsa.Verify(&public, hash[:], number(proof[:32]), number(proof[32:]))
}

func (es256) Decrypt(key []byte, algorithm int64, nonce, aad, ciphertext []byte) ([]byte, bool) {
	return nil, false
}

// accepted returns a token that a key of one of the issuers signed.
func accepted(token []byte, issuers []coset.Issuer, now time.Time, ciphers coset.Ciphers) (*coset.VerifiedToken, error) {
	ring, err := coset.NewKeyRing(issuers, ciphers)
	if err != nil {
		return nil, err
	}
	return coset.VerifyToken(token, ring, coset.TokenPolicy{
		Algorithms: []int64{coset.ES256}, Audience: []string{"coap://light.example.com"}, Leeway: time.Minute, Now: now,
	})
}
