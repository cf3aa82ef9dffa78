package coset

import (
	"bytes"
	"encoding/binary"
	"errors"
	"fmt"
	"runtime"
	"strings"
	"sync"
	"testing"
	"time"
	"unsafe"
)

// must returns the bytes, because the call succeeds.
func must(t *testing.T) func(data []byte, err error) []byte {
	return func(data []byte, err error) []byte {
		t.Helper()
		if err != nil {
			t.Fatal(err)
		}
		return data
	}
}

func message(t *testing.T, payload string) []byte {
	header := must(t)(PutInt(Header, nil, 1, ES256))
	return must(t)(Make(Sign1+Tagged, header, nil, []byte(payload), make([]byte, 64)))
}

// token returns a token of two layers, an encrypted one around a signed one. Its ciphertext is the plaintext itself.
func token(t *testing.T, id byte) []byte {
	claims := must(t)(PutAll(Claims, nil, []Pair{{1, "as"}, {3, "here"}, {4, int64(2000)}, {7, []byte{id}}}))
	inner := must(t)(Make(Sign1+Tagged, must(t)(PutInt(Header, nil, 1, ES256)), nil, claims, make([]byte, 64)))
	iv := must(t)(PutBytes(Header, nil, 5, make([]byte, 12)))
	return must(t)(Make(Encrypt0+Tagged, must(t)(PutInt(Header, nil, 1, A128GCM)), iv, inner, nil))
}

var policy = TokenPolicy{Algorithms: []int64{ES256, A128GCM}, Audience: []string{"", "here"}, Types: nil, Now: time.Unix(1000, 0)}

// says accepts each layer, while other goroutines and the garbage collector run.
var says = OpenerFunc(func(layer *Layer) (*Opened, error) {
	runtime.Gosched()
	opened := Opened{Issuer: "as"}
	if layer.Form == Encrypt0 {
		opened.Plaintext = append([]byte{}, layer.Proof...)
	}
	return &opened, nil
})

func TestManyGoroutines(t *testing.T) {
	var group sync.WaitGroup
	over := make(chan bool)
	go func() {
		for {
			select {
			case <-over:
				return
			default:
				runtime.GC()
			}
		}
	}()
	for i := 0; i < 16; i++ {
		group.Add(1)
		go func(id byte) {
			defer group.Done()
			sealed, plain := token(t, id), fmt.Sprint("payload ", id)
			signed := message(t, plain)
			for n := 0; n < 50; n++ {
				found, err := VerifyToken(sealed, says, policy)
				if err != nil {
					t.Error(err)
					return
				}
				claim, err := LabelBytes(Claims, found.Claims, InItem, 7)
				if err != nil || !bytes.Equal(claim, []byte{id}) || found.Issuer != "as" || len(found.Layers) != 2 {
					t.Errorf("%d: %x, %v, %v", id, claim, found, err)
				}
				yes := VerifierFunc(func(q *Question) bool { return bytes.Contains(q.Input, []byte(plain)) })
				payload, err := Verify(Sign1+Either, signed, []int64{ES256}, yes, Options{})
				if err != nil || string(payload) != plain {
					t.Errorf("%d: %q, %v", id, payload, err)
				}
			}
		}(byte(i))
	}
	group.Wait()
	close(over)
}

func TestInputThatChangesMeanwhile(t *testing.T) {
	signed := message(t, "good")
	payload, err := Verify(Sign1+Either, signed, []int64{ES256}, VerifierFunc(func(q *Question) bool {
		for _, it := range [][]byte{signed, q.Input, q.Proof} {
			copy(it, make([]byte, len(it)))
		}
		return true
	}), Options{})
	if err != nil || string(payload) != "good" {
		t.Errorf("%q, %v", payload, err)
	}
	header, content := must(t)(PutInt(Header, nil, 1, ES256)), []byte("good")
	detached := must(t)(Make(Sign1, header, nil, nil, make([]byte, 64)))
	payload, err = Verify(Sign1, detached, []int64{ES256}, VerifierFunc(func(*Question) bool {
		copy(content, "evil")
		return true
	}), Options{Detached: content})
	if err != nil || string(payload) != "good" {
		t.Errorf("%q, %v", payload, err)
	}
	sealed := token(t, 1)
	found, err := VerifyToken(sealed, OpenerFunc(func(layer *Layer) (*Opened, error) {
		opened, err := says(layer)
		copy(sealed, make([]byte, len(sealed)))
		copy(layer.Input, make([]byte, len(layer.Input)))
		return opened, err
	}), policy)
	if err != nil || found.Issuer != "as" {
		t.Error(err)
	}
}

func TestRefusals(t *testing.T) {
	signed, own := message(t, "x"), errors.New("own")
	yes, no := VerifierFunc(func(*Question) bool { return true }), VerifierFunc(func(*Question) bool { return false })
	calls := map[Status]func() error{
		ErrRefused:    func() error { _, err := Verify(Sign1+Either, signed, []int64{ES256}, no, Options{}); return err },
		ErrNotAllowed: func() error { _, err := Verify(Sign1+Either, signed, nil, yes, Options{}); return err },
		ErrMisuse:     func() error { _, err := Verify(Sign1+Either, signed, []int64{ES256}, nil, Options{}); return err },
		ErrExtraneous: func() error { return Check(Header, []byte{0xa0, 0}) },
		ErrEmpty:      func() error { _, err := Count(KeySet, []byte{0x80}); return err },
		ErrAbsent:     func() error { _, err := LabelInt(Header, []byte{0xa0}, InItem, 1); return err },
		ErrType:       func() error { _, err := LabelInt(Claims, []byte{0xa1, 1, 0x60}, InItem, 1); return err },
		ErrAudience: func() error {
			claims := must(t)(PutAll(Claims, nil, []Pair{{1, "as"}, {3, "there"}, {4, 2000}}))
			other := must(t)(Make(Sign1, must(t)(PutInt(Header, nil, 1, ES256)), nil, claims, make([]byte, 64)))
			_, err := VerifyToken(other, says, policy)
			return err
		},
	}
	for want, call := range calls {
		if err := call(); !errors.Is(err, want) {
			t.Errorf("%v and not %v", err, want)
		}
	}
	var fault *Fault
	if err := Check(Header, []byte{0xa0, 0}); !errors.As(err, &fault) || fault.Offset != 1 { // the first byte after the item
		t.Errorf("%v", err)
	}
	for _, wrong := range []*Opened{{Issuer: "as"}, {Plaintext: []byte{}, Issuer: "\xff"}} {
		_, err := VerifyToken(token(t, 1), OpenerFunc(func(*Layer) (*Opened, error) { return wrong, nil }), policy)
		if err == nil || len(wrong.Plaintext) == 0 && wrong.Plaintext == nil && !errors.Is(err, ErrMisuse) {
			t.Errorf("%v", err)
		}
	}
	if _, err := VerifyToken(token(t, 1), OpenerFunc(func(*Layer) (*Opened, error) { return nil, own }), policy); err != own {
		t.Errorf("%v", err)
	}
	_, err := VerifyToken(token(t, 1), OpenerFunc(func(*Layer) (*Opened, error) { return nil, nil }), policy)
	var refused *InvalidToken
	if !errors.As(err, &refused) || refused.Reason != ErrRefused || refused.Layer != 0 {
		t.Errorf("%v", err)
	}
}

func TestAnswersOfDecrypters(t *testing.T) {
	sealed, own := must(t)(Make(Encrypt0, must(t)(PutInt(Header, nil, 1, 1)), nil, []byte("ciphertext"), nil)), errors.New("own")
	for _, it := range []struct {
		plain []byte
		err   error
		want  error
	}{{nil, nil, ErrRefused}, {[]byte("plain"), own, own}, {[]byte{}, nil, nil}, {[]byte("plain"), nil, nil}} {
		decrypter := DecrypterFunc(func(*Question) ([]byte, error) { return it.plain, it.err })
		plain, err := Decrypt(Encrypt0, sealed, []int64{1}, decrypter, Options{})
		if err != it.want || (plain == nil) != (it.want != nil) || it.want == nil && !bytes.Equal(plain, it.plain) {
			t.Errorf("%q, %v and not %q, %v", plain, err, it.plain, it.want)
		}
	}
}

func TestKindsOfQuestions(t *testing.T) {
	header := must(t)(PutInt(Header, nil, 1, ES256))
	for _, kind := range []Kind{Sign1, Mac0} {
		for _, form := range []Kind{0, Tagged, Either} {
			bare := must(t)(Make(kind+form&Tagged, header, nil, []byte("x"), make([]byte, 64)))
			payload, err := Verify(kind+form, bare, []int64{ES256}, VerifierFunc(func(q *Question) bool { return q.Kind == kind }), Options{})
			if err != nil || string(payload) != "x" {
				t.Errorf("%d+%d: %q, %v", kind, form, payload, err)
			}
		}
	}
	_, err := VerifyToken(token(t, 1), OpenerFunc(func(layer *Layer) (*Opened, error) {
		if layer.Kind != layer.Form {
			t.Errorf("%d and not %d", layer.Kind, layer.Form)
		}
		return says(layer)
	}), policy)
	if err != nil {
		t.Error(err)
	}
}

func TestBothIVs(t *testing.T) {
	header := must(t)(PutBytes(Header, must(t)(PutInt(Header, nil, 1, A128GCM)), 5, []byte("iv")))
	both := must(t)(Make(Encrypt0, header, must(t)(PutBytes(Header, nil, 6, []byte("p"))), []byte("ciphertext"), nil))
	never := DecrypterFunc(func(*Question) ([]byte, error) { panic("the decrypter is called") })
	if _, err := Decrypt(Encrypt0, both, []int64{A128GCM}, never, Options{}); err != ErrHeaders {
		t.Errorf("%v", err)
	}
	if _, err := Decrypt(Encrypt0, both, []int64{ES256}, never, Options{}); err != ErrNotAllowed {
		t.Errorf("%v", err)
	}
}

func TestFieldsWithoutMeaning(t *testing.T) {
	signed, yes := message(t, "x"), VerifierFunc(func(*Question) bool { return true })
	for name, call := range map[string]func() ([]byte, error){
		"StructureOf":          func() ([]byte, error) { return StructureOf(Sign1, nil, nil, Options{Detached: []byte("x")}) },
		"Structure":            func() ([]byte, error) { return Structure(Sign1+Either, signed, Options{Critical: []int64{9}}) },
		"CountersignStructure": func() ([]byte, error) { return CountersignStructure(Sign1+Either, signed, 11, Options{Index: 1}) },
		"Verify": func() ([]byte, error) {
			return Verify(Sign1+Either, signed, []int64{ES256}, yes, Options{Signer: []byte{0xa0}})
		},
	} {
		if _, err := call(); !errors.Is(err, ErrMisuse) || err.Error() == ErrMisuse.Error() {
			t.Errorf("%s: %v", name, err)
		}
	}
}

// The library says that an index is for a kind with signers.
func TestIndexWithoutMeaning(t *testing.T) {
	signed, yes := message(t, "x"), VerifierFunc(func(*Question) bool { return true })
	for _, i := range []int{1, -1} {
		o := Options{Index: i}
		_, verified := Verify(Sign1+Either, signed, []int64{ES256}, yes, o)
		_, read := ReadMessage(Sign1+Either, signed, o)
		_, made := Structure(Sign1+Either, signed, o)
		if verified != ErrMisuse || read != ErrMisuse || made != ErrMisuse {
			t.Errorf("%d: %v, %v, %v", i, verified, read, made)
		}
	}
}

func TestPoliciesWithoutMeaning(t *testing.T) {
	for cause, change := range map[string]func(*TokenPolicy){
		"Leeway is negative":                        func(p *TokenPolicy) { p.Leeway = -1 },
		"MaxAge is negative, or less than a second": func(p *TokenPolicy) { p.MaxAge = -time.Hour },
		"MaxAge is negative, or ":                   func(p *TokenPolicy) { p.MaxAge = time.Second - 1 },
		"there is an Audience with AnyAudience":     func(p *TokenPolicy) { p.AnyAudience = true },
		"a text of the policy isn't UTF-8":          func(p *TokenPolicy) { p.Types = []string{"\xff"} },
		"an algorithm or a required claim":          func(p *TokenPolicy) { p.Algorithms = []int64{9999} },
		"UntaggedForm":                              func(p *TokenPolicy) { p.UntaggedForm = Sign },
	} {
		p := policy
		change(&p)
		if _, err := VerifyToken(token(t, 1), says, p); !errors.Is(err, ErrMisuse) || !strings.Contains(err.Error(), cause) {
			t.Errorf("%s: %v", cause, err)
		}
	}
}

// claimed returns a signed token with these times, and a policy for the time 1000.
func claimed(t *testing.T, exp, iat int64) ([]byte, TokenPolicy) {
	claims := must(t)(PutAll(Claims, nil, []Pair{{1, "as"}, {4, exp}, {6, iat}}))
	signed := must(t)(Make(Sign1, must(t)(PutInt(Header, nil, 1, ES256)), nil, claims, make([]byte, 64)))
	return signed, TokenPolicy{Algorithms: []int64{ES256}, Now: time.Unix(1000, 0)}
}

// A leeway and an age are durations, of which whole seconds count.
func TestDurations(t *testing.T) {
	minute, second := time.Minute, time.Second
	for _, it := range []struct {
		exp, iat    int64
		leeway, age time.Duration
		want        error
	}{
		{1001, 900, 0, 0, nil}, {1000, 900, 0, 0, ErrExpired}, {1000, 900, second - 1, 0, ErrExpired}, {1000, 900, second, 0, nil},
		{1000, 900, 2*second - 1, 0, nil}, {999, 900, 2*second - 1, 0, ErrExpired}, {941, 900, minute, 0, nil}, {940, 900, minute, 0, ErrExpired},
		{1 << 40, 940, 0, minute, ErrTooOld}, {1 << 40, 941, 0, minute, nil}, {1 << 40, 941, 0, minute + second - 1, nil},
		{1 << 40, 940, 0, minute + second - 1, ErrTooOld}, {1 << 40, 940, 0, minute + second, nil}, {1 << 40, 999, 0, second, ErrTooOld},
		{1 << 40, 1000, 0, second, nil}, {1 << 40, 1, 0, 1<<63 - 1, nil}, {1, 1, 1<<63 - 1, 0, nil},
	} {
		signed, p := claimed(t, it.exp, it.iat)
		p.Leeway, p.MaxAge = it.leeway, it.age
		if _, err := VerifyToken(signed, says, p); err != it.want && !errors.Is(err, it.want) {
			t.Errorf("%v: %v", it, err)
		}
	}
}

// A misuse says what the cause is, if the package knows it.
func TestCausesOfMisuse(t *testing.T) {
	yes := VerifierFunc(func(*Question) bool { return true })
	put := func(label, value any) func() error {
		return func() error { _, err := PutAll(Claims, nil, []Pair{{label, value}}); return err }
	}
	for cause, call := range map[string]func() error{
		"and no uint": put(1, uint(1)), "and no bool": put(1, true), "and no <nil>": put(1, nil), "and no []string": put(1, []string{"a"}),
		"a label is an int, an int64 or a string, and no float64": put(1.5, 1), "a label is an int, an int64 or a string, and no []uint8": put([]byte{1}, 1),
		"the ciphers are nil":   func() error { _, err := NewKeyRing(nil, nil); return err },
		"the opener is nil":     func() error { _, err := VerifyToken(nil, nil, policy); return err },
		"the verifier is nil":   func() error { _, err := Verify(Sign1, nil, nil, nil, Options{}); return err },
		"the decrypter is nil":  func() error { _, err := Decrypt(Encrypt0, nil, nil, nil, Options{}); return err },
		"a kind without a sign": func() error { _, err := Verify(Encrypt0, nil, nil, yes, Options{}); return err },
		"a kind of another":     func() error { _, err := Decrypt(Sign1, nil, nil, nil, Options{}); return err },
		"isn't UTF-8": func() error {
			_, err := VerifyToken(token(t, 1), OpenerFunc(func(layer *Layer) (*Opened, error) {
				return &Opened{append([]byte{}, layer.Proof...), "\xff"}, nil
			}), policy)
			return err
		},
		"an argument has no meaning for this call": func() error { return Check(99, nil) },
	} {
		if err := call(); !errors.Is(err, ErrMisuse) || !strings.Contains(err.Error(), cause) {
			t.Errorf("%s: %v", cause, err)
		}
	}
}

// The reasons hold for each of their causes: a token for others, one without the claim, and a verifier that names nothing.
func TestReasonsWithSeveralCauses(t *testing.T) {
	signed, base := claimed(t, 2000, 900)
	header := must(t)(PutInt(Header, nil, 1, ES256))
	bare := must(t)(Make(Sign1, header, nil, must(t)(PutAll(Claims, nil, []Pair{{3, "there"}, {4, 2000}})), make([]byte, 64)))
	for _, it := range []struct {
		token  []byte
		reason string
		change func(*TokenPolicy)
	}{
		{signed, "the token isn't for one of the verifier's audiences", func(p *TokenPolicy) { p.Audience = []string{"here"} }},
		{bare, "the token isn't for one of the verifier's audiences", func(p *TokenPolicy) { p.Audience = []string{"here"} }},
		{bare, "the token isn't for one of the verifier's audiences", func(p *TokenPolicy) {}},
		{signed, "the token has none of the accepted types", func(p *TokenPolicy) { p.Types = []string{"application/cwt"} }},
		{signed, "the token is too old, or has no time of issue", func(p *TokenPolicy) { p.MaxAge = time.Minute }},
		{bare, "the token is too old, or has no time of issue", func(p *TokenPolicy) { p.AnyAudience, p.MaxAge = true, time.Minute }},
	} {
		p := base
		it.change(&p)
		if _, err := VerifyToken(it.token, says, p); err == nil || err.Error() != "the token is refused: "+it.reason {
			t.Errorf("%s: %v", it.reason, err)
		}
	}
}

func TestSingleKeyIsNoSet(t *testing.T) {
	key := must(t)(PutAll(Key, nil, []Pair{{1, 4}, {-1, make([]byte, 32)}}))
	_, alone := ReadableKeys(key)
	_, inRing := NewKeyRing([]Issuer{{"as", key}}, ringCiphers{})
	for _, err := range []error{alone, inRing} {
		var fault *Fault
		if !errors.As(err, &fault) || !errors.Is(err, ErrUnexpected) || !strings.Contains(err.Error(), "a COSE_KeySet is needed, an array of keys") {
			t.Errorf("%v", err)
		}
	}
	if keys, err := ReadableKeys(must(t)(Add(KeySet, nil, key))); err != nil || len(keys) != 1 || !bytes.Equal(keys[0], key) {
		t.Errorf("%x, %v", keys, err)
	}
}

// countedCiphers accept the keys whose last byte is 1, and count their calls.
type countedCiphers struct{ calls int }

func (c *countedCiphers) Verify(key []byte, _ int64, _, _ []byte) bool {
	c.calls++
	return key[len(key)-1] == 1
}

func (*countedCiphers) Decrypt([]byte, int64, []byte, []byte, []byte) ([]byte, bool) {
	return nil, false
}

// keyFor returns a key for HMAC whose secret has equal bytes, with an identifier unless that is nil.
func keyFor(t *testing.T, algorithm, secret int, id []byte) []byte {
	pairs := []Pair{{1, 4}, {3, algorithm}, {-1, bytes.Repeat([]byte{byte(secret)}, 64)}}
	if id != nil {
		pairs = append([]Pair{{2, id}}, pairs...)
	}
	return must(t)(PutAll(Key, nil, pairs))
}

func setOf(keys ...[]byte) []byte {
	return append([]byte{0x98, byte(len(keys))}, bytes.Join(keys, nil)...)
}

func times(count int, key []byte) [][]byte {
	found := make([][]byte, count)
	for i := range found {
		found[i] = key
	}
	return found
}

func macToken(t *testing.T, id []byte) []byte {
	unprotected := []byte(nil)
	if id != nil {
		unprotected = must(t)(PutBytes(Header, nil, 4, id))
	}
	content := must(t)(PutAll(Claims, nil, []Pair{{1, "as"}, {4, 2000}}))
	return must(t)(Make(Mac0+Tagged, must(t)(PutInt(Header, nil, 1, HMAC256_256)), unprotected, content, make([]byte, 32)))
}

// A ring tries 16 keys that fit a layer, and no others.
func TestTriesOfKeys(t *testing.T) {
	p := TokenPolicy{Algorithms: []int64{HMAC256_256}, Now: time.Unix(1000, 0)}
	for _, id := range [][]byte{nil, []byte("kid")} {
		right, wrong, other := times(1, keyFor(t, HMAC256_256, 1, id)), times(17, keyFor(t, HMAC256_256, 2, id)), times(40, keyFor(t, HMAC384_384, 1, id))
		for i, it := range []struct {
			keys  [][][]byte
			want  error
			calls int
		}{
			{nil, ErrUnfit, 0}, {[][][]byte{other}, ErrUnfit, 0}, {[][][]byte{wrong[16:]}, ErrRefused, 1}, {[][][]byte{wrong[1:]}, ErrRefused, 16}, {[][][]byte{wrong[1:], other}, ErrRefused, 16},
			{[][][]byte{wrong}, ErrTooManyKeys, 16}, {[][][]byte{wrong[1:], right}, ErrTooManyKeys, 16}, {[][][]byte{wrong[2:], right}, nil, 16},
			{[][][]byte{other, wrong[2:], other, right, wrong}, nil, 16},
		} {
			var issuers []Issuer
			for _, keys := range it.keys {
				issuers = append(issuers, Issuer{"as", setOf(keys...)})
			}
			ciphers := countedCiphers{}
			ring, err := NewKeyRing(issuers, &ciphers)
			if err != nil {
				t.Fatal(err)
			}
			_, err = VerifyToken(macToken(t, id), ring, p)
			var refused *InvalidToken
			if ciphers.calls != it.calls || it.want == nil && err != nil {
				t.Errorf("%d: %d calls, %v", i, ciphers.calls, err)
			}
			if it.want != nil && (!errors.As(err, &refused) || !errors.Is(err, it.want) || refused.Layer != 0 || !bytes.Equal(refused.KeyID, id)) {
				t.Errorf("%d: %v and not %v", i, err, it.want)
			}
		}
	}
	named := [][]byte{}
	for i := 0; i < 40; i++ {
		named = append(named, keyFor(t, HMAC256_256, 2, []byte{byte(i)}))
	}
	kid, right := []byte("kid"), keyFor(t, HMAC256_256, 1, []byte("kid"))
	for _, it := range []struct {
		id   []byte
		keys [][]byte
		want error
	}{{kid, append(named[:40:40], right), nil}, {kid, named, ErrUnfit}, {nil, append(named[:15:15], right), nil}, {nil, append(named[:16:16], right), ErrTooManyKeys}} {
		ring, err := NewKeyRing([]Issuer{{"as", setOf(it.keys...)}}, &countedCiphers{})
		if err != nil {
			t.Fatal(err)
		}
		if _, err := VerifyToken(macToken(t, it.id), ring, p); err != it.want && !errors.Is(err, it.want) {
			t.Errorf("%v and not %v", err, it.want)
		}
	}
}

// A refusal by keys has the key identifier of the layer, also if the opener changes its own.
func TestKeyIDsOfRefusals(t *testing.T) {
	says := func(yes bool) OpenerFunc {
		return func(layer *Layer) (*Opened, error) {
			copy(layer.KeyID, "???")
			if !yes {
				return nil, nil
			}
			return &Opened{Issuer: "as"}, nil
		}
	}
	for _, it := range []struct {
		yes       bool
		id        []byte
		algorithm int64
		now       int64
		want      error
		wantID    string
	}{
		{false, []byte("kid"), HMAC256_256, 1000, ErrRefused, "kid"}, {false, nil, HMAC256_256, 1000, ErrRefused, ""},
		{true, []byte("kid"), HMAC256_256, 5000, ErrExpired, ""}, {true, []byte("kid"), ES256, 1000, ErrNotAllowed, ""},
	} {
		_, err := VerifyToken(macToken(t, it.id), says(it.yes), TokenPolicy{Algorithms: []int64{it.algorithm}, Now: time.Unix(it.now, 0)})
		var refused *InvalidToken
		if !errors.As(err, &refused) || !errors.Is(err, it.want) || string(refused.KeyID) != it.wantID || (refused.KeyID == nil) != (it.wantID == "") {
			t.Errorf("%v: %#v", it, err)
		}
	}
}

// ringCiphers accept nothing.
type ringCiphers struct{}

func (ringCiphers) Verify([]byte, int64, []byte, []byte) bool { return false }

func (ringCiphers) Decrypt([]byte, int64, []byte, []byte, []byte) ([]byte, bool) { return nil, false }

func TestFractionsOfSeconds(t *testing.T) {
	claims := must(t)(PutAll(Claims, nil, []Pair{{1, "as"}, {3, "here"}, {4, 2000}, {5, 1000}}))
	sealed := must(t)(Make(Sign1, must(t)(PutInt(Header, nil, 1, ES256)), nil, claims, make([]byte, 64)))
	half := int64(500_000_000)
	for now, want := range map[time.Time]error{
		time.Unix(999, half): ErrNotYetValid, time.Unix(1000, 0): nil, time.Unix(1000, half): nil, time.Unix(1999, 0): nil,
		time.Unix(1999, half): ErrExpired, time.Unix(2000, 0): ErrExpired, {}: ErrExpired, // the clock is later
	} {
		p := policy
		p.Now = now
		if _, err := VerifyToken(sealed, says, p); err != want && !errors.Is(err, want) {
			t.Errorf("%v: %v and not %v", now, err, want)
		}
	}
}

func TestEmptyProofs(t *testing.T) {
	never := OpenerFunc(func(*Layer) (*Opened, error) {
		t.Fatal("the opener is called")
		return nil, nil
	})
	for kind, algorithm := range map[Kind]int64{Sign1: ES256, Mac0: HMAC256_256} {
		header := must(t)(PutInt(Header, nil, 1, algorithm))
		empty := must(t)(Make(kind+Tagged, header, nil, must(t)(PutInt(Claims, nil, 4, 2000)), nil))
		verifier := VerifierFunc(func(*Question) bool {
			t.Fatal("the verifier is called")
			return true
		})
		for allowed, want := range map[int64]error{algorithm: ErrRefused, A128GCM: ErrNotAllowed} {
			if _, err := Verify(kind+Tagged, empty, []int64{allowed}, verifier, Options{}); err != want {
				t.Errorf("an empty proof for the algorithm %d: %v", allowed, err)
			}
		}
		_, err := VerifyToken(empty, never, TokenPolicy{Algorithms: []int64{algorithm}, Now: time.Unix(1000, 0)})
		var refusal *InvalidToken
		if !errors.As(err, &refusal) || !errors.Is(err, ErrRefused) || refusal.Layer != 0 {
			t.Errorf("a token with an empty proof: %v", err)
		}
	}
}

// Names go to memory of C that had other contents before. The garbage collector must not take these for pointers of Go.
func TestNamesInUsedMemory(t *testing.T) {
	gone := make([]byte, 1<<20)
	address := uint64(uintptr(unsafe.Pointer(&gone[0])))
	gone = nil
	runtime.GC()
	over := make(chan bool)
	go func() {
		for {
			select {
			case <-over:
				return
			default:
				runtime.GC()
			}
		}
	}()
	pattern := make([]byte, 8)
	binary.LittleEndian.PutUint64(pattern, address)
	used, names := []string{strings.Repeat(string(pattern), 62)}, make([]string, 32) // both take 512 bytes
	for i := 0; i < 200_000; i++ {
		textsOf(used).free()
		textsOf(names).free()
	}
	over <- true
}
