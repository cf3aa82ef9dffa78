// The program makes the calls that it reads through the package, as c/wrappers/c/calls.c does, and prints their results
// (tools/c). A result is `ok` and a value, or the error.
package main

import (
	"bufio"
	"bytes"
	"coset"
	"encoding/hex"
	"errors"
	"fmt"
	"math"
	"os"
	"strconv"
	"strings"
	"time"
)

var names = strings.Fields(`ok Short Memory Ends Malformed Deep Extraneous Unexpected Duplicate OutOfRange Unregistered NotPrivate
	Absent Misuse Type Empty NotAllowed Critical Refused Layer TooDeep Unauthenticated NotClaims NoExpiration Expired NotYetValid
	IssuedLater TooOld Issuer Audience Headers TokenType HeaderClaims Missing Unfit TooManyKeys`)

func data(word string) []byte {
	found, err := hex.DecodeString(strings.TrimPrefix(word, "-"))
	if err != nil {
		panic(err)
	}
	return found
}

func spelled(data []byte) string {
	if len(data) == 0 {
		return "-"
	}
	return hex.EncodeToString(data)
}

func integer(word string) int64 {
	found, err := strconv.ParseInt(word, 10, 64)
	if err != nil {
		panic(err)
	}
	return found
}

func float(word string) float64 {
	found, err := strconv.ParseFloat(word, 64)
	if err != nil {
		panic(err)
	}
	return found
}

func listed(word string) []string {
	if word == "-" {
		return nil
	}
	return strings.Split(word, ",")
}

func integers(word string) (found []int64) {
	for _, it := range listed(word) {
		found = append(found, integer(it))
	}
	return found
}

func texts(word string) (found []string) {
	for _, it := range listed(word) {
		found = append(found, string(data(it[1:])))
	}
	return found
}

// detached returns a payload, or nil if `has` says that there is none.
func detached(has, content string) []byte {
	if has == "0" {
		return nil
	}
	return data(content)
}

// half returns a label or a value of a pair in the word of put_all.
func half(word string) any {
	switch word[0] {
	case 'i':
		return integer(word[1:])
	case 'f':
		return float(word[1:])
	case 't':
		return string(data(word[1:]))
	case 'b':
		return data(word[1:])
	}
	return coset.Encoded(data(word[1:]))
}

func pairs(word string) (found []coset.Pair) {
	for _, pair := range strings.Split(word, ",") {
		if label, value, is := strings.Cut(pair, "="); is {
			found = append(found, coset.Pair{Label: half(label), Value: half(value)})
		}
	}
	return found
}

// token returns the token for the words of `issued`.
func token(keyID []byte, w []string) (string, error) {
	claims := []coset.Pair{{Label: 1, Value: string(data(w[0]))}, {Label: 2, Value: string(data(w[1]))}, {Label: 3, Value: string(data(w[2]))}, {Label: 4, Value: integer(w[4])},
		{Label: 5, Value: integer(w[5])}, {Label: 6, Value: integer(w[6])}, {Label: 7, Value: data(w[3])}}
	found, err := issued(claims, keyID, func(signed []byte) []byte {
		if hex.EncodeToString(signed) != w[7] {
			return nil
		}
		return data(w[8])
	})
	if err == nil && found == nil {
		return "no", nil
	}
	return hex.EncodeToString(found), err
}

// message returns the texts of a message one after another, and the numbers of its view.
func message(kind coset.Kind, given []byte, o coset.Options, isSign1 bool) (string, error) {
	m, err := coset.ReadMessage(kind, given, o)
	if err != nil {
		return "", err
	}
	critical, tagged := m.Critical, 0
	if isSign1 && critical != 0 {
		critical = 1
	}
	if m.IsTagged {
		tagged = 1
	}
	all := bytes.Join([][]byte{m.Input, m.Proof, m.Content, m.KeyID}, nil)
	return fmt.Sprintf("%x %d %d %d %d %d %d %d %d %d", all, m.Algorithm, m.AlgorithmForm, m.KeyIDMap, critical, tagged,
		len(m.Input), len(m.Proof), len(m.Content), len(m.KeyID)), nil
}

// withIV appends the number of a header and the IV in it, if there is one.
func withIV(plain, iv []byte, m coset.Map) []byte {
	if m == 0 {
		return plain
	}
	return append(append(plain, byte(m)), iv...)
}

// safe returns the result of Verify or Decrypt, as calls.c describes it.
func safe(kind coset.Kind, given []byte, w []string) ([]byte, error) {
	isAsked := func(q *coset.Question) bool {
		return q.Kind == kind&0xff && bytes.Equal(q.Input, data(w[6])) && bytes.Equal(q.Proof, data(w[7])) && bytes.Equal(q.KeyID, data(w[8]))
	}
	o := coset.Options{ExternalAAD: data(w[1]), Detached: detached(w[2], w[3]), Critical: integers(w[5])}
	if kind&0xff != coset.Encrypt0 {
		o.Index = int(integer(w[0]))
		return coset.Verify(kind, given, integers(w[4]), coset.VerifierFunc(isAsked), o)
	}
	return coset.Decrypt(kind, given, integers(w[4]), coset.DecrypterFunc(func(q *coset.Question) ([]byte, error) {
		if !isAsked(q) {
			return nil, coset.ErrRefused
		}
		plain := withIV(withIV([]byte{}, q.IV, q.IVMap), q.PartialIV, q.PartialIVMap)
		for _, it := range q.Proof {
			plain = append(plain, it^0x5a)
		}
		return plain, nil
	}), o)
}

func name(issuer string) string {
	if issuer == "" {
		return "-"
	}
	return "t" + hex.EncodeToString([]byte(issuer))
}

func toldToken(token *coset.VerifiedToken) string {
	audience, layers := []string{}, []string{}
	for _, it := range token.Audience {
		audience = append(audience, "t"+hex.EncodeToString([]byte(it)))
	}
	for _, it := range token.Layers {
		layers = append(layers, fmt.Sprintf("%d/%x/%x/%s", it.Form, it.Protected, it.Unprotected, name(it.Issuer)))
	}
	if len(audience) == 0 {
		audience = []string{"-"}
	}
	return fmt.Sprintf("%x %s %x %s %s", token.Claims, strings.Join(audience, ","), token.Others, name(token.Issuer), strings.Join(layers, ","))
}

// A script has the answers for the layers of a token, and the questions that were asked.
type script struct {
	answers, heard []string
	asked          []byte
}

func (s *script) told() string {
	heard := strings.Join(s.heard, ",")
	if heard == "" {
		heard = "-"
	}
	return fmt.Sprintf("%d %s %s", len(s.heard), spelled(s.asked), heard)
}

// Open gives the next answer. The answer `wrong` has a plaintext for a signature, or none for a ciphertext.
func (s *script) Open(layer *coset.Layer) (*coset.Opened, error) {
	s.asked = append(append(s.asked, layer.Proof...), layer.Input...)
	s.heard = append(s.heard, fmt.Sprintf("%d/%d/%d/%x/%x/%x", layer.Form, layer.Algorithm, layer.KeyIDMap, layer.KeyID, layer.IV, layer.PartialIV))
	if layer.Index != len(s.heard)-1 || len(s.answers) == 0 {
		return nil, nil
	}
	said, issuer, _ := strings.Cut(s.answers[0], "@")
	s.answers = s.answers[1:]
	isEncrypted, opened := layer.Form == coset.Encrypt0, coset.Opened{Issuer: string(data(issuer))}
	switch {
	case said == "no":
		return nil, nil
	case isEncrypted != (said == "wrong"):
		opened.Plaintext = []byte{}
		if said[0] == 'p' {
			opened.Plaintext = data(said[1:])
		}
	}
	return &opened, nil
}

// A ring is a ring of keys with ciphers that a line describes, and their calls, as in calls.py.
type ring struct {
	script
	keys  *coset.KeyRing
	rules [][]string
}

func ringOf(sets, says string) (*ring, error) {
	var r ring
	issuers := []coset.Issuer{}
	for _, word := range strings.Split(sets, ",") {
		issuer, keys, _ := strings.Cut(word, ":")
		issuers = append(issuers, coset.Issuer{Name: string(data(strings.TrimPrefix(issuer, "t"))), Keys: data(keys)})
	}
	for _, rule := range strings.Split(says, ",") {
		r.rules = append(r.rules, append(strings.Split(rule, ":"), "-")[:2])
	}
	var err error
	r.keys, err = coset.NewKeyRing(issuers, &r)
	return &r, err
}

func (r *ring) Open(layer *coset.Layer) (*coset.Opened, error) {
	return r.keys.Open(layer)
}

func (r *ring) Decrypt(key []byte, algorithm int64, nonce, aad, ciphertext []byte) ([]byte, bool) {
	keyID, err := coset.LabelBytes(coset.Key, key, coset.InItem, 2)
	id, number := hex.EncodeToString(keyID), fmt.Sprintf("#%d", len(r.heard))
	if err != nil {
		id = "-"
	}
	r.asked = append(append(r.asked, ciphertext...), aad...)
	r.heard = append(r.heard, fmt.Sprintf("%s/%d/%s", id, algorithm, spelled(nonce)))
	for _, rule := range r.rules {
		if rule[0] == id || rule[0] == number {
			plain := data(rule[1])
			rule[1] = "-"
			return plain, true
		}
	}
	return nil, false
}

func (r *ring) Verify(key []byte, algorithm int64, input, proof []byte) bool {
	_, is := r.Decrypt(key, algorithm, nil, input, proof)
	return is
}

// opened returns the result of VerifyToken and the questions that it asked. After a refusal, the layer, the number and the key
// identifier are in place of the token.
func opened(opener coset.Opener, s *script, given []byte, w []string) string {
	rules := strings.Split(w[1], ",")
	seconds := func(word string) time.Duration { return time.Duration(integer(word)) * time.Second }
	token, err := coset.VerifyToken(given, opener, coset.TokenPolicy{
		Algorithms: integers(w[2]), Critical: integers(w[3]), Required: integers(w[4]), Audience: texts(w[5]), Types: texts(w[6]),
		Leeway: seconds(rules[0]), MaxAge: seconds(rules[1]), UntaggedForm: coset.Kind(integer(rules[2])), AuthenticatedBy: coset.Authentication(integer(rules[3])),
		AnyAudience: rules[4] != "0", MayNotExpire: rules[5] != "0", MayBeIssuedLater: rules[6] != "0", Now: time.Unix(integer(w[0]), 0),
	})
	var refused *coset.InvalidToken
	layer, number := "-", "-"
	switch {
	case err == nil:
		return "ok " + toldToken(token) + " " + s.told()
	case errors.As(err, &refused):
		if refused.Layer >= 0 {
			layer = strconv.Itoa(refused.Layer)
		}
		if refused.Number != 0 {
			number = strconv.FormatInt(refused.Number, 10)
		}
		return strings.Join([]string{names[refused.Reason], layer, number, spelled(refused.KeyID), s.told()}, " ")
	case errors.Is(err, coset.ErrMisuse):
		return fmt.Sprintf("Misuse %d - - %s", len(s.heard)-1, s.told())
	}
	return failed(err)
}

// signed accepts the structure and the proof of its words.
type signed struct {
	es256
	input, proof string
}

func (s signed) Verify(_ []byte, _ int64, input, proof []byte) bool {
	return hex.EncodeToString(input) == s.input && hex.EncodeToString(proof) == s.proof
}

// acceptance returns the token that `accepted` accepts by a set of keys of this issuer. `ecdsa` leaves the signature to
// crypto/ecdsa.
func acceptance(given []byte, w []string) (string, error) {
	var ciphers coset.Ciphers = es256{}
	if w[3] != "ecdsa" {
		ciphers = signed{input: w[3], proof: w[4]}
	}
	token, err := accepted(given, []coset.Issuer{{Name: string(data(w[1])), Keys: data(w[2])}}, time.Unix(integer(w[0]), 0), ciphers)
	if err != nil {
		return "", err
	}
	return toldToken(token), nil
}

func fits(form coset.Kind, key []byte, w []string) (string, error) {
	layer := coset.Layer{Form: form}
	layer.Algorithm, layer.KeyID, layer.Proof = integer(w[0]), data(w[1]), data(w[4])
	layer.IV, layer.PartialIV = data(w[2]), data(w[3])
	nonce, is, err := coset.KeyFits(key, &layer)
	if err == nil && !is {
		err = coset.ErrUnfit
	}
	return hex.EncodeToString(nonce), err
}

func span(it coset.Span) string {
	return fmt.Sprintf("%d %d", it.Start, it.End-it.Start)
}

// verification returns the payload for the words of `verified`.
func verification(given []byte, w []string) ([]byte, error) {
	return verified(given, coset.VerifierFunc(func(q *coset.Question) bool {
		return q.Kind == coset.Sign1 && strings.Join(w, " ") == fmt.Sprintf("%d %s %s %s", q.Algorithm, spelled(q.KeyID), spelled(q.Input), spelled(q.Proof))
	}))
}

func keys(given []byte) (string, error) {
	found, err := coset.ReadableKeys(given)
	words := make([]string, len(found))
	for i, key := range found {
		words[i] = hex.EncodeToString(key)
	}
	return strings.Join(words, " "), err
}

// ofItem makes a call of coset_items.h.
func ofItem(call string, kind coset.Kind, in []byte) (string, error, bool) {
	switch call {
	case "major_type":
		major, err := coset.MajorTypeOf(in)
		return strconv.Itoa(int(major)), err, true
	case "simple_value":
		value, err := coset.SimpleValue(in)
		return map[any]string{false: "20", true: "21", nil: "22"}[value], err, true
	case "float_value":
		value, err := coset.FloatValue(in)
		if value != value {
			return "nan", err, true
		}
		return fmt.Sprintf("%016x", math.Float64bits(value)), err, true
	case "map_spans":
		found, err := coset.MapSpans(kind, in)
		words := []string{strconv.Itoa(len(found))}
		for _, pair := range found {
			words = append(words, span(pair.Label), span(pair.Value))
		}
		return strings.Join(words, " "), err, true
	}
	return "", nil, false
}

// withoutRoom makes a call without a buffer for its result.
func withoutRoom(call string, kind coset.Kind, in []byte, w []string) (string, error, bool) {
	var place coset.Span
	var number int64
	var count int
	var err error
	switch call {
	case "text":
		return fmt.Sprintf("%s %08x: %s", coset.Version(), coset.VersionNumber(), coset.Status(kind).Error()), nil, true
	case "check":
		return "", coset.Check(kind, in), true
	case "count":
		count, err = coset.Count(kind, in)
		return strconv.Itoa(count), err, true
	case "integer", "label_int":
		if call == "integer" {
			number, err = coset.Integer(in)
		} else {
			number, err = coset.LabelInt(kind, in, coset.Map(integer(w[0])), integer(w[1]))
		}
		return strconv.FormatInt(number, 10), err, true
	case "member_span":
		place, err = coset.MemberSpan(kind, in, int(integer(w[0])))
	case "pair_spans":
		first, second, err := coset.PairSpans(kind, in, int(integer(w[0])))
		return span(first) + " " + span(second), err, true
	case "label_span":
		place, err = coset.LabelSpan(kind, in, coset.Map(integer(w[0])), integer(w[1]))
	case "item_span":
		place, err = coset.ItemSpan(in, int(integer(w[0])))
	case "string_span":
		place, err = coset.StringSpan(in)
	default:
		return ofItem(call, kind, in)
	}
	return span(place), err, true
}

// several makes a call whose result is a text.
func several(call string, kind coset.Kind, in []byte, w []string) (string, error, bool) {
	var told string
	var err error
	switch call {
	case "sign1":
		told, err = message(kind, in, coset.Options{ExternalAAD: data(w[0]), Detached: detached(w[1], w[2])}, true)
	case "message", "spans":
		o := coset.Options{Index: int(integer(w[0])), ExternalAAD: data(w[1]), Detached: detached(w[2], w[3]), Critical: integers(w[4])}
		told, err = message(kind, in, o, false)
	case "keys":
		told, err = keys(in)
	case "accepted":
		told, err = acceptance(in, w)
	case "fits":
		told, err = fits(kind, in, w)
	case "issued":
		told, err = token(in, w)
	default:
		return "", nil, false
	}
	return told, err, true
}

// made makes a call that makes an item.
func made(call string, kind coset.Kind, in []byte, w []string) ([]byte, error, bool) {
	var found []byte
	var err error
	switch call {
	case "put":
		found, err = coset.Put(kind, in, integer(w[0]), data(w[1]))
	case "put_int":
		found, err = coset.PutInt(kind, in, integer(w[0]), integer(w[1]))
	case "put_float":
		found, err = coset.PutFloat(kind, in, integer(w[0]), float(w[1]))
	case "put_bytes":
		found, err = coset.PutBytes(kind, in, integer(w[0]), data(w[1]))
	case "put_text":
		found, err = coset.PutText(kind, in, integer(w[0]), string(data(w[1])))
	case "put_text_label":
		found, err = coset.PutTextLabel(kind, in, string(data(w[0])), data(w[1]))
	case "put_all":
		found, err = coset.PutAll(kind, in, pairs(w[0]))
	case "make":
		found, err = coset.Make(kind, in, data(w[0]), detached(w[1], w[2]), data(w[3]))
	case "add":
		found, err = coset.Add(kind, in, data(w[0]))
	case "write":
		found, err = coset.Write(kind, in)
	case "canonical_key":
		found, err = coset.CanonicalKey(coset.Order(kind), in)
	default:
		return nil, nil, false
	}
	return found, err, true
}

// read makes a call that returns a part of an item or a structure.
func read(call string, kind coset.Kind, in []byte, w []string) ([]byte, error) {
	switch call {
	case "part":
		return coset.PartOf(kind, in, coset.Part(integer(w[0])))
	case "member":
		return coset.Member(kind, in, int(integer(w[0])))
	case "label":
		return coset.Label(kind, in, coset.Map(integer(w[0])), integer(w[1]))
	case "label_bytes":
		return coset.LabelBytes(kind, in, coset.Map(integer(w[0])), integer(w[1]))
	case "text_label":
		return coset.TextLabel(kind, in, coset.Map(integer(w[0])), string(data(w[1])))
	case "label_at":
		return coset.LabelAt(kind, in, int(integer(w[0])))
	case "value_at":
		return coset.ValueAt(kind, in, int(integer(w[0])))
	case "key_of":
		return coset.KeyOf(in, data(w[0]))
	case "structure":
		o := coset.Options{Index: int(integer(w[0])), ExternalAAD: data(w[1]), Detached: detached(w[2], w[3])}
		return coset.Structure(kind, in, o)
	case "structure_of":
		return coset.StructureOf(kind, in, data(w[2]), coset.Options{Signer: data(w[0]), ExternalAAD: data(w[1])})
	case "recipient_structure":
		return coset.RecipientStructure(kind, in, data(w[0]))
	case "recipient_structure_of":
		return coset.RecipientStructureOf(kind, in, data(w[0]))
	case "countersign_structure":
		o := coset.Options{Signer: data(w[1]), ExternalAAD: data(w[2]), Detached: detached(w[3], w[4])}
		return coset.CountersignStructure(kind, in, integer(w[0]), o)
	case "safe":
		return safe(kind, in, w)
	case "verified":
		return verification(in, w)
	}
	panic(call)
}

func failed(err error) string {
	var status coset.Status
	if errors.As(err, &status) {
		return names[status]
	}
	return err.Error()
}

func result(told string, err error) string {
	if err != nil {
		return failed(err)
	}
	return "ok " + told
}

// answer returns the result of a call. After the input comes the size of the buffer in C, if the call has one.
func answer(w []string) string {
	call, kind, in := w[0], coset.Kind(uint32(integer(w[1]))), []byte(nil)
	if len(w) > 2 {
		in = data(w[2])
	} else {
		w = append(w, "-")
	}
	if told, err, is := withoutRoom(call, kind, in, w[3:]); is {
		return result(told, err)
	}
	w = w[4:]
	if call == "token" {
		s := script{answers: strings.Split(w[len(w)-1], ",")}
		return opened(&s, &s, in, w)
	}
	if call == "ring" {
		r, err := ringOf(w[len(w)-2], w[len(w)-1])
		if err != nil {
			return failed(err)
		}
		return opened(r, &r.script, in, w)
	}
	if told, err, is := several(call, kind, in, w); is {
		return result(told, err)
	}
	found, err, is := made(call, kind, in, w)
	if !is {
		found, err = read(call, kind, in, w)
	}
	return result(hex.EncodeToString(found), err)
}

func main() {
	lines, out := bufio.NewScanner(os.Stdin), bufio.NewWriter(os.Stdout)
	lines.Buffer(nil, 1<<28)
	for lines.Scan() {
		fmt.Fprintln(out, answer(strings.Fields(lines.Text())))
	}
	out.Flush()
	if lines.Err() != nil {
		panic(lines.Err())
	}
}
