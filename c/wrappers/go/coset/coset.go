// Package coset has the calls of coset.h: it reads, verifies and makes messages, keys and claims of COSE and CWT. It is
// linked with the library that pkg-config knows as coset.
//
// Each call is a function of its arguments, and any number of goroutines may call at once. Bytes are copied before a
// function of the caller's is called, and results are the caller's own.
//
// The error of a refused call is a Status, such as ErrAbsent, or wraps one: errors.Is(err, coset.ErrExpired). Check
// returns a *Fault, and VerifyToken an *InvalidToken. The header and docs/C.md say what each call promises.
package coset

/*
#cgo pkg-config: coset
#include <coset_items.h>
#include <coset_pairs.h>
#include <stdlib.h>
*/
import "C"

import (
	"bytes"
	"fmt"
	"time"
	"unicode/utf8"
	"unsafe"
)

// versionNumber is the version of this file. An earlier library may have other structs and statuses.
const versionNumber = 0x00040207

func init() {
	if VersionNumber() < versionNumber {
		panic("coset: the library is of version " + Version() + ", earlier than this package")
	}
}

// A Kind is the kind of item that the bytes should be. A message, one of the first six, is plain. It is under its tag if
// Tagged is added, and both forms are accepted if Either is added: Sign1 + Either.
type Kind uint32

const (
	Sign1      Kind = C.COSET_SIGN1
	Sign       Kind = C.COSET_SIGN
	Mac0       Kind = C.COSET_MAC0
	Mac        Kind = C.COSET_MAC
	Encrypt0   Kind = C.COSET_ENCRYPT0
	Encrypt    Kind = C.COSET_ENCRYPT
	Signature  Kind = C.COSET_SIGNATURE
	Recipient  Kind = C.COSET_RECIPIENT
	Header     Kind = C.COSET_HEADER
	Key        Kind = C.COSET_KEY
	KeySet     Kind = C.COSET_KEY_SET
	Claims     Kind = C.COSET_CLAIMS
	Item       Kind = C.COSET_ITEM
	KdfContext Kind = C.COSET_KDF_CONTEXT
	Tagged     Kind = C.COSET_TAGGED
	Either     Kind = C.COSET_EITHER
)

// A Part is a part of a message, a signature or a recipient.
type Part uint32

const (
	Protected  Part = C.COSET_PROTECTED
	Payload    Part = C.COSET_PAYLOAD
	Ciphertext Part = C.COSET_CIPHERTEXT
	Proof      Part = C.COSET_PROOF
)

// A Map is the protected or the unprotected header, or the item itself.
type Map uint32

const (
	InProtected   Map = C.COSET_IN_PROTECTED
	InUnprotected Map = C.COSET_IN_UNPROTECTED
	InItem        Map = C.COSET_IN_ITEM
)

// An Order is an order of labels.
type Order uint32

const (
	Lexicographic Order = C.COSET_LEXICOGRAPHIC
	LengthFirst   Order = C.COSET_LENGTH_FIRST
)

// An Authentication says which layers authenticate the sender of a token: 0 for a signature or a MAC.
type Authentication uint32

const (
	BySignature Authentication = C.COSET_BY_SIGNATURE
	ByAny       Authentication = C.COSET_BY_ANY
)

// A Form is the form in which a message names its algorithm.
type Form uint32

const (
	NoForm   Form = C.COSET_NONE
	IntForm  Form = C.COSET_INT
	TextForm Form = C.COSET_TEXT
)

// A Criticality is the state of critical labels; 0 if there are none.
type Criticality uint32

const (
	Understood    Criticality = C.COSET_UNDERSTOOD
	NotUnderstood Criticality = C.COSET_NOT_UNDERSTOOD
)

// A MajorType is the major type of an item (RFC 8949, section 3.1). Simple is a float or a simple value.
type MajorType uint32

const (
	Unsigned   MajorType = C.COSET_UNSIGNED
	Negative   MajorType = C.COSET_NEGATIVE
	ByteString MajorType = C.COSET_BYTE_STRING
	TextString MajorType = C.COSET_TEXT_STRING
	Array      MajorType = C.COSET_ARRAY
	MapType    MajorType = C.COSET_MAP
	Tag        MajorType = C.COSET_TAG
	Simple     MajorType = C.COSET_SIMPLE
)

// Algorithms by their numbers (IANA, "COSE Algorithms").
const (
	ES256, ES384, ES512, ES256K                       = -7, -35, -36, -47
	ESP256, ESP384, ESP512                            = -9, -51, -52
	EdDSA, Ed25519, Ed448                             = -8, -19, -53
	PS256, PS384, PS512                               = -37, -38, -39
	RS256, RS384, RS512                               = -257, -258, -259
	HMAC256_64, HMAC256_256, HMAC384_384, HMAC512_512 = 4, 5, 6, 7
	A128GCM, A192GCM, A256GCM, ChaCha20Poly1305       = 1, 2, 3, 24
)

// A Status is the reason of an error.
type Status int32

const (
	errShort           Status = C.COSET_SHORT
	ErrMemory          Status = C.COSET_MEMORY
	ErrEnds            Status = C.COSET_ENDS
	ErrMalformed       Status = C.COSET_MALFORMED
	ErrDeep            Status = C.COSET_DEEP
	ErrExtraneous      Status = C.COSET_EXTRANEOUS
	ErrUnexpected      Status = C.COSET_UNEXPECTED
	ErrDuplicate       Status = C.COSET_DUPLICATE
	ErrOutOfRange      Status = C.COSET_OUT_OF_RANGE
	ErrUnregistered    Status = C.COSET_UNREGISTERED
	ErrNotPrivate      Status = C.COSET_NOT_PRIVATE
	ErrAbsent          Status = C.COSET_ABSENT
	ErrMisuse          Status = C.COSET_MISUSE
	ErrType            Status = C.COSET_TYPE
	ErrEmpty           Status = C.COSET_EMPTY
	ErrNotAllowed      Status = C.COSET_NOT_ALLOWED
	ErrCritical        Status = C.COSET_CRITICAL
	ErrRefused         Status = 18 // COSET_REFUSED of coset_verify.h
	layerWaits         Status = C.COSET_LAYER
	ErrTooDeep         Status = C.COSET_TOO_DEEP
	ErrUnauthenticated Status = C.COSET_UNAUTHENTICATED
	ErrNotClaims       Status = C.COSET_NOT_CLAIMS
	ErrNoExpiration    Status = C.COSET_NO_EXPIRATION
	ErrExpired         Status = C.COSET_EXPIRED
	ErrNotYetValid     Status = C.COSET_NOT_YET_VALID
	ErrIssuedLater     Status = C.COSET_ISSUED_LATER
	ErrTooOld          Status = C.COSET_TOO_OLD
	ErrIssuer          Status = C.COSET_ISSUER
	ErrAudience        Status = C.COSET_AUDIENCE
	ErrHeaders         Status = C.COSET_HEADERS
	ErrTokenType       Status = C.COSET_TOKEN_TYPE
	ErrHeaderClaims    Status = C.COSET_HEADER_CLAIMS
	ErrMissing         Status = C.COSET_MISSING
	ErrUnfit           Status = C.COSET_UNFIT
	ErrTooManyKeys     Status = 35 // COSET_TOO_MANY_KEYS of coset_verify.h
)

// MostTries is the greatest number of keys that a KeyRing tries for a layer.
const MostTries = 16

// Error returns a few words for the status.
func (s Status) Error() string {
	return C.GoString(C.coset_status_text(C.coset_status(s)))
}

func (s Status) isFault() bool {
	return s >= ErrEnds && s <= ErrNotPrivate
}

// A misuse is the cause of an ErrMisuse that the package knows itself.
type misuse string

func (m misuse) Error() string { return string(m) }

// Unwrap returns ErrMisuse.
func (m misuse) Unwrap() error { return ErrMisuse }

// A Fault says why the bytes aren't an item of the kind. Offset is where they stop being one item of CBOR, or -1.
type Fault struct {
	Status Status
	Offset int
}

func (f *Fault) Error() string { return f.Status.Error() }

// Unwrap returns the status.
func (f *Fault) Unwrap() error { return f.Status }

// An InvalidToken says why a token is refused. Reason is the first reason against it. It is ErrUnfit if no key of a
// KeyRing fits a layer. It is ErrTooManyKeys if a KeyRing tried MostTries keys for a layer, each is refused, and more
// fit. Layer is the index of the refused layer, counted from 0, the outermost, or -1. Number is the number of the
// algorithm for ErrNotAllowed, and of the missing claim for ErrMissing, else 0. KeyID is the key identifier of the layer
// for ErrUnfit, ErrTooManyKeys and ErrRefused. It is nil for another reason, and if the layer names no key.
type InvalidToken struct {
	Reason Status
	Layer  int
	Number int64
	KeyID  []byte
}

func (e *InvalidToken) Error() string {
	subject, told, number := "the token", e.Reason.Error(), ""
	if e.Layer >= 0 {
		subject = fmt.Sprintf("layer %d of the token", e.Layer)
	}
	switch e.Reason {
	case ErrAbsent:
		told = "it carries no payload or ciphertext"
	case ErrUnfit:
		told = "no key fits it"
	}
	if e.Number != 0 {
		number = fmt.Sprintf(" (%d)", e.Number)
	}
	return subject + " is refused: " + told + number
}

// Unwrap returns the reason.
func (e *InvalidToken) Unwrap() error { return e.Reason }

// ---- Passing arguments

// at returns the address and the number of bytes.
func at(data []byte) (*C.uint8_t, C.size_t) {
	if len(data) == 0 {
		return nil, 0
	}
	return (*C.uint8_t)(unsafe.Pointer(&data[0])), C.size_t(len(data))
}

func text(data string) (*C.uint8_t, C.size_t) {
	return at([]byte(data))
}

func integers(numbers []int64) (*C.int64_t, C.size_t) {
	if len(numbers) == 0 {
		return nil, 0
	}
	return (*C.int64_t)(unsafe.Pointer(&numbers[0])), C.size_t(len(numbers))
}

func number(is bool) C.uint32_t {
	if is {
		return 1
	}
	return 0
}

// index returns an index. One that is negative is too large.
func index(i int) C.size_t {
	return C.size_t(i)
}

func copied(data []byte) []byte {
	return append([]byte{}, data...)
}

// failed returns the error of a status, or nil for success.
func failed(status C.coset_status) error {
	if status == C.COSET_OK {
		return nil
	}
	return Status(status)
}

// A call writes at most cap bytes to out, and their number.
type call func(out *C.uint8_t, cap C.size_t, len *C.size_t) C.coset_status

// writing returns the status of a call, and the bytes that it wrote. If the usual room is too small, the call is made
// again.
func writing(call call, given ...int) (Status, []byte) {
	room := 256
	for _, length := range given {
		room += 2 * length
	}
	for {
		var length C.size_t
		out := make([]byte, room)
		status := Status(call((*C.uint8_t)(unsafe.Pointer(&out[0])), C.size_t(room), &length))
		if status != errShort {
			return status, out[:length:length]
		}
		room = int(length)
	}
}

func written(call call, given ...int) ([]byte, error) {
	status, out := writing(call, given...)
	if status != C.COSET_OK {
		return nil, status
	}
	return out, nil
}

// ---- Reading

// Check returns a *Fault unless the bytes are an item of the kind.
func Check(kind Kind, data []byte) error {
	in, n := at(data)
	var offset C.size_t
	status := Status(C.coset_check(C.uint32_t(kind), in, n, &offset))
	if status.isFault() {
		return &Fault{status, int(offset)}
	}
	return failed(C.coset_status(status))
}

// Count returns the number of signatures, recipients, keys or elements, which is at least 1.
func Count(kind Kind, data []byte) (int, error) {
	in, n := at(data)
	var count C.size_t
	status := C.coset_count(C.uint32_t(kind), in, n, &count)
	return int(count), failed(status)
}

// PartOf returns a part.
func PartOf(kind Kind, data []byte, part Part) ([]byte, error) {
	in, n := at(data)
	return written(func(out *C.uint8_t, cap C.size_t, len *C.size_t) C.coset_status {
		return C.coset_part(C.uint32_t(kind), in, n, C.uint32_t(part), out, cap, len)
	}, len(data))
}

// Member returns the signature, recipient, key or element at an index, in its shortest encoding.
func Member(kind Kind, data []byte, i int) ([]byte, error) {
	in, n := at(data)
	return written(func(out *C.uint8_t, cap C.size_t, len *C.size_t) C.coset_status {
		return C.coset_member(C.uint32_t(kind), in, n, index(i), out, cap, len)
	}, len(data))
}

// A Span is a range of the input, data[Start:End].
type Span struct {
	Start, End int
}

func spanOf(span C.coset_span) Span {
	return Span{int(span.at), int(span.at + span.len)}
}

// MemberSpan returns the place of the signature, recipient, key or array element at an index, as received.
func MemberSpan(kind Kind, data []byte, i int) (Span, error) {
	in, n := at(data)
	var span C.coset_span
	status := C.coset_member_span(C.uint32_t(kind), in, n, index(i), &span)
	return spanOf(span), failed(status)
}

// PairSpans returns the places of the label and the value of a map's pair, as received. The index counts the pairs from 0.
func PairSpans(kind Kind, data []byte, i int) (label, value Span, err error) {
	in, n := at(data)
	var first, second C.coset_span
	status := C.coset_pair_spans(C.uint32_t(kind), in, n, index(i), &first, &second)
	return spanOf(first), spanOf(second), failed(status)
}

// LabelSpan returns the place of an integer label's value, as received.
func LabelSpan(kind Kind, data []byte, m Map, label int64) (Span, error) {
	in, n := at(data)
	var span C.coset_span
	status := C.coset_label_span(C.uint32_t(kind), in, n, C.uint32_t(m), C.int64_t(label), &span)
	return spanOf(span), failed(status)
}

// ItemSpan returns the place of the item that begins at an offset, as received. The next element of an array, or the next
// label or value of a map, begins where the item ends.
func ItemSpan(data []byte, offset int) (Span, error) {
	in, n := at(data)
	var span C.coset_span
	status := C.coset_item_span(in, n, index(offset), &span)
	return spanOf(span), failed(status)
}

// StringSpan returns the place of a string's content. The string has definite length.
func StringSpan(data []byte) (Span, error) {
	in, n := at(data)
	var span C.coset_span
	status := C.coset_string_span(in, n, &span)
	return spanOf(span), failed(status)
}

// Integer returns the integer that the bytes encode.
func Integer(data []byte) (int64, error) {
	in, n := at(data)
	var value C.int64_t
	status := C.coset_integer(in, n, &value)
	return int64(value), failed(status)
}

// MajorTypeOf returns the major type of an item.
func MajorTypeOf(data []byte) (MajorType, error) {
	in, n := at(data)
	var major C.uint32_t
	status := C.coset_major_type(in, n, &major)
	return MajorType(major), failed(status)
}

// SimpleValue returns the simple value that an item is: false, true or nil. The library supports no others.
func SimpleValue(data []byte) (any, error) {
	in, n := at(data)
	var value C.uint32_t
	status := C.coset_simple_value(in, n, &value)
	if err := failed(status); err != nil || value == C.COSET_NULL {
		return nil, err
	}
	return value == C.COSET_TRUE, nil
}

// FloatValue returns the float that an item is, of 16, 32 or 64 bits.
func FloatValue(data []byte) (float64, error) {
	in, n := at(data)
	var value C.double
	status := C.coset_float_value(in, n, &value)
	return float64(value), failed(status)
}

// A PairSpan has the places of a label and its value.
type PairSpan struct {
	Label, Value Span
}

// MapSpans returns the places of the labels and values of all pairs of a map, as received and in their order. They are found
// in one walk.
func MapSpans(kind Kind, data []byte) ([]PairSpan, error) {
	in, n := at(data)
	for places := make([]C.coset_pair_place, 16); ; {
		var count C.size_t
		status := C.coset_map_spans(C.uint32_t(kind), in, n, &places[0], C.size_t(len(places)), &count)
		if Status(status) == errShort {
			places = make([]C.coset_pair_place, count)
			continue
		}
		found := make([]PairSpan, count)
		for i := range found {
			found[i] = PairSpan{spanOf(places[i].label), spanOf(places[i].value)}
		}
		return found, failed(status)
	}
}

// Label returns the value of an integer label, in its shortest encoding.
func Label(kind Kind, data []byte, m Map, label int64) ([]byte, error) {
	in, n := at(data)
	return written(func(out *C.uint8_t, cap C.size_t, len *C.size_t) C.coset_status {
		return C.coset_label(C.uint32_t(kind), in, n, C.uint32_t(m), C.int64_t(label), out, cap, len)
	}, len(data))
}

// TextLabel returns the value of a text label, in its shortest encoding.
func TextLabel(kind Kind, data []byte, m Map, label string) ([]byte, error) {
	in, n := at(data)
	name, length := text(label)
	return written(func(out *C.uint8_t, cap C.size_t, len *C.size_t) C.coset_status {
		return C.coset_text_label(C.uint32_t(kind), in, n, C.uint32_t(m), name, length, out, cap, len)
	}, len(data))
}

// LabelBytes returns the content of the byte string or text string that is the value of an integer label.
func LabelBytes(kind Kind, data []byte, m Map, label int64) ([]byte, error) {
	in, n := at(data)
	return written(func(out *C.uint8_t, cap C.size_t, len *C.size_t) C.coset_status {
		return C.coset_label_bytes(C.uint32_t(kind), in, n, C.uint32_t(m), C.int64_t(label), out, cap, len)
	}, len(data))
}

// LabelInt returns the integer that is the value of an integer label.
func LabelInt(kind Kind, data []byte, m Map, label int64) (int64, error) {
	in, n := at(data)
	var value C.int64_t
	status := C.coset_label_int(C.uint32_t(kind), in, n, C.uint32_t(m), C.int64_t(label), &value)
	return int64(value), failed(status)
}

// LabelAt returns the label of a map's pair, in its shortest encoding. The index counts the pairs from 0.
func LabelAt(kind Kind, data []byte, i int) ([]byte, error) {
	in, n := at(data)
	return written(func(out *C.uint8_t, cap C.size_t, len *C.size_t) C.coset_status {
		return C.coset_label_at(C.uint32_t(kind), in, n, index(i), out, cap, len)
	}, len(data))
}

// ValueAt returns the value of a map's pair, in its shortest encoding. The index counts the pairs from 0.
func ValueAt(kind Kind, data []byte, i int) ([]byte, error) {
	in, n := at(data)
	return written(func(out *C.uint8_t, cap C.size_t, len *C.size_t) C.coset_status {
		return C.coset_value_at(C.uint32_t(kind), in, n, index(i), out, cap, len)
	}, len(data))
}

// KeyOf returns the first key of a set with this identifier, in its shortest encoding.
func KeyOf(data, keyID []byte) ([]byte, error) {
	in, n := at(data)
	id, length := at(keyID)
	return written(func(out *C.uint8_t, cap C.size_t, len *C.size_t) C.coset_status {
		return C.coset_key_of(in, n, id, length, out, cap, len)
	}, len(data))
}

// Options has what a structure has besides the message. Detached is the payload or ciphertext of a message that carries
// none, and nil if it carries one. Critical has the critical labels that the caller understands. Signer is the content of
// a countersignature's own protected header, or that of a signer. A call returns ErrMisuse for a field that has no meaning for
// it, unless that is zero. Index has a meaning for a Sign alone.
type Options struct {
	Index       int
	ExternalAAD []byte
	Detached    []byte
	Critical    []int64
	Signer      []byte
}

// The fields of Options that have a meaning for a call, besides ExternalAAD.
const (
	withIndex = 1 << iota
	withDetached
	withCritical
	withSigner
)

// allowed returns an error if a field that isn't zero has no meaning for the call.
func (o Options) allowed(fields int) error {
	switch {
	case o.Index != 0 && fields&withIndex == 0:
		return misuse("the option Index has no meaning for this call")
	case o.Detached != nil && fields&withDetached == 0:
		return misuse("the option Detached has no meaning for this call")
	case o.Critical != nil && fields&withCritical == 0:
		return misuse("the option Critical has no meaning for this call")
	case o.Signer != nil && fields&withSigner == 0:
		return misuse("the option Signer has no meaning for this call")
	}
	return nil
}

// Structure returns the structure that is signed (by the signer at an index), authenticated, or goes with the ciphertext.
func Structure(kind Kind, data []byte, o Options) ([]byte, error) {
	if err := o.allowed(withIndex|withDetached); err != nil {
		return nil, err
	}
	in, n := at(data)
	aad, aadLen := at(o.ExternalAAD)
	content, contentLen := at(o.Detached)
	return written(func(out *C.uint8_t, cap C.size_t, len *C.size_t) C.coset_status {
		return C.coset_structure(C.uint32_t(kind), in, n, index(o.Index), aad, aadLen, number(o.Detached != nil), content, contentLen, out, cap, len)
	}, len(data), len(o.ExternalAAD), len(o.Detached))
}

// RecipientStructure returns the structure that goes with the ciphertext of a recipient, by the kind that contains it:
// Encrypt, Mac or Recipient.
func RecipientStructure(holder Kind, data, externalAAD []byte) ([]byte, error) {
	in, n := at(data)
	aad, aadLen := at(externalAAD)
	return written(func(out *C.uint8_t, cap C.size_t, len *C.size_t) C.coset_status {
		return C.coset_recipient_structure(C.uint32_t(holder), in, n, aad, aadLen, out, cap, len)
	}, len(data), len(externalAAD))
}

// CountersignStructure returns the structure that a countersignature of a message, a signature or a recipient signs. The
// label is 7, 9, 11 or 12 (RFC 8152, section 4.5 and appendix A.2; RFC 9338, section 2).
func CountersignStructure(kind Kind, data []byte, label int64, o Options) ([]byte, error) {
	if err := o.allowed(withDetached|withSigner); err != nil {
		return nil, err
	}
	in, n := at(data)
	signer, signerLen := at(o.Signer)
	aad, aadLen := at(o.ExternalAAD)
	content, contentLen := at(o.Detached)
	return written(func(out *C.uint8_t, cap C.size_t, len *C.size_t) C.coset_status {
		return C.coset_countersign_structure(C.uint32_t(kind), in, n, C.int64_t(label), signer, signerLen, aad, aadLen,
			number(o.Detached != nil), content, contentLen, out, cap, len)
	}, len(data), len(o.Signer), len(o.ExternalAAD), len(o.Detached))
}

// A Message is everything that verifying or decrypting a message takes. Algorithm is 0 unless AlgorithmForm is IntForm.
// KeyIDMap is the header that has KeyID, or 0. Input is the structure. Proof is the signature or the tag. Content is the
// payload or ciphertext that the message carries.
type Message struct {
	Algorithm     int64
	AlgorithmForm Form
	KeyIDMap      Map
	Critical      Criticality
	IsTagged      bool
	Input         []byte
	Proof         []byte
	Content       []byte
	KeyID         []byte
}

// ReadMessage returns everything that verifying or decrypting a message takes. For a message with signers, it is for the
// signer at an index.
func ReadMessage(kind Kind, data []byte, o Options) (*Message, error) {
	if err := o.allowed(withIndex|withDetached|withCritical); err != nil {
		return nil, err
	}
	in, n := at(data)
	aad, aadLen := at(o.ExternalAAD)
	content, contentLen := at(o.Detached)
	known, knownLen := integers(o.Critical)
	var view C.coset_message_spans_view
	text, err := written(func(out *C.uint8_t, cap C.size_t, len *C.size_t) C.coset_status {
		return C.coset_message_spans(C.uint32_t(kind), in, n, index(o.Index), aad, aadLen, number(o.Detached != nil), content, contentLen,
			known, knownLen, out, cap, len, &view)
	}, len(data), len(o.ExternalAAD), len(o.Detached))
	if err != nil {
		return nil, err
	}
	held := func(isInput C.uint32_t, start, length C.size_t) []byte {
		if isInput != 0 {
			return copied(data[start : start+length])
		}
		return copied(text[start : start+length])
	}
	return &Message{
		Algorithm: int64(view.algorithm), AlgorithmForm: Form(view.algorithm_form), KeyIDMap: Map(view.key_id_map),
		Critical: Criticality(view.critical), IsTagged: view.is_tagged != 0, Input: copied(text[:view.structure_len]),
		Proof:   held(view.is_proof_in_input, view.proof_at, view.proof_len),
		Content: held(view.is_content_in_input, view.content_at, view.content_len),
		KeyID:   held(view.is_key_id_in_input, view.key_id_at, view.key_id_len),
	}, nil
}

// ---- Verifying messages

// A Question is what the caller's function answers about a message. Kind is the kind of the message, without Tagged or Either.
// Algorithm is one of the allowed ones. KeyIDMap is 0 if the message names no key. Input is the structure. Proof is the
// signature or the tag, or the ciphertext. IV and PartialIV are the strings under the labels 5 and 6, and IVMap and
// PartialIVMap the headers that have them. They are nil and 0 if neither has it, and from Verify. At most one IV is there.
type Question struct {
	Kind         Kind
	Algorithm    int64
	KeyID        []byte
	KeyIDMap     Map
	Input        []byte
	Proof        []byte
	IV           []byte
	PartialIV    []byte
	IVMap        Map
	PartialIVMap Map
}

// A Verifier returns true if the question's proof is a signature or a MAC of its input, by a key that the caller trusts for
// that algorithm.
type Verifier interface {
	Verify(question *Question) bool
}

// A VerifierFunc is a function as a Verifier.
type VerifierFunc func(question *Question) bool

// Verify calls the function.
func (f VerifierFunc) Verify(question *Question) bool { return f(question) }

// A Decrypter returns the plaintext. An error refuses the message, and is returned without the plaintext. Nil refuses it too;
// an empty plaintext is []byte{}.
type Decrypter interface {
	Decrypt(question *Question) ([]byte, error)
}

// A DecrypterFunc is a function as a Decrypter.
type DecrypterFunc func(question *Question) ([]byte, error)

// Decrypt calls the function.
func (f DecrypterFunc) Decrypt(question *Question) ([]byte, error) { return f(question) }

// asked returns the question about a message, or an error if the message isn't allowed.
func asked(kind Kind, found *Message, algorithms []int64, proof []byte) (*Question, error) {
	if found.Critical == NotUnderstood {
		return nil, ErrCritical
	}
	for _, algorithm := range algorithms {
		if found.AlgorithmForm == IntForm && found.Algorithm == algorithm {
			return &Question{
				Kind: kind & 0xff, Algorithm: algorithm, KeyID: found.KeyID, KeyIDMap: found.KeyIDMap, Input: found.Input, Proof: proof,
			}, nil
		}
	}
	return nil, ErrNotAllowed
}

// Verify returns the payload of a message with signatures or a MAC, after the verifier said yes. The kind is Sign1, Sign,
// Mac0 or Mac, with Tagged, Either or neither added. Nothing else is checked: for a web token call VerifyToken.
//
// The verifier isn't called for an empty signature or MAC, which is refused. No other length of a proof is checked, so compare
// its length with the algorithm's before its bytes.
//
// List only algorithms for that kind: a Mac0's algorithm in a Sign1's list would be accepted. The critical labels of a Mac's
// recipients aren't looked at.
//
// For a message with signers, the question is about the signer at an index, and the caller decides which signers are enough.
// A signature may be in the list twice: count keys, not indices. For another kind, an index other than 0 is ErrMisuse.
func Verify(kind Kind, data []byte, algorithms []int64, verifier Verifier, o Options) ([]byte, error) {
	switch kind & 0xff {
	case Sign1, Sign, Mac0, Mac:
	default:
		return nil, misuse("a kind without a signature or a tag")
	}
	if verifier == nil {
		return nil, misuse("the verifier is nil")
	}
	if o.Detached != nil {
		o.Detached = copied(o.Detached)
	}
	found, err := ReadMessage(kind, copied(data), o)
	if err != nil {
		return nil, err
	}
	question, err := asked(kind, found, algorithms, found.Proof)
	if err != nil {
		return nil, err
	}
	if len(found.Proof) == 0 || !verifier.Verify(question) {
		return nil, ErrRefused
	}
	if o.Detached != nil {
		return o.Detached, nil
	}
	return found.Content, nil
}

// inEither returns the content of the string under a label of a message, from the protected header, else from the unprotected
// one, and that header. Both are empty if neither has it.
func inEither(kind Kind, data []byte, label int64) ([]byte, Map, error) {
	for _, m := range []Map{InProtected, InUnprotected} {
		if value, err := LabelBytes(kind, data, m, label); err != ErrAbsent {
			return value, m, err
		}
	}
	return nil, 0, nil
}

// addIVs adds the IV and the partial IV to the question. Both together are an error (RFC 8152, section 3.1).
func (q *Question) addIVs(kind Kind, data []byte) (err error) {
	if q.IV, q.IVMap, err = inEither(kind, data, 5); err == nil {
		q.PartialIV, q.PartialIVMap, err = inEither(kind, data, 6)
	}
	if err == nil && q.IVMap != 0 && q.PartialIVMap != 0 {
		err = ErrHeaders
	}
	return err
}

// Decrypt returns the plaintext of an Encrypt0, with Tagged, Either or neither added. The decrypter gets the question, whose
// proof is the ciphertext, with the IV and the partial IV. A message with both IVs is refused with ErrHeaders (RFC 8152, section
// 3.1).
func Decrypt(kind Kind, data []byte, algorithms []int64, decrypter Decrypter, o Options) ([]byte, error) {
	if kind&0xff != Encrypt0 {
		return nil, misuse("a kind of another call")
	}
	if decrypter == nil {
		return nil, misuse("the decrypter is nil")
	}
	if err := o.allowed(withDetached|withCritical); err != nil {
		return nil, err
	}
	data, ciphertext := copied(data), o.Detached
	found, err := ReadMessage(kind, data, o)
	if err == nil && ciphertext == nil {
		ciphertext, err = PartOf(kind, data, Ciphertext)
	}
	if err != nil {
		return nil, err
	}
	question, err := asked(kind, found, algorithms, copied(ciphertext))
	if err == nil {
		err = question.addIVs(kind, data)
	}
	if err != nil {
		return nil, err
	}
	plain, err := decrypter.Decrypt(question)
	if err != nil {
		return nil, err
	}
	if plain == nil {
		return nil, ErrRefused
	}
	return plain, nil
}

// ---- Verifying tokens

// A Layer is what the caller's function answers about a layer of a token. Form and Kind are Sign1, Mac0 or Encrypt0. KeyID, IV
// and PartialIV are nil if there is none. IVMap and PartialIVMap are 0. Index is the layer's index, counted from 0, the outermost.
type Layer struct {
	Question
	Form  Kind
	Index int
}

// Opened is the answer for a layer that a key opened. Plaintext is that of an Encrypt0, and nil for other layers. Issuer is
// the name of the key's issuer, as in `iss`, or "" for an issuer whose tokens have no `iss`.
type Opened struct {
	Plaintext []byte
	Issuer    string
}

// An Opener verifies or decrypts a layer by a key that fits it. Nil refuses the token, and so does an error, which is
// returned.
type Opener interface {
	Open(layer *Layer) (*Opened, error)
}

// An OpenerFunc is a function as an Opener.
type OpenerFunc func(layer *Layer) (*Opened, error)

// Open calls the function.
func (f OpenerFunc) Open(layer *Layer) (*Opened, error) { return f(layer) }

// A TokenPolicy says which tokens are accepted. The empty policy accepts none, because it allows no algorithm. The fields
// are those of the policy in docs/C.md. Leeway and MaxAge count in whole seconds: a fraction is dropped. They aren't negative,
// and MaxAge is zero, for no greatest age, or a second or more. If Now is the zero time, it is the clock's time.
type TokenPolicy struct {
	Algorithms       []int64
	Audience         []string
	Types            []string
	Required         []int64
	Critical         []int64
	Leeway           time.Duration
	MaxAge           time.Duration
	UntaggedForm     Kind
	AuthenticatedBy  Authentication
	AnyAudience      bool
	MayNotExpire     bool
	MayBeIssuedLater bool
	Now              time.Time
}

// A VerifiedLayer is a layer of a verified token. Protected is the content of the protected header's byte string, as
// received. Issuer is the name of the issuer whose key accepted the layer, or "".
type VerifiedLayer struct {
	Form        Kind
	Protected   []byte
	Unprotected []byte
	Issuer      string
}

// A VerifiedToken has the Claims of a token, the names in its `aud`, the claims with other numbers, the name of the issuer
// whose key authenticated it, or "", and its layers from the outermost in.
type VerifiedToken struct {
	Claims   []byte
	Audience []string
	Others   []byte
	Issuer   string
	Layers   []VerifiedLayer
}

// A texts is an array of coset_text in C's memory, where it may have pointers.
type texts struct {
	at    *C.coset_text
	count C.size_t
}

func textsOf(names []string) texts {
	if len(names) == 0 {
		return texts{}
	}
	size := len(names) * int(C.sizeof_coset_text)
	total := size
	for _, name := range names {
		total += len(name)
	}
	block := C.malloc(C.size_t(total))
	entries, held := unsafe.Slice((*C.coset_text)(block), len(names)), unsafe.Slice((*byte)(block), total)
	for i := range held[:size] {
		held[i] = 0 // the garbage collector reads a pointer before it is overwritten
	}
	for i, name := range names {
		entries[i] = C.coset_text{chars: (*C.char)(unsafe.Add(block, size)), len: C.size_t(len(name))}
		if name == "" {
			entries[i].chars = nil
		}
		size += copy(held[size:], name)
	}
	return texts{(*C.coset_text)(block), C.size_t(len(names))}
}

func (t texts) free() {
	C.free(unsafe.Pointer(t.at))
}

// A opening is a token whose layers are opened one after another.
type opening struct {
	rules                          C.coset_rules
	algorithms, critical, required []int64
	audience, types                texts
	data, known                    []byte
	layers                         []C.coset_opened
}

// next returns the status of coset_token_open, the bytes that it wrote, and the layer.
func (o *opening) next(now int64) (Status, []byte, C.coset_layer) {
	var view C.coset_layer
	var layers *C.coset_opened
	if len(o.layers) > 0 {
		layers = &o.layers[0]
	}
	algorithms, algorithmsLen := integers(o.algorithms)
	critical, criticalLen := integers(o.critical)
	required, requiredLen := integers(o.required)
	in, n := at(o.data)
	known, knownLen := at(o.known)
	status, out := writing(func(out *C.uint8_t, cap C.size_t, len_ *C.size_t) C.coset_status {
		return C.coset_token_open(&o.rules, algorithms, algorithmsLen, critical, criticalLen, required, requiredLen, o.audience.at,
			o.audience.count, o.types.at, o.types.count, in, n, C.int64_t(now), layers, C.size_t(len(o.layers)), known, knownLen, out, cap,
			len_, &view)
	}, len(o.data))
	return status, out, view
}

// waiting returns the layer that waits.
func waiting(view *C.coset_layer, text []byte) *Layer {
	next := func(length C.size_t) []byte {
		part := copied(text[:length])
		text = text[length:]
		if length == 0 {
			return nil
		}
		return part
	}
	layer := Layer{Form: Kind(view.form), Index: int(view.index)}
	layer.Kind, layer.Algorithm, layer.KeyIDMap = layer.Form, int64(view.algorithm), Map(view.key_id_map)
	layer.Input, layer.Proof, layer.KeyID = next(view.structure_len), next(view.proof_len), next(view.key_id_len)
	layer.IV, layer.PartialIV = next(view.iv_len), next(view.partial_iv_len)
	return &layer
}

// refused returns the error of a layer that no key opens.
func (l *Layer) refused(reason Status) error {
	return &InvalidToken{Reason: reason, Layer: l.Index, KeyID: append([]byte(nil), l.KeyID...)}
}

// append adds an opened layer. The plaintext and the name of the issuer follow the bytes of the layer.
func (o *opening) append(view *C.coset_layer, text []byte, opened *Opened) error {
	if (Kind(view.form) == Encrypt0) != (opened.Plaintext != nil) {
		return misuse("the answer for an Encrypt0 has a plaintext, and the answer for another layer has none")
	}
	if !utf8.ValidString(opened.Issuer) {
		return misuse("an issuer's name isn't UTF-8")
	}
	start := len(o.known)
	entry := C.coset_opened{form: view.form, offset: C.size_t(start), structure_len: view.structure_len, proof_len: view.proof_len}
	o.known = append(o.known, text[:view.structure_len+view.proof_len]...)
	if opened.Plaintext != nil {
		entry.plaintext, entry.plaintext_len = C.size_t(len(o.known)), C.size_t(len(opened.Plaintext))
		o.known = append(o.known, opened.Plaintext...)
	}
	if opened.Issuer != "" {
		entry.issuer, entry.issuer_len = C.size_t(len(o.known)), C.size_t(len(opened.Issuer))
		o.known = append(o.known, opened.Issuer...)
	}
	o.layers = append(o.layers, entry)
	return nil
}

// refusal returns the error of a status other than success.
func refusal(status Status, view *C.coset_layer) error {
	if status == ErrMisuse {
		return misuse("an algorithm or a required claim isn't assigned, or UntaggedForm or AuthenticatedBy has no meaning")
	}
	if status == ErrMemory {
		return status
	}
	refused := &InvalidToken{Reason: status, Layer: -1}
	if status.isFault() || status == ErrAbsent || status == ErrNotAllowed || status == ErrCritical || status == ErrHeaders {
		refused.Layer = int(view.index)
	}
	if status == ErrNotAllowed {
		refused.Number = int64(view.algorithm)
	} else if status == ErrMissing {
		refused.Number = int64(view.claim)
	}
	return refused
}

// moments returns the whole seconds before and after a time. A token must be valid at each of them. It is then valid at that
// time too, because the moments at which it is valid have no gap.
func moments(now time.Time) []int64 {
	if now.IsZero() {
		now = time.Now()
	}
	if now.Nanosecond() != 0 {
		return []int64{now.Unix(), now.Unix() + 1}
	}
	return []int64{now.Unix()}
}

// open opens the layer that waits. An empty signature or MAC is refused.
func (o *opening) open(view *C.coset_layer, text []byte, opener Opener) error {
	var opened *Opened
	if view.form == C.COSET_ENCRYPT0 || view.proof_len != 0 {
		var err error
		if opened, err = opener.Open(waiting(view, text)); err != nil {
			return err
		}
	}
	if opened == nil {
		return waiting(view, text).refused(ErrRefused)
	}
	return o.append(view, text, opened)
}

// check returns an error if a field has no meaning. A MaxAge below a second would be no greatest age at all.
func (p *TokenPolicy) check() error {
	switch {
	case p.Leeway < 0:
		return misuse("Leeway is negative")
	case p.MaxAge < 0 || p.MaxAge > 0 && p.MaxAge < time.Second:
		return misuse("MaxAge is negative, or less than a second")
	case p.AnyAudience && len(p.Audience) > 0:
		return misuse("there is an Audience with AnyAudience")
	}
	for _, names := range [][]string{p.Audience, p.Types} {
		for _, name := range names {
			if !utf8.ValidString(name) {
				return misuse("a text of the policy isn't UTF-8")
			}
		}
	}
	return nil
}

// VerifyToken verifies a web token (RFC 8392). The opener, such as a *KeyRing, gets each layer from the outermost in. It isn't
// called for an empty signature or MAC, which is refused. If the token is refused, the error is an *InvalidToken. ErrMisuse means
// that an argument or an answer has no meaning, such as an unassigned algorithm, or a signature that has a plaintext.
func VerifyToken(data []byte, opener Opener, policy TokenPolicy) (*VerifiedToken, error) {
	if opener == nil {
		return nil, misuse("the opener is nil")
	}
	if err := policy.check(); err != nil {
		return nil, err
	}
	o := opening{
		rules: C.coset_rules{
			size: C.sizeof_coset_rules, leeway: C.uint64_t(policy.Leeway / time.Second), max_age: C.uint64_t(policy.MaxAge / time.Second),
			untagged_form: C.uint32_t(policy.UntaggedForm), authenticated_by: C.uint32_t(policy.AuthenticatedBy),
			any_audience: number(policy.AnyAudience), may_not_expire: number(policy.MayNotExpire),
			may_be_issued_later: number(policy.MayBeIssuedLater),
		},
		algorithms: append([]int64{}, policy.Algorithms...), critical: append([]int64{}, policy.Critical...),
		required: append([]int64{}, policy.Required...), audience: textsOf(policy.Audience), types: textsOf(policy.Types), data: copied(data),
	}
	defer o.audience.free()
	defer o.types.free()
	for times := moments(policy.Now); ; {
		status, text, view := o.next(times[0])
		switch {
		case status == layerWaits:
			if err := o.open(&view, text, opener); err != nil {
				return nil, err
			}
		case status != C.COSET_OK:
			return nil, refusal(status, &view)
		case len(times) == 1:
			return verified(text)
		default:
			times = times[1:]
		}
	}
}

// elements returns the elements of an array, as received.
func elements(array []byte) ([][]byte, error) {
	count, err := Count(Item, array)
	if err == ErrEmpty {
		return nil, nil
	}
	if err != nil {
		return nil, err
	}
	span, err := MemberSpan(Item, array, 0)
	found := make([][]byte, 0, 16)
	for ; err == nil && len(found) < count; span, err = ItemSpan(array, span.End) {
		found = append(found, copied(array[span.Start:span.End]))
		if len(found) == count {
			break
		}
	}
	return found, err
}

// content returns the content of a string, or nil for null.
func content(item []byte) ([]byte, error) {
	if len(item) == 1 && item[0] == 0xf6 {
		return nil, nil
	}
	span, err := StringSpan(item)
	return item[span.Start:span.End], err
}

// contents returns the contents of strings.
func contents(items [][]byte) ([]string, error) {
	found := make([]string, len(items))
	for i, item := range items {
		text, err := content(item)
		if err != nil {
			return nil, err
		}
		found[i] = string(text)
	}
	return found, nil
}

// parts returns the elements of an array of so many.
func parts(array []byte, count int) ([][]byte, error) {
	found, err := elements(array)
	if err == nil && len(found) != count {
		err = ErrUnexpected
	}
	return found, err
}

// verified returns the verified token that the library wrote.
func verified(text []byte) (*VerifiedToken, error) {
	fields, err := parts(text, 5)
	if err != nil {
		return nil, err
	}
	names, err := elements(fields[1])
	if err != nil {
		return nil, err
	}
	token := VerifiedToken{Claims: fields[0], Others: fields[2]}
	if token.Audience, err = contents(names); err != nil {
		return nil, err
	}
	issuer, err := contents(fields[3:4])
	if err != nil {
		return nil, err
	}
	token.Issuer = issuer[0]
	layers, err := elements(fields[4])
	for _, layer := range layers {
		if err == nil {
			err = token.add(layer)
		}
	}
	if err != nil {
		return nil, err
	}
	return &token, nil
}

// add adds a layer that the library wrote.
func (t *VerifiedToken) add(layer []byte) error {
	fields, err := parts(layer, 4)
	if err != nil {
		return err
	}
	form, err := Integer(fields[0])
	if err != nil {
		return err
	}
	texts, err := contents([][]byte{fields[1], fields[3]})
	if err != nil {
		return err
	}
	t.Layers = append(t.Layers, VerifiedLayer{Kind(form), []byte(texts[0]), fields[2], texts[1]})
	return nil
}

// KeyFits returns the nonce by which a key fits a layer, and true if it fits. The nonce of an algorithm without one, such as
// a signature's, is empty.
func KeyFits(key []byte, layer *Layer) (nonce []byte, fits bool, err error) {
	in, n := at(key)
	id, idLen := at(layer.KeyID)
	iv, ivLen := at(layer.IV)
	partial, partialLen := at(layer.PartialIV)
	proof, proofLen := at(layer.Proof)
	nonce, err = written(func(out *C.uint8_t, cap C.size_t, len *C.size_t) C.coset_status {
		return C.coset_key_fits(in, n, C.uint32_t(layer.Form), C.int64_t(layer.Algorithm), id, idLen, iv, ivLen, partial, partialLen,
			proof, proofLen, out, cap, len)
	})
	if err == ErrUnfit {
		return nil, false, nil
	}
	return nonce, err == nil, err
}

// ReadableKeys returns the keys of a KeySet that can be read, as received (RFC 9052, section 7). A single key is no KeySet, but
// a fault.
func ReadableKeys(keys []byte) ([][]byte, error) {
	found, err := elements(copied(keys))
	if err == ErrAbsent {
		return nil, fmt.Errorf("a COSE_KeySet is needed, an array of keys: %w", &Fault{ErrUnexpected, -1})
	}
	if err != nil {
		return nil, err
	}
	readable := make([][]byte, 0, len(found))
	for _, key := range found {
		err := Check(Key, key)
		if err == nil {
			readable = append(readable, key)
		} else if _, is := err.(*Fault); !is {
			return nil, err
		}
	}
	return readable, nil
}

// An Issuer has a name, as in `iss`, and a KeySet. The name is "" for an issuer whose tokens have no `iss`.
type Issuer struct {
	Name string
	Keys []byte
}

// Ciphers are called only with a Key that fits the layer. Verify returns true if the proof is a signature or a MAC of the
// input. Decrypt returns the plaintext, and true if the ciphertext is authentic.
type Ciphers interface {
	Verify(key []byte, algorithm int64, input, proof []byte) bool
	Decrypt(key []byte, algorithm int64, nonce, aad, ciphertext []byte) ([]byte, bool)
}

// A ringKey is one key of an issuer. Its identifier is empty if it has none.
type ringKey struct {
	issuer  string
	key, id []byte
}

// A KeyRing has the keys of issuers, for VerifyToken. It says whose key accepted a layer. A layer is compared with each key of
// the ring. If it names a key identifier, only keys with that identifier are decoded. At most MostTries keys that fit are
// tried.
type KeyRing struct {
	keys    []ringKey
	ciphers Ciphers
}

// NewKeyRing returns a ring of the issuers' keys. Keys that can't be read are skipped (RFC 9052, section 7).
func NewKeyRing(issuers []Issuer, ciphers Ciphers) (*KeyRing, error) {
	if ciphers == nil {
		return nil, misuse("the ciphers are nil")
	}
	ring := KeyRing{ciphers: ciphers}
	for _, issuer := range issuers {
		keys, err := ReadableKeys(issuer.Keys)
		if err != nil {
			return nil, err
		}
		for _, key := range keys {
			id, err := LabelBytes(Key, key, InItem, 2)
			if err != nil && err != ErrAbsent {
				return nil, err
			}
			ring.keys = append(ring.keys, ringKey{issuer.Name, key, id})
		}
	}
	return &ring, nil
}

// Open tries each key that fits the layer, in order, and MostTries keys at most. The error is an *InvalidToken with ErrUnfit
// if no key fits, and with ErrTooManyKeys if those that it tried are refused, and more fit.
func (r *KeyRing) Open(layer *Layer) (*Opened, error) {
	tries := 0
	for _, it := range r.keys {
		if len(layer.KeyID) > 0 && !bytes.Equal(it.id, layer.KeyID) {
			continue
		}
		nonce, fits, err := KeyFits(it.key, layer)
		if err != nil {
			return nil, err
		}
		if !fits {
			continue
		}
		if tries == MostTries {
			return nil, layer.refused(ErrTooManyKeys)
		}
		tries++
		if opened := r.by(it, nonce, layer); opened != nil {
			return opened, nil
		}
	}
	if tries == 0 {
		return nil, layer.refused(ErrUnfit)
	}
	return nil, nil
}

// by returns the answer by one key, or nil. The ciphers get copies, which they may change.
func (r *KeyRing) by(it ringKey, nonce []byte, layer *Layer) *Opened {
	key, input, proof := copied(it.key), copied(layer.Input), copied(layer.Proof)
	if layer.Form != Encrypt0 {
		if r.ciphers.Verify(key, layer.Algorithm, input, proof) {
			return &Opened{Issuer: it.issuer}
		}
		return nil
	}
	plaintext, isAuthentic := r.ciphers.Decrypt(key, layer.Algorithm, nonce, input, proof)
	if !isAuthentic {
		return nil
	}
	return &Opened{copied(plaintext), it.issuer}
}

// ---- Making

// Put returns the header, key or claims set, which may be empty, with one more pair at its end: an integer label, and a
// value as its encoding, one item of CBOR.
func Put(kind Kind, data []byte, label int64, value []byte) ([]byte, error) {
	in, n := at(data)
	held, length := at(value)
	return written(func(out *C.uint8_t, cap C.size_t, len *C.size_t) C.coset_status {
		return C.coset_put(C.uint32_t(kind), in, n, C.int64_t(label), held, length, out, cap, len)
	}, len(data), len(value))
}

// PutBytes returns such a map with one more pair: an integer label and a byte string.
func PutBytes(kind Kind, data []byte, label int64, value []byte) ([]byte, error) {
	in, n := at(data)
	held, length := at(value)
	return written(func(out *C.uint8_t, cap C.size_t, len *C.size_t) C.coset_status {
		return C.coset_put_bytes(C.uint32_t(kind), in, n, C.int64_t(label), held, length, out, cap, len)
	}, len(data), len(value))
}

// PutText returns such a map with one more pair: an integer label and a text.
func PutText(kind Kind, data []byte, label int64, value string) ([]byte, error) {
	in, n := at(data)
	held, length := text(value)
	return written(func(out *C.uint8_t, cap C.size_t, len *C.size_t) C.coset_status {
		return C.coset_put_text(C.uint32_t(kind), in, n, C.int64_t(label), held, length, out, cap, len)
	}, len(data), len(value))
}

// PutInt returns such a map with one more pair: an integer label and an integer.
func PutInt(kind Kind, data []byte, label, value int64) ([]byte, error) {
	in, n := at(data)
	return written(func(out *C.uint8_t, cap C.size_t, len *C.size_t) C.coset_status {
		return C.coset_put_int(C.uint32_t(kind), in, n, C.int64_t(label), C.int64_t(value), out, cap, len)
	}, len(data))
}

// encodedFloat returns a float in its shortest encoding (RFC 8949, section 4.2.2).
func encodedFloat(value float64) []byte {
	var out [9]byte
	return out[:C.coset_encoded_float(C.double(value), (*C.uint8_t)(unsafe.Pointer(&out[0])))]
}

// PutFloat returns such a map with one more pair: an integer label and a float, in its shortest encoding.
func PutFloat(kind Kind, data []byte, label int64, value float64) ([]byte, error) {
	return Put(kind, data, label, encodedFloat(value))
}

// PutTextLabel returns such a map with one more pair: a text label, and a value as its encoding.
func PutTextLabel(kind Kind, data []byte, label string, value []byte) ([]byte, error) {
	in, n := at(data)
	name, nameLen := text(label)
	held, length := at(value)
	return written(func(out *C.uint8_t, cap C.size_t, len *C.size_t) C.coset_status {
		return C.coset_put_text_label(C.uint32_t(kind), in, n, name, nameLen, held, length, out, cap, len)
	}, len(data), len(label), len(value))
}

// Encoded is a value for PutAll as its encoding, one item of CBOR.
type Encoded []byte

// A Pair is a label and a value for PutAll. Label is an int, an int64 or a string. Value is one of these, a float64, a []byte,
// or an Encoded.
type Pair struct {
	Label, Value any
}

// half returns the form, the number, and the place of a label or a value. Its text or bytes are appended to held.
func half(value any, held *[]byte) (form C.uint32_t, whole C.int64_t, start, length C.size_t, err error) {
	var bytes []byte
	switch it := value.(type) {
	case int:
		return C.COSET_INT, C.int64_t(it), 0, 0, nil
	case int64:
		return C.COSET_INT, C.int64_t(it), 0, 0, nil
	case string:
		form, bytes = C.COSET_TEXT, []byte(it)
	case float64:
		form, bytes = C.COSET_ENCODED, encodedFloat(it)
	case Encoded:
		form, bytes = C.COSET_ENCODED, it
	case []byte:
		form, bytes = C.COSET_BYTES, it
	default:
		told := fmt.Sprintf("a value is an int, an int64, a string, a float64, a []byte or an Encoded, and no %T", value)
		return 0, 0, 0, 0, misuse(told)
	}
	start = C.size_t(len(*held))
	*held = append(*held, bytes...)
	return form, 0, start, C.size_t(len(bytes)), nil
}

// PutAll returns the header, key or claims set, which may be empty, with these pairs at its end, in order, in one call.
func PutAll(kind Kind, data []byte, pairs []Pair) ([]byte, error) {
	structs, bytes := make([]C.coset_pair, len(pairs)+1), []byte{}
	for i, pair := range pairs {
		it, err := &structs[i], error(nil)
		switch pair.Label.(type) {
		case int, int64, string:
		default:
			return nil, misuse(fmt.Sprintf("a label is an int, an int64 or a string, and no %T", pair.Label))
		}
		if it.label_form, it.label, it.label_at, it.label_len, err = half(pair.Label, &bytes); err != nil {
			return nil, err
		}
		if it.value_form, it.value, it.value_at, it.value_len, err = half(pair.Value, &bytes); err != nil {
			return nil, err
		}
	}
	in, n := at(data)
	held, length := at(bytes)
	return written(func(out *C.uint8_t, cap C.size_t, len_ *C.size_t) C.coset_status {
		return C.coset_put_all(C.uint32_t(kind), in, n, &structs[0], C.size_t(len(pairs)), held, length, out, cap, len_)
	}, len(data), len(bytes), 16*len(pairs))
}

// StructureOf does the same as Structure for a message that isn't made yet, from its protected header. The content is the
// payload; a structure that goes with a ciphertext has none. Signer is the signer's protected header, for Sign alone.
func StructureOf(kind Kind, header, content []byte, o Options) ([]byte, error) {
	if err := o.allowed(withSigner); err != nil {
		return nil, err
	}
	prot, protLen := at(header)
	signer, signerLen := at(o.Signer)
	aad, aadLen := at(o.ExternalAAD)
	payload, payloadLen := at(content)
	return written(func(out *C.uint8_t, cap C.size_t, len *C.size_t) C.coset_status {
		return C.coset_structure_of(C.uint32_t(kind), prot, protLen, signer, signerLen, aad, aadLen, payload, payloadLen, out, cap, len)
	}, len(header), len(o.Signer), len(o.ExternalAAD), len(content))
}

// RecipientStructureOf does the same as RecipientStructure for a recipient that isn't made yet, from its protected header.
func RecipientStructureOf(holder Kind, header, externalAAD []byte) ([]byte, error) {
	prot, protLen := at(header)
	aad, aadLen := at(externalAAD)
	return written(func(out *C.uint8_t, cap C.size_t, len *C.size_t) C.coset_status {
		return C.coset_recipient_structure_of(C.uint32_t(holder), prot, protLen, aad, aadLen, out, cap, len)
	}, len(header), len(externalAAD))
}

// Make makes a message, a signature or a recipient from its headers, its content, and its signature or tag. The content is
// the payload or the ciphertext, or nil if that is detached. A message with signers or recipients is made without them.
func Make(kind Kind, header, unprotected, content, proof []byte) ([]byte, error) {
	prot, protLen := at(header)
	unprot, unprotLen := at(unprotected)
	payload, payloadLen := at(content)
	signature, signatureLen := at(proof)
	return written(func(out *C.uint8_t, cap C.size_t, len *C.size_t) C.coset_status {
		return C.coset_make(C.uint32_t(kind), prot, protLen, unprot, unprotLen, number(content != nil), payload, payloadLen, signature,
			signatureLen, out, cap, len)
	}, len(header), len(unprotected), len(content), len(proof))
}

// Add returns the item with one more signature, recipient, key or element at the end. A set of keys or an array may begin
// with no bytes.
func Add(kind Kind, data, item []byte) ([]byte, error) {
	in, n := at(data)
	member, length := at(item)
	return written(func(out *C.uint8_t, cap C.size_t, len *C.size_t) C.coset_status {
		return C.coset_add(C.uint32_t(kind), in, n, member, length, out, cap, len)
	}, len(data), len(item))
}

// Write returns the item in its shortest encoding.
func Write(kind Kind, data []byte) ([]byte, error) {
	in, n := at(data)
	return written(func(out *C.uint8_t, cap C.size_t, len *C.size_t) C.coset_status {
		return C.coset_write(C.uint32_t(kind), in, n, out, cap, len)
	}, len(data))
}

// CanonicalKey returns the key in its shortest encoding, with its labels in this order.
func CanonicalKey(order Order, data []byte) ([]byte, error) {
	in, n := at(data)
	return written(func(out *C.uint8_t, cap C.size_t, len *C.size_t) C.coset_status {
		return C.coset_canonical_key(C.uint32_t(order), in, n, out, cap, len)
	}, len(data))
}

// VersionNumber returns the version of the library with a byte for each of its four numbers, such as 0x00040207.
func VersionNumber() uint32 {
	return uint32(C.coset_version_number())
}

// Version returns the version of the library, followed by " (unproved)" if it was built without a proof.
func Version() string {
	return C.GoString(C.coset_version())
}
