// Package tailclient is a client of the front, written from golang.org/x/crypto's
// primitives alone, so that it shares no line of Noise with the front.
package tailclient

import (
	"crypto/cipher"
	"crypto/hmac"
	"encoding/binary"
	"encoding/hex"
	"errors"
	"fmt"
	"hash"

	"golang.org/x/crypto/blake2s"
	"golang.org/x/crypto/chacha20poly1305"
	"golang.org/x/crypto/curve25519"
)

// A Key is an X25519 key, private or public.
type Key [32]byte

// Public is the public key of a private one.
func (k Key) Public() (public Key) {
	b, err := curve25519.X25519(k[:], curve25519.Basepoint)
	if err != nil {
		panic(err)
	}
	copy(public[:], b)
	return public
}

// Hex is its 64 hexadecimal digits.
func (k Key) Hex() string { return hex.EncodeToString(k[:]) }

// An Initiator is the client's half of Noise_IK_25519_ChaChaPoly_BLAKE2s: the
// Noise Protocol Framework, revision 34, sections 5 and 7.5.
type Initiator struct {
	version                    uint16
	machine, ephemeral, server Key
	h, ck, k                   [32]byte
	n                          uint64
}

// NewInitiator begins a handshake with a server's static key.
func NewInitiator(version uint16, machine, ephemeral, server Key) *Initiator {
	i := &Initiator{version: version, machine: machine, ephemeral: ephemeral, server: server}
	i.h = blake2s.Sum256([]byte("Noise_IK_25519_ChaChaPoly_BLAKE2s")) // longer than 32 bytes, so hashed
	i.ck = i.h
	i.mixHash([]byte(fmt.Sprintf("Tailscale Control Protocol v%d", version)))
	i.mixHash(server[:])
	return i
}

func (i *Initiator) mixHash(b []byte) {
	i.h = blake2s.Sum256(append(append([]byte(nil), i.h[:]...), b...))
}

func mac(key []byte, parts ...[]byte) (out [32]byte) {
	m := hmac.New(func() hash.Hash {
		h, err := blake2s.New256(nil)
		if err != nil {
			panic(err)
		}
		return h
	}, key)
	for _, p := range parts {
		m.Write(p)
	}
	copy(out[:], m.Sum(nil))
	return out
}

// hkdf is section 4.3's, with two outputs.
func hkdf(ck, input []byte) (a, b [32]byte) {
	t := mac(ck, input)
	a = mac(t[:], []byte{1})
	b = mac(t[:], a[:], []byte{2})
	return a, b
}

func (i *Initiator) mixKey(private, public Key) {
	dh, err := curve25519.X25519(private[:], public[:])
	if err != nil {
		panic(err)
	}
	i.mix(dh)
}

func (i *Initiator) mix(dh []byte) {
	i.ck, i.k = hkdf(i.ck[:], dh)
	i.n = 0
}

func aead(k [32]byte) cipher.AEAD {
	a, err := chacha20poly1305.New(k[:])
	if err != nil {
		panic(err)
	}
	return a
}

// nonce is section 12.3's, which the handshake keeps to.
func (i *Initiator) nonce() []byte {
	b := make([]byte, 12)
	binary.LittleEndian.PutUint64(b[4:], i.n)
	i.n++
	return b
}

func (i *Initiator) seal(plain []byte) []byte {
	c := aead(i.k).Seal(nil, i.nonce(), plain, i.h[:])
	i.mixHash(c)
	return c
}

func (i *Initiator) open(c []byte) ([]byte, error) {
	p, err := aead(i.k).Open(nil, i.nonce(), c, i.h[:])
	i.mixHash(c)
	return p, err
}

// Message is the first message, 101 bytes: e, es, s, ss.
func (i *Initiator) Message() []byte { return i.MessageAs(i.machine.Public(), i.ephemeral.Public()) }

// MessageAs is a first message with public keys that may be others than the
// client's own. Of such a key the client doesn't know the private one, and takes
// it that the product is zero, as it is with a point of low order.
func (i *Initiator) MessageAs(machine, ephemeral Key) []byte {
	b := []byte{byte(i.version >> 8), byte(i.version), 1, 0, 96}
	b = append(b, ephemeral[:]...)
	i.mixHash(ephemeral[:])
	i.mixFirst(i.ephemeral, ephemeral)
	b = append(b, i.seal(machine[:])...)
	i.mixFirst(i.machine, machine)
	return append(b, i.seal(nil)...)
}

func (i *Initiator) mixFirst(private, public Key) {
	if public != private.Public() {
		i.mix(make([]byte, len(public)))
		return
	}
	i.mixKey(private, i.server)
}

// Finish reads the answer, 51 bytes: e, ee, se. It gives the ciphers of both ways.
func (i *Initiator) Finish(response []byte) (send, receive cipher.AEAD, err error) {
	if len(response) != 51 || response[0] != 2 || response[1] != 0 || response[2] != 48 {
		return nil, nil, fmt.Errorf("not a response: %x", response)
	}
	var e Key
	copy(e[:], response[3:35])
	i.mixHash(e[:])
	i.mixKey(i.ephemeral, e)
	i.mixKey(i.machine, e)
	if p, err := i.open(response[35:]); err != nil || len(p) != 0 {
		return nil, nil, errors.New("the response isn't authentic")
	}
	a, b := hkdf(i.ck[:], nil)
	return aead(a), aead(b), nil
}
