package main

import (
	"bytes"
	"encoding/hex"
	"strings"
	"testing"

	"tailnetd-front/internal/tailclient"
)

func fill(b byte) (k tailclient.Key) {
	for i := range k {
		k[i] = b
	}
	return k
}

func TestInitiation(t *testing.T) {
	good := tailclient.NewInitiator(113, fill(1), fill(2), fill(3).Public()).Message()
	change := func(at int, to byte) []byte {
		b := append([]byte(nil), good...)
		b[at] = to
		return b
	}
	for name, row := range map[string]struct {
		b  []byte
		ok bool
	}{
		"whole":           {good, true},
		"any version":     {change(0, 255), true},
		"of another type": {change(2, 2), false},
		"another length":  {change(4, 95), false},
		"cut":             {good[:100], false},
		"longer":          {append(append([]byte(nil), good...), 0), false},
		"empty":           {nil, false},
	} {
		if _, err := parseInitiation(row.b); (err == nil) != row.ok {
			t.Errorf("%s: %v", name, err)
		}
	}
}

func TestHandshake(t *testing.T) {
	for _, version := range []uint16{0, 1, 49, 113, 65535} {
		machine, private := tailclient.NewKey(), tailclient.NewKey()
		static, err := keyPair(private[:])
		if err != nil {
			t.Fatal(err)
		}
		i := tailclient.NewInitiator(version, machine, tailclient.NewKey(), private.Public())
		in, err := parseInitiation(i.Message())
		if err != nil {
			t.Fatal(err)
		}
		response, s, err := respond(static, in, nil)
		if err != nil {
			t.Fatalf("version %d: %v", version, err)
		}
		if s.machine != machineKey(machine.Public()) {
			t.Errorf("version %d: the key isn't the client's", version)
		}
		if _, _, err := i.Finish(response); err != nil {
			t.Errorf("version %d: %v", version, err)
		}
	}
}

// lowOrder are all points of low order and their other spellings: the list of
// libsodium's has_small_order and of https://cr.yp.to/ecdh.html#validate.
var lowOrder = []string{
	"0000000000000000000000000000000000000000000000000000000000000000",
	"0100000000000000000000000000000000000000000000000000000000000000",
	"e0eb7a7c3b41b8ae1656e3faf19fc46ada098deb9c32b1fd866205165f49b800",
	"5f9c95bca3508c24b1d0b1559c83ef5b04445cc4581c8e86d8224eddd09f1157",
	"ecffffffffffffffffffffffffffffffffffffffffffffffffffffffffffff7f",
	"edffffffffffffffffffffffffffffffffffffffffffffffffffffffffffff7f",
	"eeffffffffffffffffffffffffffffffffffffffffffffffffffffffffffff7f",
	"0000000000000000000000000000000000000000000000000000000000000080",
}

func TestHandshakeRefused(t *testing.T) {
	private := fill(3)
	static, err := keyPair(private[:])
	if err != nil {
		t.Fatal(err)
	}
	refused := func(name string, message []byte) {
		t.Helper()
		in, err := parseInitiation(message)
		if err != nil {
			t.Fatal(err)
		}
		if _, _, err := respond(static, in, nil); err == nil {
			t.Errorf("%s: taken", name)
		}
	}
	begin := func() *tailclient.Initiator { return tailclient.NewInitiator(113, fill(1), fill(2), private.Public()) }
	for _, digits := range lowOrder {
		var point tailclient.Key
		hex.Decode(point[:], []byte(digits))
		refused("ephemeral "+digits, begin().MessageAs(fill(1).Public(), point))
		refused("static "+digits, begin().MessageAs(point, fill(2).Public()))
	}
	refused("another machine's key", begin().MessageAs(fill(9).Public(), fill(2).Public()))
	refused("another server's key", tailclient.NewInitiator(113, fill(1), fill(2), fill(4).Public()).Message())
	for at := range begin().Message() {
		if at >= 2 && at < 5 {
			continue // TestInitiation's
		}
		message := begin().Message()
		message[at] ^= 1
		refused("a changed byte", message)
	}
}

// A vector that two writings of Noise agree on: the front's by flynn/noise, and
// the test client's by primitives.
func TestHandshakeVector(t *testing.T) {
	private := fill(3)
	static, err := keyPair(private[:])
	if err != nil {
		t.Fatal(err)
	}
	i := tailclient.NewInitiator(113, fill(1), fill(2), private.Public())
	message := i.Message()
	in, err := parseInitiation(message)
	if err != nil {
		t.Fatal(err)
	}
	ephemeral := fill(4)
	response, s, err := respond(static, in, bytes.NewReader(ephemeral[:]))
	if err != nil {
		t.Fatal(err)
	}
	if want := ephemeral.Public(); !bytes.Equal(response[3:35], want[:]) {
		t.Fatal("another ephemeral key")
	}
	send, receive, err := i.Finish(response)
	if err != nil {
		t.Fatal(err)
	}
	// The second record is the first whose nonce shows its order.
	var up, down []byte
	nonce := make([]byte, 12)
	receive2, send2 := counter{cipher: s.receive}, counter{cipher: s.send}
	for n := byte(0); n < 2; n++ {
		nonce[11] = n
		up, down = send.Seal(up, nonce, nil, nil), receive.Seal(down, nonce, nil, nil)
		r, err := receive2.next()
		if err != nil {
			t.Fatal(err)
		}
		w, err := send2.next()
		if err != nil {
			t.Fatal(err)
		}
		if !bytes.HasSuffix(up, s.receive.Encrypt(nil, r, nil, nil)) || !bytes.HasSuffix(down, s.send.Encrypt(nil, w, nil, nil)) {
			t.Fatalf("record %d: the ways have other keys or numbers", n)
		}
	}
	for name, row := range map[string]struct {
		got  []byte
		want string
	}{"initiation": {message, vectorInitiation}, "response": {response, vectorResponse}, "up": {up, vectorUp}, "down": {down, vectorDown}} {
		if got := hex.EncodeToString(row.got); got != strings.Join(strings.Fields(row.want), "") {
			t.Errorf("%s: %s", name, got)
		}
	}
}

// Private keys of 32 bytes 01 (machine), 02 (the client's ephemeral), 03 (static)
// and 04 (the front's ephemeral), version 113; up and down are the tags of the
// first and the second record of each way, if they are empty.
const (
	vectorInitiation = `0071010060ce8d3ad1ccb633ec7b70c17814a5c76ecd029685050d344745ba05870e
		587d594391bcfef3f1b0f051873c2103356110f8056ef928c4354783347c74dc7b71
		b77028e12fab98099463eabf2eaa658ef9f7b9443ebbc5b6dec7e478350a8f942c`
	vectorResponse = `020030ac01b2209e86354fb853237b5de0f4fab13c7fcbf433a61c019369617fecf1
		0b1969f25abae086089696f0b12d4ecc7c`
	vectorUp   = `25aff63f24f75387eae2bc091129aa7c5dcb828cc18bdffe619b03d03dcd071f`
	vectorDown = `200b8b273913875fdd18ec04db5c110c96ce8c3f1b9535882d6760634c01177d`
)
