package main

import (
	"bytes"
	"encoding/base64"
	"encoding/json"
	"errors"
	"io"
	"net/http"
	"reflect"
	"testing"

	"tailnetd-front/internal/tailclient"
)

// What is handed on has the members of what came, but Compress, with every number
// as it was written.
func FuzzReadRequest(f *testing.F) {
	for _, seed := range []string{
		`{"Compress":"zstd","Stream":true,"MapSessionSeq":18446744073709551615}`,
		`{"A":{"Compress":1},"Compress":null,"B":[1,2.5e-7,"\u0043"],"Compress":"zstd"} `,
		`{ "Compress" : "" , "Followup":"x","Followup":null}`, `[]`, `{`, `{"Compress":{}}`, "{\"\xff\":1,\"Compress\":\"zstd\"}",
	} {
		f.Add([]byte(seed))
	}
	f.Fuzz(func(t *testing.T, body []byte) {
		was, isObject := values(body)
		r, err := readRequest(append([]byte(nil), body...))
		if !isObject {
			if err != nil || !bytes.Equal(r.body, body) || r.zstd || r.stream || r.followup != "" {
				t.Fatalf("%q became %q: %+v, %v", body, r.body, r, err)
			}
			return
		}
		compress := was["Compress"]
		delete(was, "Compress")
		if known := compress == nil || compress == "" || compress == "zstd"; known != (err == nil) {
			t.Fatalf("%q: %v", body, err)
		}
		if err != nil {
			return
		}
		is, ok := values(r.body)
		if !ok || !reflect.DeepEqual(was, is) {
			t.Fatalf("%q became %q", body, r.body)
		}
		if r.zstd != (compress == "zstd") || r.stream != (was["Stream"] == true) {
			t.Fatalf("%q: %+v", body, r)
		}
	})
}

// values are an object's members, with numbers as texts.
func values(body []byte) (map[string]any, bool) {
	d := json.NewDecoder(bytes.NewReader(body))
	d.UseNumber()
	m := map[string]any{}
	if !json.Valid(body) || d.Decode(&m) != nil || m == nil {
		return nil, false
	}
	return m, true
}

// The frames that are read are a beginning of the bytes, whole frames alone, and
// what is written of them is read back.
func FuzzReadFrame(f *testing.F) {
	f.Add([]byte{2, 0, 0, 0, '{', '}', 1, 0, 0, 0, '1'})
	f.Add([]byte{0, 0, 0, 0})
	f.Add([]byte{1, 0, 0, 4})
	f.Add([]byte{255, 255, 255, 255, 0})
	f.Fuzz(func(t *testing.T, b []byte) {
		from := bytes.NewReader(b)
		var again []byte
		var text bytes.Buffer
		for {
			err := readFrame(from, &text)
			if err == io.EOF {
				if !bytes.Equal(again, b) {
					t.Fatalf("%x became %x", b, again)
				}
				return
			}
			if err != nil {
				if !errors.Is(err, errFrame) || !bytes.HasPrefix(b, again) {
					t.Fatalf("%x: %v", b, err)
				}
				return
			}
			again = appendFrame(again, text.Bytes(), nil)
		}
	})
}

// fuzzSession is a session whose keys are always the same.
func fuzzSession(t *testing.T) session {
	in, err := parseInitiation(initiationOfOnes())
	if err != nil {
		t.Fatal(err)
	}
	ephemeral, private := fill(4), fill(3)
	_, s, err := respond(pairFrom(t, private[:]), in, bytes.NewReader(ephemeral[:]))
	if err != nil {
		t.Fatal(err)
	}
	return s
}

// No bytes behind a handshake make the reader of records give any, or hang; nor do
// bytes behind good records, of which a byte is changed, but what was whole before.
func FuzzRecords(f *testing.F) {
	f.Add([]byte{}, uint32(0), byte(0), []byte{4, 0, 16, 0, 0, 0, 0, 0, 0, 0, 0, 0, 0, 0, 0, 0, 0, 0, 0})
	f.Add([]byte{1, 0, 255}, uint32(3), byte(1), []byte{3, 0, 1, 'x'})
	f.Add([]byte{7}, uint32(9999), byte(128), []byte{4, 255, 255})
	f.Fuzz(func(t *testing.T, sizes []byte, at uint32, mask byte, tail []byte) {
		if len(sizes) > 8 {
			sizes = sizes[:8]
		}
		s := fuzzSession(t)
		sealing := counter{cipher: s.receive}
		var stream, want []byte
		for _, size := range sizes {
			plain := bytes.Repeat([]byte{size}, int(size)*15)
			n, err := sealing.next()
			if err != nil {
				t.Fatal(err)
			}
			header := []byte{typeRecord, byte((len(plain) + tagLen) >> 8), byte(len(plain) + tagLen)}
			record := s.receive.Encrypt(header, n, nil, plain)
			if mask == 0 || int(at) >= len(stream)+len(record) {
				want = append(want, plain...)
			}
			stream = append(stream, record...)
		}
		if int(at) < len(stream) {
			stream[at] ^= mask
		}
		over := &recorded{from: bytes.NewReader(append(stream, tail...))}
		c := newConn(over, over, s, defaultLimits())
		got, err := io.ReadAll(onlyReader{c})
		if !bytes.Equal(got, want) || !over.closed {
			t.Fatalf("%d bytes, not %d: %v", len(got), len(want), err)
		}
	})
}

// The one header that is taken is the one that a client made.
func FuzzHandshake(f *testing.F) {
	good := initiationOfOnes()
	text := base64.StdEncoding.EncodeToString(good)
	f.Add(text)
	f.Add(text[:len(text)-1])
	f.Add("AAAA")
	zero := tailclient.NewInitiator(113, fill(1), fill(2), fill(3).Public()).MessageAs(tailclient.Key{}, fill(2).Public())
	f.Add(base64.StdEncoding.EncodeToString(zero))
	f.Fuzz(func(t *testing.T, text string) {
		r := &http.Request{Method: "POST", Proto: "HTTP/1.1", ProtoMajor: 1, ProtoMinor: 1, Header: http.Header{"Upgrade": {upgradeProtocol}, handshakeHeader: {text}}}
		in, err := initiationOf(r)
		if err != nil {
			return
		}
		private := fill(3)
		_, _, err = respond(pairFrom(t, private[:]), in, nil)
		sent, _ := base64.StdEncoding.DecodeString(text)
		if (err == nil) != bytes.Equal(sent, good) {
			t.Fatalf("%q: %v", text, err)
		}
	})
}

func initiationOfOnes() []byte {
	return tailclient.NewInitiator(113, fill(1), fill(2), fill(3).Public()).Message()
}
