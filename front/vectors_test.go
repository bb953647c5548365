package main

import (
	"bytes"
	"encoding/hex"
	"encoding/json"
	"io"
	"net"
	"os"
	"path/filepath"
	"strconv"
	"testing"
	"time"

	"github.com/flynn/noise"
)

// Hexadecimal is bytes as the files in testdata have them.
type hexadecimal []byte

func (h *hexadecimal) UnmarshalJSON(text []byte) error {
	var digits string
	if err := json.Unmarshal(text, &digits); err != nil {
		return err
	}
	b, err := hex.DecodeString(digits)
	*h = b
	return err
}

// A vector is a handshake with fixed keys, and the first records of each way.
type vector struct {
	Version   uint16
	Machine   hexadecimal `json:"client_static_public"`
	Static    hexadecimal `json:"server_static_private"`
	Ephemeral hexadecimal `json:"server_ephemeral_private"`

	Initiation, Response hexadecimal
	Up                   []vectorRecord `json:"client_to_server"`
	Down                 []vectorRecord `json:"server_to_client"`
}

type vectorRecord struct{ Plaintext, Record hexadecimal }

// A refusal is what a front has to refuse.
type refusal struct {
	Name, What, Must   string
	Static             hexadecimal `json:"server_static_private"`
	Ephemeral          hexadecimal `json:"server_ephemeral_private"`
	Initiation, Stream hexadecimal
	Counter            uint64
}

func readJSON(t *testing.T, name string, to any) {
	t.Helper()
	text, err := os.ReadFile(filepath.Join("testdata", name))
	if err != nil {
		t.Fatal(err)
	}
	if err := json.Unmarshal(text, to); err != nil {
		t.Fatalf("%s: %v", name, err)
	}
}

// A recorded connection is read from bytes, and keeps what is written and whether it
// was closed.
type recorded struct {
	net.Conn
	from   io.Reader
	wrote  bytes.Buffer
	closed bool
}

func (c *recorded) Read(p []byte) (int, error)       { return c.from.Read(p) }
func (c *recorded) Write(p []byte) (int, error)      { return c.wrote.Write(p) }
func (c *recorded) Close() error                     { c.closed = true; return nil }
func (c *recorded) SetWriteDeadline(time.Time) error { return nil }

func pairFrom(t *testing.T, private []byte) noise.DHKey {
	t.Helper()
	pair, err := keyPair(private)
	if err != nil {
		t.Fatal(err)
	}
	return pair
}

// Three handshakes and their records, byte for byte, both ways.
func TestVectors(t *testing.T) {
	for _, name := range []string{"version-1.json", "version-113.json", "version-65535.json"} {
		var v vector
		readJSON(t, name, &v)
		in, err := parseInitiation(v.Initiation)
		if err != nil || in.version != v.Version {
			t.Fatalf("%s: %+v, %v", name, in, err)
		}
		response, s, err := respond(pairFrom(t, v.Static), in, bytes.NewReader(v.Ephemeral))
		if err != nil || !bytes.Equal(response, v.Response) || !bytes.Equal(s.machine[:], v.Machine) {
			t.Fatalf("%s: %x of %v, %v", name, response, s.machine, err)
		}
		var stream, plain, down []byte
		for _, r := range v.Up {
			stream, plain = append(stream, r.Record...), append(plain, r.Plaintext...)
		}
		over := &recorded{from: bytes.NewReader(stream)}
		c := newConn(over, over, s, defaultLimits())
		if got, err := io.ReadAll(onlyReader{c}); err != nil || !bytes.Equal(got, plain) {
			t.Errorf("%s: read %d bytes of %d: %v", name, len(got), len(plain), err)
		}
		for n, r := range v.Down {
			down = append(down, r.Record...)
			if _, err := c.Write(r.Plaintext); err != nil {
				t.Fatal(err)
			}
			if len(r.Plaintext) == 0 { // nothing to send is no record, but its number is taken here
				if err := c.seal(nil); err != nil {
					t.Fatal(err)
				}
			}
			if !bytes.Equal(over.wrote.Bytes(), down) {
				t.Errorf("%s: record %d down is another", name, n+1)
			}
		}
	}
}

// What a front has to refuse: handshakes, and records behind one.
func TestRefusedVectors(t *testing.T) {
	var all struct{ Bad []refusal }
	readJSON(t, "refused.json", &all)
	if len(all.Bad) < 40 {
		t.Fatalf("%d of them", len(all.Bad))
	}
	for _, x := range all.Bad {
		s, err := handshakeOf(t, x)
		if refused := err != nil; refused != (x.Must == "handshake refused") {
			t.Errorf("%s (%s): %v", x.Name, x.What, err)
		}
		if err != nil {
			continue
		}
		over := &recorded{from: bytes.NewReader(x.Stream)}
		c := newConn(over, over, s, defaultLimits())
		c.in.n = x.Counter
		taken := 0
		for ; ; taken++ {
			if _, err = c.Read(make([]byte, maxMessage)); err != nil {
				break
			}
		}
		switch want := x.Must; {
		case want == "taken":
			if taken != 3 || err != io.EOF {
				t.Errorf("%s: %d records, then %v", x.Name, taken, err)
			}
		case want != "closed after "+strconv.Itoa(taken) || err == io.EOF || !over.closed:
			t.Errorf("%s (%s): %d records, then %v, closed: %v", x.Name, x.What, taken, err, over.closed)
		}
	}
}

func handshakeOf(t *testing.T, x refusal) (session, error) {
	in, err := parseInitiation(x.Initiation)
	if err != nil {
		return session{}, err
	}
	_, s, err := respond(pairFrom(t, x.Static), in, bytes.NewReader(x.Ephemeral))
	return s, err
}
