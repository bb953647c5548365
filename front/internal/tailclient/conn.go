package tailclient

import (
	"bufio"
	"context"
	"crypto/cipher"
	"crypto/rand"
	"encoding/base64"
	"encoding/binary"
	"encoding/hex"
	"encoding/json"
	"fmt"
	"io"
	"net"
	"net/http"
	"strings"
	"sync"

	"golang.org/x/net/http2"
)

// A Conn is a connection of records.
type Conn struct {
	net.Conn
	Order binary.ByteOrder // of the counter in a nonce: big-endian unless a test says otherwise

	from          *bufio.Reader
	send, receive cipher.AEAD
	sent, got     uint64
	plain         []byte
	mu            sync.Mutex // of sends
}

func (c *Conn) nonce(n uint64) []byte {
	b := make([]byte, 12)
	c.Order.PutUint64(b[4:], n)
	return b
}

// Record seals the next record and counts it, without sending it.
func (c *Conn) Record(plain []byte) []byte {
	b := []byte{4, 0, 0}
	binary.BigEndian.PutUint16(b[1:], uint16(len(plain)+16))
	b = c.send.Seal(b, c.nonce(c.sent), plain, nil)
	c.sent++
	return b
}

func (c *Conn) Write(p []byte) (int, error) {
	c.mu.Lock()
	defer c.mu.Unlock()
	for sent := 0; sent < len(p); {
		piece := p[sent:]
		if len(piece) > 4077 {
			piece = piece[:4077]
		}
		if _, err := c.Conn.Write(c.Record(piece)); err != nil {
			return sent, err
		}
		sent += len(piece)
	}
	return len(p), nil
}

func (c *Conn) Read(p []byte) (int, error) {
	for len(c.plain) == 0 {
		var head [3]byte
		if _, err := io.ReadFull(c.from, head[:]); err != nil {
			return 0, err
		}
		n := int(binary.BigEndian.Uint16(head[1:]))
		if head[0] != 4 || n < 16 || n > 4093 {
			return 0, fmt.Errorf("not a record: %x", head)
		}
		b := make([]byte, n)
		if _, err := io.ReadFull(c.from, b); err != nil {
			return 0, err
		}
		plain, err := c.receive.Open(b[:0], c.nonce(c.got), b, nil)
		if err != nil {
			return 0, err
		}
		c.got++
		c.plain = plain
	}
	n := copy(p, c.plain)
	c.plain = c.plain[n:]
	return n, nil
}

// NewKey is a private key at random.
func NewKey() (k Key) {
	if _, err := rand.Read(k[:]); err != nil {
		panic(err)
	}
	return k
}

// A Dialer opens connections to a front.
type Dialer struct {
	Address string
	Local   string // the client's own address, any if empty
	Dial    func(ctx context.Context) (net.Conn, error)
	Version uint16
	Server  *Key // known already
}

func (d Dialer) dial(ctx context.Context) (net.Conn, error) {
	if d.Dial != nil {
		return d.Dial(ctx)
	}
	var n net.Dialer
	if d.Local != "" {
		n.LocalAddr = &net.TCPAddr{IP: net.ParseIP(d.Local)}
	}
	return n.DialContext(ctx, "tcp", d.Address)
}

// Key fetches the front's static key.
func (d Dialer) Key(ctx context.Context) (Key, error) {
	var k Key
	c, err := d.dial(ctx)
	if err != nil {
		return k, err
	}
	defer c.Close()
	fmt.Fprintf(c, "GET /key?v=%d HTTP/1.1\r\nHost: front\r\n\r\n", d.Version)
	r, err := http.ReadResponse(bufio.NewReader(c), nil)
	if err != nil {
		return k, err
	}
	defer r.Body.Close()
	var keys struct{ LegacyPublicKey, PublicKey string }
	if err := json.NewDecoder(r.Body).Decode(&keys); err != nil {
		return k, err
	}
	b, err := hex.DecodeString(strings.TrimPrefix(keys.PublicKey, "mkey:"))
	if err != nil || len(b) != 32 || keys.LegacyPublicKey != "mkey:"+strings.Repeat("0", 64) {
		return k, fmt.Errorf("keys %+v", keys)
	}
	copy(k[:], b)
	return k, nil
}

// Upgrade sends a first message and gives what the front answers it with.
func (d Dialer) Upgrade(ctx context.Context, message []byte) (net.Conn, *bufio.Reader, *http.Response, error) {
	c, err := d.dial(ctx)
	if err != nil {
		return nil, nil, nil, err
	}
	fmt.Fprintf(c, "POST /ts2021 HTTP/1.1\r\nHost: front\r\nUpgrade: tailscale-control-protocol\r\nConnection: upgrade\r\nX-Tailscale-Handshake: %s\r\nContent-Length: 0\r\n\r\n",
		base64.StdEncoding.EncodeToString(message))
	b := bufio.NewReader(c)
	r, err := http.ReadResponse(b, nil)
	if err != nil {
		c.Close()
		return nil, nil, nil, err
	}
	return c, b, r, nil
}

// Connect is the whole of a handshake.
func (d Dialer) Connect(ctx context.Context, machine Key) (*Conn, error) {
	if d.Server == nil {
		k, err := d.Key(ctx)
		if err != nil {
			return nil, fmt.Errorf("key: %w", err)
		}
		d.Server = &k
	}
	i := NewInitiator(d.Version, machine, NewKey(), *d.Server)
	c, b, r, err := d.Upgrade(ctx, i.Message())
	if err != nil {
		return nil, fmt.Errorf("upgrade: %w", err)
	}
	if r.StatusCode != 101 || r.Header.Get("Upgrade") != "tailscale-control-protocol" || r.Header.Get("Connection") != "upgrade" {
		c.Close()
		return nil, fmt.Errorf("upgrade: %s %v", r.Status, r.Header)
	}
	conn, err := finish(i, c, b)
	if err != nil {
		c.Close()
		return nil, err
	}
	return conn, nil
}

// Over is a handshake without HTTP/1.1 around it.
func Over(c net.Conn, version uint16, machine, server Key) (*Conn, error) {
	i := NewInitiator(version, machine, NewKey(), server)
	if _, err := c.Write(i.Message()); err != nil {
		return nil, err
	}
	return finish(i, c, bufio.NewReader(c))
}

func finish(i *Initiator, c net.Conn, from *bufio.Reader) (*Conn, error) {
	response := make([]byte, 51)
	if _, err := io.ReadFull(from, response); err != nil {
		return nil, fmt.Errorf("response: %w", err)
	}
	send, receive, err := i.Finish(response)
	if err != nil {
		return nil, err
	}
	return &Conn{Conn: c, Order: binary.BigEndian, from: from, send: send, receive: receive}, nil
}

// Count goes on from record n, both ways.
func (c *Conn) Count(n uint64) { c.sent, c.got = n, n }

// HTTP begins HTTP/2 on a connection.
func (c *Conn) HTTP() (*http2.ClientConn, error) {
	return (&http2.Transport{DisableCompression: true}).NewClientConn(c)
}

// Post is a request as a client makes it.
func Post(ctx context.Context, h *http2.ClientConn, path, body string) (*http.Response, error) {
	r, err := http.NewRequestWithContext(ctx, "POST", "https://front.example"+path, strings.NewReader(body))
	if err != nil {
		return nil, err
	}
	return h.RoundTrip(r)
}
