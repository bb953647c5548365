package main

import (
	"bytes"
	"context"
	"encoding/binary"
	"io"
	"net"
	"net/http"
	"net/http/httptest"
	"strings"
	"sync"
	"testing"
	"time"

	"github.com/klauspost/compress/zstd"
	"golang.org/x/net/http2"
	"tailnetd-front/internal/tailclient"
)

// A text is a log that a test may read while it grows.
type text struct {
	mu sync.Mutex
	b  bytes.Buffer
}

func (x *text) Write(p []byte) (int, error) {
	x.mu.Lock()
	defer x.mu.Unlock()
	return x.b.Write(p)
}

func (x *text) String() string {
	x.mu.Lock()
	defer x.mu.Unlock()
	return x.b.String()
}

// A rig is a front before a stub of tailnetd.
type rig struct {
	*front
	listener *listener
	dialer   tailclient.Dialer
	lines    *text
	stop     func()
}

func newRig(t *testing.T, stub http.Handler, change func(*limits)) *rig {
	t.Helper()
	s := httptest.NewServer(stub)
	t.Cleanup(s.Close) // behind the front's end, which ends the polls that it waits for
	return rigAt(t, s.Listener.Addr().String(), nil, change)
}

func rigAt(t *testing.T, server string, derpMap []byte, change func(*limits)) *rig {
	t.Helper()
	limits := defaultLimits()
	if change != nil {
		change(&limits)
	}
	private := tailclient.NewKey()
	key, err := keyPair(private[:])
	if err != nil {
		t.Fatal(err)
	}
	ctx, cancel := context.WithCancel(context.Background())
	r := &rig{lines: new(text), stop: cancel}
	if r.front, err = newFront(ctx, key, server, derpMap, limits, r.lines); err != nil {
		t.Fatal(err)
	}
	l, err := listen(ctx, "127.0.0.1:0", limits, true)
	if err != nil {
		t.Fatal(err)
	}
	r.listener = l
	ended := make(chan error, 1)
	go func() { ended <- r.serve(l, nil) }()
	t.Cleanup(func() {
		cancel()
		if err := <-ended; err != nil {
			t.Error(err)
		}
	})
	public := private.Public()
	r.dialer = tailclient.Dialer{Address: l.Addr().String(), Version: 113, Server: &public}
	return r
}

// connect is a client's connection.
func (r *rig) connect(t *testing.T, machine tailclient.Key) *tailclient.Conn {
	t.Helper()
	c, err := r.dialer.Connect(within(t, 5*time.Second), machine)
	if err != nil {
		t.Fatal(err)
	}
	c.SetDeadline(time.Now().Add(30 * time.Second)) // a test may fail, and not hang
	t.Cleanup(func() { c.Close() })
	return c
}

func (r *rig) http(t *testing.T, machine tailclient.Key) *http2.ClientConn {
	t.Helper()
	h, err := r.connect(t, machine).HTTP()
	if err != nil {
		t.Fatal(err)
	}
	return h
}

func within(t *testing.T, d time.Duration) context.Context {
	ctx, cancel := context.WithTimeout(context.Background(), d)
	t.Cleanup(cancel)
	return ctx
}

func post(t *testing.T, h *http2.ClientConn, path, body string) *http.Response {
	t.Helper()
	r, err := tailclient.Post(within(t, 20*time.Second), h, path, body)
	if err != nil {
		t.Fatal(err)
	}
	t.Cleanup(func() { r.Body.Close() })
	return r
}

func whole(t *testing.T, r *http.Response) string {
	t.Helper()
	b, err := io.ReadAll(r.Body)
	if err != nil {
		t.Fatal(err)
	}
	return string(b)
}

// frameOf is a frame as tailnetd writes it.
func frameOf(text string) []byte {
	b := make([]byte, 4)
	binary.LittleEndian.PutUint32(b, uint32(len(text)))
	return append(b, text...)
}

// next reads a frame as a client does.
func next(t *testing.T, from io.Reader, compressed bool) string {
	t.Helper()
	var length [4]byte
	if _, err := io.ReadFull(from, length[:]); err != nil {
		t.Fatal(err)
	}
	b := make([]byte, binary.LittleEndian.Uint32(length[:]))
	if _, err := io.ReadFull(from, b); err != nil {
		t.Fatal(err)
	}
	if !compressed {
		return string(b)
	}
	d, err := zstd.NewReader(nil, zstd.WithDecoderConcurrency(1), zstd.WithDecoderMaxWindow(8<<20)) // RFC 8878, 3.1.1.1.2
	if err != nil {
		t.Fatal(err)
	}
	defer d.Close()
	if b, err = d.DecodeAll(b, nil); err != nil {
		t.Fatal(err)
	}
	return string(b)
}

// never is a stub that no request should reach.
func never(t *testing.T) http.Handler {
	return http.HandlerFunc(func(_ http.ResponseWriter, r *http.Request) { t.Errorf("%s was handed on", r.URL) })
}

// frames is a stub that answers a map with frames, and then waits for its end.
func frames(texts ...string) http.HandlerFunc {
	return func(w http.ResponseWriter, r *http.Request) {
		io.Copy(io.Discard, r.Body)
		for _, x := range texts {
			w.Write(frameOf(x))
			w.(http.Flusher).Flush()
		}
		<-r.Context().Done()
	}
}

// raw sends bytes and gives all that comes back.
func (r *rig) raw(t *testing.T, request string) string {
	t.Helper()
	c, err := net.Dial("tcp", r.dialer.Address)
	if err != nil {
		t.Fatal(err)
	}
	defer c.Close()
	c.SetDeadline(time.Now().Add(20 * time.Second))
	go io.WriteString(c, request)
	b, err := io.ReadAll(c)
	if err != nil && !strings.Contains(err.Error(), "reset") {
		t.Fatal(err)
	}
	return string(b)
}

// soon waits for what has to come at once, and on a busy machine within 10 seconds.
func soon(t *testing.T, what string, is func() bool) {
	t.Helper()
	for end := time.Now().Add(10 * time.Second); !is(); time.Sleep(5 * time.Millisecond) {
		if time.Now().After(end) {
			t.Fatalf("not within 10 seconds: %s", what)
		}
	}
}
