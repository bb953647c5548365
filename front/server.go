package main

import (
	"bytes"
	"context"
	"encoding/json"
	"errors"
	"fmt"
	"io"
	"net"
	"net/http"
	"sync"
	"syscall"
	"time"
)

// maxAnswer is the longest answer without frames that is handed on.
const maxAnswer = 1 << 20

// A server is tailnetd, at a host and port.
type server struct {
	address   string
	dialer    *net.Dialer
	transport *http.Transport
	ask       time.Duration

	mu     sync.Mutex // of what follows
	looked time.Time
	up     bool
}

func newServer(address string, dial, ask time.Duration) *server {
	dialer := &net.Dialer{Timeout: dial}
	return &server{
		address: address,
		dialer:  dialer,
		ask:     ask,
		transport: &http.Transport{
			DialContext: func(ctx context.Context, network, address string) (net.Conn, error) {
				c, err := dialer.DialContext(ctx, network, address)
				if err != nil {
					return nil, err
				}
				return answering{c}, nil
			},
			ResponseHeaderTimeout: ask,
			DisableKeepAlives:     true, // Connection: close
			DisableCompression:    true, // no Accept-Encoding of Go's own
		},
	}
}

// An answering connection to tailnetd is read where it can't be written any more: what
// answers before it has taken a body, and closes, has answered all the same, and
// http.Transport would drop that for the failed write. If there is no answer, the read
// fails.
type answering struct{ net.Conn }

func (c answering) Write(p []byte) (int, error) {
	n, err := c.Conn.Write(p)
	if errors.Is(err, syscall.EPIPE) || errors.Is(err, syscall.ECONNRESET) {
		return len(p), nil
	}
	return n, err
}

// post hands on a body. No header comes from the client: Ts-Machine-Key is the key
// that its handshake proved. When ctx ends, the connection to tailnetd is closed.
func (s *server) post(ctx context.Context, path string, machine machineKey, body []byte) (*http.Response, error) {
	r, err := http.NewRequestWithContext(ctx, http.MethodPost, "http://"+s.address+path, bytes.NewReader(body))
	if err != nil {
		return nil, fmt.Errorf("tailnetd: %w", err)
	}
	r.Header = http.Header{
		"Content-Type":   {"application/json"},
		"Ts-Machine-Key": {machine.String()},
		"User-Agent":     {""}, // none, not even the one of Go
	}
	answer, err := s.transport.RoundTrip(r)
	if err != nil {
		return nil, fmt.Errorf("tailnetd: %w", err)
	}
	return answer, nil
}

// An answer is a status and a body without frames.
type answer struct {
	status int
	kind   string
	body   []byte
}

// exchange is a post whose answer is read whole, in time.
func (s *server) exchange(ctx context.Context, path string, machine machineKey, body []byte) (answer, error) {
	ctx, cancel := context.WithTimeout(ctx, s.ask)
	defer cancel()
	r, err := s.post(ctx, path, machine, body)
	if err != nil {
		return answer{}, err
	}
	defer r.Body.Close()
	return readAnswer(r)
}

func readAnswer(r *http.Response) (answer, error) {
	body, err := io.ReadAll(io.LimitReader(r.Body, maxAnswer+1))
	if err == nil && len(body) > maxAnswer {
		err = errors.New("too long")
	}
	if err != nil {
		return answer{}, fmt.Errorf("tailnetd: its answer: %w", err)
	}
	return answer{r.StatusCode, r.Header.Get("Content-Type"), body}, nil
}

// waitsAt says whether a registration waits for an operator, at a URL.
func (a answer) waitsAt(url string) bool {
	var r struct{ AuthURL string }
	return a.status == http.StatusOK && url != "" && json.Unmarshal(a.body, &r) == nil && r.AuthURL == url
}

// takesConnections says whether tailnetd takes one, as of a second ago at most: each
// look takes one of its workers for a moment. Who asks for it can't end the look
// before its time, which would be remembered for others.
func (s *server) takesConnections(ctx context.Context) bool {
	s.mu.Lock()
	defer s.mu.Unlock()
	if now := time.Now(); now.Sub(s.looked) > time.Second {
		conn, err := s.dialer.DialContext(ctx, "tcp", s.address)
		if s.up = err == nil; s.up {
			conn.Close()
		}
		s.looked = now
	}
	return s.up
}
