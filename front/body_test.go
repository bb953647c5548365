package main

import (
	"context"
	"io"
	"net/http"
	"strings"
	"testing"
	"time"

	"golang.org/x/net/http2"
	"tailnetd-front/internal/tailclient"
)

// All bodies at once have a limit.
func TestBodiesLimit(t *testing.T) {
	hold := make(chan struct{})
	r := newRig(t, http.HandlerFunc(func(_ http.ResponseWriter, r *http.Request) {
		io.Copy(io.Discard, r.Body)
		select {
		case <-hold:
		case <-r.Context().Done():
		}
	}), func(l *limits) { l.bodies = 3 << 19 })
	h := r.http(t, fill(1))
	body := strings.Repeat(" ", 1<<20-2) + "{}"
	first := make(chan struct{})
	go func() {
		defer close(first)
		if a, err := tailclient.Post(context.Background(), h, "/machine/register", body); err != nil || a.StatusCode != 200 {
			t.Error(a, err)
		}
	}()
	soon(t, "a body is held", func() bool { return r.bodies.in.Load() == 1<<20 })
	if got := post(t, h, "/machine/register", body); got.StatusCode != 503 {
		t.Error(got.Status)
	}
	close(hold)
	<-first
	soon(t, "none is held", func() bool { return r.bodies.in.Load() == 0 })
	if got := post(t, h, "/machine/register", body); got.StatusCode != 200 {
		t.Error(got.Status)
	}
}

// A body that doesn't come is given up, and one whose head ends the stream is empty.
func TestSlowBody(t *testing.T) {
	r := newRig(t, frames(), func(l *limits) { l.handshake = 200 * time.Millisecond; l.ask = 100 * time.Millisecond })
	c := r.connect(t, fill(1))
	f := http2.NewFramer(c, onlyReader{c})
	io.WriteString(c, http2.ClientPreface)
	f.WriteSettings()
	f.WriteHeaders(http2.HeadersFrameParam{StreamID: 1, EndHeaders: true, BlockFragment: head("POST", "/machine/map")})
	f.WriteHeaders(http2.HeadersFrameParam{StreamID: 3, EndHeaders: true, EndStream: true, BlockFragment: head("POST", "/machine/map")})
	soon(t, "a line for each", func() bool { return strings.Count(r.lines.String(), `"/machine/map"`) == 2 })
	if got := r.lines.String(); !strings.Contains(got, ` 408 `) || !strings.Contains(got, " 504 ") {
		t.Error(got)
	}
}
