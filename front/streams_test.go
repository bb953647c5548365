package main

import (
	"context"
	"io"
	"net/http"
	"sync/atomic"
	"testing"
	"time"

	"golang.org/x/net/http2"
	"tailnetd-front/internal/tailclient"
)

func TestStreamsLimit(t *testing.T) {
	stub, _ := gone(t)
	r := newRig(t, stub, nil)
	c := r.connect(t, fill(1))
	h, err := (&http2.Transport{StrictMaxConcurrentStreams: true}).NewClientConn(c)
	if err != nil {
		t.Fatal(err)
	}
	for n := 0; n < 16; n++ {
		next(t, post(t, h, "/machine/map", `{"Stream":true}`).Body, false)
	}
	ctx, cancel := context.WithTimeout(context.Background(), 200*time.Millisecond)
	defer cancel()
	if _, err := tailclient.Post(ctx, h, "/machine/map", `{}`); err == nil {
		t.Error("a stream more is open")
	}
	if got := h.State().StreamsActive; got > 17 {
		t.Error(got)
	}
}

// A client that opens streams and resets them at once makes no more connections
// to tailnetd at a time than one that leaves them open.
func TestStreamsThatAreReset(t *testing.T) {
	var now, most atomic.Int32
	r := newRig(t, http.HandlerFunc(func(w http.ResponseWriter, r *http.Request) {
		if n := now.Add(1); n > most.Load() {
			most.Store(n)
		}
		defer now.Add(-1)
		<-r.Context().Done()
	}), nil)
	c := r.connect(t, fill(1))
	f := http2.NewFramer(c, onlyReader{c})
	io.WriteString(c, http2.ClientPreface)
	f.WriteSettings()
	go io.Copy(io.Discard, onlyReader{c})
	for n := uint32(0); n < 3000; n++ {
		f.WriteHeaders(http2.HeadersFrameParam{StreamID: 2*n + 1, EndHeaders: true, EndStream: true, BlockFragment: head("POST", "/machine/map")})
		f.WriteRSTStream(2*n+1, http2.ErrCodeCancel)
	}
	soon(t, "the end of all", func() bool { return now.Load() == 0 })
	if got := most.Load(); got > 64 { // at the stub, which learns of an end a little later
		t.Errorf("%d at once", got)
	}
}
