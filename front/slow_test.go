package main

import (
	"io"
	"net/http"
	"strings"
	"sync/atomic"
	"testing"
	"time"

	"golang.org/x/net/http2"
)

// A client that takes nothing of a stream: its window stays closed, though its
// connection is read.
func TestSlowStream(t *testing.T) {
	big := strings.Repeat("x", 8<<20)
	stub := make(chan struct{}, 1)
	r := newRig(t, http.HandlerFunc(func(w http.ResponseWriter, r *http.Request) {
		frames(big, big, big)(w, r)
		stub <- struct{}{}
	}), func(l *limits) { l.write = 500 * time.Millisecond })
	h := r.http(t, fill(1))
	poll := post(t, h, "/machine/map", `{"Stream":true}`)
	select {
	case <-stub:
	case <-time.After(15 * time.Second):
		t.Fatal("it is waited for")
	}
	if _, err := io.Copy(io.Discard, poll.Body); err == nil {
		t.Error("a whole answer")
	}
	if got := post(t, h, "/machine/update-health", "{}"); got.StatusCode != 200 {
		t.Error("its connection ended as well")
	}
}

// Of a client that takes nothing one frame is held, beside what the system's buffers
// hold, and tailnetd waits.
func TestOneFrameIsHeld(t *testing.T) {
	var wrote atomic.Int32
	frame := frameOf(strings.Repeat("x", 1<<20))
	r := newRig(t, http.HandlerFunc(func(w http.ResponseWriter, r *http.Request) {
		io.Copy(io.Discard, r.Body)
		for n := 0; n < 200; n++ {
			if _, err := w.Write(frame); err != nil {
				return
			}
			wrote.Add(1)
		}
	}), nil)
	poll := post(t, r.http(t, fill(1)), "/machine/map", `{"Stream":true}`)
	for was := int32(-1); wrote.Load() != was; time.Sleep(300 * time.Millisecond) {
		was = wrote.Load()
	}
	if got := wrote.Load(); got > 60 {
		t.Errorf("%d MiB were taken of tailnetd", got)
	}
	poll.Body.Close()
}

// A window that is shut from the beginning: also a short answer is given up.
func TestShutWindow(t *testing.T) {
	r := newRig(t, registers, func(l *limits) { l.write = 100 * time.Millisecond })
	c := r.connect(t, fill(1))
	c.SetDeadline(time.Now().Add(5 * time.Second))
	f := http2.NewFramer(c, onlyReader{c})
	io.WriteString(c, http2.ClientPreface)
	f.WriteSettings(http2.Setting{ID: http2.SettingInitialWindowSize, Val: 0})
	reset := map[uint32]bool{}
	for n, path := range []string{"/machine/set-dns", "/machine/update-health", "/machine/register", "/machine/map"} {
		id := uint32(2*n + 1)
		f.WriteHeaders(http2.HeadersFrameParam{StreamID: id, EndHeaders: true, BlockFragment: head("POST", path)})
		f.WriteData(id, true, []byte("{}"))
	}
	for len(reset) < 4 {
		frame, err := f.ReadFrame()
		if err != nil {
			t.Fatalf("%v, with %v reset", err, reset)
		}
		if x, ok := frame.(*http2.RSTStreamFrame); ok && x.ErrCode == http2.ErrCodeInternal {
			reset[x.StreamID] = true
		}
	}
}

// A client that doesn't read its connection at all.
func TestSlowConnection(t *testing.T) {
	big := strings.Repeat("x", 16<<20)
	stub := make(chan struct{}, 1)
	r := newRig(t, http.HandlerFunc(func(w http.ResponseWriter, r *http.Request) {
		frames(big, big, big)(w, r)
		stub <- struct{}{}
	}), func(l *limits) { l.write = 200 * time.Millisecond })
	c := r.connect(t, fill(1))
	f := http2.NewFramer(c, onlyReader{c})
	io.WriteString(c, http2.ClientPreface)
	f.WriteSettings(http2.Setting{ID: http2.SettingInitialWindowSize, Val: 1<<31 - 1})
	f.WriteWindowUpdate(0, 1<<30)
	f.WriteHeaders(http2.HeadersFrameParam{StreamID: 1, EndHeaders: true, BlockFragment: head("POST", "/machine/map")})
	f.WriteData(1, true, []byte(`{"Stream":true}`))
	select {
	case <-stub:
	case <-time.After(15 * time.Second):
		t.Fatal("it is waited for")
	}
	soon(t, "no connection", func() bool { return r.conns.taken() == 0 })
}
