package main

import (
	"context"
	"io"
	"net"
	"net/http"
	"net/url"
	"strings"
	"testing"
	"time"

	"golang.org/x/net/http2"
	"tailnetd-front/internal/tailclient"
)

// registers is a stub that takes each registration.
var registers = http.HandlerFunc(func(w http.ResponseWriter, r *http.Request) { io.WriteString(w, "{}") })

// The numbers that documents name. Other tests shorten them.
func TestLimitsAreAsDocumented(t *testing.T) {
	want := limits{
		head: 16384, handshake: 10 * time.Second,
		conns: 4096, perAddress: 256, outside: 1024, outsideOne: 64, streams: 16,
		opened: 600, read: 16777216, register: 60, minute: time.Minute,
		body: 1048576, bodies: 67108864,
		idle: 300 * time.Second, write: 30 * time.Second,
		polls: 1000, dial: 5 * time.Second, ask: 30 * time.Second, end: time.Second,
		quiet: 50 * time.Second, give: 5 * time.Second,
		again: 2 * time.Second, hold: 60 * time.Second,
	}
	if got := defaultLimits(); got != want {
		t.Errorf("%+v", got)
	}
	if maxFrame != 16777216 || maxAnswer != 1048576 || pieceLen != 65536 || longestShown != 128 || oldestClient != 68 || maxCiphertext != 4093 || maxPlaintext != 4077 {
		t.Error("a constant is another")
	}
}

// As many registrations of one address, over whichever connection.
func TestRegistrationsLimit(t *testing.T) {
	r := newRig(t, registers, func(l *limits) { l.register = 3 })
	one, two := r.http(t, fill(1)), r.http(t, fill(2))
	r.dialer.Local = "127.0.0.2"
	other := r.http(t, fill(1))
	for n, row := range []struct {
		h      *http2.ClientConn
		path   string
		status int
	}{
		{one, "/machine/register", 200}, {two, "/machine/register", 200}, {one, "/machine/map", 200}, {one, "/machine/register", 200},
		{two, "/machine/register", 429}, {one, "/machine/register", 429}, {one, "/machine/update-health", 200},
		{other, "/machine/register", 200},
	} {
		if got := post(t, row.h, row.path, `{"Script":1}`); got.StatusCode != row.status {
			t.Errorf("%d: %s: %s", n, row.path, got.Status)
		}
	}
}

// Where nothing is counted by address, registrations aren't either.
func TestRegistrationsBehindAProxy(t *testing.T) {
	r := newRig(t, registers, func(l *limits) { l.register, l.perAddress = 1, 0 })
	h := r.http(t, fill(1))
	for n := 0; n < 3; n++ {
		if got := post(t, h, "/machine/register", "{}"); got.StatusCode != 200 {
			t.Errorf("%d: %s", n, got.Status)
		}
	}
}

// As many streams in a minute, however they end; then the connection is closed.
func TestStreamsInAMinute(t *testing.T) {
	for name, row := range map[string]struct {
		minute time.Duration
		pause  time.Duration
		closed bool
	}{
		"at once":        {time.Minute, 0, true},
		"in two minutes": {120 * time.Millisecond, 30 * time.Millisecond, false},
	} {
		r := newRig(t, never(t), func(l *limits) { l.opened, l.minute = 5, row.minute })
		h := r.http(t, fill(1))
		for n := 0; n < 6; n++ {
			a, err := tailclient.Post(within(t, time.Second), h, "/machine/update-health", "{}")
			if closed := err != nil; closed != (row.closed && n == 5) {
				t.Errorf("%s: stream %d: %v", name, n+1, err)
			}
			if err == nil {
				a.Body.Close()
			}
			time.Sleep(row.pause)
		}
	}
}

// The 17th stream at once is refused by itself, whatever a client makes of the number
// that it was told, and the 16 go on.
func TestSeventeenthStream(t *testing.T) {
	more := make(chan struct{})
	r := newRig(t, http.HandlerFunc(func(w http.ResponseWriter, r *http.Request) {
		io.Copy(io.Discard, r.Body)
		select {
		case <-more:
			w.Write(frameOf(`{"Seq":1}`))
		case <-r.Context().Done():
		}
	}), nil)
	c := r.connect(t, fill(1))
	c.SetDeadline(time.Now().Add(10 * time.Second))
	f := http2.NewFramer(c, onlyReader{c})
	io.WriteString(c, http2.ClientPreface)
	f.WriteSettings()
	f.WriteSettingsAck()
	for n := uint32(0); n < 17; n++ {
		f.WriteHeaders(http2.HeadersFrameParam{StreamID: 2*n + 1, EndHeaders: true, BlockFragment: head("POST", "/machine/map")})
		f.WriteData(2*n+1, true, []byte("{}"))
	}
	ended, refused := map[uint32]bool{}, false
	for len(ended) < 16 {
		frame, err := f.ReadFrame()
		if err != nil {
			t.Fatalf("%v, with %d of 16 answered", err, len(ended))
		}
		switch x := frame.(type) {
		case *http2.RSTStreamFrame:
			if x.StreamID != 33 {
				t.Errorf("stream %d is reset: %v", x.StreamID, x.ErrCode)
			} else if !refused {
				refused = true
				close(more)
			}
		case *http2.DataFrame:
			if x.StreamEnded() {
				ended[x.StreamID] = true
			}
		}
	}
	if !refused || ended[33] {
		t.Error("the 17th isn't refused")
	}
}

// Streams past those that may be open at once have no handler, and count.
func TestRefusedStreamsCount(t *testing.T) {
	r := newRig(t, frames(), func(l *limits) { l.streams, l.opened = 2, 10 })
	c := r.connect(t, fill(1))
	f := http2.NewFramer(c, onlyReader{c})
	io.WriteString(c, http2.ClientPreface)
	f.WriteSettings()
	f.WriteSettingsAck()
	for n := uint32(0); n < 11; n++ {
		f.WriteHeaders(http2.HeadersFrameParam{StreamID: 2*n + 1, EndHeaders: true, BlockFragment: head("POST", "/machine/map")})
	}
	soon(t, "no connection", func() bool { return r.conns.taken() == 0 })
}

// Streams without a path have no handler either, and count.
func TestStreamsWithoutAPathCount(t *testing.T) {
	r := newRig(t, never(t), func(l *limits) { l.opened = 10 })
	c := r.connect(t, fill(1))
	f := http2.NewFramer(c, onlyReader{c})
	io.WriteString(c, http2.ClientPreface)
	f.WriteSettings()
	for n := uint32(0); n < 11; n++ {
		f.WriteHeaders(http2.HeadersFrameParam{StreamID: 2*n + 1, EndHeaders: true, EndStream: true, BlockFragment: head("POST", "")})
	}
	soon(t, "no connection", func() bool { return r.conns.taken() == 0 })
}

// Past the connections that aren't upgraded there is a 503 at once; one that is
// upgraded gives its place away.
func TestOutsideLimit(t *testing.T) {
	r := newRig(t, registers, func(l *limits) { l.outside = 2 })
	h := r.http(t, fill(1))
	soon(t, "an upgrade leaves its place", func() bool { return r.listener.room.taken() == 0 })
	var held []net.Conn
	for n := 0; n < 2; n++ {
		c, err := net.Dial("tcp", r.dialer.Address)
		if err != nil {
			t.Fatal(err)
		}
		defer c.Close()
		held = append(held, c)
	}
	soon(t, "both are in", func() bool { return r.listener.room.taken() == 2 })
	for name, begin := range map[string]string{"a request": "GET /key?v=113 HTTP/1.1\r\nHost: x\r\n\r\n", "nothing": ""} {
		if got := r.raw(t, begin); !strings.HasPrefix(got, "HTTP/1.1 503 ") || !strings.HasSuffix(got, "\r\n\r\ntoo many connections\n") {
			t.Errorf("%s: %q", name, got)
		}
	}
	if got := post(t, h, "/machine/register", "{}"); got.StatusCode != 200 {
		t.Error("what is over Noise:", got.Status)
	}
	held[0].Close()
	soon(t, "one goes, one comes", func() bool {
		return strings.HasPrefix(r.raw(t, "GET /key?v=113 HTTP/1.1\r\nHost: x\r\n\r\n"), "HTTP/1.1 200 ")
	})
}

// Of one address there are fewer, unless nothing is counted by address.
func TestOutsideLimitOfOneAddress(t *testing.T) {
	for perAddress, status := range map[int]string{1: "503", 0: "200"} {
		r := newRig(t, registers, func(l *limits) { l.outsideOne, l.perAddress = 2, perAddress })
		for n := 0; n < 2; n++ {
			c, err := net.Dial("tcp", r.dialer.Address)
			if err != nil {
				t.Fatal(err)
			}
			defer c.Close()
		}
		soon(t, "both are in", func() bool { return r.listener.room.taken() == 2 })
		if got := r.raw(t, "GET /key?v=113 HTTP/1.1\r\nHost: x\r\n\r\n"); !strings.HasPrefix(got, "HTTP/1.1 "+status) {
			t.Errorf("--per-address %d: %q", perAddress, got)
		}
		other := net.Dialer{LocalAddr: &net.TCPAddr{IP: net.IPv4(127, 0, 0, 2)}}
		c, err := other.Dial("tcp", r.dialer.Address)
		if err != nil {
			t.Fatal(err)
		}
		defer c.Close()
		soon(t, "another address is in", func() bool { return r.listener.room.taken() == 3 })
	}
}

// Over TLS a connection too many is closed without a word.
func TestOutsideLimitOverTLS(t *testing.T) {
	limits := defaultLimits()
	limits.outside = 0
	l, err := listen(context.Background(), "127.0.0.1:0", limits, false)
	if err != nil {
		t.Fatal(err)
	}
	defer l.Close()
	go l.Accept()
	c, err := net.Dial("tcp", l.Addr().String())
	if err != nil {
		t.Fatal(err)
	}
	defer c.Close()
	c.SetReadDeadline(time.Now().Add(3 * time.Second))
	if got, err := io.ReadAll(c); len(got) != 0 || err != nil {
		t.Errorf("%q, %v", got, err)
	}
}

func TestShown(t *testing.T) {
	for path, want := range map[string]string{
		"/machine/map":                   "/machine/map",
		"/register/reg-1-00":             "/register/",
		"/register/":                     "/register/",
		"/%72egister/reg-1-00":           "/register/",
		"/register/x%0aFAKE":             "/register/",
		"/register":                      "/register",
		"/x%0aFAKE":                      "/x%0aFAKE",
		"/key?v=113":                     "/key",
		"/" + strings.Repeat("x", 200):   "/" + strings.Repeat("x", 127),
		"/machine/../register/reg-1-00":  "/machine/../register/",
		"//register/reg-1-00":            "//register/",
		"/" + strings.Repeat("%0a", 100): ("/" + strings.Repeat("%0a", 100))[:128],
	} {
		u, err := url.ParseRequestURI(path)
		if err != nil {
			t.Fatal(err)
		}
		if got := shown(u); got != want {
			t.Errorf("%s: %s", path, got)
		}
	}
}

// The line of an upgrade comes when its connection ends, and says whose it was.
func TestLogOfAnUpgrade(t *testing.T) {
	r := newRig(t, registers, nil)
	c := r.connect(t, fill(1))
	if h, err := c.HTTP(); err != nil || post(t, h, "/machine/update-health", "{}").StatusCode != 200 {
		t.Fatal(err)
	}
	c.Close()
	want := ` 127.0.0.1 ` + machineKey(fill(1).Public()).Short() + ` "POST" "/ts2021" 101 `
	soon(t, want, func() bool { return strings.Contains(r.lines.String(), want) })
}
