package main

import (
	"encoding/base64"
	"encoding/hex"
	"fmt"
	"io"
	"net"
	"net/http"
	"strings"
	"sync/atomic"
	"syscall"
	"testing"
	"time"

	"tailnetd-front/internal/tailclient"
)

func TestOutside(t *testing.T) {
	r := newRig(t, never(t), nil)
	public := hex.EncodeToString(r.key.Public)
	good := base64.StdEncoding.EncodeToString(tailclient.NewInitiator(113, fill(1), fill(2), *r.dialer.Server).Message())
	const host, up = "Host: x\r\n", "Upgrade: tailscale-control-protocol\r\nConnection: upgrade\r\n"
	for _, row := range []struct {
		line, fields string
		status       int
		has          string
	}{
		{"GET /key?v=113", host, 200, `{"legacyPublicKey":"mkey:` + strings.Repeat("0", 64) + `","publicKey":"mkey:` + public + `"}`},
		{"GET /key?v=68", host, 200, public},
		{"GET /key?v=00068", host, 200, public},
		{"GET /key?v=99999", host, 200, public},
		{"GET /key?v=0", host, 400, "this client is too old"},
		{"GET /key?v=67", host, 400, "this client is too old"},
		{"GET /key?v=000113", host, 400, "capability version"},
		{"GET /key?v=%2B113", host, 400, "capability version"},
		{"GET /key?v=-113", host, 400, "capability version"},
		{"GET /key", host, 400, ""},
		{"GET /key?v=", host, 400, ""},
		{"GET /key?v=1.5", host, 400, ""},
		{"GET /key?v=x", host, 400, ""},
		{"POST /key?v=113", host + "Content-Length: 0\r\n", 405, "Allow: GET"},
		{"POST /ts2021", host + up + "Content-Length: 0\r\n", 400, "no X-Tailscale-Handshake"},
		{"POST /ts2021", host + up + "X-Tailscale-Handshake: ????\r\nContent-Length: 0\r\n", 400, "base64"},
		{"POST /ts2021", host + up + "X-Tailscale-Handshake: " + strings.TrimRight(good, "=") + "\r\nContent-Length: 0\r\n", 400, "base64"},
		{"POST /ts2021", host + up + "X-Tailscale-Handshake: AAAA\r\nContent-Length: 0\r\n", 400, "initiation of 3 bytes"},
		{"POST /ts2021", host + "X-Tailscale-Handshake: " + good + "\r\nContent-Length: 0\r\n", 400, "no upgrade"},
		{"POST /ts2021", host + "Upgrade: websocket\r\nConnection: upgrade\r\nX-Tailscale-Handshake: " + good + "\r\nContent-Length: 0\r\n", 400, "no upgrade"},
		{"POST /ts2021", host + up + "X-Tailscale-Handshake: " + good + "\r\nContent-Length: 1\r\n\r\nx", 400, "a body"},
		{"GET /ts2021", host + up + "X-Tailscale-Handshake: " + good + "\r\n", 405, "Allow: POST"},
		{"GET /", host, 404, ""},
		{"GET /api/v1/node", host + "Authorization: Bearer secret\r\n", 404, ""},
		{"GET //key?v=1", host, 404, ""},
		{"GET /key/?v=1", host, 404, ""},
		{"POST /machine/register", host + "Ts-Machine-Key: mkey:" + public + "\r\nContent-Length: 2\r\n\r\n{}", 404, ""},
		{"POST /machine/map", host + "Content-Length: 2\r\n\r\n{}", 404, ""},
		{"GET /register/reg-1-00000000000000010000000000000002", host, 200, "tailnetd pending-admit reg-1-00000000000000010000000000000002 LOGIN --server ADDR --token TOKEN</pre>"},
		{"GET /register/", host, 404, ""},
		{"GET /register/reg-1-0%3Brm%20-rf", host, 404, ""},
		{"GET /register/%3Brm%20reg-1-0", host, 404, ""},
		{"GET /register/reg-1-0%0A", host, 404, ""},
		{"GET /register/reg-1-0g", host, 404, ""},
		{"GET /register/reg-1-", host, 404, ""},
		{"GET /register/reg-12345678901-0", host, 404, ""},
		{"GET /register/%3Cscript%3E", host, 404, ""},
		{"GET /health", host, 200, "ok"},
	} {
		got := r.raw(t, row.line+" HTTP/1.1\r\n"+row.fields+"\r\n")
		if !strings.HasPrefix(got, fmt.Sprintf("HTTP/1.1 %d ", row.status)) || !strings.Contains(got, row.has) || !strings.Contains(got, "Connection: close") {
			t.Errorf("%s, %q: %q", row.line, row.fields, got)
		}
	}
}

// HTTP/1.0 has no upgrades.
func TestUpgradeOverOldHTTP(t *testing.T) {
	r := newRig(t, never(t), nil)
	message := tailclient.NewInitiator(113, fill(1), fill(2), *r.dialer.Server).Message()
	got := r.raw(t, "POST /ts2021 HTTP/1.0\r\nHost: x\r\nUpgrade: tailscale-control-protocol\r\nConnection: upgrade\r\nX-Tailscale-Handshake: "+
		base64.StdEncoding.EncodeToString(message)+"\r\nContent-Length: 0\r\n\r\n")
	if !strings.HasPrefix(got, "HTTP/1.0 400 ") || !strings.Contains(got, "no upgrade") {
		t.Errorf("%q", got)
	}
}

func TestPageIsPlain(t *testing.T) {
	r := newRig(t, never(t), nil)
	got := r.raw(t, "GET /register/reg-1-00 HTTP/1.1\r\nHost: x\r\n\r\n")
	for _, not := range []string{"<script", "src=", "href=", "http://", "https://"} {
		if strings.Contains(got, not) {
			t.Errorf("%s in %s", not, got)
		}
	}
	for _, has := range []string{"Content-Security-Policy: default-src 'none'", "<pre>tailnetctl admit reg-1-00 LOGIN</pre>"} {
		if !strings.Contains(got, has) {
			t.Errorf("no %s in %s", has, got)
		}
	}
}

func TestHealthWithoutServer(t *testing.T) {
	l, err := net.Listen("tcp", "127.0.0.1:0")
	if err != nil {
		t.Fatal(err)
	}
	address := l.Addr().String()
	l.Close()
	r := rigAt(t, address, nil, nil)
	if got := r.raw(t, "GET /health HTTP/1.1\r\nHost: x\r\n\r\n"); !strings.HasPrefix(got, "HTTP/1.1 503 ") {
		t.Error(got)
	}
	h := r.http(t, fill(1))
	if got := post(t, h, "/machine/map", "{}"); got.StatusCode != http.StatusBadGateway {
		t.Error(got.Status)
	}
}

// Each look at tailnetd takes one of its workers, so it is remembered for a second.
func TestHealthIsRemembered(t *testing.T) {
	l, err := net.Listen("tcp", "127.0.0.1:0")
	if err != nil {
		t.Fatal(err)
	}
	defer l.Close()
	var looks atomic.Int32
	go func() {
		for {
			c, err := l.Accept()
			if err != nil {
				return
			}
			looks.Add(1)
			c.Close()
		}
	}()
	r := rigAt(t, l.Addr().String(), nil, nil)
	for n := 0; n < 5; n++ {
		if got := r.raw(t, "GET /health HTTP/1.1\r\nHost: x\r\n\r\n"); !strings.HasPrefix(got, "HTTP/1.1 200 ") {
			t.Error(got)
		}
	}
	soon(t, "a look", func() bool { return looks.Load() > 0 })
	r.server.looked = r.server.looked.Add(-2 * time.Second)
	r.raw(t, "GET /health HTTP/1.1\r\nHost: x\r\n\r\n")
	soon(t, "another", func() bool { return looks.Load() > 1 })
	if got := looks.Load(); got > 2 {
		t.Errorf("%d looks", got)
	}
}

// The head may have 16 KiB, to the byte.
func TestHeadLimit(t *testing.T) {
	r := newRig(t, never(t), nil)
	for length, status := range map[int]string{16 << 10: "200", 16<<10 + 1: "431", 1 << 20: "431"} {
		head := "GET /key?v=113 HTTP/1.1\r\nHost: x\r\nX: "
		head += strings.Repeat("x", length-len(head)-4) + "\r\n\r\n"
		if got := r.raw(t, head); !strings.HasPrefix(got, "HTTP/1.1 "+status) {
			t.Errorf("%d bytes: %q", length, got)
		}
	}
}

// Each row sends a beginning and nothing more: the front has to end it.
func TestSlowBeginnings(t *testing.T) {
	r := newRig(t, never(t), func(l *limits) { l.handshake = 600 * time.Millisecond })
	i := tailclient.NewInitiator(113, fill(1), fill(2), *r.dialer.Server)
	upgrade := "POST /ts2021 HTTP/1.1\r\nHost: x\r\nUpgrade: tailscale-control-protocol\r\nConnection: upgrade\r\nX-Tailscale-Handshake: " +
		base64.StdEncoding.EncodeToString(i.Message()) + "\r\n\r\n"
	for name, begin := range map[string]string{
		"nothing":           "",
		"a part of a head":  "GET /key?v=1 HTTP/1.1\r\nHost:",
		"an upgrade":        upgrade,
		"a part of records": upgrade + "\x04\x00",
	} {
		start := time.Now()
		r.raw(t, begin)
		if took := time.Since(start); took > 3*time.Second || took < 500*time.Millisecond {
			t.Errorf("%s: ended after %v", name, took)
		}
	}
	c := r.connect(t, fill(1)) // HTTP/2, but no request
	c.Write([]byte("PRI * HTTP/2.0\r\n\r\nSM\r\n\r\n\x00\x00\x00\x04\x00\x00\x00\x00\x00"))
	start := time.Now()
	io.Copy(io.Discard, onlyReader{c})
	if took := time.Since(start); took > 3*time.Second {
		t.Errorf("without a request: ended after %v", took)
	}
}

// The time until the first request counts from the connection's beginning, and not from
// its upgrade.
func TestSlowUpgrade(t *testing.T) {
	r := newRig(t, never(t), func(l *limits) { l.handshake = 1500 * time.Millisecond })
	start := time.Now()
	c, err := net.Dial("tcp", r.dialer.Address)
	if err != nil {
		t.Fatal(err)
	}
	defer c.Close()
	time.Sleep(1200 * time.Millisecond)
	message := tailclient.NewInitiator(113, fill(1), fill(2), *r.dialer.Server).Message()
	io.WriteString(c, "POST /ts2021 HTTP/1.1\r\nHost: x\r\nUpgrade: tailscale-control-protocol\r\nConnection: upgrade\r\nX-Tailscale-Handshake: "+base64.StdEncoding.EncodeToString(message)+"\r\n\r\n")
	got, err := io.ReadAll(c)
	if took := time.Since(start); took > 2600*time.Millisecond || !strings.HasPrefix(string(got), "HTTP/1.1 101 ") {
		t.Errorf("%q, ended after %v: %v", got, took, err)
	}
}

func TestHandshakeFails(t *testing.T) {
	r := newRig(t, never(t), nil)
	zero := tailclient.NewInitiator(113, fill(1), fill(2), *r.dialer.Server).MessageAs(tailclient.Key{}, fill(2).Public())
	c, b, answer, err := r.dialer.Upgrade(within(t, time.Second), zero)
	if err != nil {
		t.Fatal(err)
	}
	defer c.Close()
	rest, err := io.ReadAll(b)
	if answer.StatusCode != 101 || string(rest) != string(errorMessage("handshake failed")) || err != nil {
		t.Fatalf("%s, %q, %v", answer.Status, rest, err)
	}
}

func TestConnectionsOfOneAddress(t *testing.T) {
	r := newRig(t, never(t), func(l *limits) { l.conns, l.perAddress = 70, 64 })
	i := tailclient.NewInitiator(113, fill(1), fill(2), *r.dialer.Server)
	full := func(name, local string) {
		t.Helper()
		d := r.dialer
		d.Local = local
		c, b, answer, err := d.Upgrade(within(t, time.Second), i.Message())
		if err != nil {
			t.Fatal(err)
		}
		defer c.Close()
		if _, err := io.Copy(io.Discard, answer.Body); answer.StatusCode != 503 || err != nil {
			t.Errorf("%s: %s", name, answer.Status)
		}
		if _, err := b.ReadByte(); err != io.EOF {
			t.Errorf("%s: not closed", name)
		}
	}
	var held []*tailclient.Conn
	for n := 0; n < 64; n++ {
		held = append(held, r.connect(t, fill(byte(n+1))))
	}
	full("the 65th of one address", "")
	r.dialer.Local = "127.0.0.2"
	for n := 0; n < 6; n++ {
		r.connect(t, fill(byte(n+1)))
	}
	full("the 71st of all", "127.0.0.3")
	held[0].Close()
	soon(t, "a place", func() bool {
		d := r.dialer
		d.Local = "127.0.0.1"
		c, err := d.Connect(within(t, time.Second), fill(99))
		if err == nil {
			c.Close()
		}
		return err == nil
	})
}

func TestDeadPeersAreNoticed(t *testing.T) {
	l, err := listen(within(t, time.Second), "127.0.0.1:0", defaultLimits(), true)
	if err != nil {
		t.Fatal(err)
	}
	defer l.Close()
	c, err := net.Dial("tcp", l.Addr().String())
	if err != nil {
		t.Fatal(err)
	}
	defer c.Close()
	took, err := l.Accept()
	if err != nil {
		t.Fatal(err)
	}
	defer took.Close()
	raw, err := took.(*visit).Conn.(*net.TCPConn).SyscallConn()
	if err != nil {
		t.Fatal(err)
	}
	raw.Control(func(fd uintptr) {
		if ms, err := syscall.GetsockoptInt(int(fd), syscall.IPPROTO_TCP, 18); ms != 30000 || err != nil {
			t.Error(ms, err)
		}
	})
}
