package main

import (
	"context"
	"crypto/ecdsa"
	"crypto/elliptic"
	"crypto/rand"
	"crypto/tls"
	"crypto/x509"
	"encoding/pem"
	"errors"
	"io"
	"math/big"
	"net"
	"net/http"
	"net/http/httptest"
	"os"
	"path/filepath"
	"strings"
	"testing"
	"time"

	"golang.org/x/net/http2"
	"tailnetd-front/internal/tailclient"
)

// certificate writes a certificate for 127.0.0.1 and its key.
func certificate(t *testing.T) (cert, key string) {
	t.Helper()
	private, err := ecdsa.GenerateKey(elliptic.P256(), rand.Reader)
	if err != nil {
		t.Fatal(err)
	}
	c := &x509.Certificate{SerialNumber: big.NewInt(1), NotAfter: time.Now().Add(time.Hour), IPAddresses: []net.IP{net.IPv4(127, 0, 0, 1)}}
	der, err := x509.CreateCertificate(rand.Reader, c, c, private.Public(), private)
	if err != nil {
		t.Fatal(err)
	}
	inner, err := x509.MarshalECPrivateKey(private)
	if err != nil {
		t.Fatal(err)
	}
	dir := t.TempDir()
	cert, key = filepath.Join(dir, "c.pem"), filepath.Join(dir, "k.pem")
	os.WriteFile(cert, pem.EncodeToMemory(&pem.Block{Type: "CERTIFICATE", Bytes: der}), 0o600)
	os.WriteFile(key, pem.EncodeToMemory(&pem.Block{Type: "EC PRIVATE KEY", Bytes: inner}), 0o600)
	return cert, key
}

// The program, over TLS, with a client that would rather speak HTTP/2 outside.
func TestProgram(t *testing.T) {
	stub := httptest.NewServer(frames(`{"Seq":1}`))
	defer stub.Close()
	l, err := net.Listen("tcp", "127.0.0.1:0")
	if err != nil {
		t.Fatal(err)
	}
	address := l.Addr().String()
	l.Close()
	dir := t.TempDir()
	derp := filepath.Join(dir, "derp.json")
	os.WriteFile(derp, []byte(`{"Regions":{"1":{"RegionID":1}}}`), 0o600)
	cert, key := certificate(t)
	ctx, stop := context.WithCancel(context.Background())
	ended := make(chan error, 1)
	go func() {
		ended <- run(ctx, []string{"--listen", address, "--server", stub.Listener.Addr().String(), "--key", filepath.Join(dir, "key"),
			"--tls-cert", cert, "--tls-key", key, "--derp-map", derp, "--polls", "1", "--per-address", "1", "--log", filepath.Join(dir, "log")}, io.Discard, io.Discard)
	}()
	d := tailclient.Dialer{Version: 113, Dial: func(ctx context.Context) (net.Conn, error) {
		c, err := (&tls.Dialer{Config: &tls.Config{InsecureSkipVerify: true, NextProtos: []string{"h2", "http/1.1"}}}).DialContext(ctx, "tcp", address)
		if err == nil && c.(*tls.Conn).ConnectionState().NegotiatedProtocol == "h2" {
			return nil, errors.New("HTTP/2 outside")
		}
		return c, err
	}}
	var c *tailclient.Conn
	soon(t, "it listens", func() bool {
		c, err = d.Connect(within(t, time.Second), fill(1))
		return err == nil
	})
	h, err := c.HTTP()
	if err != nil {
		t.Fatal(err)
	}
	poll := post(t, h, "/machine/map", `{"Stream":true}`)
	if got := next(t, poll.Body, false); got != `{"DERPMap":{"Regions":{"1":{"RegionID":1}}},"Seq":1}` {
		t.Error(got)
	}
	if got := post(t, h, "/machine/map", `{"Stream":true}`); got.StatusCode != http.StatusServiceUnavailable {
		t.Error("a second poll:", got.Status)
	}
	if _, err := d.Connect(within(t, time.Second), fill(2)); err == nil || !strings.Contains(err.Error(), "503") {
		t.Error("a second connection of one address:", err)
	}
	var outside []net.Conn
	for n := 0; n <= defaultLimits().outsideOne; n++ {
		c, err := net.Dial("tcp", address)
		if err != nil {
			t.Fatal(err)
		}
		defer c.Close()
		outside = append(outside, c)
	}
	last := outside[len(outside)-1]
	last.SetReadDeadline(time.Now().Add(5 * time.Second))
	if n, err := last.Read(make([]byte, 1)); n != 0 || errors.Is(err, os.ErrDeadlineExceeded) {
		t.Errorf("a connection too many that isn't upgraded: %d bytes, %v", n, err)
	}
	for _, c := range outside {
		c.Close()
	}
	stop()
	select {
	case err := <-ended:
		if err != nil {
			t.Error(err)
		}
	case <-time.After(3 * time.Second):
		t.Error("it doesn't end")
	}
	if _, err := poll.Body.Read(make([]byte, 1)); err == nil {
		t.Error("the poll goes on")
	}
	info, err := os.Stat(filepath.Join(dir, "log"))
	if err != nil || info.Mode().Perm() != 0o600 {
		t.Error("the log:", info, err)
	}
}

// Each fault at the beginning is one line that says what, where and what to do.
func TestProgramDoesNotBegin(t *testing.T) {
	dir := t.TempDir()
	key, open := filepath.Join(dir, "key"), filepath.Join(dir, "open")
	os.WriteFile(open, nil, 0o644)
	taken, err := net.Listen("tcp", "127.0.0.1:0")
	if err != nil {
		t.Fatal(err)
	}
	defer taken.Close()
	ctx, stop := context.WithCancel(context.Background())
	stop()
	for _, row := range []struct {
		args []string
		want string
	}{
		{[]string{"--key", open}, "key " + open + ": others than its owner have rights to it (mode 0644); chmod 600 it"},
		{[]string{"--key", dir}, "key " + dir + ": it is no plain file; name another with --key"},
		{[]string{"--key", filepath.Join(dir, "none", "key")}, "key " + dir + "/none/key: no such file or directory; let the user"},
		{[]string{"--key", key, "--derp-map", open}, "DERP map " + open + ": unexpected end of JSON input; give it the form"},
		{[]string{"--key", key, "--derp-map", dir + "/none"}, "DERP map " + dir + "/none: no such file or directory; name a file"},
		{[]string{"--key", key, "--tls-cert", open, "--tls-key", open}, "certificate " + open + " and " + open + ": tls: "},
		{[]string{"--key", key, "--log", dir}, "log " + dir + ": is a directory; name a file"},
		{[]string{"--key", key, "--listen", taken.Addr().String()}, "listening at " + taken.Addr().String() + ": address already in use; stop what has the port"},
	} {
		err := run(ctx, row.args, io.Discard, io.Discard)
		if err == nil || statusOf(err) != 1 || !strings.HasPrefix(err.Error(), row.want) || strings.Contains(err.Error(), "\n") {
			t.Errorf("%q: %v", row.args, err)
		}
	}
	if err := run(ctx, []string{"--word"}, io.Discard, io.Discard); err == nil || statusOf(err) != 2 {
		t.Error(err)
	}
}

// At the end each stream is reset and each connection closed, whatever clients do.
func TestStreamsEndWithTheProgram(t *testing.T) {
	r := newRig(t, frames(`{"Seq":1}`), nil)
	c := r.connect(t, fill(1))
	f := http2.NewFramer(c, onlyReader{c})
	io.WriteString(c, http2.ClientPreface)
	f.WriteSettings()
	f.WriteHeaders(http2.HeadersFrameParam{StreamID: 1, EndHeaders: true, BlockFragment: head("POST", "/machine/map")})
	f.WriteData(1, true, []byte(`{"Stream":true}`))
	soon(t, "a poll", func() bool { return r.polls.in.Load() == 1 })
	time.AfterFunc(100*time.Millisecond, r.stop)
	var reset, data bool
	for {
		frame, err := f.ReadFrame()
		if err != nil {
			break
		}
		switch x := frame.(type) {
		case *http2.DataFrame:
			data = true
			reset = reset || x.StreamEnded()
		case *http2.RSTStreamFrame:
			reset = true
		}
	}
	if !data || !reset {
		t.Errorf("a frame came: %v, and the stream's end: %v", data, reset)
	}
	soon(t, "no connection", func() bool { return r.conns.taken() == 0 })
}

// A connection that says nothing doesn't hold up the end, and is closed by it.
func TestProgramEnds(t *testing.T) {
	l, err := listen(within(t, time.Second), "127.0.0.1:0", defaultLimits(), true)
	if err != nil {
		t.Fatal(err)
	}
	limits := defaultLimits()
	limits.end = 100 * time.Millisecond
	private := fill(3)
	key, err := keyPair(private[:])
	if err != nil {
		t.Fatal(err)
	}
	ctx, stop := context.WithCancel(context.Background())
	f, err := newFront(ctx, key, "127.0.0.1:1", nil, limits, io.Discard)
	if err != nil {
		t.Fatal(err)
	}
	ended := make(chan error, 1)
	go func() { ended <- f.serve(l, nil) }()
	var silent []net.Conn
	for _, begin := range []string{"", "GET /key?v=113 HTTP/1.1\r\nHost"} {
		c, err := net.Dial("tcp", l.Addr().String())
		if err != nil {
			t.Fatal(err)
		}
		defer c.Close()
		io.WriteString(c, begin)
		silent = append(silent, c)
	}
	soon(t, "two are there", func() bool { return l.room.taken() == 2 })
	stop()
	select {
	case err := <-ended:
		if err != nil {
			t.Error(err)
		}
	case <-time.After(3 * time.Second):
		t.Error("it doesn't end")
	}
	for n, c := range silent {
		c.SetReadDeadline(time.Now().Add(3 * time.Second))
		if _, err := c.Read(make([]byte, 1)); err == nil || errors.Is(err, os.ErrDeadlineExceeded) {
			t.Errorf("connection %d: %v", n, err)
		}
	}
}
