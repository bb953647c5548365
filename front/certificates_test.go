package main

import (
	"bytes"
	"context"
	"crypto/tls"
	"io"
	"net"
	"os"
	"path/filepath"
	"strings"
	"syscall"
	"testing"
	"time"

	"tailnetd-front/internal/tailclient"
)

// TLS begins with 1.2.
func TestOldTLSIsRefused(t *testing.T) {
	pair := new(certificates)
	pair.cert, pair.key = certificate(t)
	if err := pair.load(); err != nil {
		t.Fatal(err)
	}
	for version, taken := range map[uint16]bool{tls.VersionTLS11: false, tls.VersionTLS12: true, tls.VersionTLS13: true} {
		a, b := net.Pipe()
		go tls.Server(a, pair.config()).HandshakeContext(within(t, time.Second))
		err := tls.Client(b, &tls.Config{InsecureSkipVerify: true, MinVersion: version, MaxVersion: version}).HandshakeContext(within(t, time.Second))
		if (err == nil) != taken {
			t.Errorf("version %x: %v", version, err)
		}
		a.Close()
		b.Close()
	}
}

// The files are read again on SIGHUP. Each row says what is in them then, and which
// certificate a client sees; a connection that is there goes on.
func TestCertificatesAreReadAgain(t *testing.T) {
	var certs, keys [2][]byte
	for n := range certs {
		cert, key := certificate(t)
		certs[n], _ = os.ReadFile(cert)
		keys[n], _ = os.ReadFile(key)
	}
	dir := t.TempDir()
	cert, key, lines := filepath.Join(dir, "c"), filepath.Join(dir, "k"), new(text)
	put := func(c, k []byte) {
		os.WriteFile(cert, c, 0o600)
		os.WriteFile(key, k, 0o600)
	}
	put(certs[0], keys[0])
	l, err := net.Listen("tcp", "127.0.0.1:0")
	if err != nil {
		t.Fatal(err)
	}
	address := l.Addr().String()
	l.Close()
	ctx, stop := context.WithCancel(context.Background())
	ended := make(chan error, 1)
	go func() {
		ended <- run(ctx, []string{"--listen", address, "--server", "127.0.0.1:1", "--key", filepath.Join(dir, "key"), "--tls-cert", cert, "--tls-key", key}, io.Discard, lines)
	}()
	dial := func(ctx context.Context) (net.Conn, error) {
		return (&tls.Dialer{Config: &tls.Config{InsecureSkipVerify: true}}).DialContext(ctx, "tcp", address)
	}
	var old *tailclient.Conn
	soon(t, "it listens", func() bool {
		old, err = tailclient.Dialer{Version: 113, Dial: dial}.Connect(within(t, time.Second), fill(1))
		return err == nil
	})
	h, err := old.HTTP()
	if err != nil {
		t.Fatal(err)
	}
	for n, row := range []struct {
		name      string
		cert, key []byte
		shows     int
	}{
		{"another pair", certs[1], keys[1], 1},
		{"no certificate", nil, keys[1], 1},
		{"no key", certs[0], []byte("x"), 1},
		{"another's key", certs[0], keys[1], 1},
		{"the first again", certs[0], keys[0], 0},
	} {
		put(row.cert, row.key)
		syscall.Kill(os.Getpid(), syscall.SIGHUP)
		soon(t, "a line of "+row.name, func() bool { return strings.Count(lines.String(), "certificates") == n+1 })
		c, err := dial(within(t, time.Second))
		if err != nil {
			t.Fatalf("%s: %v", row.name, err)
		}
		shown := c.(*tls.Conn).ConnectionState().PeerCertificates[0].Raw
		c.Close()
		pair, err := tls.X509KeyPair(certs[row.shows], keys[row.shows])
		if err != nil {
			t.Fatal(err)
		}
		if !bytes.Equal(shown, pair.Certificate[0]) {
			t.Errorf("%s: another certificate is shown", row.name)
		}
		if got := post(t, h, "/machine/update-health", "{}"); got.StatusCode != 200 {
			t.Errorf("%s: %s", row.name, got.Status)
		}
	}
	stop()
	if err := <-ended; err != nil {
		t.Error(err)
	}
}
