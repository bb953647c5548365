package main

import (
	"context"
	"crypto/tls"
	"errors"
	"net"
	"net/http"
	"os"
	"os/exec"
	"path/filepath"
	"strings"
	"testing"
	"time"

	"tailnetd-front/internal/office"
	"tailnetd-front/internal/tailclient"
)

// behindNginx runs nginx before a rig, by the configuration in deploy/ but for its
// addresses and files, and gives where it listens.
func behindNginx(t *testing.T, r *rig) string {
	t.Helper()
	t.Setenv("PATH", os.Getenv("PATH")+":/usr/sbin")
	program, err := exec.LookPath("nginx")
	if err != nil {
		t.Skip("nginx isn't installed")
	}
	text, err := os.ReadFile("../deploy/nginx.conf")
	if err != nil {
		t.Fatal(err)
	}
	address, err := office.FreeAddress()
	if err != nil {
		t.Fatal(err)
	}
	cert, key := certificate(t)
	server, dir := string(text), t.TempDir()
	for _, row := range [][2]string{
		{"listen 443 ssl", "listen " + address + " ssl"}, {"/etc/nginx/tail.example.crt", cert}, {"/etc/nginx/tail.example.key", key}, {"127.0.0.1:8081", r.dialer.Address},
	} {
		if strings.Count(server, row[0]) != 1 {
			t.Fatalf("%q stands there %d times", row[0], strings.Count(server, row[0]))
		}
		server = strings.Replace(server, row[0], row[1], 1)
	}
	around := "daemon off;\npid " + dir + "/pid;\nerror_log stderr;\nevents {}\nhttp {\naccess_log off;\n"
	for _, kind := range []string{"client_body", "proxy", "fastcgi", "uwsgi", "scgi"} {
		around += kind + "_temp_path " + filepath.Join(dir, kind) + ";\n"
	}
	os.WriteFile(filepath.Join(dir, "nginx.conf"), []byte(around+server+"}\n"), 0o600)
	ctx, stop := context.WithTimeout(context.Background(), 20*time.Second)
	p, err := office.Start(ctx, address, program, "-p", dir, "-c", filepath.Join(dir, "nginx.conf"), "-e", "stderr")
	if err != nil {
		t.Fatal(err)
	}
	t.Cleanup(func() { p.Stop(ctx); stop() })
	return address
}

// A whole conversation through nginx, as deploy/ has it: nothing is held back on its
// way, and a client that goes takes its poll along.
func TestBehindNginx(t *testing.T) {
	stub, ended := gone(t)
	r := newRig(t, stub, func(l *limits) { l.perAddress, l.quiet, l.give = 0, 300*time.Millisecond, 0 })
	address := behindNginx(t, r)
	d := tailclient.Dialer{Version: 113, Dial: func(ctx context.Context) (net.Conn, error) {
		c, err := (&tls.Dialer{Config: &tls.Config{InsecureSkipVerify: true, ServerName: "tail.example", NextProtos: []string{"h2", "http/1.1"}}}).DialContext(ctx, "tcp", address)
		if err == nil && c.(*tls.Conn).ConnectionState().NegotiatedProtocol == "h2" {
			return nil, errors.New("HTTP/2 outside")
		}
		return c, err
	}}
	c, err := d.Connect(within(t, 5*time.Second), fill(1))
	if err != nil {
		t.Fatal(err)
	}
	h, err := c.HTTP()
	if err != nil {
		t.Fatal(err)
	}
	poll := post(t, h, "/machine/map", `{"Stream":true,"Compress":"zstd"}`)
	for seen := map[string]int{}; seen[`{"Seq":1}`] == 0 || seen[keepAlive] < 2; {
		seen[next(t, poll.Body, true)]++
		if len(seen) > 2 || seen[`{"Seq":1}`] > 1 {
			t.Fatal(seen)
		}
	}
	long := "{" + strings.Repeat(" ", 1<<20-2) + "}"
	one := post(t, h, "/machine/map", long)
	if got := next(t, one.Body, false); one.StatusCode != http.StatusOK || got != `{"Seq":1}` {
		t.Error(one.Status, got)
	}
	one.Body.Close()
	<-ended
	c.Close()
	select {
	case <-ended:
	case <-time.After(3 * time.Second):
		t.Error("the poll goes on")
	}
}
