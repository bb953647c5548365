package main

import (
	"bytes"
	"io"
	"net"
	"net/http"
	"net/http/httptest"
	"os"
	"os/exec"
	"os/signal"
	"path/filepath"
	"runtime"
	"strings"
	"syscall"
	"testing"
	"time"

	"tailnetd-front/internal/office"
	"tailnetd-front/internal/tailclient"
)

// asProgram is the variable that makes the binary of the tests the program itself.
const asProgram = "TAILNETD_FRONT_AS_PROGRAM"

func TestMain(m *testing.M) {
	if os.Getenv(asProgram) == "" {
		os.Exit(m.Run())
	}
	main()
	os.Exit(0)
}

// startProgram runs the program in a process of its own, without TLS, and gives a client's
// dialer to it. Its log has a line already.
func startProgram(t *testing.T, server string) (p *office.Process, d tailclient.Dialer, log string) {
	t.Helper()
	address, err := office.FreeAddress()
	if err != nil {
		t.Fatal(err)
	}
	t.Setenv(asProgram, "1")
	// What is handled here is at its default in a child, also where these tests were started
	// with hangups ignored, as by nohup: a program that left that as it is would pass.
	handled := make(chan os.Signal, 1)
	signal.Notify(handled, syscall.SIGHUP)
	defer signal.Stop(handled)
	dir := t.TempDir()
	log = filepath.Join(dir, "log")
	os.WriteFile(log, []byte("a line\n"), 0o600)
	p, err = office.Start(within(t, 10*time.Second), address, os.Args[0], "--listen", address, "--server", server, "--key", filepath.Join(dir, "key"), "--log", log)
	if err != nil {
		t.Fatal(err)
	}
	t.Cleanup(p.Kill)
	return p, tailclient.Dialer{Address: address, Version: 113}, log
}

// Without TLS there is nothing to read again, and a hangup ends nothing: a poll goes on,
// and who comes behind it is served.
func TestHangupWithoutTLS(t *testing.T) {
	more := make(chan struct{})
	stub := httptest.NewServer(http.HandlerFunc(func(w http.ResponseWriter, r *http.Request) {
		io.Copy(io.Discard, r.Body)
		w.Write(frameOf(`{"Seq":1}`))
		w.(http.Flusher).Flush()
		select {
		case <-more:
			frames(`{"Seq":2}`)(w, r)
		case <-r.Context().Done():
		}
	}))
	t.Cleanup(stub.Close) // behind the program's end, which ends the poll that it waits for
	p, d, _ := startProgram(t, stub.Listener.Addr().String())
	c, err := d.Connect(within(t, 5*time.Second), fill(1))
	if err != nil {
		t.Fatal(err)
	}
	h, err := c.HTTP()
	if err != nil {
		t.Fatal(err)
	}
	poll := post(t, h, "/machine/map", `{"Stream":true}`)
	next(t, poll.Body, false)
	syscall.Kill(p.Pid(), syscall.SIGHUP)
	time.Sleep(200 * time.Millisecond) // what would end by it has begun to
	close(more)
	if got := next(t, poll.Body, false); got != `{"Seq":2}` {
		t.Error(got)
	}
	if _, err := d.Connect(within(t, 5*time.Second), fill(2)); err != nil {
		t.Error("another client:", err)
	}
	if _, err := p.Stop(within(t, 5*time.Second)); err != nil {
		t.Error("it ended by another signal:", err)
	}
}

// Connections that say nothing, or not all, don't hold up the end.
func TestSilentConnectionsAtTheEnd(t *testing.T) {
	p, d, log := startProgram(t, "127.0.0.1:1")
	for _, begin := range []string{"", "GET /key?v=113 HTTP/1.1\r\nHost"} {
		c, err := net.Dial("tcp", d.Address)
		if err != nil {
			t.Fatal(err)
		}
		defer c.Close()
		io.WriteString(c, begin)
	}
	if _, err := d.Key(within(t, 5*time.Second)); err != nil { // behind the others, which so are accepted
		t.Fatal(err)
	}
	if took, err := p.Stop(within(t, 5*time.Second)); err != nil {
		t.Errorf("after %v: %v", took, err)
	}
	lines, err := os.ReadFile(log)
	if got := string(lines); err != nil || !strings.HasPrefix(got, "a line\n") || !strings.Contains(got, ` "GET" "/key" 200 `) {
		t.Errorf("its log: %q, %v", got, err)
	}
}

// What the program says where it doesn't serve, and what it ends with.
func TestWhatTheProgramSays(t *testing.T) {
	t.Setenv(asProgram, "1")
	for _, row := range []struct {
		words       []string
		status      int
		out, errors string
	}{
		{[]string{"--version"}, 0, "tailnetd-front " + version + " (" + runtime.Version() + ")\n", ""},
		{[]string{"--polls", "0"}, 2, "", "tailnetd-front: --polls is at least 1; --help names the words\n"},
		{[]string{"--key", "/none\n/key"}, 1, "", "tailnetd-front: key /none /key: no such file or directory; let the user of the front write its folder, or name another file with --key\n"},
	} {
		var out, errors bytes.Buffer
		command := exec.CommandContext(within(t, 10*time.Second), os.Args[0], row.words...)
		command.Stdout, command.Stderr = &out, &errors
		command.Run()
		if got := command.ProcessState.ExitCode(); got != row.status || out.String() != row.out || errors.String() != row.errors {
			t.Errorf("%q: status %d, %q, and on standard error %q", row.words, got, out.String(), errors.String())
		}
	}
}
