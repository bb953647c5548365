package main

import (
	"bufio"
	"fmt"
	"io"
	"net"
	"net/http"
	"reflect"
	"strings"
	"testing"
	"time"
)

const json200 = "HTTP/1.1 200 OK\r\nContent-Type: application/json\r\n"

// bytesStub answers each connection with the same bytes, and gives what it read.
func bytesStub(t *testing.T, answer string) (address string, heads <-chan string) {
	t.Helper()
	l, err := net.Listen("tcp", "127.0.0.1:0")
	if err != nil {
		t.Fatal(err)
	}
	t.Cleanup(func() { l.Close() })
	got := make(chan string, 16)
	go func() {
		for {
			c, err := l.Accept()
			if err != nil {
				return
			}
			go func() {
				defer c.Close()
				b := bufio.NewReader(c)
				var head strings.Builder
				for !strings.HasSuffix(head.String(), "\r\n\r\n") {
					x, err := b.ReadByte()
					if err != nil {
						return
					}
					head.WriteByte(x)
				}
				var length int
				if at := strings.Index(head.String(), "Content-Length: "); at >= 0 {
					fmt.Sscan(head.String()[at+16:], &length)
				}
				body := make([]byte, length)
				io.ReadFull(b, body)
				got <- head.String() + string(body)
				io.WriteString(c, answer)
			}()
		}
	}()
	return l.Addr().String(), got
}

// What goes on to tailnetd, to the byte.
func TestHandedOn(t *testing.T) {
	address, heads := bytesStub(t, json200+"Content-Length: 2\r\n\r\n{}")
	r := rigAt(t, address, nil, nil)
	request, err := http.NewRequest("POST", "https://any.example/machine/register?x=1", strings.NewReader(`{"NodeKey":"n"}`))
	if err != nil {
		t.Fatal(err)
	}
	request.Header = http.Header{"Ts-Machine-Key": {"mkey:" + strings.Repeat("f", 64)}, "X-Own": {"x"}, "Authorization": {"Bearer secret"}, "User-Agent": {"Go"}}
	answer, err := r.http(t, fill(1)).RoundTrip(request)
	if err != nil {
		t.Fatal(err)
	}
	if got := whole(t, answer); got != "{}" || answer.Header.Get("Content-Type") != "application/json" {
		t.Error(got, answer.Header)
	}
	want := "POST /machine/register HTTP/1.1\r\nHost: " + address + "\r\nConnection: close\r\nContent-Length: 15\r\n" +
		"Content-Type: application/json\r\nTs-Machine-Key: " + machineKey(fill(1).Public()).String() + "\r\n\r\n" + `{"NodeKey":"n"}`
	got := <-heads
	sorted := func(s string) map[string]bool {
		m := map[string]bool{}
		for _, line := range strings.Split(s, "\r\n") {
			m[line] = true
		}
		return m
	}
	if !reflect.DeepEqual(sorted(got), sorted(want)) {
		t.Errorf("%q", got)
	}
}

func TestServerThatDoesNotAnswer(t *testing.T) {
	r := newRig(t, frames(), func(l *limits) { l.ask = 100 * time.Millisecond })
	h := r.http(t, fill(1))
	for path, body := range map[string]string{"/machine/map": `{"Stream":true}`, "/machine/register": `{}`} {
		start := time.Now()
		if got := post(t, h, path, body); got.StatusCode != 504 || time.Since(start) > 3*time.Second {
			t.Errorf("%s: %s after %v", path, got.Status, time.Since(start))
		}
	}
}

// An answer without frames has 1 MiB at most.
func TestLongAnswer(t *testing.T) {
	for length, want := range map[int]int{1 << 20: 401, 1<<20 + 1: 502} {
		length := length // the stub's own
		r := newRig(t, http.HandlerFunc(func(w http.ResponseWriter, r *http.Request) {
			io.Copy(io.Discard, r.Body)
			w.WriteHeader(401)
			w.Write(make([]byte, length))
		}), nil)
		h := r.http(t, fill(1))
		for _, path := range []string{"/machine/map", "/machine/register"} {
			if got := post(t, h, path, "{}"); got.StatusCode != want || want == 401 && len(whole(t, got)) != length {
				t.Errorf("%s, %d bytes: %s", path, length, got.Status)
			}
		}
	}
}

// A tailnetd that answers before it has taken the body, and closes, is heard; one that
// says nothing then can't be reached.
func TestAnswerBeforeTheBody(t *testing.T) {
	const refused = "HTTP/1.1 503 Service Unavailable\r\nContent-Type: application/json\r\nContent-Length: 20\r\n\r\n" + `{"error":"NoMemory"}`
	for said, want := range map[string]int{refused: 503, "": 502} {
		address, closed := hasty(t, said)
		c, err := newServer(address, time.Second, time.Second).transport.DialContext(within(t, time.Second), "tcp", address)
		if err != nil {
			t.Fatal(err)
		}
		defer c.Close()
		for n := 0; n < 3; n++ {
			if _, err := c.Write(make([]byte, 4096)); err != nil {
				t.Errorf("write %d: %v", n, err)
			}
			if n == 0 {
				<-closed
			}
		}
		if got, err := io.ReadAll(c); string(got) != said || err != nil {
			t.Errorf("%q, %v", got, err)
		}
		h := rigAt(t, address, nil, nil).http(t, fill(1))
		for n := 0; n < 4; n++ {
			got := post(t, h, "/machine/map", "{"+strings.Repeat(" ", 1<<20-2)+"}")
			if text := whole(t, got); got.StatusCode != want || want == 503 && text != `{"error":"NoMemory"}` {
				t.Errorf("%s %q", got.Status, text)
			}
		}
	}
}

// hasty answers each connection when its first byte comes, and closes it with the rest
// unread, which resets it.
func hasty(t *testing.T, said string) (address string, closed <-chan struct{}) {
	t.Helper()
	l, err := net.Listen("tcp", "127.0.0.1:0")
	if err != nil {
		t.Fatal(err)
	}
	t.Cleanup(func() { l.Close() })
	each := make(chan struct{}, 16)
	go func() {
		for {
			c, err := l.Accept()
			if err != nil {
				return
			}
			io.CopyN(io.Discard, c, 1)
			io.WriteString(c, said)
			c.Close()
			each <- struct{}{}
		}
	}()
	return l.Addr().String(), each
}
