package main

import (
	"bytes"
	"encoding/binary"
	"errors"
	"io"
	"math"
	"net"
	"os"
	"testing"
	"time"

	"tailnetd-front/internal/tailclient"
)

// pairOf is a front's connection and its client's, over loopback.
func pairOf(t *testing.T, change func(*limits)) (*Conn, *tailclient.Conn) {
	t.Helper()
	limits := defaultLimits()
	if change != nil {
		change(&limits)
	}
	private := tailclient.NewKey()
	static, err := keyPair(private[:])
	if err != nil {
		t.Fatal(err)
	}
	l, err := net.Listen("tcp", "127.0.0.1:0")
	if err != nil {
		t.Fatal(err)
	}
	defer l.Close()
	made := make(chan *Conn, 1)
	go func() {
		defer close(made)
		for n := 0; n < 1; n++ {
			c, err := l.Accept()
			if err != nil {
				return
			}
			message := make([]byte, initiationLen)
			io.ReadFull(c, message)
			in, err := parseInitiation(message)
			if err != nil {
				return
			}
			response, s, err := respond(static, in, nil)
			if err != nil {
				return
			}
			c.Write(response)
			made <- newConn(c, c, s, limits)
		}
	}()
	raw, err := net.Dial("tcp", l.Addr().String())
	if err != nil {
		t.Fatal(err)
	}
	client, err := tailclient.Over(raw, 113, tailclient.NewKey(), private.Public())
	if err != nil {
		t.Fatal(err)
	}
	front := <-made
	if front == nil {
		t.Fatal("no connection")
	}
	front.SetReadDeadline(time.Now().Add(10 * time.Second)) // a test may fail, and not hang
	t.Cleanup(func() { front.Close(); client.Close() })
	return front, client
}

func TestConnCarries(t *testing.T) {
	front, client := pairOf(t, nil)
	for _, n := range []int{1, 2, maxPlaintext - 1, maxPlaintext, maxPlaintext + 1, 3*maxPlaintext + 7, 300000} {
		b := bytes.Repeat([]byte{byte(n)}, n)
		for name, way := range map[string][2]net.Conn{"up": {client, front}, "down": {front, client}} {
			go way[0].Write(b)
			got := make([]byte, n)
			if _, err := io.ReadFull(way[1], got); err != nil || !bytes.Equal(got, b) {
				t.Fatalf("%s, %d bytes: %v", name, n, err)
			}
		}
	}
}

func TestConnReadsBehindEmptyRecords(t *testing.T) {
	front, client := pairOf(t, nil)
	client.Conn.Write(append(client.Record(nil), client.Record([]byte("x"))...))
	b := make([]byte, 9)
	if n, err := front.Read(b); n != 1 || err != nil {
		t.Fatal(n, err)
	}
}

// Each row sends a good record and then bytes that end the connection; only the
// good record's plaintext may be given.
func TestConnRefuses(t *testing.T) {
	for name, row := range map[string]struct {
		then func(c *tailclient.Conn) []byte
		end  bool // the client closes behind them
		is   error
	}{
		"a tampered record": {then: func(c *tailclient.Conn) []byte {
			b := c.Record([]byte("bad"))
			b[5] ^= 1
			return b
		}},
		"a tampered tag": {then: func(c *tailclient.Conn) []byte {
			b := c.Record([]byte("bad"))
			b[len(b)-1] ^= 1
			return b
		}},
		"a nonce little-endian": {then: func(c *tailclient.Conn) []byte {
			c.Order = binary.LittleEndian
			return c.Record([]byte("bad"))
		}},
		"a record left out": {then: func(c *tailclient.Conn) []byte {
			c.Record([]byte("lost"))
			return c.Record([]byte("bad"))
		}},
		"two in another order": {then: func(c *tailclient.Conn) []byte {
			a, b := c.Record([]byte("a")), c.Record([]byte("b"))
			return append(b, a...)
		}},
		"a message of type 3": {then: func(c *tailclient.Conn) []byte {
			b := c.Record([]byte("bad"))
			b[0] = typeError
			return b
		}},
		"15 bytes":    {then: func(*tailclient.Conn) []byte { return append([]byte{4, 0, 15}, make([]byte, 15)...) }},
		"4,094 bytes": {then: func(*tailclient.Conn) []byte { return append([]byte{4, 0x0f, 0xfe}, make([]byte, 4094)...) }},
		"65,535 bytes": {then: func(*tailclient.Conn) []byte {
			return append([]byte{4, 0xff, 0xff}, make([]byte, 65535)...)
		}},
		"the end":              {then: func(*tailclient.Conn) []byte { return nil }, end: true, is: io.EOF},
		"the end in a header":  {then: func(*tailclient.Conn) []byte { return []byte{4, 0} }, end: true, is: io.ErrUnexpectedEOF},
		"the end behind one":   {then: func(*tailclient.Conn) []byte { return []byte{4, 0, 20} }, end: true, is: io.ErrUnexpectedEOF},
		"the end in a record":  {then: func(c *tailclient.Conn) []byte { return c.Record([]byte("bad"))[:9] }, end: true, is: io.ErrUnexpectedEOF},
		"the end before a tag": {then: func(c *tailclient.Conn) []byte { return c.Record([]byte("bad"))[:6] }, end: true, is: io.ErrUnexpectedEOF},
	} {
		front, client := pairOf(t, nil)
		client.Conn.Write(append(client.Record([]byte("good")), row.then(client)...))
		if row.end {
			client.Close()
		}
		got, err := io.ReadAll(onlyReader{front})
		if row.is == io.EOF && err == nil {
			err = io.EOF
		}
		if string(got) != "good" || err == nil || row.is != nil && !errors.Is(err, row.is) {
			t.Errorf("%s: %q, %v", name, got, err)
		}
		if _, err := front.Read(make([]byte, 1)); err == nil {
			t.Errorf("%s: it goes on", name)
		}
		if _, err := front.Conn.Write([]byte{0}); !errors.Is(err, net.ErrClosed) {
			t.Errorf("%s: not closed: %v", name, err)
		}
	}
}

type onlyReader struct{ io.Reader }

func TestConnEndsWithItsNumbers(t *testing.T) {
	front, client := pairOf(t, nil)
	front.in.n, front.out.n = math.MaxUint64-1, math.MaxUint64-1
	client.Count(math.MaxUint64 - 1)
	client.Conn.Write(append(client.Record([]byte("last")), client.Record([]byte("past"))...))
	if got, err := io.ReadAll(onlyReader{front}); string(got) != "last" || err == nil {
		t.Errorf("in: %q, %v", got, err)
	}
	front, client = pairOf(t, nil)
	front.out.n = math.MaxUint64 - 1
	client.Count(math.MaxUint64 - 1)
	if n, err := front.Write(make([]byte, maxPlaintext+1)); n != maxPlaintext || err == nil {
		t.Errorf("out: %d, %v", n, err)
	}
}

func TestConnLeavesAClientThatDoesNotRead(t *testing.T) {
	front, _ := pairOf(t, func(l *limits) { l.write = 100 * time.Millisecond })
	defer time.AfterFunc(10*time.Second, func() { front.Close() }).Stop()
	start := time.Now()
	_, err := front.Write(make([]byte, 64<<20))
	if !errors.Is(err, os.ErrDeadlineExceeded) || time.Since(start) > 5*time.Second {
		t.Fatal(err, time.Since(start))
	}
	if _, err := front.Read(make([]byte, 1)); !errors.Is(err, net.ErrClosed) {
		t.Fatal("reads go on:", err)
	}
}

// What is read in a minute has an end, and is counted anew in the next.
func TestConnBytesInAMinute(t *testing.T) {
	const most = 8 * maxMessage
	for name, row := range map[string]struct {
		records, bytes int // as many, of as many
		pause          time.Duration
		taken          int // as many of them
	}{
		"whole ones":           {9, maxPlaintext, 0, 8},
		"empty ones":           {most/(headerLen+tagLen) + 1, 0, 0, most / (headerLen + tagLen)},
		"as many as there may": {8, maxPlaintext, 0, 8},
		"in two minutes":       {12, maxPlaintext, 50 * time.Millisecond, 12},
	} {
		row := row // the goroutine's own
		front, client := pairOf(t, func(l *limits) {
			l.read, l.minute = most, time.Minute
			if row.pause > 0 {
				l.minute = 4 * row.pause
			}
		})
		go func() {
			for n := 0; n < row.records; n++ {
				if _, err := client.Conn.Write(client.Record(make([]byte, row.bytes))); err != nil {
					return
				}
				time.Sleep(row.pause)
			}
			client.Close()
		}()
		got, err := io.Copy(io.Discard, onlyReader{front})
		if want := int64(row.taken * row.bytes); got != want || (err != nil) != (row.taken < row.records) {
			t.Errorf("%s: %d bytes, not %d: %v", name, got, want, err)
		}
	}
}
