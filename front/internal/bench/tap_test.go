package main

import (
	"fmt"
	"io"
	"net"
	"strings"
	"testing"
	"time"

	"tailnetd-front/internal/office"
)

// telling is a frame that tells of a change.
func telling(number int) string {
	return string(office.Frame([]byte(fmt.Sprintf(`{"PeersChangedPatch":[{"Endpoints":["192.0.2.1:%d"],"NodeID":1}]}`, number))))
}

// A server says its pieces one by one. They are handed on as they are, and of each frame
// the tap notes the piece that has its last byte.
func TestTap(t *testing.T) {
	chunk := func(s string) string { return fmt.Sprintf("%x\r\n%s\r\n", len(s), s) }
	long := string(office.Frame([]byte(`{"Peers":"` + strings.Repeat("x", 40000) + `"}`)))
	two := chunk(telling(2) + telling(3))
	said := []string{
		"HTTP/1.1 200 OK\r\nTransfer-Encoding: chunked\r\n\r\n" + chunk(long)[:20000],
		chunk(long)[20000:] + chunk(telling(1))[:30],
		chunk(telling(1))[30:] + two[:len(two)-3],
		two[len(two)-3:] + chunk(telling(4))[:len(chunk(telling(4)))-2],
		"\r\n0\r\n\r\n",
	}
	passes := [][]int{{}, {0}, {1, 2}, {3, 4}, {}} // of which changes it notes frames with each piece
	m := &office.Machine{Key: [32]byte{1}}
	request := "POST /machine/map HTTP/1.1\r\nHost: x\r\nTs-Machine-Key: mkey:" + m.Key.Public().Hex() + "\r\nContent-Length: 2\r\n\r\n{}"
	l, err := net.Listen("tcp", "127.0.0.1:0")
	if err != nil {
		t.Fatal(err)
	}
	defer l.Close()
	asked, say := make(chan string, 1), make(chan string)
	go func() {
		c, err := l.Accept()
		if err != nil {
			return
		}
		defer c.Close()
		b := make([]byte, len(request))
		n, _ := io.ReadFull(c, b)
		asked <- string(b[:n])
		for text := range say {
			io.WriteString(c, text)
		}
	}()
	tap, err := newTap()
	if err != nil {
		t.Fatal(err)
	}
	defer tap.close()
	tap.before(l.Addr().String())
	near, err := net.Dial("tcp", tap.address())
	if err != nil {
		t.Fatal(err)
	}
	defer near.Close()
	near.SetDeadline(time.Now().Add(20 * time.Second))
	io.WriteString(near, request)
	if got := <-asked; got != request {
		t.Errorf("%q was asked", got)
	}
	var want []int
	for n, text := range said {
		before := time.Now()
		say <- text
		got := make([]byte, len(text))
		if _, err := io.ReadFull(near, got); err != nil || string(got) != text {
			t.Fatalf("piece %d: %q, %v", n, got, err)
		}
		had := len(want)
		want = append(want, passes[n]...)
		var frames []passed
		for end := time.Now().Add(10 * time.Second); len(frames) < len(want) && time.Now().Before(end); time.Sleep(time.Millisecond) {
			frames = tap.of(m)
		}
		time.Sleep(10 * time.Millisecond) // none is noted too early
		if frames = tap.of(m); len(frames) != len(want) {
			t.Fatalf("%d frames passed with piece %d, and not %d", len(frames), n, len(want))
		}
		for at := had; at < len(want); at++ {
			f := frames[at]
			if f.number != want[at] || f.came.Before(before) || f.gone.Before(f.came) || f.gone.After(time.Now()) {
				t.Errorf("frame %d: %+v", at, f)
			}
		}
	}
	close(say)
	if n, err := near.Read(make([]byte, 1)); n != 0 || err != io.EOF {
		t.Errorf("behind the server's end: %d, %v", n, err)
	}
}

// A client that goes takes its connection to the server with it.
func TestTapEnds(t *testing.T) {
	l, err := net.Listen("tcp", "127.0.0.1:0")
	if err != nil {
		t.Fatal(err)
	}
	defer l.Close()
	tap, err := newTap()
	if err != nil {
		t.Fatal(err)
	}
	defer tap.close()
	tap.before(l.Addr().String())
	near, err := net.Dial("tcp", tap.address())
	if err != nil {
		t.Fatal(err)
	}
	io.WriteString(near, "POST /machine/map HTTP/1.1\r\nTs-Machine-Key: mkey:00\r\n\r\n")
	far, err := l.Accept()
	if err != nil {
		t.Fatal(err)
	}
	defer far.Close()
	near.Close()
	far.SetDeadline(time.Now().Add(10 * time.Second))
	if _, err := io.Copy(io.Discard, far); err != nil {
		t.Error(err)
	}
}

// A client has to have had the frames that passed, one by one.
func TestMatched(t *testing.T) {
	at := time.Now()
	after := func(d time.Duration) time.Time { return at.Add(d * time.Millisecond) }
	m := &office.Machine{Key: [32]byte{1}}
	s := &stub{all: []*office.Machine{m}}
	tapped := []passed{{after(0), after(0), 0}, {after(10), after(11), 7}, {after(20), after(22), 8}}
	for name, row := range map[string]struct {
		frames []frame
		ok     bool
	}{
		"all":      {[]frame{{after(1), 0}, {after(13), 7}, {after(25), 8}}, true},
		"one less": {[]frame{{after(1), 0}, {after(13), 7}}, false},
		"another":  {[]frame{{after(1), 0}, {after(13), 8}, {after(25), 8}}, false},
	} {
		p := newPolls(s, &tap{polls: map[string]*passing{"mkey:" + m.Key.Public().Hex(): {frames: tapped}}}, 1, true, new(int))
		p.frames[0], p.before[0] = row.frames, 1
		p.began[7], p.began[8] = after(3), after(4)
		got, err := p.matched()
		if (err == nil) != row.ok {
			t.Errorf("%s: %v", name, err)
		}
		want := seen{tapped: []time.Duration{3, 5}, within: []time.Duration{1, 2}, told: []time.Duration{10, 21}}
		for n := range want.tapped {
			if row.ok && (len(got.tapped) != 2 || got.tapped[n] != want.tapped[n]*time.Millisecond || got.within[n] != want.within[n]*time.Millisecond || got.told[n] != want.told[n]*time.Millisecond) {
				t.Errorf("%+v", got)
			}
		}
	}
}

// What the front adds between two frames passes no tap.
func TestKeepAlivesAreLeftOut(t *testing.T) {
	p := newPolls(&stub{}, nil, 1, true, new(int))
	for _, text := range []string{`{"Seq":1}`, keepAlive, `{"Seq":2}`} {
		p.came(0, []byte(text), time.Now())
	}
	if len(p.frames[0]) != 2 {
		t.Errorf("%+v", p.frames[0])
	}
}
