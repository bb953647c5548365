package main

import (
	"fmt"
	"io"
	"net/http"
	"strings"
	"sync/atomic"
	"testing"
	"time"

	"golang.org/x/net/http2"
)

func TestKeepAlive(t *testing.T) {
	for _, compressed := range []bool{false, true} {
		r := newRig(t, frames(`{"Seq":1}`), func(l *limits) { l.quiet, l.give = 40*time.Millisecond, 10*time.Millisecond })
		body := `{"Stream":true}`
		if compressed {
			body = `{"Stream":true,"Compress":"zstd"}`
		}
		poll := post(t, r.http(t, fill(1)), "/machine/map", body)
		start := time.Now()
		for _, want := range []string{`{"Seq":1}`, keepAlive, keepAlive, keepAlive} {
			if got := next(t, poll.Body, compressed); got != want {
				t.Errorf("%s, not %s", got, want)
			}
		}
		if took := time.Since(start); took < 90*time.Millisecond || took > 3*time.Second {
			t.Errorf("three keep-alives in %v", took)
		}
	}
}

// An answer that isn't streamed has no keep-alives, however long it takes.
func TestNoKeepAliveInAShortAnswer(t *testing.T) {
	r := newRig(t, http.HandlerFunc(func(w http.ResponseWriter, r *http.Request) {
		io.Copy(io.Discard, r.Body)
		w.(http.Flusher).Flush()
		time.Sleep(200 * time.Millisecond)
		w.Write(frameOf(`{"Seq":1}`))
	}), func(l *limits) { l.quiet, l.give = 20*time.Millisecond, 0 })
	if got := whole(t, post(t, r.http(t, fill(1)), "/machine/map", `{"Stream":false}`)); got != string(frameOf(`{"Seq":1}`)) {
		t.Errorf("%q", got)
	}
}

// Where frames come there is no keep-alive.
func TestNoKeepAliveAmidFrames(t *testing.T) {
	r := newRig(t, http.HandlerFunc(func(w http.ResponseWriter, r *http.Request) {
		io.Copy(io.Discard, r.Body)
		for n := 0; n < 15; n++ {
			w.Write(frameOf(`{"Seq":1}`))
			w.(http.Flusher).Flush()
			time.Sleep(100 * time.Millisecond)
		}
	}), func(l *limits) { l.quiet, l.give = time.Second, 0 })
	poll := post(t, r.http(t, fill(1)), "/machine/map", `{"Stream":true}`)
	if got := whole(t, poll); got != strings.Repeat(string(frameOf(`{"Seq":1}`)), 15) {
		t.Errorf("%q", got)
	}
}

// A keep-alive that can't be written ends the answer, and nothing is written behind it:
// not even a frame that was on its way.
func TestKeepAliveThatFails(t *testing.T) {
	from, to := io.Pipe()
	defer from.Close()
	var wrote atomic.Int32
	r := &relay{
		quiet: func() time.Duration { return 10 * time.Millisecond },
		write: func([]byte) error { wrote.Add(1); return io.ErrClosedPipe },
		end:   func() { go to.Write(frameOf("{}")) },
	}
	ended := make(chan error, 1)
	go func() { ended <- r.run(from) }()
	select {
	case err := <-ended:
		if err != io.ErrClosedPipe || wrote.Load() != 1 {
			t.Errorf("%v, after %d writes", err, wrote.Load())
		}
	case <-time.After(10 * time.Second):
		t.Error("it goes on")
	}
}

// A keep-alive goes between two frames, and none goes behind the last.
func TestKeepAlivesBetweenFrames(t *testing.T) {
	from, to := io.Pipe()
	go func() {
		for n := 0; n < 20; n++ {
			to.Write(frameOf(`{"Seq":1}`))
			time.Sleep(3 * time.Millisecond)
		}
		to.Close()
	}()
	var now, wrote atomic.Int32
	kept := 0
	r := &relay{end: func() {}, quiet: func() time.Duration { return time.Millisecond }, write: func(frame []byte) error {
		if now.Add(1) != 1 {
			t.Error("two writes at once")
		}
		if strings.Contains(string(frame), keepAlive) {
			kept++
		}
		time.Sleep(time.Millisecond)
		wrote.Add(1)
		now.Add(-1)
		return nil
	}}
	if err := r.run(from); err != nil {
		t.Error(err)
	}
	last := wrote.Load()
	if time.Sleep(20 * time.Millisecond); wrote.Load() != last || kept == 0 || int(last)-kept != 20 {
		t.Errorf("%d writes, then %d, and %d keep-alives among them", last, wrote.Load(), kept)
	}
}

// Of a long frame no room is kept for the next one.
func TestRoomOfALongFrame(t *testing.T) {
	r := &relay{write: func([]byte) error { return nil }}
	for _, length := range []int{10, spareBuffer + 1, 10} {
		if err := r.hand(make([]byte, length)); err != nil || cap(r.frame) > spareBuffer {
			t.Errorf("%d bytes: %v, and room for %d", length, err, cap(r.frame))
		}
	}
}

// A keep-alive whose time was set anew just as it came isn't sent.
func TestKeepAliveSetAnew(t *testing.T) {
	r := &relay{quiet: func() time.Duration { return time.Hour }, write: func([]byte) error {
		t.Error("it was sent")
		return nil
	}}
	r.begin()
	defer r.stop()
	r.keepAlive()
}

// The first frame that is a map brings the relays: not a keep-alive, and not what is
// no object; a poll that goes on begins with a greeting, which is as good.
func TestDERPMapComesOnce(t *testing.T) {
	for name, row := range map[string][2][]string{
		"a map":                 {{`{"Seq":1}`, `{"Seq":2}`}, {`{"DERPMap":{"Regions":{"1":{}}},"Seq":1}`, `{"Seq":2}`}},
		"behind a keep-alive":   {{keepAlive, `{"Seq":1}`, `{"Seq":2}`}, {keepAlive, `{"DERPMap":{"Regions":{"1":{}}},"Seq":1}`, `{"Seq":2}`}},
		"behind another":        {{`{ "Seq":0, "KeepAlive" : true }`, `{}`}, {`{ "Seq":0, "KeepAlive" : true }`, `{"DERPMap":{"Regions":{"1":{}}}}`}},
		"with false":            {{`{"KeepAlive":false}`}, {`{"DERPMap":{"Regions":{"1":{}}},"KeepAlive":false}`}},
		"behind what is no map": {{``, `[1]`, `{"A":1}`}, {``, `[1]`, `{"DERPMap":{"Regions":{"1":{}}},"A":1}`}},
		"a greeting":            {{`{"MapSessionHandle":"s1-0"}`, `{"Seq":2}`}, {`{"DERPMap":{"Regions":{"1":{}}},"MapSessionHandle":"s1-0"}`, `{"Seq":2}`}},
	} {
		r := newRig(t, frames(row[0]...), nil)
		r.derpMap = []byte(`{"Regions":{"1":{}}}`)
		h := r.http(t, fill(1))
		poll := post(t, h, "/machine/map", `{"Stream":true}`)
		for _, want := range row[1] {
			if got := next(t, poll.Body, false); got != want {
				t.Errorf("%s: %s", name, got)
			}
		}
		one := post(t, h, "/machine/map", `{"Stream":false}`)
		for _, want := range row[0] {
			if got := next(t, one.Body, false); got != want {
				t.Errorf("%s, not streamed: %s", name, got)
			}
		}
		one.Body.Close()
	}
}

func TestAround(t *testing.T) {
	least, most := time.Hour, time.Duration(0)
	for n := 0; n < 10000; n++ {
		d := around(50*time.Second, 5*time.Second)
		if d < least {
			least = d
		}
		if d > most {
			most = d
		}
	}
	if least < 45*time.Second || least > 46*time.Second || most > 55*time.Second || most < 54*time.Second {
		t.Error(least, most)
	}
}

// Each row is an answer of tailnetd that is no whole answer: what was whole is
// handed on, and then the stream is reset.
func TestFramesThatEnd(t *testing.T) {
	const chunked = json200 + "Transfer-Encoding: chunked\r\n\r\n"
	good := string(frameOf(`{"Seq":1}`))
	for name, row := range map[string]struct {
		answer  string
		whole   string
		aborted bool
	}{
		"whole":                        {chunked + chunk(good) + "0\r\n\r\n", good, false},
		"a frame in two chunks":        {chunked + chunk(good[:6]) + chunk(good[6:]) + "0\r\n\r\n", good, false},
		"two frames in one chunk":      {chunked + chunk(good+good) + "0\r\n\r\n", good + good, false},
		"cut in a frame":               {chunked + chunk(good) + chunk(good[:7]) + "0\r\n\r\n", good, true},
		"cut in a length":              {chunked + chunk(good) + chunk(good[:2]) + "0\r\n\r\n", good, true},
		"no last chunk":                {chunked + chunk(good), good, true},
		"cut in a chunk":               {chunked + chunk(good) + "d\r\n\x09\x00", good, true},
		"a frame over 16 MiB":          {chunked + chunk(good) + chunk("\x01\x00\x00\x01"), good, true},
		"a frame of 16 MiB that ends":  {chunked + chunk(good) + chunk("\x00\x00\x00\x01{") + "0\r\n\r\n", good, true},
		"a first frame that is cut":    {chunked + chunk(good[:7]) + "0\r\n\r\n", "", true},
		"a length longer than is sent": {json200 + "Content-Length: 40\r\n\r\n" + good, good, true},
	} {
		for _, body := range []string{`{"Stream":true}`, `{}`} {
			address, _ := bytesStub(t, row.answer)
			r := rigAt(t, address, nil, nil)
			answer := post(t, r.http(t, fill(1)), "/machine/map", body)
			got, err := io.ReadAll(answer.Body)
			var reset http2.StreamError
			if string(got) != row.whole || (err != nil) != row.aborted {
				t.Errorf("%s, %s: %q, %v", name, body, got, err)
			} else if ok := errorsAs(err, &reset); row.aborted && (!ok || reset.Code != http2.ErrCodeInternal) {
				t.Errorf("%s, %s: %v", name, body, err)
			}
		}
	}
}

func chunk(s string) string { return fmt.Sprintf("%x\r\n%s\r\n", len(s), s) }
