package main

import (
	"context"
	"io"
	"net"
	"net/http"
	"testing"
	"time"

	"tailnetd-front/internal/tailclient"
)

// gone is a stub whose poll says when its client has gone.
func gone(t *testing.T) (http.HandlerFunc, <-chan struct{}) {
	ended := make(chan struct{}, 64)
	return func(w http.ResponseWriter, r *http.Request) {
		frames(`{"Seq":1}`)(w, r)
		ended <- struct{}{}
	}, ended
}

func TestEndsUpstream(t *testing.T) {
	for name, end := range map[string]func(c *tailclient.Conn, poll *http.Response, cancel func()){
		"a stream closed":     func(_ *tailclient.Conn, poll *http.Response, _ func()) { poll.Body.Close() },
		"a stream given up":   func(_ *tailclient.Conn, _ *http.Response, cancel func()) { cancel() },
		"a connection closed": func(c *tailclient.Conn, _ *http.Response, _ func()) { c.Close() },
		"a connection reset": func(c *tailclient.Conn, _ *http.Response, _ func()) {
			c.Conn.(*net.TCPConn).SetLinger(0)
			c.Close()
		},
		"a record that isn't authentic": func(c *tailclient.Conn, _ *http.Response, _ func()) {
			c.Conn.Write(append([]byte{4, 0, 16}, make([]byte, 16)...))
		},
	} {
		stub, ended := gone(t)
		r := newRig(t, stub, nil)
		c := r.connect(t, fill(1))
		h, err := c.HTTP()
		if err != nil {
			t.Fatal(err)
		}
		ctx, cancel := context.WithCancel(context.Background())
		defer cancel()
		poll, err := tailclient.Post(ctx, h, "/machine/map", `{"Stream":true}`)
		if err != nil {
			t.Fatal(err)
		}
		next(t, poll.Body, false)
		end(c, poll, cancel)
		select {
		case <-ended:
		case <-time.After(time.Second):
			t.Errorf("%s: the poll goes on at tailnetd", name)
		}
		soon(t, "no poll", func() bool { return r.polls.in.Load() == 0 })
	}
}

// A short answer whose body doesn't end is given up, too: before its status is handed on
// where it is read whole, else by a reset.
func TestAnswerThatDoesNotEnd(t *testing.T) {
	r := newRig(t, http.HandlerFunc(func(w http.ResponseWriter, r *http.Request) {
		io.Copy(io.Discard, r.Body)
		w.Write(frameOf(`{"Seq":1}`))
		w.(http.Flusher).Flush()
		<-r.Context().Done()
	}), func(l *limits) { l.ask = 100 * time.Millisecond })
	h := r.http(t, fill(1))
	if got := post(t, h, "/machine/register", `{}`); got.StatusCode != 504 {
		t.Error(got.Status)
	}
	start := time.Now()
	one := post(t, h, "/machine/map", `{}`)
	if got, err := io.ReadAll(one.Body); string(got) != string(frameOf(`{"Seq":1}`)) || err == nil || time.Since(start) > 5*time.Second {
		t.Errorf("%q, %v after %v", got, err, time.Since(start))
	}
	poll := post(t, h, "/machine/map", `{"Stream":true}`)
	next(t, poll.Body, false)
	time.Sleep(300 * time.Millisecond)
	if got := r.polls.in.Load(); got != 1 {
		t.Error("a poll ended with the time of short answers")
	}
}

func TestPollsLimit(t *testing.T) {
	stub, ended := gone(t)
	r := newRig(t, stub, func(l *limits) { l.polls = 2 })
	h := r.http(t, fill(1))
	var polls []*http.Response
	for n := 0; n < 2; n++ {
		polls = append(polls, post(t, h, "/machine/map", `{"Stream":true}`))
		next(t, polls[n].Body, false)
	}
	start := time.Now()
	if got := post(t, h, "/machine/map", `{"Stream":true}`); got.StatusCode != 503 || time.Since(start) > 3*time.Second {
		t.Error(got.Status, time.Since(start))
	}
	one := post(t, h, "/machine/map", `{}`) // the rest goes on
	next(t, one.Body, false)
	one.Body.Close()
	<-ended
	polls[0].Body.Close()
	<-ended
	soon(t, "a place", func() bool { return r.polls.in.Load() == 1 })
	if got := post(t, h, "/machine/map", `{"Stream":true}`); got.StatusCode != 200 {
		t.Error(got.Status)
	}
}
