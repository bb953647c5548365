package main

import (
	"context"
	"net/http"
	"time"
)

// serveMap hands on a map request and the frames that answer it. A poll stays for as
// long as its client, tailnetd and the front do; all others have a time.
func (f *front) serveMap(ctx context.Context, w *reply, machine machineKey, asked request) {
	relay := relay{write: w.send}
	if asked.zstd {
		relay.encoder = f.encoder
	}
	if asked.stream {
		if !f.polls.enter(1) {
			w.say(http.StatusServiceUnavailable, "too many polls")
			return
		}
		defer f.polls.leave(1)
		relay.derpMap = f.derpMap
		relay.quiet = func() time.Duration { return around(f.limits.quiet, f.limits.give) }
		ctx, relay.end = context.WithCancel(ctx)
	} else {
		ctx, relay.end = context.WithTimeout(ctx, f.server.ask)
	}
	defer relay.end()

	got, err := f.server.post(ctx, pathMap, machine, asked.body)
	if err != nil {
		w.fail(err)
		return
	}
	defer got.Body.Close()
	if got.StatusCode != http.StatusOK {
		f.refused(w, got)
		return
	}
	w.Header().Set("Content-Type", "application/json")
	w.WriteHeader(http.StatusOK)
	if err := w.flush(); err != nil {
		return
	}
	if err := relay.run(got.Body); err != nil {
		panic(http.ErrAbortHandler) // RST_STREAM: what was sent is no whole answer
	}
}

// refused hands on what tailnetd says in place of frames.
func (f *front) refused(w *reply, got *http.Response) {
	a, err := readAnswer(got)
	if err != nil {
		w.fail(err)
		return
	}
	w.tell(a)
}
