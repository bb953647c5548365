package main

import (
	"context"
	"net/http"
	"time"
)

// register hands on a registration. One that follows another up is held for as
// long as it waits at the same URL: a client that was shown an AuthURL registers
// again with it as Followup, and takes the answer for news (tailcfg,
// RegisterRequest.Followup).
func (f *front) register(ctx context.Context, w *reply, machine machineKey, asked request) {
	end := time.Now().Add(f.limits.hold)
	for {
		a, err := f.server.exchange(ctx, pathRegister, machine, asked.body)
		if err != nil {
			w.fail(err)
			return
		}
		if !a.waitsAt(asked.followup) || time.Now().Add(f.limits.again).After(end) {
			w.tell(a)
			return
		}
		if wait(ctx, f.limits.again) != nil {
			panic(http.ErrAbortHandler) // RST_STREAM: nothing said would be 200
		}
	}
}

// wait waits for a time, or until ctx ends, which is an error.
func wait(ctx context.Context, length time.Duration) error {
	timer := time.NewTimer(length)
	defer timer.Stop()
	select {
	case <-ctx.Done():
		return ctx.Err()
	case <-timer.C:
		return nil
	}
}
