package main

import (
	"bytes"
	"io"
	"net/http"
	"time"
)

// bodyPiece is how much of a body is read before its room is counted.
const bodyPiece = 8 << 10

// body reads a request's body, whose bytes then stand in f.bodies. If it can't, it
// answers.
func (f *front) body(w *reply, r *http.Request) ([]byte, bool) {
	if r.ContentLength == 0 {
		return nil, true
	}
	if d, ok := w.ResponseWriter.(interface{ SetReadDeadline(time.Time) error }); ok {
		// (Never for a request without a body, whose stream x/net 0.7.0 gives no pipe.)
		d.SetReadDeadline(time.Now().Add(f.limits.handshake))
		defer d.SetReadDeadline(time.Time{})
	}
	var body bytes.Buffer
	refuse := func(held int64, status int, text string) ([]byte, bool) {
		f.bodies.leave(held)
		w.say(status, text)
		return nil, false
	}
	for {
		n, err := io.CopyN(&body, r.Body, bodyPiece)
		room := f.bodies.enter(n)
		length := int64(body.Len())
		switch {
		case !room:
			return refuse(length-n, http.StatusServiceUnavailable, "too much at once")
		case length > f.limits.body:
			return refuse(length, http.StatusRequestEntityTooLarge, "the body is too long")
		case err == io.EOF:
			return body.Bytes(), true
		case err != nil:
			return refuse(length, http.StatusRequestTimeout, "the body is cut short")
		}
	}
}
