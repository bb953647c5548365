package main

import (
	"errors"
	"fmt"
	"net"
	"net/http"
	"time"
)

// pieceLen is how much of an answer has to be taken within the time of one write.
const pieceLen = 64 << 10

// A reply is a ResponseWriter that keeps the status for the log, and whose writes
// have an end in time where HTTP/2 can give them one.
type reply struct {
	http.ResponseWriter
	status  int
	machine string        // - as long as none is proved
	within  time.Duration // of one write; 0 where the connection has a time of its own
}

func (r *reply) WriteHeader(status int) {
	if r.status == 0 {
		r.status = status
	}
	r.ResponseWriter.WriteHeader(status)
}

func (r *reply) Write(b []byte) (int, error) {
	if r.status == 0 {
		r.status = http.StatusOK
	}
	return r.ResponseWriter.Write(b)
}

// send writes and flushes, and resets the stream if the client's window stays shut
// for too long (RFC 9113, section 5.2). Each piece has its own time, so that a long
// frame isn't too long for a slow line.
func (r *reply) send(b []byte) error {
	watch := r.watch()
	defer watch.stop()
	for len(b) > 0 {
		piece := b
		if len(piece) > pieceLen {
			piece = piece[:pieceLen]
		}
		watch.again()
		if _, err := r.Write(piece); err != nil {
			return fmt.Errorf("write: %w", err)
		}
		b = b[len(piece):]
	}
	watch.again()
	return r.flush()
}

func (r *reply) flush() error {
	if f, ok := r.ResponseWriter.(interface{ FlushError() error }); ok {
		if err := f.FlushError(); err != nil {
			return fmt.Errorf("write: %w", err)
		}
	}
	return nil
}

// say answers with a line of text.
func (r *reply) say(status int, text string) {
	r.tell(answer{status, "text/plain; charset=utf-8", []byte(text + "\n")})
}

// tell answers with a whole body.
func (r *reply) tell(a answer) {
	if a.kind != "" {
		r.Header().Set("Content-Type", a.kind)
	}
	r.WriteHeader(a.status)
	if r.within == 0 {
		r.Write(a.body)
		return
	}
	r.send(a.body)
}

// fail answers for a tailnetd that doesn't, or not in time.
func (r *reply) fail(err error) {
	if late := net.Error(nil); errors.As(err, &late) && late.Timeout() {
		r.say(http.StatusGatewayTimeout, "the control server doesn't answer")
		return
	}
	r.say(http.StatusBadGateway, "the control server can't be reached")
}
