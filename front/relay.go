package main

import (
	"bytes"
	"encoding/json"
	"errors"
	"io"
	"math/rand"
	"sync"
	"time"

	"github.com/klauspost/compress/zstd"
)

// keepAlive is the frame's text that tells a client that its poll lives: tailcfg,
// MapResponse.KeepAlive. A client gives up after 120 seconds without a frame.
const keepAlive = `{"KeepAlive":true}`

// spareBuffer is the most that a poll keeps between two frames, of what it read and of what
// it sent.
const spareBuffer = 16 << 10

// A relay hands on the frames of one answer.
type relay struct {
	encoder *zstd.Encoder        // nil: as they are
	derpMap []byte               // what the first frame gets, nil: nothing
	quiet   func() time.Duration // after how long to send a keep-alive, nil: never
	write   func(frame []byte) error
	end     func() // ends what frames are read from

	mu    sync.Mutex // of what follows, and of writes: a keep-alive goes between two frames
	frame []byte     // what was sent last, whose room the next one takes
	fault error      // of a write, behind which there is none; errOver behind the last
	timer *time.Timer
	due   time.Time // of the next keep-alive
}

var errOver = errors.New("no frame comes any more")

// run hands on frames until they end, which is nil, or a fault does. A frame is read once
// the one before it was sent: a client that reads slowly is waited for, and nothing is
// queued for it.
func (r *relay) run(from io.Reader) error {
	if r.quiet != nil {
		r.begin()
		defer r.stop()
	}
	text := new(bytes.Buffer)
	for {
		switch err := readFrame(from, text); {
		case err == io.EOF:
			return nil
		case err != nil:
			return err
		}
		if err := r.hand(text.Bytes()); err != nil {
			return err
		}
		if text.Cap() > spareBuffer {
			text = new(bytes.Buffer)
		}
	}
}

// hand sends one frame of tailnetd.
func (r *relay) hand(text []byte) error {
	r.mu.Lock()
	defer r.mu.Unlock()
	if r.derpMap != nil && takesDERPMap(text) {
		text = withMember(text, "DERPMap", r.derpMap)
		r.derpMap = nil
	}
	return r.send(text)
}

// send sends a frame of a text, and begins the time without one anew.
func (r *relay) send(text []byte) error {
	if r.fault != nil {
		return r.fault
	}
	r.frame = appendFrame(r.frame[:0], text, r.encoder)
	if r.fault = r.write(r.frame); r.fault != nil {
		return r.fault
	}
	if cap(r.frame) > spareBuffer {
		r.frame = nil
	}
	if r.timer != nil {
		r.again()
	}
	return nil
}

// begin begins the time without a frame.
func (r *relay) begin() {
	r.mu.Lock()
	defer r.mu.Unlock()
	r.timer = time.AfterFunc(time.Hour, r.keepAlive)
	r.again()
}

func (r *relay) again() {
	length := r.quiet()
	r.due = time.Now().Add(length)
	r.timer.Reset(length)
}

// keepAlive sends one, unless a frame has gone meanwhile.
func (r *relay) keepAlive() {
	r.mu.Lock()
	defer r.mu.Unlock()
	if time.Now().Before(r.due) {
		return // the timer was set anew
	}
	if r.send([]byte(keepAlive)) != nil {
		r.end()
	}
}

// stop waits until no keep-alive is sent any more.
func (r *relay) stop() {
	r.mu.Lock()
	defer r.mu.Unlock()
	r.fault = errOver
	r.timer.Stop()
}

// takesDERPMap says whether a frame may be the one that brings a client its relays:
// an object, and no keep-alive, of which a client reads nothing else (tailcfg,
// MapResponse.KeepAlive).
func takesDERPMap(text []byte) bool {
	const longestKeepAlive = 256
	if trimmed := bytes.TrimLeft(text, blanks); len(trimmed) == 0 || trimmed[0] != '{' {
		return false
	}
	if len(text) > longestKeepAlive {
		return true
	}
	var m struct{ KeepAlive bool }
	return json.Unmarshal(text, &m) != nil || !m.KeepAlive
}

// around is a time at random, at most give more or less than middle, so that
// clients that came together don't stay in step.
func around(middle, give time.Duration) time.Duration {
	if give <= 0 {
		return middle
	}
	return middle - give + time.Duration(rand.Int63n(2*int64(give)+1))
}
