package main

import (
	"sync"
	"time"
)

// A watch ends a write of HTTP/2 that takes too long, by a deadline in the past. The
// deadline itself isn't set before: each setting is a message to what serves the
// connection, and a write that goes well would cost two of them.
type watch struct {
	timer  *time.Timer // nil: the write has no deadlines
	within time.Duration

	mu   sync.Mutex
	over bool // the handler may have ended, and nothing of its stream be touched any more
}

func (r *reply) watch() *watch {
	w := &watch{within: r.within}
	if stream, ok := r.ResponseWriter.(interface{ SetWriteDeadline(time.Time) error }); ok {
		w.timer = time.AfterFunc(w.within, func() {
			w.mu.Lock()
			defer w.mu.Unlock()
			if !w.over {
				stream.SetWriteDeadline(time.Unix(1, 0))
			}
		})
	}
	return w
}

// again gives the write its whole time anew.
func (w *watch) again() {
	if w.timer != nil {
		w.timer.Reset(w.within)
	}
}

func (w *watch) stop() {
	if w.timer == nil {
		return
	}
	w.timer.Stop()
	w.mu.Lock()
	w.over = true
	w.mu.Unlock()
}
