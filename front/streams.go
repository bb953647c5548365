package main

import (
	"strings"
	"sync"
	"time"
)

// Opened counts the streams of one connection, and closes it when there are too many
// in a minute: what a client resets at once isn't among those that are open, and
// costs all the same (RFC 9113, section 10.5; rapid resets, CVE-2023-39325).
type opened struct {
	conn *Conn
	mu   sync.Mutex
	rate rate
}

// take counts one, and says whether it may be served.
func (o *opened) take() bool {
	o.mu.Lock()
	defer o.mu.Unlock()
	if o.rate.take(time.Now(), 1) {
		return true
	}
	o.conn.Close()
	return false
}

// fault counts a stream that HTTP/2 refuses without a handler: one past those that may
// be open at once, or whose head has no good method or path. What comes late for a
// stream that was answered isn't one.
func (o *opened) fault(kind string) {
	for _, name := range []string{"_over_max_streams", "_bad_path", "_bad_connect"} { // x/net/http2's names
		if strings.Contains(kind, name) {
			o.take()
			return
		}
	}
}
