package main

import (
	"fmt"
	"io"
	"net/netip"
	"net/url"
	"strings"
	"sync"
	"time"
)

// longestShown is how much of a path a line has.
const longestShown = 128

// A logger writes one line for each request, when it ends: time, address, machine
// (shortened, - if none), method, path, status, duration. It never has a whole key,
// a header, a query, a body or the text of a registration.
type logger struct {
	mu  sync.Mutex
	to  io.Writer
	now func() time.Time
}

func (l *logger) line(from netip.Addr, machine, method string, u *url.URL, status int, took time.Duration) {
	l.note(fmt.Sprintf("%s %s %.16q %q %d %.3fs", from, machine, method, shown(u), status, took.Seconds()))
}

// note writes a line, behind the time.
func (l *logger) note(text string) {
	l.mu.Lock()
	defer l.mu.Unlock()
	fmt.Fprintf(l.to, "%s %s\n", l.now().UTC().Format(time.RFC3339), text)
}

// shown is a path for the log: no byte of it can end the line, and what stands
// behind /register/ names a machine that waits.
func shown(u *url.URL) string {
	path := u.EscapedPath()
	if at := strings.Index(u.Path, registerPath); at >= 0 {
		path = (&url.URL{Path: u.Path[:at+len(registerPath)]}).EscapedPath()
	}
	if len(path) > longestShown {
		path = path[:longestShown]
	}
	return path
}
