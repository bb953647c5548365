package main

import (
	"net/http"
	"net/netip"
	"sync"
	"time"
)

// The paths of tailnetd that are reached over Noise, and one that the front answers:
// clients repeat it, and tailnetd has none.
const (
	pathRegister = "/machine/register"
	pathMap      = "/machine/map"
	pathHealth   = "/machine/update-health"
)

// inside serves the requests of one machine: HTTP/2 within Noise.
func (f *front) inside(conn *Conn, opened *opened, machine machineKey, from netip.Addr) http.Handler {
	var first sync.Once
	return http.HandlerFunc(func(rw http.ResponseWriter, r *http.Request) {
		if !opened.take() {
			panic(http.ErrAbortHandler)
		}
		f.running.enter(1)
		defer f.running.leave(1)
		first.Do(func() { conn.SetReadDeadline(time.Time{}) }) // the handshake's
		w, start := &reply{ResponseWriter: rw, machine: machine.Short(), within: f.limits.write}, time.Now()
		defer func() { f.log.line(from, w.machine, r.Method, r.URL, w.status, time.Since(start)) }()
		f.route(w, r, machine, from)
	})
}

// route leads a request to what answers it.
func (f *front) route(w *reply, r *http.Request, machine machineKey, from netip.Addr) {
	path := r.URL.Path
	switch {
	case path != pathRegister && path != pathMap && path != pathHealth:
		w.say(http.StatusNotFound, "no such path")
	case r.Method != http.MethodPost:
		w.Header().Set("Allow", http.MethodPost)
		w.say(http.StatusMethodNotAllowed, "POST alone")
	case path == pathHealth:
		w.tell(answer{http.StatusOK, "application/json", []byte("{}")})
	case path == pathRegister && f.limits.perAddress > 0 && !f.registrations.take(networkOf(from), time.Now()):
		w.say(http.StatusTooManyRequests, "too many registrations")
	default:
		f.handOn(w, r, machine)
	}
}

// handOn reads a body and hands it on.
func (f *front) handOn(w *reply, r *http.Request, machine machineKey) {
	body, ok := f.body(w, r)
	if !ok {
		return
	}
	defer f.bodies.leave(int64(len(body)))
	asked, err := readRequest(body)
	switch {
	case err != nil:
		w.say(http.StatusBadRequest, err.Error())
	case r.URL.Path == pathRegister:
		f.register(r.Context(), w, machine, asked)
	default:
		f.serveMap(r.Context(), w, machine, asked)
	}
}
