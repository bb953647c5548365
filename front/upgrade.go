package main

import (
	"encoding/base64"
	"errors"
	"net/http"
	"net/netip"
	"strings"

	"golang.org/x/net/http2"
)

// What a client upgrades to, and where its first message is:
// tailscale.com/control/controlhttp.
const (
	upgradeProtocol = "tailscale-control-protocol"
	handshakeHeader = "X-Tailscale-Handshake"
	upgradeHead     = "HTTP/1.1 101 Switching Protocols\r\nUpgrade: " + upgradeProtocol + "\r\nConnection: upgrade\r\n\r\n"
)

// initiationOf reads a client's first message from its request to upgrade.
func initiationOf(r *http.Request) (initiation, error) {
	if !r.ProtoAtLeast(1, 1) || !strings.EqualFold(r.Header.Get("Upgrade"), upgradeProtocol) {
		return initiation{}, errors.New("no upgrade to " + upgradeProtocol)
	}
	if r.ContentLength != 0 {
		return initiation{}, errors.New("a body")
	}
	text := r.Header.Get(handshakeHeader)
	if text == "" {
		return initiation{}, errors.New("no " + handshakeHeader)
	}
	b, err := base64.StdEncoding.DecodeString(text)
	if err != nil {
		return initiation{}, errors.New(handshakeHeader + " isn't base64")
	}
	return parseInitiation(b)
}

// upgrade answers a client's first message, and then serves what it asks over
// Noise, until the connection ends. What costs least is looked at first: form, room,
// cryptography.
func (f *front) upgrade(w *reply, r *http.Request, from netip.Addr) {
	in, err := initiationOf(r)
	if err != nil {
		w.say(http.StatusBadRequest, err.Error())
		return
	}
	hijacker, canUpgrade := w.ResponseWriter.(http.Hijacker)
	visit, isVisit := visitOf(r.Context())
	if !canUpgrade || !isVisit {
		w.say(http.StatusBadRequest, "not over HTTP/1.1")
		return
	}
	network := networkOf(from)
	if !f.conns.enter(network) {
		w.say(http.StatusServiceUnavailable, "too many connections")
		return
	}
	defer f.conns.leave(network)
	message, session, failed := respond(f.key, in, nil)
	if failed != nil {
		message = errorMessage("handshake failed")
	}
	c, buffered, err := hijacker.Hijack()
	if err != nil {
		w.say(http.StatusInternalServerError, "no upgrade")
		return
	}
	defer c.Close()
	w.status = http.StatusSwitchingProtocols
	// Hijack took the server's deadlines away: until the first request over HTTP/2
	// the time counts from the connection's beginning.
	c.SetDeadline(visit.arrived.Add(f.limits.handshake))
	if _, err := c.Write(append([]byte(upgradeHead), message...)); err != nil || failed != nil {
		return
	}
	visit.upgraded()
	w.machine = session.machine.Short()
	f.serveConn(r, newConn(c, buffered.Reader, session, f.limits), session.machine, from)
}

// serveConn is HTTP/2 over one connection.
func (f *front) serveConn(r *http.Request, conn *Conn, machine machineKey, from netip.Addr) {
	if !f.open.add(conn) {
		return
	}
	defer f.open.remove(conn)
	opened := &opened{conn: conn, rate: newRate(f.limits.opened, f.limits.minute)}
	f.h2(opened).ServeConn(conn, &http2.ServeConnOpts{
		Context:    r.Context(),
		BaseConfig: f.base,
		Handler:    f.inside(conn, opened, machine, from),
	})
}
