package main

import (
	"context"
	"fmt"
	"net"
	"net/http"
	"net/netip"
	"sync"
	"syscall"
	"time"
)

// tcpUserTimeout is Linux's TCP_USER_TIMEOUT, which package syscall doesn't name.
const tcpUserTimeout = 18

// A listener takes connections, not too many at once of those that aren't upgraded,
// in all and of one address.
type listener struct {
	net.Listener
	room  *places
	plain bool // it isn't TLS that is spoken behind it
}

// listen begins to take connections. One whose far end has gone silently ends when
// what was sent to it stays unacknowledged for as long as a write may take (RFC
// 5482; the accepted connections inherit the option).
func listen(ctx context.Context, address string, limits limits, plain bool) (*listener, error) {
	config := net.ListenConfig{Control: func(_, _ string, c syscall.RawConn) error {
		var err error
		if e := c.Control(func(fd uintptr) {
			err = syscall.SetsockoptInt(int(fd), syscall.IPPROTO_TCP, tcpUserTimeout, int(limits.write.Milliseconds()))
		}); e != nil {
			return e
		}
		return err
	}}
	l, err := config.Listen(ctx, "tcp", address)
	if err != nil {
		return nil, &fault{"listening at", address, err, "stop what has the port, or name another address with --listen"}
	}
	return &listener{Listener: l, room: newPlaces(limits.outside, limits.outsideOfOne()), plain: plain}, nil
}

// Accept takes the next connection that there is room for. The others are told so
// and closed; over TLS they are closed, since a handshake is what they would cost.
func (l *listener) Accept() (net.Conn, error) {
	for {
		c, err := l.Listener.Accept()
		if err != nil {
			return nil, err
		}
		network := networkOf(addressOf(c.RemoteAddr().String()))
		if l.room.enter(network) {
			return &visit{Conn: c, room: l.room, network: network, arrived: time.Now()}, nil
		}
		if l.plain {
			refuse(c)
		}
		c.Close()
	}
}

// refuse tells a connection that there is no room. Nothing waits for its far end:
// the text fits into the buffer of a new connection.
func refuse(c net.Conn) {
	const text = "too many connections\n"
	c.SetWriteDeadline(time.Now().Add(time.Millisecond))
	fmt.Fprintf(c, "HTTP/1.1 503 %s\r\nContent-Type: text/plain; charset=utf-8\r\nContent-Length: %d\r\nConnection: close\r\n\r\n%s",
		http.StatusText(http.StatusServiceUnavailable), len(text), text)
}

// A visit is a connection that isn't upgraded, or not yet.
type visit struct {
	net.Conn
	room    *places
	network netip.Prefix
	arrived time.Time
	over    sync.Once
}

// upgraded gives its place to another.
func (v *visit) upgraded() { v.over.Do(func() { v.room.leave(v.network) }) }

func (v *visit) Close() error {
	v.upgraded()
	return v.Conn.Close()
}

type visitKey struct{}

// withVisit keeps the visit that a connection belongs to.
func withVisit(ctx context.Context, c net.Conn) context.Context {
	if outer, ok := c.(interface{ NetConn() net.Conn }); ok { // TLS
		c = outer.NetConn()
	}
	return context.WithValue(ctx, visitKey{}, c)
}

// visitOf is that of a request.
func visitOf(ctx context.Context) (*visit, bool) {
	v, ok := ctx.Value(visitKey{}).(*visit)
	return v, ok
}
