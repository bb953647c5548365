package main

import "time"

// Limits are what the front withstands. Tests shorten them.
type limits struct {
	head       int           // bytes of a request's head
	handshake  time.Duration // from the connection to the first request within; of a body
	conns      int           // connections over Noise
	perAddress int           // of them, of one network; 0: no limit of any kind by address
	outside    int           // connections that aren't over Noise, or not yet
	outsideOne int           // of them, of one network
	streams    uint32        // at once on one connection
	opened     int64         // of streams in a minute, on one connection
	read       int64         // of bytes in a minute, on one connection
	register   int64         // of registrations in a minute, of one network
	minute     time.Duration
	body       int64         // bytes of a request's body
	bodies     int64         // of all bodies at once
	idle       time.Duration // of a connection without a stream
	write      time.Duration // of one write that a client doesn't take
	polls      int64         // that stay, in all
	dial, ask  time.Duration // of connecting to tailnetd, of its answer
	end        time.Duration // of what goes on when the front ends
	quiet      time.Duration // without a frame, until a keep-alive
	give       time.Duration // more or less of it
	again      time.Duration // between two asks of a registration that is held
	hold       time.Duration // of all of them
}

func defaultLimits() limits {
	return limits{
		head: 16 << 10, handshake: 10 * time.Second,
		conns: 4096, perAddress: 256, outside: 1024, outsideOne: 64, streams: 16,
		opened: 600, read: 16 << 20, register: 60, minute: time.Minute,
		body: 1 << 20, bodies: 64 << 20,
		idle: 5 * time.Minute, write: 30 * time.Second,
		polls: 1000, dial: 5 * time.Second, ask: 30 * time.Second, end: time.Second,
		quiet: 50 * time.Second, give: 5 * time.Second,
		again: 2 * time.Second, hold: time.Minute,
	}
}

// outsideOfOne is how many connections that aren't upgraded one network may have;
// 0 is any number, where nothing is counted by address.
func (l limits) outsideOfOne() int {
	if l.perAddress == 0 {
		return 0
	}
	return l.outsideOne
}
