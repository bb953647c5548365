package main

import (
	"context"
	"crypto/tls"
	"fmt"
	"io"
	"log"
	"net"
	"net/http"
	"time"

	"github.com/flynn/noise"
	"github.com/klauspost/compress/zstd"
	"golang.org/x/net/http2"
)

// A front is all that its connections share.
type front struct {
	context context.Context // of the whole front: when it ends, so does all that waits
	key     noise.DHKey
	server  *server
	derpMap []byte
	encoder *zstd.Encoder
	limits  limits
	conns   *places // over Noise
	open    *open
	running gate // requests over Noise
	polls   gate
	bodies  gate
	log     *logger
	base    *http.Server // what h2 takes from HTTP/1.1: limits, its log

	registrations *rates
}

func newFront(ctx context.Context, key noise.DHKey, address string, derpMap []byte, limits limits, to io.Writer) (*front, error) {
	// A window of 1 MiB is what every client of RFC 8878 takes. At the fastest level a frame
	// takes half the time, and a whole map is no longer for it.
	encoder, err := zstd.NewWriter(nil, zstd.WithEncoderCRC(false), zstd.WithEncoderConcurrency(4), zstd.WithWindowSize(1<<20), zstd.WithEncoderLevel(zstd.SpeedFastest))
	if err != nil {
		return nil, fmt.Errorf("zstd: %w", err)
	}
	return &front{
		context: ctx, key: key, derpMap: derpMap, encoder: encoder, limits: limits,
		server:  newServer(address, limits.dial, limits.ask),
		conns:   newPlaces(limits.conns, limits.perAddress),
		open:    newOpen(),
		running: gate{room: 1 << 62},
		polls:   gate{room: limits.polls},
		bodies:  gate{room: limits.bodies},
		log:     &logger{to: to, now: time.Now},
		base:    &http.Server{MaxHeaderBytes: limits.head, ErrorLog: log.New(io.Discard, "", 0)},

		registrations: newRates(limits.register, limits.minute, 4*limits.conns),
	}, nil
}

// h2 is HTTP/2 for one connection, whose streams are counted.
func (f *front) h2(opened *opened) *http2.Server {
	return &http2.Server{
		MaxConcurrentStreams:         f.limits.streams,
		MaxReadFrameSize:             16 << 10,
		IdleTimeout:                  f.limits.idle,
		MaxUploadBufferPerConnection: 128 << 10,
		MaxUploadBufferPerStream:     64 << 10,
		CountError:                   opened.fault,
	}
}

// serve takes connections until the front's context ends, and with it all requests.
// A connection that isn't upgraded has one request.
func (f *front) serve(l net.Listener, outer *tls.Config) error {
	if outer != nil {
		l = tls.NewListener(l, outer)
	}
	s := &http.Server{
		Handler:           http.HandlerFunc(f.outside),
		ConnContext:       withVisit,
		BaseContext:       func(net.Listener) context.Context { return f.context },
		ReadHeaderTimeout: f.limits.handshake,
		ReadTimeout:       f.limits.handshake,
		WriteTimeout:      f.limits.handshake + f.limits.dial,
		MaxHeaderBytes:    f.limits.head - 4096, // net/http reads 4096 more
		ErrorLog:          f.base.ErrorLog,
	}
	s.SetKeepAlivesEnabled(false)
	ended := make(chan error, 1)
	go func() { ended <- s.Serve(l) }()
	select {
	case err := <-ended:
		return fmt.Errorf("serve: %w", err)
	case <-f.context.Done():
	}
	f.end(s)
	return nil
}

// end ends what is still served. Requests end by the front's context; each part has
// some time for it, and is cut then.
func (f *front) end(s *http.Server) {
	stop, cancel := context.WithTimeout(context.Background(), f.limits.end)
	defer cancel()
	if s.Shutdown(stop) != nil {
		s.Close() // Shutdown waits for those that have said nothing yet
	}
	for end := time.Now().Add(f.limits.end); f.running.in.Load() > 0 && time.Now().Before(end); {
		time.Sleep(5 * time.Millisecond)
	}
	time.Sleep(f.limits.end / 20) // for the ends of streams on their way
	select {
	case <-f.open.close():
	case <-time.After(f.limits.end):
	}
}
