package main

import (
	"crypto/tls"
	"fmt"
	"os"
	"os/signal"
	"sync/atomic"
	"syscall"
)

// Certificates are those of the outside and their key, which are read again while
// it serves.
type certificates struct {
	cert, key string // files; both empty without TLS
	now       atomic.Pointer[tls.Certificate]
}

// load reads both files. If they can't be read or don't belong together, what was
// there before stays.
func (p *certificates) load() error {
	c, err := tls.LoadX509KeyPair(p.cert, p.key)
	if err != nil {
		return &fault{"certificate", p.cert + " and " + p.key, err, "name a certificate and its key, both in PEM, that the user of the front may read"}
	}
	p.now.Store(&c)
	return nil
}

// config is the outside's TLS. No HTTP/2 there: an upgrade is HTTP/1.1's (RFC
// 9110, section 7.8).
func (p *certificates) config() *tls.Config {
	return &tls.Config{
		MinVersion:     tls.VersionTLS12,
		NextProtos:     []string{"http/1.1"},
		GetCertificate: func(*tls.ClientHelloInfo) (*tls.Certificate, error) { return p.now.Load(), nil },
	}
}

// onHangup reads both files again at each SIGHUP, until stop, and notes it. Where
// there are no files it does nothing, and SIGHUP doesn't end the program.
func (p *certificates) onHangup(note func(string)) (stop func()) {
	hangups := make(chan os.Signal, 1)
	signal.Notify(hangups, syscall.SIGHUP)
	go func() {
		for range hangups {
			if p.cert == "" {
				continue
			}
			if err := p.load(); err != nil {
				note(fmt.Sprintf("the old certificates stay: %q", err))
			} else {
				note("the certificates were read again")
			}
		}
	}()
	return func() {
		signal.Stop(hangups) // behind it nothing is sent
		close(hangups)
	}
}
