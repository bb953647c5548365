package main

import (
	"context"
	"crypto/tls"
	"errors"
	"fmt"
	"io"
	"os"
	"os/signal"
	"strings"
	"syscall"
)

// version is that of the program, for --version.
const version = "1"

func main() {
	ctx, stop := signal.NotifyContext(context.Background(), os.Interrupt, syscall.SIGTERM)
	defer stop()
	if err := run(ctx, os.Args[1:], os.Stdout, os.Stderr); err != nil {
		fmt.Fprintln(os.Stderr, "tailnetd-front:", strings.ReplaceAll(err.Error(), "\n", " "))
		os.Exit(statusOf(err))
	}
}

// statusOf is what the program ends with: 2 for a wrong word, 1 for all else.
func statusOf(err error) int {
	var wrong *wrongWords
	if errors.As(err, &wrong) {
		return 2
	}
	return 1
}

// run is the program, until ctx ends.
func run(ctx context.Context, args []string, out, errors io.Writer) error {
	w, err := readWords(args)
	if err != nil {
		return err
	}
	if w.told != "" {
		_, err := io.WriteString(out, w.told)
		return err
	}
	to := errors
	if w.log != "" {
		file, err := os.OpenFile(w.log, os.O_WRONLY|os.O_APPEND|os.O_CREATE, 0o600)
		if err != nil {
			return &fault{"log", w.log, err, "name a file that the user of the front may write"}
		}
		defer file.Close()
		to = file
	}
	key, err := loadKey(w.key)
	if err != nil {
		return err
	}
	var derpMap []byte
	if w.derpMap != "" {
		if derpMap, err = readDERPMap(w.derpMap); err != nil {
			return err
		}
	}
	limits := defaultLimits()
	limits.polls, limits.perAddress = w.polls, w.perAddress
	f, err := newFront(ctx, key, w.server, derpMap, limits, to)
	if err != nil {
		return err
	}
	return f.listenAndServe(w)
}

// listenAndServe serves at the address of the words, over TLS if they name
// certificates.
func (f *front) listenAndServe(w words) error {
	var outer *tls.Config
	pair := &certificates{cert: w.tlsCert, key: w.tlsKey}
	if w.tlsCert != "" {
		if err := pair.load(); err != nil {
			return err
		}
		outer = pair.config()
	}
	defer pair.onHangup(f.log.note)()
	l, err := listen(f.context, w.listen, f.limits, outer == nil)
	if err != nil {
		return err
	}
	return f.serve(l, outer)
}
