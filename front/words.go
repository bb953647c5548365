package main

import (
	"errors"
	"flag"
	"fmt"
	"io"
	"net"
	"runtime"
)

// Words are the words of the command.
type words struct {
	listen, server, key, tlsCert, tlsKey, derpMap, log string
	polls                                              int64
	perAddress                                         int
	told                                               string // what --help or --version asks for
}

const help = `tailnetd-front stands between Tailscale's clients and tailnetd. Its words:

  --listen ADDR      where clients reach it (127.0.0.1:8081)
  --server ADDR      where tailnetd listens (127.0.0.1:8080)
  --key FILE         its private key, made if it isn't there (front.key)
  --tls-cert FILE    certificates; without them the outside isn't TLS
  --tls-key FILE     the certificate's key
  --derp-map FILE    relays for clients, a tailcfg.DERPMap in JSON
  --polls N          polls at once, at most tailnetd's workers less 4 (1000)
  --per-address N    connections of one IPv4 address or IPv6 /64 (256); 0: no limit
                     of any kind by address, as behind a proxy
  --log FILE         where requests are written to; else standard error
  --help, --version  say this, and the version
`

func readWords(args []string) (words, error) {
	var w words
	var told bool
	limits := defaultLimits()
	set := flag.NewFlagSet("tailnetd-front", flag.ContinueOnError)
	set.SetOutput(io.Discard)
	set.StringVar(&w.listen, "listen", "127.0.0.1:8081", "")
	set.StringVar(&w.server, "server", "127.0.0.1:8080", "")
	set.StringVar(&w.key, "key", "front.key", "")
	set.StringVar(&w.tlsCert, "tls-cert", "", "")
	set.StringVar(&w.tlsKey, "tls-key", "", "")
	set.StringVar(&w.derpMap, "derp-map", "", "")
	set.Int64Var(&w.polls, "polls", limits.polls, "")
	set.IntVar(&w.perAddress, "per-address", limits.perAddress, "")
	set.StringVar(&w.log, "log", "", "")
	set.BoolVar(&told, "version", false, "")
	switch err := set.Parse(args); {
	case errors.Is(err, flag.ErrHelp):
		return words{told: help}, nil
	case err != nil:
		return words{}, &wrongWords{err.Error()}
	case told:
		return words{told: fmt.Sprintf("tailnetd-front %s (%s)\n", version, runtime.Version())}, nil
	case set.NArg() > 0:
		return words{}, &wrongWords{fmt.Sprintf("%q isn't a word of the command", set.Arg(0))}
	}
	if err := w.check(); err != nil {
		return words{}, err
	}
	return w, nil
}

// check says what is wrong with words that were read.
func (w words) check() error {
	for name, address := range map[string]string{"--listen": w.listen, "--server": w.server} {
		if _, _, err := net.SplitHostPort(address); err != nil {
			return &wrongWords{fmt.Sprintf("%s %q isn't a host and a port, as 127.0.0.1:8080", name, address)}
		}
	}
	switch {
	case w.polls < 1:
		return &wrongWords{"--polls is at least 1"}
	case w.perAddress < 0:
		return &wrongWords{"--per-address is at least 0"}
	case (w.tlsCert == "") != (w.tlsKey == ""):
		return &wrongWords{"--tls-cert and --tls-key belong together"}
	}
	return nil
}
