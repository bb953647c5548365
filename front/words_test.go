package main

import (
	"errors"
	"strings"
	"testing"
)

func TestReadWords(t *testing.T) {
	was := words{listen: "127.0.0.1:8081", server: "127.0.0.1:8080", key: "front.key", polls: 1000, perAddress: 256}
	with := func(change func(*words)) words {
		w := was
		change(&w)
		return w
	}
	for line, want := range map[string]words{
		"":                         was,
		"--per-address 0":          with(func(w *words) { w.perAddress = 0 }),
		"--per-address=3":          with(func(w *words) { w.perAddress = 3 }),
		"--polls 60 --log x":       with(func(w *words) { w.polls, w.log = 60, "x" }),
		"--tls-cert a --tls-key b": with(func(w *words) { w.tlsCert, w.tlsKey = "a", "b" }),
		"--listen a:1 --server b:2 --key c --derp-map d": with(func(w *words) { w.listen, w.server, w.key, w.derpMap = "a:1", "b:2", "c", "d" }),
	} {
		if got, err := readWords(strings.Fields(line)); got != want || err != nil {
			t.Errorf("%s: %+v, %v", line, got, err)
		}
	}
}

func TestWrongWords(t *testing.T) {
	for _, line := range []string{
		"word", "--word", "--polls", "--polls x", "--polls 0", "--polls -1", "--per-address -1", "--per-address x", "--tls-cert a", "--tls-key a", "--key a b", "--listen x", "--server 127.0.0.1", "--listen",
	} {
		var wrong *wrongWords
		if _, err := readWords(strings.Fields(line)); !errors.As(err, &wrong) || strings.Contains(err.Error(), "\n") {
			t.Errorf("%s: %v", line, err)
		}
	}
}

func TestWordsThatAsk(t *testing.T) {
	for line, has := range map[string]string{
		"--version": "tailnetd-front " + version, "--help": "--per-address N", "-h": "--polls N", "--help --polls x": "--version",
	} {
		if got, err := readWords(strings.Fields(line)); err != nil || !strings.Contains(got.told, has) {
			t.Errorf("%s: %q, %v", line, got.told, err)
		}
	}
}
