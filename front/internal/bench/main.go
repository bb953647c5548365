// Bench times the front beside plain polls of the same office: bench/front says how.
package main

import (
	"context"
	"flag"
	"fmt"
	"io"
	"os"
	"os/signal"
	"strconv"
	"time"
)

// A run is what the words ask.
type run struct {
	front, server string
	clients       int
	length        time.Duration
	each          time.Duration // from one change to the next; 0: as many as usual
	restarts      int
	numbers       *int // how many changes there were
}

func main() {
	r := run{numbers: new(int)}
	flag.StringVar(&r.front, "front", "", "the built front")
	flag.StringVar(&r.server, "server", "", "the built server, or stub")
	flag.DurationVar(&r.each, "each", 0, "from one change to the next")
	flag.Parse()
	var err error
	numbers := [3]int{}
	for n, word := range flag.Args() {
		if n >= len(numbers) {
			err = fmt.Errorf("%q is a word too many", word)
		} else if numbers[n], err = strconv.Atoi(word); err == nil && (numbers[n] < 0 || n == 0 && numbers[n] == 0) {
			err = fmt.Errorf("%q is too small", word)
		}
		if err != nil {
			break
		}
	}
	if err != nil || flag.NArg() < 2 {
		fmt.Fprintln(os.Stderr, "bench/front: [--each TIME] N SECONDS [RESTARTS]:", err)
		os.Exit(2)
	}
	r.clients, r.length, r.restarts = numbers[0], time.Duration(numbers[1])*time.Second, numbers[2]
	ctx, stop := signal.NotifyContext(context.Background(), os.Interrupt)
	defer stop()
	if err := r.do(ctx); err != nil {
		fmt.Fprintln(os.Stderr, "bench/front:", err)
		stop()
		os.Exit(1)
	}
}

func (r run) do(ctx context.Context) error {
	folder, err := os.MkdirTemp("", "bench-front")
	if err != nil {
		return err
	}
	defer os.RemoveAll(folder)
	if r.length > 0 {
		if err := r.measure(ctx, folder, os.Stdout); err != nil {
			return err
		}
	}
	if r.restarts > 0 {
		return r.restart(ctx, folder, os.Stdout)
	}
	return nil
}

// loadLine is how busy the machine is besides.
func loadLine(to io.Writer, when string) {
	text, err := os.ReadFile("/proc/loadavg")
	if err != nil {
		return
	}
	var one, five, fifteen string
	fmt.Sscan(string(text), &one, &five, &fifteen)
	fmt.Fprintf(to, "%s: load of the machine %s in the last minute, %s in five\n", when, one, five)
}
