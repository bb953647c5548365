package main

import (
	"context"
	"errors"
	"fmt"
	"io"
	"os"
	"path/filepath"
	"sync/atomic"
	"time"
)

const (
	// patience is how soon every client has to follow again.
	patience = 10 * time.Second
	// between is how long all goes well before the next restart.
	between = 6 * each
)

// restart kills the front and the server, in turn, while things change. Each time every
// client has to follow again, and once something has changed behind that, to have folded
// the server's map.
func (r run) restart(ctx context.Context, folder string, to io.Writer) error {
	folder = filepath.Join(folder, "restarts")
	if err := os.Mkdir(folder, 0o700); err != nil {
		return err
	}
	s, err := r.subject(ctx, folder, 0, "")
	if err != nil {
		return err
	}
	defer s.close()
	ctx, stop := context.WithCancel(ctx)
	defer stop()
	for n, m := range s.machines() {
		m.Compress = n%2 == 0
		go m.Follow(ctx)
	}
	if err := agree(ctx, s); err != nil {
		return fmt.Errorf("at the beginning: %w", err)
	}
	var all [2][]time.Duration
	names := [2]string{"the front", "the server"}
	for n := 0; n < r.restarts; n++ {
		took, err := r.restartOnce(ctx, s, n%2 == 0)
		if err != nil {
			return fmt.Errorf("restart %d, of %s: %w", n+1, names[n%2], err)
		}
		all[n%2] = append(all[n%2], took)
	}
	for n, took := range all {
		q := quantilesOf(took)
		fmt.Fprintf(to, "%d restarts of %s amid changes, %d clients of %s: all follow again after %v in the median and %v at worst, and have folded the server's maps\n",
			len(took), names[n], r.clients, s.name(), q.median().Round(time.Millisecond), q.worst().Round(time.Millisecond))
	}
	return nil
}

// restartOnce restarts one of the two while things change, and says after how long the
// last client followed again.
func (r run) restartOnce(ctx context.Context, s subject, front bool) (time.Duration, error) {
	var made atomic.Int64
	enough, ended := make(chan struct{}), make(chan struct{})
	go func() {
		defer close(ended)
		r.change(ctx, s, &made, enough)
	}()
	time.Sleep(between)
	began := time.Now()
	again := s.restart
	if front {
		again = s.through().Restart
	}
	err := again(ctx)
	var took time.Duration
	if err == nil {
		took, err = followAgain(s, began)
	}
	// One change more than the one that may have begun before.
	for behind := made.Load() + 2; err == nil && made.Load() < behind; time.Sleep(each / 10) {
		if time.Since(began) > 2*patience {
			err = errors.New("nothing changes any more")
		}
	}
	close(enough)
	<-ended
	if err != nil {
		return 0, err
	}
	return took, agree(ctx, s)
}

// followAgain waits until all clients follow since a time, and says after how long the
// last one did.
func followAgain(s subject, began time.Time) (last time.Duration, err error) {
	for n, m := range s.machines() {
		for !m.Follows().After(began) {
			if time.Since(began) > patience {
				return 0, fmt.Errorf("client %d doesn't follow after %v: %d polls", n, patience, m.State().Polls)
			}
			time.Sleep(5 * time.Millisecond)
		}
		if took := m.Follows().Sub(began); took > last {
			last = took
		}
	}
	return last, nil
}

// change makes changes until there are enough, and counts those that were taken: while
// the server begins anew none is.
func (r run) change(ctx context.Context, s subject, made *atomic.Int64, enough <-chan struct{}) {
	tick := time.NewTicker(r.every())
	defer tick.Stop()
	for {
		select {
		case <-enough:
			return
		case <-tick.C:
		}
		*r.numbers++
		if s.change(ctx, *r.numbers%r.clients, *r.numbers) == nil {
			made.Add(1)
		}
	}
}

// agree waits until all have folded the server's map. It takes its time to ask for each.
func agree(ctx context.Context, s subject) error {
	ctx, cancel := context.WithTimeout(ctx, time.Minute)
	defer cancel()
	return s.operator().Agree(ctx, s.machines())
}
