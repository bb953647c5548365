package main

import (
	"context"
	"fmt"
	"io"
	"time"

	"tailnetd-front/internal/office"
)

const (
	// each is from one change to the next, where no more than manyTold clients are told.
	each     = 50 * time.Millisecond
	manyTold = 200
	// leastLeg is how long things change in a leg at least, and mostRounds how many rounds
	// there are at most.
	leastLeg   = 5 * time.Second
	mostRounds = 6
	// leave is what the server takes to notice that polls have ended.
	leave = 2 * time.Second
	// leastIdle is how long idle polls are held at least: each has a keep-alive meanwhile.
	leastIdle = 60 * time.Second
)

// every is from one change to the next. Unless the words say it, it is the longer the more
// clients are told, so that frames come as often.
func (r run) every() time.Duration {
	switch {
	case r.each > 0:
		return r.each
	case r.isStubbed():
		return each
	}
	return each * time.Duration((r.clients+manyTold-1)/manyTold)
}

// measure has rounds of polls beside the front and through it, and prints what they saw.
// The last polls are then held while nothing changes.
func (r run) measure(ctx context.Context, folder string, to io.Writer) error {
	t, err := newTap()
	if err != nil {
		return err
	}
	defer t.close()
	count := int(r.length / leastLeg)
	if count > mostRounds {
		count = mostRounds
	} else if count < 1 {
		count = 1
	}
	r.length /= time.Duration(count)
	loadLine(to, "at the start")
	began := time.Now()
	s, err := r.subject(ctx, folder, manyTold, t.address())
	if err != nil {
		return err
	}
	defer s.close()
	t.before(string(s.operator()))
	fmt.Fprintf(to, "%d clients of %s, there after %v; a change each %v, for %v in each of %d rounds, without the front and through it\n",
		r.clients, s.name(), time.Since(began).Round(10*time.Millisecond), r.every(), r.length, count)
	rounds, last, err := r.rounds(ctx, s, t, count)
	defer last.end()
	if err != nil {
		return err
	}
	io.WriteString(to, table(rounds))
	fmt.Fprintf(to, "the front brought %d polls up in %v with %.2f s of a processor, and holds %s\n", r.clients, last.up.Round(10*time.Millisecond), last.beginning.Seconds(), office.Memory(s.through().Pid()))
	err = r.idle(ctx, s, to)
	loadLine(to, "at the end")
	return err
}

// rounds are legs beside the front and through it, in turn. The polls of the last one
// are left as they are.
func (r run) rounds(ctx context.Context, s subject, t *tap, count int) (all []round, last leg, err error) {
	for len(all) < count {
		last.end()
		plain, err := r.leg(ctx, s, t, false)
		plain.end()
		if err != nil {
			return all, leg{}, err
		}
		if last, err = r.leg(ctx, s, t, true); err != nil {
			return all, last, err
		}
		all = append(all, round{plain.seen, last.seen})
	}
	return all, last, nil
}

// A leg is polls of one way and what they saw, how long they took to be there, and what
// the front took of a processor for it.
type leg struct {
	*polls
	seen
	up, beginning time.Duration
}

// end ends its polls, if there are any, and waits until the server has noticed.
func (l leg) end() {
	if l.polls == nil {
		return
	}
	l.close()
	time.Sleep(leave)
}

// leg has polls up and makes changes for a while.
func (r run) leg(ctx context.Context, s subject, t *tap, front bool) (l leg, err error) {
	l.polls = newPolls(s, t, r.clients, front, r.numbers)
	began, taken := time.Now(), takenBy(s)
	if err := l.begin(ctx); err != nil {
		return l, err
	}
	l.up = time.Since(began)
	if err := l.settle(ctx); err != nil {
		return l, err
	}
	l.beginning = takenBy(s).front - taken.front
	began, taken = time.Now(), takenBy(s)
	if err := r.changes(ctx, s, l.polls); err != nil {
		return l, err
	}
	if err := l.settle(ctx); err != nil {
		return l, err
	}
	if l.seen, err = l.matched(); err != nil {
		return l, err
	}
	l.taken, l.length = takenBy(s).since(taken), l.lastCame().Sub(began)
	return l, nil
}

// changes makes them, the same in each leg, whose numbers alone are others.
func (r run) changes(ctx context.Context, s subject, p *polls) error {
	tick := time.NewTicker(r.every())
	defer tick.Stop()
	for end, n := time.Now().Add(r.length), 0; time.Now().Before(end); n++ {
		select {
		case <-ctx.Done():
			return ctx.Err()
		case err := <-p.failed:
			return err
		case <-tick.C:
		}
		number := p.next()
		if err := s.change(ctx, n%r.clients, number); err != nil {
			return err
		}
	}
	return nil
}

// idle holds the polls that there are, and changes nothing.
func (r run) idle(ctx context.Context, s subject, to io.Writer) error {
	length := r.length
	if length < leastIdle {
		length = leastIdle
	}
	before := takenBy(s).front
	select {
	case <-ctx.Done():
		return ctx.Err()
	case <-time.After(length):
	}
	took := takenBy(s).front - before
	fmt.Fprintf(to, "idle for %v, %d clients cost the front %.2f %% of a processor; it holds %s\n", length, r.clients, 100*took.Seconds()/length.Seconds(), office.Memory(s.through().Pid()))
	return nil
}
