package main

import (
	"bytes"
	"context"
	"errors"
	"fmt"
	"io"
	"net/http"
	"strconv"
	"strings"
	"sync"
	"time"

	"tailnetd-front/internal/office"
	"tailnetd-front/internal/tailclient"
)

const (
	// marker stands before the number of a change in each frame that tells of it.
	marker = `"192.0.2.1:`
	// keepAlive is a frame that the front adds, and the tap doesn't see.
	keepAlive = `{"KeepAlive":true}`
)

// Polls are those of one leg.
type polls struct {
	subject subject
	tap     *tap
	count   int
	front   bool
	numbers *int // how many changes there were, in all legs
	failed  chan error
	stop    context.CancelFunc

	mu     sync.Mutex
	began  map[int]time.Time // each change of the leg, by its number
	frames [][]frame         // of each machine's latest poll, but for keep-alives
	before []int             // how many of them had come when all was steady
	last   time.Time         // that a frame came
	steady bool              // all are there, and nothing is on its way
	closed bool
	ended  sync.WaitGroup
}

// A frame is when a client had it, decoded, and of which change it tells.
type frame struct {
	came   time.Time
	number int
}

func newPolls(s subject, t *tap, count int, front bool, numbers *int) *polls {
	return &polls{subject: s, tap: t, count: count, front: front, numbers: numbers, failed: make(chan error, count),
		began: map[int]time.Time{}, frames: make([][]frame, count), before: make([]int, count)}
}

// begin begins all polls, some at a time, and waits for the first frame of each.
func (p *polls) begin(ctx context.Context) error {
	ctx, p.stop = context.WithCancel(ctx)
	at, first := make(chan struct{}, 16), make(chan struct{}, p.count)
	for n := range p.frames {
		p.ended.Add(1)
		go func(n int) {
			defer p.ended.Done()
			at <- struct{}{}
			var once sync.Once
			err := p.stay(ctx, n, func() { once.Do(func() { <-at; first <- struct{}{} }) })
			if !p.is(&p.closed) {
				p.failed <- fmt.Errorf("a poll ended: %v", err)
			}
		}(n)
	}
	patience := p.patience(3 * time.Minute)
	late := time.After(patience)
	for n := 0; n < p.count; n++ {
		select {
		case <-first:
		case err := <-p.failed:
			return err
		case <-late:
			return fmt.Errorf("%d polls are up after %v", n, patience)
		}
	}
	return nil
}

// patience is for how long all polls are waited for: each that begins is told to all others,
// of whom the server makes a whole map each time.
func (p *polls) patience(least time.Duration) time.Duration {
	return least + time.Duration(p.count)*time.Second
}

// stay polls until the poll ends, once all is steady. Before, a poll that finds no room,
// since the server hasn't noticed the end of others, ends and begins again.
func (p *polls) stay(ctx context.Context, n int, came func()) error {
	for {
		err := p.poll(ctx, n, came)
		if err != nil || ctx.Err() != nil || p.is(&p.steady) {
			return err
		}
		time.Sleep(200 * time.Millisecond)
	}
}

func (p *polls) poll(ctx context.Context, n int, came func()) error {
	p.forget(n)
	m := p.subject.machines()[n]
	members := `"NodeKey":"nodekey:` + m.Node.Public().Hex() + `","Stream":true`
	var answer *http.Response
	if p.front {
		c, err := p.subject.dialer().Connect(ctx, m.Key)
		if err != nil {
			return err
		}
		defer c.Close()
		h, err := c.HTTP()
		if err != nil {
			return err
		}
		if answer, err = tailclient.Post(ctx, h, "/machine/map", `{`+members+`,"Compress":"zstd"}`); err != nil {
			return err
		}
	} else {
		r, err := http.NewRequestWithContext(ctx, "POST", "http://"+p.tap.address()+"/machine/map", strings.NewReader(`{`+members+`}`))
		if err != nil {
			return err
		}
		r.Header.Set("Ts-Machine-Key", "mkey:"+m.Key.Public().Hex())
		if answer, err = (&http.Transport{DisableKeepAlives: true, DisableCompression: true}).RoundTrip(r); err != nil {
			return err
		}
	}
	defer answer.Body.Close()
	if answer.StatusCode != http.StatusOK {
		b, _ := io.ReadAll(answer.Body)
		return fmt.Errorf("%s %s", answer.Status, b)
	}
	return office.ReadFrames(answer.Body, p.front, func(text []byte) error {
		p.came(n, text, time.Now())
		came()
		return nil
	})
}

// forget forgets the frames of a machine's last poll.
func (p *polls) forget(n int) {
	p.mu.Lock()
	defer p.mu.Unlock()
	p.frames[n] = nil
}

// came notes a frame.
func (p *polls) came(n int, text []byte, now time.Time) {
	if string(text) == keepAlive {
		return
	}
	number := numberIn(text)
	p.mu.Lock()
	defer p.mu.Unlock()
	p.last = now
	p.frames[n] = append(p.frames[n], frame{now, number})
}

// numberIn is that of the change which a frame tells, 0 if none: a whole map tells of all.
func numberIn(frame []byte) int {
	at := bytes.Index(frame, []byte(marker))
	if at < 0 || len(frame) > 4096 {
		return 0
	}
	digits := frame[at+len(marker):]
	number, err := strconv.Atoi(string(digits[:bytes.IndexByte(digits, '"')]))
	if err != nil {
		return 0
	}
	return number
}

// next begins a change, and gives its number, which no change before has had.
func (p *polls) next() int {
	p.mu.Lock()
	defer p.mu.Unlock()
	*p.numbers++
	p.began[*p.numbers] = time.Now()
	return *p.numbers
}

// settle waits until no frame has come for a while: others are told that a poll begins,
// and the last frames may be on their way. From then on all has to be steady.
func (p *polls) settle(ctx context.Context) error {
	for end := time.Now().Add(p.patience(time.Minute)); time.Now().Before(end); {
		select {
		case <-ctx.Done():
			return ctx.Err()
		case err := <-p.failed:
			return err
		case <-time.After(50 * time.Millisecond):
		}
		if p.isStill() {
			return nil
		}
	}
	return errors.New("frames come and come, though nothing changes")
}

// isStill says whether no frame has come for a while.
func (p *polls) isStill() bool {
	p.mu.Lock()
	defer p.mu.Unlock()
	if time.Since(p.last) < 500*time.Millisecond {
		return false
	}
	if !p.steady {
		p.steady = true
		for n, frames := range p.frames {
			p.before[n] = len(frames)
		}
	}
	return true
}

// matched gives what the clients saw of the frames that came since all was steady. Of each
// client they are the same ones, in the same order, that passed the tap.
func (p *polls) matched() (s seen, err error) {
	p.mu.Lock()
	defer p.mu.Unlock()
	for n, frames := range p.frames {
		passed := p.tap.of(p.subject.machines()[n])
		if len(passed) != len(frames) {
			return s, fmt.Errorf("machine %d: %d frames passed, and it had %d", n, len(passed), len(frames))
		}
		for at := p.before[n]; at < len(frames); at++ {
			had, tap := frames[at], passed[at]
			if had.number != tap.number {
				return s, fmt.Errorf("machine %d: frame %d tells of change %d, and of %d where it passed", n, at+1, had.number, tap.number)
			}
			s.tapped = append(s.tapped, had.came.Sub(tap.came))
			s.within = append(s.within, tap.gone.Sub(tap.came))
			if began, ok := p.began[had.number]; ok {
				s.told = append(s.told, had.came.Sub(began))
			}
		}
	}
	return s, nil
}

func (p *polls) lastCame() time.Time {
	p.mu.Lock()
	defer p.mu.Unlock()
	return p.last
}

func (p *polls) is(state *bool) bool {
	p.mu.Lock()
	defer p.mu.Unlock()
	return *state
}

// close ends all polls, and waits for it.
func (p *polls) close() {
	p.mu.Lock()
	p.closed = true
	p.mu.Unlock()
	if p.stop != nil {
		p.stop()
		p.ended.Wait()
	}
}
