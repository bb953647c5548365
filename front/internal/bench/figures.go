package main

import (
	"fmt"
	"sort"
	"strings"
	"time"
)

// Quantiles of durations: what half of them, 99 %, 99.9 % and all are within.
type quantiles [4]time.Duration

func quantilesOf(all []time.Duration) (q quantiles) {
	if len(all) == 0 {
		return q
	}
	sort.Slice(all, func(i, j int) bool { return all[i] < all[j] })
	for n, thousandths := range []int{500, 990, 999, 1000} {
		if q[n] = all[len(all)-1]; thousandths < 1000 {
			q[n] = all[len(all)*thousandths/1000]
		}
	}
	return q
}

func (q quantiles) median() time.Duration { return q[0] }
func (q quantiles) worst() time.Duration  { return q[3] }

// String has them in milliseconds.
func (q quantiles) String() string {
	var b strings.Builder
	for _, d := range q {
		fmt.Fprintf(&b, " %8.2f", float64(d)/float64(time.Millisecond))
	}
	return b.String()
}

// Seen is what the clients of one leg saw of frames while things changed.
type seen struct {
	tapped []time.Duration // from the tap, as a frame's last byte came there, until a client had the frame
	within []time.Duration // of that, in the tap itself
	told   []time.Duration // from the change of which a frame tells until a client had it
	length time.Duration   // until the last frame
	taken  taken           // of processors meanwhile
}

func (s *seen) add(more seen) {
	s.tapped = append(s.tapped, more.tapped...)
	s.within = append(s.within, more.within...)
	s.told = append(s.told, more.told...)
	s.length += more.length
	s.taken = s.taken.and(more.taken)
}

// A round is what clients saw of plain polls, and then of polls through the front.
type round struct{ plain, front seen }

// table says what the clients saw: how long the front had each frame, in each round and in
// all, what a tap and a client take without it, and how late frames were in all.
func table(rounds []round) string {
	var b strings.Builder
	line := func(name string, all []time.Duration, host time.Duration) {
		fmt.Fprintf(&b, "%-36s%s %8d %6d\n", name, quantilesOf(all), len(all), host.Milliseconds())
	}
	fmt.Fprintf(&b, "%-36s   median     99 %%   99.9 %%    worst   frames stolen\n", "milliseconds")
	var plain, front seen
	for n, r := range rounds {
		line(fmt.Sprintf("round %d: from the tap by the front", n+1), r.front.tapped, r.front.taken.host)
		plain.add(r.plain)
		front.add(r.front)
	}
	line("all: from the tap by the front", front.tapped, front.taken.host)
	line("     of that in the tap", front.within, front.taken.host)
	line("     from the tap without the front", plain.tapped, plain.taken.host)
	line("     from the change by the front", front.told, front.taken.host)
	line("     from the change without it", plain.told, plain.taken.host)
	fmt.Fprintf(&b, "while things changed, for %v in all, the front took %.1f %% of a processor; clients, tap and all else here %.1f %%, and %.1f %% without the front\n", front.length.Round(100*time.Millisecond),
		percent(front.taken.front, front.length), percent(front.taken.bench, front.length), percent(plain.taken.bench, plain.length))
	return b.String()
}

func percent(part, whole time.Duration) float64 {
	if whole <= 0 {
		return 0
	}
	return 100 * part.Seconds() / whole.Seconds()
}
