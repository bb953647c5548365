package main

import (
	"strings"
	"testing"
	"time"
)

func TestQuantilesOf(t *testing.T) {
	var all []time.Duration
	for n := 2000; n > 0; n-- {
		all = append(all, time.Duration(n))
	}
	if got := quantilesOf(all); got != (quantiles{1001, 1981, 1999, 2000}) {
		t.Errorf("%d", got)
	}
	if got := quantilesOf([]time.Duration{7}); got != (quantiles{7, 7, 7, 7}) {
		t.Errorf("%d", got)
	}
	if got := quantilesOf(nil); got != (quantiles{}) {
		t.Errorf("%d", got)
	}
}

// The worst of all rounds is the worst of any, and what the host kept is the sum.
func TestTable(t *testing.T) {
	of := func(all ...time.Duration) (s seen) {
		for _, one := range all {
			s.tapped = append(s.tapped, one*time.Millisecond)
		}
		s.length = 2 * time.Second
		s.taken.front = time.Second / 2
		return s
	}
	held := of(90, 1)
	held.taken.host = 70 * time.Millisecond
	got := table([]round{{of(1), of(2, 3, 4)}, {of(1), held}})
	for _, want := range []string{
		"round 1: from the tap by the front       3.00     4.00     4.00     4.00        3      0\n",
		"round 2: from the tap by the front      90.00    90.00    90.00    90.00        2     70\n",
		"all: from the tap by the front           3.00    90.00    90.00    90.00        5     70\n",
		"     from the tap without the front      1.00     1.00     1.00     1.00        2      0\n",
		"for 4s in all, the front took 25.0 % of a processor;",
	} {
		if !strings.Contains(got, want) {
			t.Errorf("no %q in\n%s", want, got)
		}
	}
}

func TestNumberIn(t *testing.T) {
	for frame, want := range map[string]int{
		`{"PeersChangedPatch":[{"Endpoints":["192.0.2.1:77"],"NodeID":3}],"Seq":9}`: 77,
		`{"KeepAlive":true}`:  0,
		`{"A":"192.0.2.1:x"}`: 0,
		`{"Endpoints":["192.0.2.1:77"]` + strings.Repeat(" ", 4096) + `}`: 0,
	} {
		if got := numberIn([]byte(frame)); got != want {
			t.Errorf("%.80s: %d", frame, got)
		}
	}
}
