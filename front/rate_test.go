package main

import (
	"fmt"
	"net/netip"
	"testing"
	"time"
)

func TestRate(t *testing.T) {
	type take struct {
		at time.Duration
		n  int64
		ok bool
	}
	for name, takes := range map[string][]take{
		"to the last":             {{0, 10, true}, {0, 1, false}},
		"one too large":           {{0, 11, false}, {0, 10, true}},
		"what is refused is none": {{0, 6, true}, {0, 6, false}, {0, 4, true}, {0, 1, false}},
		"a minute later":          {{0, 10, true}, {59 * time.Second, 1, false}, {60 * time.Second, 10, true}, {61 * time.Second, 1, false}},
		"by and by":               {{0, 5, true}, {30 * time.Second, 5, true}, {59 * time.Second, 1, false}, {60 * time.Second, 5, true}, {89 * time.Second, 1, false}, {90 * time.Second, 5, true}},
		"over two minutes' edge":  {{58 * time.Second, 10, true}, {62 * time.Second, 1, false}, {118 * time.Second, 10, true}},
		"much later":              {{0, 10, true}, {time.Hour, 10, true}, {time.Hour + time.Second, 1, false}},
	} {
		r := newRate(10, time.Minute)
		for _, x := range takes {
			if got := r.take(r.start.Add(x.at), x.n); got != x.ok {
				t.Errorf("%s: %d after %v: %v", name, x.n, x.at, got)
			}
		}
	}
}

func TestRates(t *testing.T) {
	now := time.Now()
	r := newRates(2, time.Minute, 3)
	of := func(n int) netip.Prefix { return networkOf(netip.MustParseAddr(fmt.Sprintf("192.0.2.%d", n))) }
	for n, row := range []struct {
		from int
		at   time.Duration
		ok   bool
	}{
		{1, 0, true}, {1, 0, true}, {1, 0, false}, {2, 0, true}, {3, 0, true},
		{4, time.Second, false}, // there is no room for a fourth
		{1, 61 * time.Second, true},
		{4, 62 * time.Second, true}, // two of them are forgotten
	} {
		if got := r.take(of(row.from), now.Add(row.at)); got != row.ok {
			t.Errorf("%d: %+v: %v", n, row, got)
		}
	}
	if len(r.of) != 2 {
		t.Errorf("%d are kept", len(r.of))
	}
}

func TestNetworkOf(t *testing.T) {
	for _, row := range []struct {
		a, b string
		same bool
	}{
		{"192.0.2.1:1", "192.0.2.1:2", true},
		{"192.0.2.1:1", "192.0.2.2:1", false},
		{"192.0.2.1:1", "[::ffff:192.0.2.1]:1", true},
		{"[::ffff:192.0.2.1]:1", "[::ffff:192.0.2.2]:1", false},
		{"[2001:db8::1]:1", "[2001:db8::ffff:0:0:1]:1", true},
		{"[2001:db8::1]:1", "[2001:db8:0:1::1]:1", false},
		{"[fe80::1%eth0]:1", "[fe80::2%eth1]:1", true},
		{"nothing", "192.0.2.1:1", false},
	} {
		a, b := networkOf(addressOf(row.a)), networkOf(addressOf(row.b))
		if (a == b) != row.same {
			t.Errorf("%s and %s: %v and %v", row.a, row.b, a, b)
		}
	}
}

func TestConnsOfOneNetwork(t *testing.T) {
	for _, row := range []struct{ most, perAddress, networks, want int }{
		{100, 3, 1, 3}, {100, 3, 2, 6}, {100, 256, 1, 20}, {100, 0, 2, 40}, {10, 0, 1, 10}, {4, 3, 2, 4},
	} {
		c, got := newPlaces(row.most, row.perAddress), 0
		for n := 0; n < 20*row.networks; n++ {
			if c.enter(networkOf(netip.MustParseAddr(fmt.Sprintf("2001:db8:0:%d::%d", n%row.networks, n)))) {
				got++
			}
		}
		if got != row.want {
			t.Errorf("%+v: %d", row, got)
		}
	}
}
