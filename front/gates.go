package main

import (
	"net/netip"
	"sync"
	"sync/atomic"
)

// A gate lets in as much as it has room for, and never waits.
type gate struct {
	room int64
	in   atomic.Int64
}

func (g *gate) enter(n int64) bool {
	if g.in.Add(n) > g.room {
		g.in.Add(-n)
		return false
	}
	return true
}

func (g *gate) leave(n int64) { g.in.Add(-n) }

// Places are a gate that also counts by network.
type places struct {
	most, ofOne int // ofOne is 0 where there is no limit by network

	mu  sync.Mutex
	all int
	of  map[netip.Prefix]int
}

func newPlaces(most, ofOne int) *places {
	return &places{most: most, ofOne: ofOne, of: make(map[netip.Prefix]int)}
}

// enter says whether there is room for one more of a network, and takes it.
func (p *places) enter(from netip.Prefix) bool {
	p.mu.Lock()
	defer p.mu.Unlock()
	if p.all >= p.most || p.ofOne > 0 && p.of[from] >= p.ofOne {
		return false
	}
	p.all++
	p.of[from]++
	return true
}

func (p *places) leave(from netip.Prefix) {
	p.mu.Lock()
	defer p.mu.Unlock()
	p.all--
	if p.of[from]--; p.of[from] == 0 {
		delete(p.of, from)
	}
}

// taken is how many places are taken.
func (p *places) taken() int {
	p.mu.Lock()
	defer p.mu.Unlock()
	return p.all
}
