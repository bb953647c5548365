package main

import "net/netip"

// addressOf is the address of a far end; an IPv4 address is the same where it comes
// in IPv6.
func addressOf(remote string) netip.Addr {
	p, err := netip.ParseAddrPort(remote)
	if err != nil {
		return netip.Addr{}
	}
	return p.Addr().Unmap().WithZone("")
}

// networkOf is what limits count an address by: an address of IPv4 is one place, and
// of IPv6 anybody has 2^64 of a /64 (RFC 6177).
func networkOf(from netip.Addr) netip.Prefix {
	bits := from.BitLen()
	if from.Is6() {
		bits = 64
	}
	p, err := from.Prefix(bits)
	if err != nil {
		return netip.Prefix{}
	}
	return p
}
