// Tailnetd-front stands between Tailscale's own clients and tailnetd: it ends the
// clients' Noise transport, proves their machine keys by it, and hands their
// requests on as plain HTTP/1.1 with the proved key in Ts-Machine-Key.
//
// A connection goes through these files, in order: listener.go (how many may
// come), outside.go (plain HTTP/1.1: /key, the page of a registration, /health),
// upgrade.go and handshake.go (/ts2021), records.go (what Noise carries),
// inside.go (HTTP/2 within it), body.go and request.go (what is asked), register.go
// and maps.go (to tailnetd, by server.go), frames.go and relay.go (and back), reply.go
// and watch.go (to the client, in time). What is counted stands in limits.go, gates.go,
// rate.go and streams.go.
//
// Where a rule comes from outside, its comment names the public source: a package of
// Tailscale's client (tailscale.com/control/controlbase and its neighbours), or an
// RFC.
package main
