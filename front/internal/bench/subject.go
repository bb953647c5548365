package main

import (
	"context"

	"tailnetd-front/internal/office"
	"tailnetd-front/internal/tailclient"
)

// A subject is what is polled, with a front before it.
type subject interface {
	name() string
	operator() office.Operator   // of its own address
	through() *office.Process    // the front
	dialer() tailclient.Dialer   // to the front
	machines() []*office.Machine // that may poll
	// change has a machine tell an endpoint with a number, which others are told.
	change(ctx context.Context, machine, number int) error
	// restart kills the server, and starts it again.
	restart(ctx context.Context) error
	close()
}

// isStubbed says whether it is a stub: where the words say so, or the server hasn't the
// workers.
func (r run) isStubbed() bool { return r.server == "stub" || r.clients > office.MostPolls }

// subject begins it. A stub tells a change to so many clients at most, 0 for all. The front
// finds it at tapped, or where that is empty at its own address.
func (r run) subject(ctx context.Context, folder string, most int, tapped string) (subject, error) {
	if r.isStubbed() {
		return r.stubbed(ctx, folder, most, tapped)
	}
	return r.served(ctx, folder, tapped)
}
