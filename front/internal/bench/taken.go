package main

import (
	"os"
	"time"

	"tailnetd-front/internal/office"
)

// Taken is the time of processors that the front took, that this program did (its clients,
// the tap, and the stub where there is one), and that the host of a virtual machine kept
// from it.
type taken struct{ front, bench, host time.Duration }

func takenBy(s subject) taken {
	return taken{office.Processor(s.through().Pid()), office.Processor(os.Getpid()), office.Stolen()}
}

func (t taken) since(before taken) taken {
	return taken{t.front - before.front, t.bench - before.bench, t.host - before.host}
}

func (t taken) and(more taken) taken {
	return taken{t.front + more.front, t.bench + more.bench, t.host + more.host}
}
