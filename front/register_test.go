package main

import (
	"io"
	"net/http"
	"sync/atomic"
	"testing"
	"time"

	"tailnetd-front/internal/tailclient"
)

func TestFollowupIsHeld(t *testing.T) {
	waits := `{"AuthURL":"http://t/register/reg-1-0"}`
	for name, row := range map[string]struct {
		status      int
		answers     []string // the last is repeated
		hold        time.Duration
		least, most int // asks
	}{
		"until it is admitted":         {200, []string{waits, waits, `{"AuthURL":""}`}, time.Minute, 3, 3},
		"until it waits elsewhere":     {200, []string{waits, `{"AuthURL":"http://t/register/reg-2-0"}`}, time.Minute, 2, 2},
		"not if it doesn't wait":       {200, []string{`{"AuthURL":""}`}, time.Minute, 1, 1},
		"not if it is refused":         {401, []string{waits}, time.Minute, 1, 1},
		"not for longer than it holds": {200, []string{waits}, 90 * time.Millisecond, 1, 5}, // fewer on a busy machine
	} {
		row := row
		var asked atomic.Int32
		r := newRig(t, http.HandlerFunc(func(w http.ResponseWriter, r *http.Request) {
			n := int(asked.Add(1))
			if n > len(row.answers) {
				n = len(row.answers)
			}
			w.WriteHeader(row.status)
			io.WriteString(w, row.answers[n-1])
		}), func(l *limits) { l.again, l.hold = 20*time.Millisecond, row.hold })
		h := r.http(t, fill(1))
		got := whole(t, post(t, h, "/machine/register", `{"Followup":"http://t/register/reg-1-0"}`))
		if n := int(asked.Load()); got != row.answers[len(row.answers)-1] || n < row.least || n > row.most {
			t.Errorf("%s: %s after %d", name, got, n)
		}
	}
}

// A registration that is held when the front ends isn't answered.
func TestFollowupEndsWithTheFront(t *testing.T) {
	const waits = `{"AuthURL":"http://t/register/reg-1-0"}`
	asked := make(chan struct{}, 16)
	r := newRig(t, http.HandlerFunc(func(w http.ResponseWriter, r *http.Request) {
		io.WriteString(w, waits)
		asked <- struct{}{}
	}), nil)
	h := r.http(t, fill(1))
	go func() {
		<-asked
		time.Sleep(100 * time.Millisecond)
		r.stop()
	}()
	a, err := tailclient.Post(within(t, 5*time.Second), h, "/machine/register", `{"Followup":"http://t/register/reg-1-0"}`)
	if err == nil {
		t.Errorf("%s %q", a.Status, whole(t, a))
	}
}
