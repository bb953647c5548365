package office

import (
	"context"
	"fmt"
	"os"
	"path/filepath"
	"strings"
	"time"

	"tailnetd-front/internal/tailclient"
)

// FewPolls are enough for tests, and their workers few enough for any limit of
// descriptors. MostPolls are as many as a server has workers for.
const (
	FewPolls  = 60
	MostPolls = mostWorkers - spare

	mostWorkers = 1024
	spare       = 4 // workers for what is short, beside the polls
)

// workersFor is the setting workers for so many polls: twice as many if that can be, so
// that polls that begin don't wait until the server has noticed the end of others.
func workersFor(polls int) int {
	if workers := 2*polls + spare; workers < mostWorkers {
		return workers
	}
	return mostWorkers
}

// DERPMap is what the fronts here give their clients.
const DERPMap = `{"Regions":{"900":{"RegionID":900,"RegionCode":"own","RegionName":"Own","Nodes":[]}}}`

// An Office is a server, the front before it, and their folder.
type Office struct {
	Operator
	Server, Front *Process
	Dialer        tailclient.Dialer
	Log           string
}

// Open starts both programs in a folder, for so many polls at once. The front finds the
// server at tapped, or where that is empty at its own address.
func Open(ctx context.Context, server, front, folder string, polls int, tapped string) (*Office, error) {
	at, err := FreeAddress()
	if err != nil {
		return nil, err
	}
	outside, err := FreeAddress()
	if err != nil {
		return nil, err
	}
	settings := fmt.Sprintf("base_domain = \"tail.example\"\nserver_url = \"http://%s\"\ntoken = %q\ndatabase = %q\nlisten = %q\nworkers = %d\npoll_turns = 1000000\n",
		outside, Token, filepath.Join(folder, "tailnet.db"), at, workersFor(polls))
	files := map[string]string{"serve.toml": settings, "derp.json": DERPMap}
	for name, text := range files {
		if err := os.WriteFile(filepath.Join(folder, name), []byte(text), 0o600); err != nil {
			return nil, err
		}
	}
	o := &Office{Operator: Operator(at), Log: filepath.Join(folder, "log")}
	if o.Server, err = Start(ctx, at, server, "serve", filepath.Join(folder, "serve.toml")); err != nil {
		return nil, err
	}
	if tapped == "" {
		tapped = at
	}
	o.Front, err = Start(ctx, outside, front, "--listen", outside, "--server", tapped, "--key", filepath.Join(folder, "front.key"),
		"--derp-map", filepath.Join(folder, "derp.json"), "--polls", fmt.Sprint(polls), "--per-address", "0", "--log", o.Log)
	if err != nil {
		o.Server.Kill()
		return nil, err
	}
	o.Dialer = tailclient.Dialer{Address: outside, Version: 113}
	return o, nil
}

// Close ends both.
func (o *Office) Close() {
	o.Front.Kill()
	o.Server.Kill()
}

// Agree waits until each of the machines has folded the map that the server answers a
// plain request of it.
func (o Operator) Agree(ctx context.Context, machines []*Machine) error {
	for n, m := range machines {
		for {
			want, err := o.Map(ctx, m)
			s := m.State()
			if s.Fault != nil {
				return s.Fault
			}
			if err == nil && s.Map == want {
				break
			}
			select {
			case <-ctx.Done():
				return fmt.Errorf("machine %d (refused: %q, %d polls, %d frames): %w\nfolded %.2000s\nplain  %.2000s\n%s", n, s.Refused, s.Polls, s.Frames, ctx.Err(), s.Map, want, difference(s.Map, want))
			case <-time.After(20 * time.Millisecond):
			}
		}
	}
	return nil
}

// difference shows where two texts part.
func difference(a, b string) string {
	n := 0
	for n < len(a) && n < len(b) && a[n] == b[n] {
		n++
	}
	from := n - 40
	if from < 0 {
		from = 0
	}
	cut := func(s string) string {
		if len(s) > n+80 {
			s = s[:n+80]
		}
		return strings.TrimSpace(s[from:])
	}
	return fmt.Sprintf("they part at %q and %q", cut(a), cut(b))
}
