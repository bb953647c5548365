// Package clients has twenty clients over Noise talk to the built server through the
// built front. TAILNETD and TAILNETD_FRONT name the two programs; without them there is
// nothing to run.
package clients

import (
	"context"
	"encoding/json"
	"fmt"
	"net/http"
	"os"
	"strings"
	"testing"
	"time"

	"tailnetd-front/internal/office"
)

const policy = `{"acls":[{"action":"accept","src":["autogroup:member"],"dst":["*:*"]}]}`

// An opened office, for a test that ends in time.
type opened struct {
	*office.Office
	t        *testing.T
	ctx      context.Context
	machines []*office.Machine
	keys     []string
}

func open(t *testing.T) *opened {
	server, front := os.Getenv("TAILNETD"), os.Getenv("TAILNETD_FRONT")
	if server == "" || front == "" {
		t.Skip("TAILNETD and TAILNETD_FRONT don't name the programs")
	}
	ctx, cancel := context.WithTimeout(context.Background(), 2*time.Minute)
	o, err := office.Open(ctx, server, front, t.TempDir(), office.FewPolls, "")
	if err != nil {
		cancel()
		t.Fatal(err)
	}
	t.Cleanup(func() { cancel(); o.Close() })
	return &opened{Office: o, t: t, ctx: ctx}
}

func (o *opened) ask(method, path, body string) string {
	o.t.Helper()
	text, err := o.Ask(o.ctx, method, path, body)
	if err != nil {
		o.t.Fatal(err)
	}
	return text
}

// makeUsers makes two users, a key for each, and a policy.
func (o *opened) makeUsers() {
	o.t.Helper()
	for _, name := range []string{"ann", "bob"} {
		o.ask("POST", "/api/v1/user", fmt.Sprintf(`{"name":%q}`, name))
		key, err := o.Key(o.ctx, name+"@")
		if err != nil {
			o.t.Fatal(err)
		}
		o.keys = append(o.keys, key)
	}
	o.ask("PUT", "/api/v1/policy", policy)
}

// add registers a machine by a key, every other one with compressed frames.
func (o *opened) add() *office.Machine {
	o.t.Helper()
	n := len(o.machines)
	m := office.NewMachine(o.Dialer)
	m.Compress = n%2 == 0
	o.machines = append(o.machines, m)
	got := o.from(m, "/machine/register", fmt.Sprintf(`"Auth":{"AuthKey":%q},"Hostinfo":{"Hostname":"host %d"}`, o.keys[n%2], n))
	if !strings.Contains(got, `"MachineAuthorized":true`) {
		o.t.Fatalf("machine %d: %s", n, got)
	}
	return m
}

// from is a machine's request that has to be answered 200.
func (o *opened) from(m *office.Machine, path, members string) string {
	o.t.Helper()
	status, text, err := m.Ask(o.ctx, path, members)
	if err != nil || status != http.StatusOK {
		o.t.Fatalf("%s %s: %d %s %v", path, members, status, text, err)
	}
	return text
}

func (o *opened) agree(when string, machines []*office.Machine) {
	o.t.Helper()
	ctx, cancel := context.WithTimeout(o.ctx, 20*time.Second)
	defer cancel()
	if err := o.Agree(ctx, machines); err != nil {
		o.t.Fatalf("%s: %v", when, err)
	}
}

// waits is a machine without a key: what it is told, and that its next request is held
// until an operator lets it in.
func (o *opened) waits() *office.Machine {
	o.t.Helper()
	m := office.NewMachine(o.Dialer)
	const host = `"Hostinfo":{"Hostname":"waiting"}`
	var told struct{ AuthURL string }
	if err := json.Unmarshal([]byte(o.from(m, "/machine/register", host)), &told); err != nil {
		o.t.Fatal(err)
	}
	page, err := http.Get(told.AuthURL)
	if err != nil || page.StatusCode != http.StatusOK {
		o.t.Fatalf("%s: %v, %v", told.AuthURL, page, err)
	}
	page.Body.Close()
	admitted := make(chan error, 1)
	time.AfterFunc(time.Second, func() {
		id := told.AuthURL[strings.LastIndexByte(told.AuthURL, '/')+1:]
		_, err := o.Ask(o.ctx, "POST", "/api/v1/register", fmt.Sprintf(`{"id":%q,"user":"ann@"}`, id))
		admitted <- err
	})
	began := time.Now()
	got := o.from(m, "/machine/register", fmt.Sprintf(`"Followup":%q,%s`, told.AuthURL, host))
	if err := <-admitted; err != nil {
		o.t.Fatal(err)
	}
	if took := time.Since(began); took < time.Second || took > 10*time.Second || !strings.Contains(got, `"MachineAuthorized":true`) {
		o.t.Fatalf("a followup: %s after %v", got, took)
	}
	o.machines = append(o.machines, m)
	return m
}

// id is a machine's id, by the map that it has.
func (o *opened) id(m *office.Machine) string {
	o.t.Helper()
	var view struct{ Node struct{ ID int } }
	if err := json.Unmarshal([]byte(m.State().Map), &view); err != nil {
		o.t.Fatal(err)
	}
	return fmt.Sprint(view.Node.ID)
}

// until waits for what has to come.
func (o *opened) until(what string, is func() bool) {
	o.t.Helper()
	for end := time.Now().Add(20 * time.Second); !is(); time.Sleep(10 * time.Millisecond) {
		if time.Now().After(end) {
			o.t.Fatalf("it doesn't come: %s", what)
		}
	}
}

func TestTwentyClients(t *testing.T) {
	o := open(t)
	o.makeUsers()
	for len(o.machines) < 19 {
		o.add()
	}
	o.waits()
	for _, m := range o.machines {
		go m.Follow(o.ctx)
	}
	o.agree("all poll", o.machines)
	for n, m := range o.machines {
		if got := m.State().DERPMap; got != office.DERPMap {
			t.Errorf("machine %d: its DERP map is %s", n, got)
		}
	}

	for n, m := range o.machines {
		o.from(m, "/machine/map", fmt.Sprintf(`"OmitPeers":true,"Endpoints":["192.0.2.%d:41641","[2001:db8::%d]:41641"]`, n, n))
	}
	o.agree("endpoints", o.machines)
	for n, m := range o.machines[:6] {
		route := fmt.Sprintf("10.%d.0.0/16", n)
		o.from(m, "/machine/map", fmt.Sprintf(`"OmitPeers":true,"Endpoints":["192.0.2.%d:1"],"Hostinfo":{"RoutableIPs":[%q]}`, n, route))
		o.ask("POST", "/api/v1/node/"+o.id(m)+"/routes", fmt.Sprintf(`{"routes":[%q]}`, route))
		o.ask("POST", "/api/v1/node/"+o.id(m)+"/rename", fmt.Sprintf(`{"name":"router-%d"}`, n))
	}
	o.agree("routes", o.machines)
	o.ask("PUT", "/api/v1/policy", `{"acls":[{"action":"accept","src":["ann@"],"dst":["ann@:22"]},{"action":"accept","src":["bob@"],"dst":["10.0.0.0/8:*","bob@:*"]}]}`)
	o.agree("another policy", o.machines)
	o.ask("PUT", "/api/v1/policy", policy)

	for _, m := range o.machines[:5] {
		m.Cut()
	}
	o.agree("connections lost", o.machines)
	for n, m := range o.machines[:5] {
		if s := m.State(); s.Polls < 2 {
			t.Errorf("machine %d: %d polls", n, s.Polls)
		}
	}

	expired, removed, rest := o.machines[17], o.machines[18], append(append([]*office.Machine(nil), o.machines[:17]...), o.machines[19])
	o.ask("POST", "/api/v1/node/"+o.id(expired)+"/expire", `{}`)
	o.ask("DELETE", "/api/v1/node/"+o.id(removed), "")
	o.until("the expired one's poll ends", func() bool { return strings.Contains(expired.State().Refused, "NotLive") })
	o.until("the removed one's poll ends", func() bool { return strings.Contains(removed.State().Refused, "UnknownMachine") })
	o.agree("one expired and one removed", rest)
	if got := rest[0].State().Map; strings.Contains(got, expired.Key.Public().Hex()) || strings.Contains(got, removed.Key.Public().Hex()) {
		t.Error("an expired or removed machine is in a map")
	}

	for name, p := range map[string]*office.Process{"the front": o.Front, "the server": o.Server} {
		if err := p.Restart(o.ctx); err != nil {
			t.Fatal(err)
		}
		o.agree(name+" began anew", rest)
		o.ask("POST", "/api/v1/node/"+o.id(rest[0])+"/rename", fmt.Sprintf(`{"name":%q}`, strings.ReplaceAll(name, " ", "-")))
		o.agree("behind that", rest)
	}
	o.endsInOrder()
}

// endsInOrder looks at the log, and how the front ends amid polls.
func (o *opened) endsInOrder() {
	o.t.Helper()
	took, err := o.Front.Stop(o.ctx)
	if err != nil || took > 5*time.Second {
		o.t.Errorf("the front ended after %v: %v", took, err)
	}
	log, err := os.ReadFile(o.Log)
	if err != nil {
		o.t.Fatal(err)
	}
	for _, secret := range append([]string{"tnkey-", "mkey:", "nodekey:", "reg-", office.Token}, o.keys...) {
		if strings.Contains(string(log), secret) {
			o.t.Errorf("the log has %q", secret)
		}
	}
}

// Bodies up to 1 MiB are answered through the front as they are without it, whether the
// server reads them or not, and a longer one doesn't get there.
func TestLongBodies(t *testing.T) {
	o := open(t)
	o.makeUsers()
	m := o.add()
	node := `{"NodeKey":"nodekey:` + m.Node.Public().Hex() + `"`
	for _, row := range []struct{ path, begin, end string }{
		{"/machine/map", node + `,"ReadOnly":true,"Unknown":"`, `"}`},
		{"/machine/map", node + `,"Stream":"`, `"}`},
		{"/machine/map", `[`, ``},
		{"/machine/register", `{"NodeKey":"nodekey:00","Unknown":"`, `"}`},
		{"/machine/register", node, `}}`},
	} {
		const most = 1 << 20
		m.Cut() // of one connection the front reads 16 MiB in a minute
		body := row.begin + strings.Repeat("x", most-len(row.begin)-len(row.end)) + row.end
		for n := 0; n < 5; n++ {
			status, text, err := m.Send(o.ctx, row.path, body)
			wantStatus, want, wantErr := o.Send(o.ctx, m, row.path, body)
			if err != nil || wantErr != nil || status != wantStatus || text != want {
				t.Errorf("%s %.80s: %d %.200q %v, and without a front %d %.200q %v", row.path, row.begin, status, text, err, wantStatus, want, wantErr)
			}
		}
		if status, text, err := m.Send(o.ctx, row.path, body+" "); err != nil || status != http.StatusRequestEntityTooLarge {
			t.Errorf("a byte more: %d %.200q %v", status, text, err)
		}
	}
}

// A machine whose client has gone is offline soon, though nothing changes: the front
// closes its connection to the server, which looks at waiting polls each second.
func TestOfflineWhenGone(t *testing.T) {
	o := open(t)
	o.makeUsers()
	one, two := o.add(), o.add()
	go one.Follow(o.ctx)
	ctx, cancel := context.WithCancel(o.ctx)
	go two.Follow(ctx)
	o.agree("both poll", o.machines)
	online := `"Machine":"mkey:` + two.Key.Public().Hex() + `","MachineAuthorized":true,"Name":"host-1.tail.example.","Online":true`
	if got := one.State().Map; !strings.Contains(got, online) {
		t.Fatalf("it isn't online: %s", got)
	}
	cancel()
	began := time.Now()
	o.until("it is offline", func() bool { return !strings.Contains(one.State().Map, online) })
	t.Logf("it was offline after %v", time.Since(began).Round(time.Millisecond))
	o.agree("one is gone", o.machines[:1])
}
