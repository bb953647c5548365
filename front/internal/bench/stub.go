package main

import (
	"context"
	"fmt"
	"io"
	"net"
	"net/http"
	"path/filepath"
	"strings"
	"sync"

	"tailnetd-front/internal/office"
	"tailnetd-front/internal/tailclient"
)

// A stub answers machines as the server does: a whole map, and then a patch for each
// change, to one poll after the other, as their turns come in the server.
type stub struct {
	front   *office.Process
	all     []*office.Machine
	at      map[string]int // where each machine stands there, by its key
	address string         // its own
	outside string         // the front's
	most    int            // how many polls a change is told at most; 0: all

	mu     sync.Mutex
	server *http.Server
	rows   []string // of each machine, as peers see it
	polls  map[*told]struct{}
	seq    int
}

// Told is a poll of the stub.
type told struct {
	context.Context
	machine int
	frames  chan []byte
	written chan struct{}
}

func (r run) stubbed(ctx context.Context, folder string, most int, tapped string) (*stub, error) {
	s := &stub{at: map[string]int{}, polls: map[*told]struct{}{}, most: most}
	for n := 0; n < r.clients; n++ {
		m := office.NewMachine(tailclient.Dialer{Version: 113})
		s.at["mkey:"+m.Key.Public().Hex()] = n
		s.all = append(s.all, m)
		s.rows = append(s.rows, row(n+1, m, 41641))
	}
	var err error
	if s.address, err = office.FreeAddress(); err != nil {
		return nil, err
	}
	if s.outside, err = office.FreeAddress(); err != nil {
		return nil, err
	}
	if err := s.begin(); err != nil {
		return nil, err
	}
	if tapped == "" {
		tapped = s.address
	}
	s.front, err = office.Start(ctx, s.outside, r.front, "--listen", s.outside, "--server", tapped, "--key", filepath.Join(folder, "front.key"),
		"--per-address", "0", "--polls", fmt.Sprint(r.clients), "--log", filepath.Join(folder, "log"))
	if err != nil {
		s.server.Close()
		return nil, err
	}
	for _, m := range s.all {
		m.Dialer.Address = s.outside
	}
	return s, nil
}

// begin listens.
func (s *stub) begin() error {
	l, err := net.Listen("tcp", s.address)
	if err != nil {
		return err
	}
	s.server = &http.Server{Handler: s}
	go s.server.Serve(l)
	return nil
}

func (s *stub) name() string                { return "a stub" }
func (s *stub) operator() office.Operator   { return office.Operator(s.address) }
func (s *stub) through() *office.Process    { return s.front }
func (s *stub) dialer() tailclient.Dialer   { return s.all[0].Dialer }
func (s *stub) machines() []*office.Machine { return s.all }
func (s *stub) close()                      { s.front.Kill(); s.server.Close() }

// restart cuts all connections, and keeps what machines told, as a database does.
func (s *stub) restart(context.Context) error {
	s.server.Close()
	return s.begin()
}

func (s *stub) ServeHTTP(w http.ResponseWriter, r *http.Request) {
	body, err := io.ReadAll(r.Body)
	machine, isKnown := s.at[r.Header.Get("Ts-Machine-Key")]
	if err != nil || !isKnown {
		http.Error(w, `{"error":"UnknownMachine"}`, http.StatusUnauthorized)
		return
	}
	if !strings.Contains(string(body), `"Stream":true`) {
		s.mu.Lock()
		whole := s.whole(machine, "", "")
		s.mu.Unlock()
		w.Write(office.Frame([]byte(whole)))
		return
	}
	poll := &told{Context: r.Context(), machine: machine, frames: make(chan []byte), written: make(chan struct{})}
	s.mu.Lock()
	s.polls[poll] = struct{}{}
	first := s.whole(machine, `"MapSessionHandle":"s1-0000000000000001",`, fmt.Sprintf(`"Seq":%d,`, s.seq))
	s.mu.Unlock()
	defer func() {
		s.mu.Lock()
		delete(s.polls, poll)
		s.mu.Unlock()
	}()
	poll.follow(w, []byte(first))
}

// follow writes frames, until the poll ends.
func (p *told) follow(w http.ResponseWriter, first []byte) {
	w.Write(office.Frame(first))
	w.(http.Flusher).Flush()
	for {
		select {
		case <-p.Done():
			return
		case frame := <-p.frames:
			w.Write(frame)
			w.(http.Flusher).Flush()
			select {
			case <-p.Done():
				return
			case p.written <- struct{}{}:
			}
		}
	}
}

func (s *stub) change(_ context.Context, machine, number int) error {
	s.mu.Lock()
	s.seq++
	s.rows[machine] = row(machine+1, s.all[machine], number)
	own := office.Frame([]byte(fmt.Sprintf(`{"Node":%s,"Seq":%d}`, s.rows[machine], s.seq)))
	patch := office.Frame([]byte(fmt.Sprintf(`{"PeersChangedPatch":[{"Endpoints":["192.0.2.1:%d"],"NodeID":%d}],"Seq":%d}`, number, machine+1, s.seq)))
	polls := s.some()
	s.mu.Unlock()
	for _, poll := range polls {
		frame := patch
		if poll.machine == machine {
			frame = own
		}
		select {
		case <-poll.Done():
			continue
		case poll.frames <- frame:
		}
		select {
		case <-poll.Done():
		case <-poll.written:
		}
	}
	return nil
}

// some are the polls that a change is told, others each time if there are more.
func (s *stub) some() []*told {
	var polls []*told
	for poll := range s.polls {
		if polls = append(polls, poll); len(polls) == s.most {
			break
		}
	}
	return polls
}

// whole is a machine's map of all machines, as the server writes it.
func (s *stub) whole(machine int, handle, seq string) string {
	peers := ""
	if len(s.rows) > 1 {
		others := append(append([]string(nil), s.rows[:machine]...), s.rows[machine+1:]...)
		peers = `"Peers":[` + strings.Join(others, ",") + `],`
	}
	return fmt.Sprintf(`{"DNSConfig":{"Domains":["tail.example"],"ExtraRecords":[],"Proxied":true,"Resolvers":[],"Routes":{}},"Domain":"tail.example",%s"Node":%s,"PacketFilter":[],%s%s"UserProfiles":[{"DisplayName":"ann","ID":1,"LoginName":"ann@"}]}`,
		handle, s.rows[machine], peers, seq)
}

// row is a machine, as the server writes it.
func row(id int, m *office.Machine, port int) string {
	return fmt.Sprintf(`{"Addresses":["100.64.%[1]d.%[2]d/32","fd7a:115c:a1e0::%[3]x/128"],"AllowedIPs":["100.64.%[1]d.%[2]d/32","fd7a:115c:a1e0::%[3]x/128"],"Created":"2026-09-09T01:46:40Z","DiscoKey":"discokey:%[4]s","Endpoints":["192.0.2.1:%[6]d"],"HomeDERP":0,"Hostinfo":{"Hostname":"machine %[3]d"},"ID":%[3]d,"Key":"nodekey:%[4]s","KeyExpiry":"0001-01-01T00:00:00Z","Machine":"mkey:%[5]s","MachineAuthorized":true,"Name":"machine-%[3]d.tail.example.","Online":true,"StableID":"n%[3]d","Tags":[],"User":1}`,
		id/256, id%256, id, m.Node.Public().Hex(), m.Key.Public().Hex(), port)
}
