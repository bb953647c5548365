package main

import (
	"context"
	"fmt"

	"tailnetd-front/internal/office"
	"tailnetd-front/internal/tailclient"
)

// Served is the built server with its office.
type served struct {
	*office.Office
	all []*office.Machine
}

func (r run) served(ctx context.Context, folder, tapped string) (*served, error) {
	o, err := office.Open(ctx, r.server, r.front, folder, r.clients, tapped)
	if err != nil {
		return nil, err
	}
	s := &served{Office: o}
	if err := s.register(ctx, r.clients); err != nil {
		o.Close()
		return nil, err
	}
	return s, nil
}

func (s *served) register(ctx context.Context, count int) error {
	if _, err := s.Ask(ctx, "POST", "/api/v1/user", `{"name":"ann"}`); err != nil {
		return err
	}
	key, err := s.Key(ctx, "ann@")
	if err != nil {
		return err
	}
	for n := 0; n < count; n++ {
		m := office.NewMachine(s.Dialer)
		if err := s.Plain(ctx, m, "/machine/register", fmt.Sprintf(`"Auth":{"AuthKey":%q},"Hostinfo":{"Hostname":"host-%d"}`, key, n)); err != nil {
			return err
		}
		s.all = append(s.all, m)
	}
	return nil
}

func (s *served) name() string                      { return "the built server" }
func (s *served) operator() office.Operator         { return s.Operator }
func (s *served) through() *office.Process          { return s.Front }
func (s *served) dialer() tailclient.Dialer         { return s.Dialer }
func (s *served) machines() []*office.Machine       { return s.all }
func (s *served) restart(ctx context.Context) error { return s.Server.Restart(ctx) }
func (s *served) close()                            { s.Close() }

func (s *served) change(ctx context.Context, machine, number int) error {
	return s.Plain(ctx, s.all[machine], "/machine/map", fmt.Sprintf(`"OmitPeers":true,"Endpoints":["192.0.2.1:%d"]`, number))
}
