package office

import (
	"context"
	"fmt"
	"io"
	"net"
	"net/http"
	"sync"
	"time"

	"golang.org/x/net/http2"
	"tailnetd-front/internal/tailclient"
)

// A Machine is a client of the front, which follows its poll, folds its frames, and
// comes back when the poll or the connection ends.
type Machine struct {
	Key, Node tailclient.Key
	Compress  bool
	Dialer    tailclient.Dialer

	mu      sync.Mutex
	conn    *tailclient.Conn
	http    *http2.ClientConn
	view    tailclient.View
	polls   int
	follows time.Time // since when: the first frame of the poll that it has, if it came
	refused string    // what a poll was answered in place of frames, at last
	fault   error     // of a frame that can't be folded
}

// NewMachine is a machine with new keys.
func NewMachine(d tailclient.Dialer) *Machine {
	return &Machine{Key: tailclient.NewKey(), Node: tailclient.NewKey(), Dialer: d}
}

func (m *Machine) body(members string) string {
	if members != "" {
		members = "," + members
	}
	return fmt.Sprintf(`{"NodeKey":"nodekey:%s","Version":113%s}`, m.Node.Public().Hex(), members)
}

// connect gives the connection that there is, or a new one.
func (m *Machine) connect(ctx context.Context) (*http2.ClientConn, error) {
	m.mu.Lock()
	defer m.mu.Unlock()
	if m.http != nil && m.http.CanTakeNewRequest() {
		return m.http, nil
	}
	if m.conn != nil {
		m.conn.Close()
	}
	c, err := m.Dialer.Connect(ctx, m.Key)
	if err != nil {
		return nil, err
	}
	h, err := c.HTTP()
	if err != nil {
		c.Close()
		return nil, err
	}
	m.conn, m.http = c, h
	return h, nil
}

// Ask is a request that ends, and its answer.
func (m *Machine) Ask(ctx context.Context, path, members string) (int, string, error) {
	return m.Send(ctx, path, m.body(members))
}

// Send is a request with a body as it is.
func (m *Machine) Send(ctx context.Context, path, body string) (int, string, error) {
	h, err := m.connect(ctx)
	if err != nil {
		return 0, "", err
	}
	a, err := tailclient.Post(ctx, h, path, body)
	if err != nil {
		return 0, "", err
	}
	defer a.Body.Close()
	b, err := io.ReadAll(a.Body)
	return a.StatusCode, string(b), err
}

// Cut ends its connection without a word, as one whose cable was pulled and whose
// system told the other end. HTTP/2 above learns of it a little later, so the
// connection is forgotten here: the next request has another.
func (m *Machine) Cut() {
	m.mu.Lock()
	defer m.mu.Unlock()
	if m.conn == nil {
		return
	}
	if tcp, ok := m.conn.Conn.(*net.TCPConn); ok {
		tcp.SetLinger(0)
	}
	m.conn.Close()
	m.conn, m.http = nil, nil
}

// Follow polls until ctx ends or a poll is refused by the server, and comes back
// whenever the poll or the connection ends.
func (m *Machine) Follow(ctx context.Context) {
	defer m.Cut()
	for ctx.Err() == nil && !m.isRefused() {
		m.followOnce(ctx) // it says why it ended, and whatever that was, the machine comes back
		select {
		case <-ctx.Done():
		case <-time.After(50 * time.Millisecond):
		}
	}
}

func (m *Machine) isRefused() bool {
	m.mu.Lock()
	defer m.mu.Unlock()
	return m.refused != ""
}

func (m *Machine) followOnce(ctx context.Context) error {
	h, err := m.connect(ctx)
	if err != nil {
		return err
	}
	members := `"Stream":true,"KeepAlive":true`
	if m.Compress {
		members += `,"Compress":"zstd"`
	}
	ctx, cancel := context.WithCancel(ctx)
	defer cancel()
	a, err := tailclient.Post(ctx, h, "/machine/map", m.body(members))
	if err != nil {
		return err
	}
	defer a.Body.Close()
	if a.StatusCode != http.StatusOK {
		b, err := io.ReadAll(a.Body)
		if a.StatusCode == http.StatusUnauthorized && err == nil {
			m.mu.Lock()
			m.refused = string(b)
			m.mu.Unlock()
		}
		return fmt.Errorf("poll: %s %s", a.Status, b)
	}
	m.mu.Lock()
	m.polls++
	m.mu.Unlock()
	defer func() {
		m.mu.Lock()
		m.follows = time.Time{}
		m.mu.Unlock()
	}()
	return ReadFrames(a.Body, m.Compress, m.take)
}

func (m *Machine) take(frame []byte) error {
	m.mu.Lock()
	defer m.mu.Unlock()
	if err := m.view.Fold(frame); err != nil {
		m.fault = fmt.Errorf("%w in %.300s", err, frame)
		return m.fault
	}
	if m.follows.IsZero() {
		m.follows = time.Now()
	}
	return nil
}

// Follows says since when it has had frames of the poll that it has, zero if it hasn't.
func (m *Machine) Follows() time.Time {
	m.mu.Lock()
	defer m.mu.Unlock()
	return m.follows
}

// State is what a machine has by now.
type State struct {
	Map, DERPMap, Refused string
	Polls, Frames         int
	Fault                 error
}

// State gives it.
func (m *Machine) State() State {
	m.mu.Lock()
	defer m.mu.Unlock()
	s := State{DERPMap: string(m.view.DERPMap), Refused: m.refused, Polls: m.polls, Frames: m.view.Frames, Fault: m.fault}
	if s.Frames > 0 {
		s.Map = m.view.String()
	}
	return s
}
