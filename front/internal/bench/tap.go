package main

import (
	"bufio"
	"io"
	"net"
	"net/http"
	"strings"
	"sync"
	"time"

	"tailnetd-front/internal/office"
)

// A tap stands before the server and hands on bytes both ways as they come. Of each poll
// it notes when the frames of its answer passed. Nothing is looked at before it is handed
// on, so that a frame is held up by one read and one write.
type tap struct {
	listener net.Listener

	mu     sync.Mutex
	server string
	polls  map[string]*passing // the latest poll of each machine, by its key
}

// Passing are the frames that passed of one poll.
type passing struct {
	mu     sync.Mutex
	frames []passed
}

// A passed frame is when its last byte came from the server, when that had been handed on,
// and of which change it tells.
type passed struct {
	came, gone time.Time
	number     int
}

// newTap is one that takes connections, but doesn't know its server yet.
func newTap() (*tap, error) {
	l, err := net.Listen("tcp", "127.0.0.1:0")
	if err != nil {
		return nil, err
	}
	t := &tap{listener: l, polls: map[string]*passing{}}
	go func() {
		for {
			c, err := l.Accept()
			if err != nil {
				return
			}
			go t.relay(c)
		}
	}()
	return t, nil
}

func (t *tap) address() string { return t.listener.Addr().String() }
func (t *tap) close()          { t.listener.Close() }

// before says which server it stands before.
func (t *tap) before(server string) {
	t.mu.Lock()
	defer t.mu.Unlock()
	t.server = server
}

// dial connects to the server.
func (t *tap) dial() (net.Conn, error) {
	t.mu.Lock()
	server := t.server
	t.mu.Unlock()
	return net.Dial("tcp", server)
}

// of gives the frames that passed of a machine's latest poll.
func (t *tap) of(m *office.Machine) []passed {
	t.mu.Lock()
	poll := t.polls["mkey:"+m.Key.Public().Hex()]
	t.mu.Unlock()
	if poll == nil {
		return nil
	}
	poll.mu.Lock()
	defer poll.mu.Unlock()
	return append([]passed(nil), poll.frames...)
}

// relay hands on one connection, which is one request. When either side ends, so does the
// other.
func (t *tap) relay(near net.Conn) {
	defer near.Close()
	far, err := t.dial()
	if err != nil {
		return
	}
	defer far.Close()
	from := bufio.NewReader(near)
	head, err := readHead(from)
	if err != nil {
		return
	}
	poll := new(passing)
	_, key, _ := strings.Cut(head, "\r\nTs-Machine-Key: ")
	key, _, _ = strings.Cut(key, "\r\n")
	t.mu.Lock()
	t.polls[key] = poll
	t.mu.Unlock()
	go func() {
		defer far.Close()
		if _, err := io.WriteString(far, head); err == nil {
			io.Copy(far, from)
		}
	}()
	behind := make(chan piece, 64)
	defer close(behind)
	go poll.read(&pieces{from: behind})
	answer(near, far, behind)
}

// readHead reads the head of a request, with the empty line at its end.
func readHead(from *bufio.Reader) (string, error) {
	var head strings.Builder
	for {
		line, err := from.ReadString('\n')
		if err != nil {
			return "", err
		}
		if head.WriteString(line); line == "\r\n" {
			return head.String(), nil
		}
	}
}

// answer hands on what the server says, and gives each piece of it, once it has passed, to
// what looks at it.
func answer(near, far net.Conn, behind chan<- piece) {
	buffer := make([]byte, 16<<10)
	for {
		n, err := far.Read(buffer)
		came := time.Now()
		if n > 0 {
			if _, err := near.Write(buffer[:n]); err != nil {
				return
			}
			behind <- piece{append([]byte(nil), buffer[:n]...), came, time.Now()}
		}
		if err != nil {
			return
		}
	}
}

// A piece was read at once.
type piece struct {
	bytes      []byte
	came, gone time.Time
}

// Pieces are read one by one: what reads them has never more than it asked for of any
// behind the last.
type pieces struct {
	from <-chan piece
	last piece
	rest []byte // of the last
}

func (p *pieces) Read(b []byte) (int, error) {
	for len(p.rest) == 0 {
		next, ok := <-p.from
		if !ok {
			return 0, io.EOF
		}
		p.last, p.rest = next, next.bytes
	}
	n := copy(b, p.rest)
	p.rest = p.rest[n:]
	return n, nil
}

// read notes each frame of an answer: the piece that was read last is the one with the
// frame's last byte.
func (p *passing) read(from *pieces) {
	defer io.Copy(io.Discard, from) // what hands them on never waits
	answer, err := http.ReadResponse(bufio.NewReader(from), nil)
	if err != nil || answer.StatusCode != http.StatusOK {
		return
	}
	office.ReadFrames(answer.Body, false, func(frame []byte) error {
		p.mu.Lock()
		defer p.mu.Unlock()
		p.frames = append(p.frames, passed{from.last.came, from.last.gone, numberIn(frame)})
		return nil
	})
}
