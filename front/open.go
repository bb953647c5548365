package main

import "sync"

// Open are the connections over Noise that are served, so that the front can end
// them: http.Server knows nothing of those that were upgraded.
type open struct {
	mu    sync.Mutex
	conns map[*Conn]struct{} // nil once they were closed
	ended sync.WaitGroup
}

func newOpen() *open { return &open{conns: make(map[*Conn]struct{})} }

// add says whether the connection may be served.
func (o *open) add(c *Conn) bool {
	o.mu.Lock()
	defer o.mu.Unlock()
	if o.conns == nil {
		return false
	}
	o.conns[c] = struct{}{}
	o.ended.Add(1)
	return true
}

func (o *open) remove(c *Conn) {
	o.mu.Lock()
	defer o.mu.Unlock()
	delete(o.conns, c)
	o.ended.Done()
}

// close closes all, and gives a channel that is closed when none is served any more.
// Each is closed by itself, since TLS waits for a far end that doesn't read.
func (o *open) close() <-chan struct{} {
	o.mu.Lock()
	defer o.mu.Unlock()
	for c := range o.conns {
		go c.Close()
	}
	o.conns = nil
	ended := make(chan struct{})
	go func() {
		o.ended.Wait()
		close(ended)
	}()
	return ended
}
