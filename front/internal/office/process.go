// Package office runs a server with a front before it, an operator and machines, for
// tests and for bench/front.
package office

import (
	"context"
	"fmt"
	"net"
	"os"
	"os/exec"
	"syscall"
	"time"
)

// FreeAddress is an address of loopback at which nobody listens.
func FreeAddress() (string, error) {
	l, err := net.Listen("tcp", "127.0.0.1:0")
	if err != nil {
		return "", err
	}
	defer l.Close()
	return l.Addr().String(), nil
}

// A Process is a program that listens at an address.
type Process struct {
	words   []string
	address string
	command *exec.Cmd
	ended   chan error
}

// Start runs a program, and waits until it takes connections.
func Start(ctx context.Context, address string, words ...string) (*Process, error) {
	p := &Process{words: words, address: address}
	return p, p.start(ctx)
}

func (p *Process) start(ctx context.Context) error {
	p.command = exec.Command(p.words[0], p.words[1:]...)
	p.command.Stderr = os.Stderr
	// It ends with the process that started it, however that ends.
	p.command.SysProcAttr = &syscall.SysProcAttr{Pdeathsig: syscall.SIGKILL}
	if err := p.command.Start(); err != nil {
		return err
	}
	ended := make(chan error, 1)
	p.ended = ended
	go func(c *exec.Cmd) { ended <- c.Wait() }(p.command)
	for {
		if c, err := net.DialTimeout("tcp", p.address, time.Second); err == nil {
			return c.Close()
		}
		select {
		case err := <-ended:
			ended <- err
			return fmt.Errorf("%s ended: %v", p.words[0], err)
		case <-ctx.Done():
			p.Kill()
			return fmt.Errorf("%s doesn't listen at %s", p.words[0], p.address)
		case <-time.After(10 * time.Millisecond):
		}
	}
}

// Kill ends it at once.
func (p *Process) Kill() {
	p.command.Process.Kill()
	err := <-p.ended
	p.ended <- err
}

// Stop asks it to end, and gives how it did and how long that took.
func (p *Process) Stop(ctx context.Context) (time.Duration, error) {
	began := time.Now()
	p.command.Process.Signal(syscall.SIGTERM)
	select {
	case err := <-p.ended:
		p.ended <- err
		return time.Since(began), err
	case <-ctx.Done():
		p.Kill()
		return time.Since(began), ctx.Err()
	}
}

// Restart kills it and starts it again.
func (p *Process) Restart(ctx context.Context) error {
	p.Kill()
	return p.start(ctx)
}

// Pid is its number.
func (p *Process) Pid() int { return p.command.Process.Pid }
