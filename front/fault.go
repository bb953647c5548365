package main

import (
	"errors"
	"fmt"
)

// A fault is why the front doesn't begin: what failed, where, why, and what to do.
type fault struct {
	what, where string
	why         error
	todo        string
}

func (f *fault) Error() string {
	return fmt.Sprintf("%s %s: %v; %s", f.what, f.where, innermost(f.why), f.todo)
}

func (f *fault) Unwrap() error { return f.why }

// innermost is the error of the system, without the names that Go puts before it.
func innermost(err error) error {
	for {
		inner := errors.Unwrap(err)
		if inner == nil {
			return err
		}
		err = inner
	}
}

// wrongWords is the fault of who wrote the command, and says which word it is.
type wrongWords struct{ what string }

func (w *wrongWords) Error() string { return w.what + "; --help names the words" }
