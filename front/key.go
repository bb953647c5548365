package main

import (
	"bytes"
	"crypto/rand"
	"encoding/base64"
	"encoding/hex"
	"errors"
	"fmt"
	"io"
	"io/fs"
	"os"

	"github.com/flynn/noise"
	"golang.org/x/crypto/curve25519"
)

const (
	keyLen        = 32         // RFC 7748: X25519 keys of both kinds
	publicPrefix  = "mkey:"    // tailscale.com/types/key: MachinePublic
	privatePrefix = "privkey:" // tailscale.com/types/key: MachinePrivate
)

// A machineKey is the static public key of a client, or of the front.
type machineKey [keyLen]byte

// String is the text that tailscale.com/types/key gives a MachinePublic.
func (k machineKey) String() string { return publicPrefix + hex.EncodeToString(k[:]) }

// Short is the key as tailscale.com/types/key's ShortString has it, for logs:
// too little to find the key by, enough to tell machines apart.
func (k machineKey) Short() string {
	return "[" + base64.StdEncoding.EncodeToString(k[:])[:5] + "]"
}

var errKeyForm = errors.New("it isn't privkey: and 64 hexadecimal digits")

// loadKey reads the front's key pair from a file, which it makes if it isn't
// there. A file that others than its owner may read or write is refused.
func loadKey(path string) (noise.DHKey, error) {
	f, err := os.Open(path)
	if errors.Is(err, fs.ErrNotExist) {
		return makeKey(path)
	}
	if err != nil {
		return noise.DHKey{}, &fault{"key", path, err, "give the user of the front the right to read it"}
	}
	defer f.Close()
	info, err := f.Stat()
	if err != nil {
		return noise.DHKey{}, &fault{"key", path, err, "look at the disk"}
	}
	if !info.Mode().IsRegular() {
		return noise.DHKey{}, &fault{"key", path, errors.New("it is no plain file"), "name another with --key"}
	}
	if mode := info.Mode().Perm(); mode&0o077 != 0 {
		return noise.DHKey{}, &fault{"key", path, fmt.Errorf("others than its owner have rights to it (mode %04o)", mode), "chmod 600 it, and if others could read it, remove it for a new one"}
	}
	text, err := io.ReadAll(io.LimitReader(f, int64(len(privatePrefix)+2*keyLen+2)))
	if err != nil {
		return noise.DHKey{}, &fault{"key", path, err, "look at the disk"}
	}
	pair, err := parseKey(text)
	if err != nil {
		return noise.DHKey{}, &fault{"key", path, err, "restore it, or remove it for a new one"}
	}
	return pair, nil
}

// parseKey reads the text of a private key; a line may end behind it. No error
// quotes the text.
func parseKey(text []byte) (noise.DHKey, error) {
	text = bytes.TrimSuffix(text, []byte("\n"))
	if !bytes.HasPrefix(text, []byte(privatePrefix)) || len(text) != len(privatePrefix)+2*keyLen {
		return noise.DHKey{}, errKeyForm
	}
	private := make([]byte, keyLen)
	if _, err := hex.Decode(private, text[len(privatePrefix):]); err != nil {
		return noise.DHKey{}, errKeyForm
	}
	return keyPair(private)
}

func keyPair(private []byte) (noise.DHKey, error) {
	public, err := curve25519.X25519(private, curve25519.Basepoint)
	if err != nil {
		return noise.DHKey{}, err
	}
	return noise.DHKey{Private: private, Public: public}, nil
}

// makeKey writes a new key. O_EXCL: of two fronts that start at once, one fails
// and doesn't serve another key than the file has.
func makeKey(path string) (noise.DHKey, error) {
	private := make([]byte, keyLen)
	if _, err := rand.Read(private); err != nil {
		return noise.DHKey{}, &fault{"key", path, err, "look at the random source of the system"}
	}
	private[0] &= 248 // RFC 7748, section 5: as Tailscale keeps them
	private[31] = private[31]&127 | 64
	if err := writeKey(path, private); err != nil {
		return noise.DHKey{}, &fault{"key", path, err, "let the user of the front write its folder, or name another file with --key"}
	}
	return keyPair(private)
}

func writeKey(path string, private []byte) error {
	f, err := os.OpenFile(path, os.O_WRONLY|os.O_CREATE|os.O_EXCL, 0o600)
	if err != nil {
		return err
	}
	_, err = fmt.Fprintf(f, "%s%x\n", privatePrefix, private)
	if err == nil {
		err = f.Sync()
	}
	if e := f.Close(); err == nil {
		err = e
	}
	if err != nil {
		os.Remove(path)
	}
	return err
}
