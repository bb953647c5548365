package office

import (
	"encoding/binary"
	"errors"
	"io"

	"github.com/klauspost/compress/zstd"
)

// Frame is a text as the server frames it.
func Frame(text []byte) []byte {
	b := make([]byte, 4, 4+len(text))
	binary.LittleEndian.PutUint32(b, uint32(len(text)))
	return append(b, text...)
}

// ReadFrames gives each frame of a poll to take, until they end, which is no error.
func ReadFrames(from io.Reader, compressed bool, take func(frame []byte) error) error {
	var decoder *zstd.Decoder
	if compressed {
		var err error
		if decoder, err = zstd.NewReader(nil, zstd.WithDecoderConcurrency(1), zstd.WithDecoderLowmem(true), zstd.WithDecoderMaxWindow(8<<20)); err != nil {
			return err
		}
		defer decoder.Close()
	}
	for {
		var length [4]byte
		if _, err := io.ReadFull(from, length[:]); errors.Is(err, io.EOF) {
			return nil
		} else if err != nil {
			return err
		}
		frame := make([]byte, binary.LittleEndian.Uint32(length[:]))
		if _, err := io.ReadFull(from, frame); err != nil {
			return err
		}
		if compressed {
			var err error
			if frame, err = decoder.DecodeAll(frame, nil); err != nil {
				return err
			}
		}
		if err := take(frame); err != nil {
			return err
		}
	}
}
