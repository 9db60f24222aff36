package rumpadol

// #include <rumpadol.h>
import "C"

import "io"

// A Header says how a frame counts the bytes of its body, before which it stands. It doesn't count itself.
type Header uint32

const (
	// Binary2 is two bytes, the high one first.
	Binary2 Header = C.RUMPADOL_BINARY2
	// ASCII4 is four ASCII digits.
	ASCII4 Header = C.RUMPADOL_ASCII4
	// BCD2 is four digits in two bytes.
	BCD2 Header = C.RUMPADOL_BCD2
)

// Frame gives a body behind its header.
func (header Header) Frame(body []byte) ([]byte, error) {
	return written(len(body)+4, func(out *C.uint8_t, room C.size_t, fault *C.rumpadol_fault) C.int64_t {
		return C.rumpadol_frame(C.uint32_t(header), address(body), C.size_t(len(body)), out, room, fault)
	})
}

// Unframe gives the body of the frame that the input begins with, where it lies, and how many bytes the frame takes: 0 where
// the input ends inside it.
func (header Header) Unframe(input []byte) ([]byte, int, error) {
	var body C.rumpadol_part
	var fault C.rumpadol_fault
	taken := C.rumpadol_unframe(C.uint32_t(header), address(input), C.size_t(len(input)), &body, &fault)
	if taken < 0 {
		return nil, 0, told(&fault)
	}
	if taken == 0 {
		return nil, 0, nil
	}
	end := body.start + body.length
	return input[body.start:end:end], int(taken), nil
}

// WriteFrame writes a body behind its header, by one Write.
func WriteFrame(to io.Writer, header Header, body []byte) error {
	frame, err := header.Frame(body)
	if err != nil {
		return err
	}
	_, err = to.Write(frame)
	return err
}

// A FrameReader reads the frames of a stream. It may have read bytes behind the frame that it gave last.
type FrameReader struct {
	from   io.Reader
	header Header
	held   []byte
	err    error
	piece  [4096]byte
}

// NewFrameReader gives a reader of the frames of a stream.
func NewFrameReader(from io.Reader, header Header) *FrameReader {
	return &FrameReader{from: from, header: header}
}

// Next gives the body of the next frame. At the end of the stream it tells io.EOF, and io.ErrUnexpectedEOF where the stream ends
// inside a frame. Where bytes are no header it tells a *Fault, then and ever after: no frame can be found behind them.
func (reader *FrameReader) Next() ([]byte, error) {
	for idle := 0; ; {
		body, taken, err := reader.header.Unframe(reader.held)
		if err != nil {
			return nil, err
		}
		if taken > 0 {
			reader.held = reader.held[taken:]
			return append([]byte{}, body...), nil
		}
		if reader.err != nil {
			if reader.err == io.EOF && len(reader.held) > 0 {
				return nil, io.ErrUnexpectedEOF
			}
			return nil, reader.err
		}
		count, err := reader.from.Read(reader.piece[:])
		reader.held = append(reader.held, reader.piece[:count]...)
		reader.err = err
		if idle++; count > 0 {
			idle = 0
		} else if idle == 100 && err == nil {
			return nil, io.ErrNoProgress
		}
	}
}
