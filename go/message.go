package rumpadol

// #include <rumpadol.h>
import "C"

import (
	"fmt"
	"io"
	"sort"
)

// A Message has a type and the values of elements. A value is kept without its length, its padding and its coding: digits
// and text as characters, elements of class B as the bytes that they stand for. One goroutine at a time uses a Message.
type Message struct {
	spec   *Spec
	mti    string
	values map[int][]byte
}

// NewMessage gives a message without a type and elements, which is written and read under the spec.
func NewMessage(spec *Spec) *Message {
	return &Message{spec: spec, values: map[int][]byte{}}
}

// isElement tells whether an element may have this number.
func isElement(id int) bool {
	return 2 <= id && id <= 128 && id != 65
}

// shownElement is the number as a fault tells it: a negative one as 0.
func shownElement(id int) int {
	if id < 0 {
		return 0
	}
	return id
}

// MTI sets the message type. It is judged by Pack.
func (message *Message) MTI(value string) {
	message.mti = value
}

// GetMTI gives the message type. Without one it tells BadType.
func (message *Message) GetMTI() (string, error) {
	if message.mti == "" {
		return "", newFault(badType, 0, 0)
	}
	return message.mti, nil
}

// Field sets the value of an element, or the type where the number is 0. The value is judged by Pack.
func (message *Message) Field(id int, value string) error {
	if id == 0 {
		message.mti = value
		return nil
	}
	return message.BinaryField(id, []byte(value))
}

// BinaryField sets the value of an element to a copy of the bytes. They are judged by Pack.
func (message *Message) BinaryField(id int, value []byte) error {
	if !isElement(id) {
		return newFault(badNumber, shownElement(id), 0)
	}
	message.values[id] = append([]byte{}, value...)
	return nil
}

// UnsetField takes an element away.
func (message *Message) UnsetField(id int) {
	delete(message.values, id)
}

// Has tells whether an element is set.
func (message *Message) Has(id int) bool {
	_, has := message.values[id]
	return has
}

// GetString gives the value of an element, or the type where the number is 0. It is empty where the element isn't set.
func (message *Message) GetString(id int) (string, error) {
	if id == 0 {
		return message.GetMTI()
	}
	value, err := message.GetBytes(id)
	return string(value), err
}

// GetBytes gives a copy of the value of an element. It is nil where the element isn't set.
func (message *Message) GetBytes(id int) ([]byte, error) {
	if !isElement(id) {
		return nil, newFault(badNumber, shownElement(id), 0)
	}
	value, has := message.values[id]
	if !has {
		return nil, nil
	}
	return append([]byte{}, value...), nil
}

// Bitmap lists the elements that are set, in ascending order.
func (message *Message) Bitmap() []int {
	ids := make([]int, 0, len(message.values))
	for id := range message.values {
		ids = append(ids, id)
	}
	sort.Ints(ids)
	return ids
}

// Clone gives a message of the same type and values, which shares the spec alone with this one. It is never refused.
func (message *Message) Clone() (*Message, error) {
	clone := &Message{spec: message.spec, mti: message.mti, values: make(map[int][]byte, len(message.values))}
	for id, value := range message.values {
		clone.values[id] = append([]byte{}, value...)
	}
	return clone, nil
}

// number is the type as a number of four digits.
func (message *Message) number() (C.uint32_t, error) {
	if len(message.mti) != 4 {
		return 0, newFault(badType, 0, 0)
	}
	number := C.uint32_t(0)
	for _, digit := range []byte(message.mti) {
		if digit < '0' || digit > '9' {
			return 0, newFault(badType, 0, 0)
		}
		number = 10*number + C.uint32_t(digit-'0')
	}
	return number, nil
}

// Pack writes the message.
func (message *Message) Pack() ([]byte, error) {
	mti, err := message.number()
	if err != nil {
		return nil, err
	}
	parts := make([]C.rumpadol_part, 1, 1+len(message.values)) // the first is no part, so that there is an address
	var values []byte
	for _, id := range message.Bitmap() {
		value := message.values[id]
		part := C.rumpadol_part{element: C.uint32_t(id), start: C.size_t(len(values)), length: C.size_t(len(value))}
		parts = append(parts, part)
		values = append(values, value...)
	}
	first, count := &parts[0], C.size_t(len(parts)-1)
	if count > 0 {
		first = &parts[1]
	}
	var out []byte
	err = message.spec.use(func(slot *C.rumpadol_slot) (err error) {
		out, err = written(2*len(values)+256, func(bytes *C.uint8_t, room C.size_t, fault *C.rumpadol_fault) C.int64_t {
			return C.rumpadol_pack(slot, mti, first, count, address(values), C.size_t(len(values)), bytes, room, fault)
		})
		return err
	})
	return out, err
}

// Unpack reads the message that all the bytes spell, in place of what the message was. After a fault it is what it was.
func (message *Message) Unpack(src []byte) error {
	read, taken, err := message.spec.read(src)
	if err != nil {
		return err
	}
	if taken < len(src) {
		return newFault(trailingBytes, 0, taken)
	}
	message.mti, message.values = read.mti, read.values
	return nil
}

// UnpackFront reads the message that the bytes begin with, as Unpack does, and tells how many of them it takes.
func (message *Message) UnpackFront(src []byte) (int, error) {
	read, taken, err := message.spec.read(src)
	if err != nil {
		return 0, err
	}
	message.mti, message.values = read.mti, read.values
	return taken, nil
}

// read gives the message that the bytes begin with, and how many of them it takes.
func (spec *Spec) read(src []byte) (*Message, int, error) {
	var head C.rumpadol_message
	var parts [C.RUMPADOL_MOST_PARTS]C.rumpadol_part
	var values []byte
	var taken C.int64_t
	err := spec.use(func(slot *C.rumpadol_slot) (err error) {
		values, err = written(2*len(src)+1, func(out *C.uint8_t, room C.size_t, fault *C.rumpadol_fault) C.int64_t {
			taken = C.rumpadol_unpack(slot, address(src), C.size_t(len(src)), &head, &parts[0], C.size_t(len(parts)), out, room, fault)
			if taken < 0 {
				return taken
			}
			return C.int64_t(head.values)
		})
		return err
	})
	if err != nil {
		return nil, 0, err
	}
	message := NewMessage(spec)
	message.mti = fmt.Sprintf("%04d", uint32(head.mti))
	for _, part := range parts[:head.parts] {
		end := part.start + part.length
		message.values[int(part.element)] = values[part.start:end:end]
	}
	return message, int(taken), nil
}

// Describe writes the message's lines. Account numbers, tracks, PIN and chip data are hidden by stars.
func Describe(message *Message, w io.Writer) error {
	bytes, err := message.Pack()
	if err != nil {
		return err
	}
	lines, err := message.spec.Describe(bytes)
	if err != nil {
		return err
	}
	_, err = w.Write(lines)
	return err
}
