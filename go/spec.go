// Package rumpadol reads and writes ISO 8583 messages by Rumpadol's library for C.
//
// A Spec says how the elements of a message are written, a Message has a type and the values of elements, and a Header says
// how frames count their bodies. What is refused is told by a *Fault.
package rumpadol

// #cgo pkg-config: rumpadol
// #include <stdlib.h>
// #include <rumpadol.h>
import "C"

import (
	"runtime"
	"sync"
	"sync/atomic"
	"unsafe"
)

// A Spec is a table of elements. Any number of goroutines may share it: calls with one Spec wait for each other. It isn't
// copied.
type Spec struct {
	lock  sync.Mutex
	slot  *C.rumpadol_slot // memory of C's, since it points into itself; nil where there is no table
	place uint64           // of two specs the one with the lower place is locked first
	stays bool             // it is built in
}

// The 1987 edition, in ASCII and in BCD.
var (
	SpecASCII87 = builtIn(C.RUMPADOL_ASCII87)
	SpecBCD87   = builtIn(C.RUMPADOL_BCD87)
)

var places uint64

// newSpec opens a slot and fills it.
func newSpec(fill func(slot *C.rumpadol_slot, fault *C.rumpadol_fault) C.int64_t) (*Spec, error) {
	slot := (*C.rumpadol_slot)(C.malloc(C.sizeof_rumpadol_slot))
	C.rumpadol_slot_open(slot)
	var fault C.rumpadol_fault
	if fill(slot, &fault) < 0 {
		C.rumpadol_slot_clear(slot)
		C.free(unsafe.Pointer(slot))
		return nil, told(&fault)
	}
	spec := &Spec{slot: slot, place: atomic.AddUint64(&places, 1)}
	runtime.SetFinalizer(spec, (*Spec).Close)
	return spec, nil
}

// builtIn is the spec of a built-in table. Without memory for it, each call with it is refused.
func builtIn(name C.uint32_t) *Spec {
	spec, err := newSpec(func(slot *C.rumpadol_slot, fault *C.rumpadol_fault) C.int64_t {
		return C.rumpadol_slot_built_in(name, slot, fault)
	})
	if err != nil {
		return &Spec{}
	}
	spec.stays = true
	return spec
}

// SpecFromJSON checks a document as Rumpadol's docs/TABLES.md describes it. The fault is the first one of the document.
func SpecFromJSON(document []byte) (*Spec, error) {
	return newSpec(func(slot *C.rumpadol_slot, fault *C.rumpadol_fault) C.int64_t {
		return C.rumpadol_slot_from_json(address(document), C.size_t(len(document)), slot, fault)
	})
}

// Close frees the table at once, not only when the spec is collected. Calls with a closed spec are refused (EmptySlot). The
// built-in specs stay open.
func (spec *Spec) Close() error {
	if spec == nil {
		return nil
	}
	spec.lock.Lock()
	defer spec.lock.Unlock()
	if spec.slot != nil && !spec.stays {
		C.rumpadol_slot_clear(spec.slot)
		C.free(unsafe.Pointer(spec.slot))
		spec.slot = nil
		runtime.SetFinalizer(spec, nil)
	}
	return nil
}

// use makes a call with the spec's slot, which no other call has meanwhile.
func (spec *Spec) use(call func(slot *C.rumpadol_slot) error) error {
	if spec == nil {
		return newFault(emptySlot, 0, 0)
	}
	spec.lock.Lock()
	defer spec.lock.Unlock()
	if spec.slot == nil {
		return newFault(emptySlot, 0, 0)
	}
	return call(spec.slot)
}

// View gives the body of an element of the message that the bytes begin with, as it lies there: behind its length, and with
// its padding. It copies nothing.
func (spec *Spec) View(src []byte, id int) ([]byte, error) {
	if !isElement(id) {
		return nil, newFault(badNumber, shownElement(id), 0)
	}
	var body C.rumpadol_part
	err := spec.use(func(slot *C.rumpadol_slot) error {
		var fault C.rumpadol_fault
		if C.rumpadol_view(slot, address(src), C.size_t(len(src)), C.uint32_t(id), &body, &fault) < 0 {
			return told(&fault)
		}
		return nil
	})
	if err != nil {
		return nil, err
	}
	return src[body.start : body.start+body.length], nil
}

// Describe gives the lines of the message that the bytes begin with. Account numbers, tracks, PIN and chip data are hidden
// by stars.
func (spec *Spec) Describe(src []byte) ([]byte, error) {
	var lines []byte
	err := spec.use(func(slot *C.rumpadol_slot) (err error) {
		lines, err = written(4*len(src)+256, func(out *C.uint8_t, room C.size_t, fault *C.rumpadol_fault) C.int64_t {
			return C.rumpadol_describe(slot, address(src), C.size_t(len(src)), out, room, fault)
		})
		return err
	})
	return lines, err
}

// Convert writes the message that all the bytes spell under one spec under another one.
func Convert(from, to *Spec, src []byte) ([]byte, error) {
	if from == to {
		message := NewMessage(from)
		if err := message.Unpack(src); err != nil {
			return nil, err
		}
		return message.Pack()
	}
	var out []byte
	call := func(first, second *C.rumpadol_slot) (err error) {
		out, err = written(2*len(src)+64, func(bytes *C.uint8_t, room C.size_t, fault *C.rumpadol_fault) C.int64_t {
			return C.rumpadol_convert(first, second, address(src), C.size_t(len(src)), bytes, room, fault)
		})
		return err
	}
	if from == nil || to == nil {
		return nil, newFault(emptySlot, 0, 0)
	}
	var err error
	if from.place < to.place {
		err = from.use(func(first *C.rumpadol_slot) error {
			return to.use(func(second *C.rumpadol_slot) error { return call(first, second) })
		})
	} else {
		err = to.use(func(second *C.rumpadol_slot) error {
			return from.use(func(first *C.rumpadol_slot) error { return call(first, second) })
		})
	}
	return out, err
}

// address is where bytes begin; of none it is an address all the same.
func address(bytes []byte) *C.uint8_t {
	if len(bytes) == 0 {
		return (*C.uint8_t)(unsafe.Pointer(&nothing[0]))
	}
	return (*C.uint8_t)(unsafe.Pointer(&bytes[0]))
}

var nothing [1]byte

// written has a call write into a room, which isn't 0, and once more into one that is as long as was wanted.
func written(room int, call func(out *C.uint8_t, room C.size_t, fault *C.rumpadol_fault) C.int64_t) ([]byte, error) {
	for {
		out := make([]byte, room)
		var fault C.rumpadol_fault
		if length := call(address(out), C.size_t(room), &fault); length >= 0 {
			return out[:length], nil
		}
		if fault.number != C.RUMPADOL_SHORT_ROOM || int(fault.offset) <= room {
			return nil, told(&fault)
		}
		room = int(fault.offset)
	}
}
