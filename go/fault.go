package rumpadol

// #include <rumpadol.h>
import "C"

import (
	"fmt"
	"unsafe"
)

// A Fault tells why a call was refused; errors.As gives it. Rumpadol's docs/FAULTS.md says what each name means and what
// usually causes it, and docs/C.md lists the numbers.
type Fault struct {
	// Name is a word as Short or NotInClass.
	Name string
	// Number is the fault's number in the library for C.
	Number int
	// Element is the element that is meant: 0 the message type or the first bitmap, 1 the second bitmap.
	Element int
	// Offset is where the bytes that were read are wrong; 0 where no bytes were read.
	Offset int
}

// Error tells the fault in a line. It shows no byte of a message.
func (fault *Fault) Error() string {
	return fmt.Sprintf("rumpadol: %s (%d), element %d at %d", fault.Name, fault.Number, fault.Element, fault.Offset)
}

// The faults that this package tells by itself.
const (
	emptySlot     = int(C.RUMPADOL_EMPTY_SLOT)
	trailingBytes = int(C.RUMPADOL_TRAILING_BYTES)
	badType       = int(C.RUMPADOL_BAD_TYPE)
	badNumber     = 601
)

// newFault gives the fault of a number its name.
func newFault(number, element, offset int) *Fault {
	var name [20]C.uint8_t
	var none C.rumpadol_fault
	length := C.rumpadol_fault_name(C.uint32_t(number), &name[0], C.size_t(len(name)), &none)
	if length < 0 {
		length = 0
	}
	text := C.GoBytes(unsafe.Pointer(&name[0]), C.int(length))
	return &Fault{Name: string(text), Number: number, Element: element, Offset: offset}
}

// told is the fault that a call of the library told.
func told(fault *C.rumpadol_fault) *Fault {
	return newFault(int(fault.number), int(fault.element), int(fault.offset))
}
