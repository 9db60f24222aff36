package rumpadol_test

import (
	"errors"
	"fmt"

	"rumpadol"
)

// A fault tells the element and the place: here someone typed a letter O.
func ExampleMessage_Unpack() {
	typed := "020072200001000080001641111111111111110000O000000000100001020304050000070512345840"
	message := rumpadol.NewMessage(rumpadol.SpecASCII87)
	var fault *rumpadol.Fault
	if err := message.Unpack([]byte(typed)); errors.As(err, &fault) {
		fmt.Println(fault.Name, fault.Element, fault.Offset)
	}
	// Output: NotInClass 3 38
}

// A body goes behind its header, and comes back.
func ExampleHeader_Frame() {
	frame, err := rumpadol.ASCII4.Frame([]byte("0800"))
	if err != nil {
		panic(err)
	}
	body, taken, err := rumpadol.ASCII4.Unframe(frame)
	if err != nil {
		panic(err)
	}
	fmt.Printf("%s %s %d\n", frame, body, taken)
	// Output: 00040800 0800 8
}
