package rumpadol

import (
	"bytes"
	"encoding/hex"
	"errors"
	"io"
	"math/rand"
	"os"
	"reflect"
	"runtime"
	"strings"
	"sync"
	"testing"
)

// The messages of examples/ and of the pages, counted by hand there.
const (
	payment = "0200722000010000800016411111111111111100000000000000100001020304050000070512345840"
	echo    = "0800822000000000000004000000000000000102030405000001301"
	echoBCD = "08008220000000000000040000000000000001020304050000010301"
)

// wantFault tells where an error isn't this fault.
func wantFault(t *testing.T, err error, want Fault) {
	t.Helper()
	var fault *Fault
	if !errors.As(err, &fault) {
		t.Fatalf("got %v, want the fault %v", err, &want)
	}
	if *fault != want {
		t.Fatalf("got %v, want %v", fault, &want)
	}
}

// good ends the test where there is an error.
func good(t *testing.T, err error) {
	t.Helper()
	if err != nil {
		t.Fatal(err)
	}
}

// read is a file of the repository.
func read(t *testing.T, path string) []byte {
	t.Helper()
	content, err := os.ReadFile("../" + path)
	good(t, err)
	return content
}

// unhex is what digits stand for.
func unhex(t *testing.T, digits string) []byte {
	t.Helper()
	content, err := hex.DecodeString(strings.Join(strings.Fields(digits), ""))
	good(t, err)
	return content
}

// purchase is the payment of examples/, as a caller builds it.
func purchase(t *testing.T, spec *Spec) *Message {
	t.Helper()
	message := NewMessage(spec)
	message.MTI("0200")
	good(t, message.Field(2, "4111111111111111"))
	good(t, message.Field(3, "000000"))
	good(t, message.Field(4, "000000001000"))
	good(t, message.Field(7, "0102030405"))
	good(t, message.Field(11, "000007"))
	good(t, message.Field(32, "12345"))
	good(t, message.Field(49, "840"))
	return message
}

func TestPackThePayment(t *testing.T) {
	got, err := purchase(t, SpecASCII87).Pack()
	good(t, err)
	if string(got) != payment || !bytes.Equal(got, bytes.TrimSpace(read(t, "examples/payment.txt"))) {
		t.Fatalf("got %q", got)
	}
}

// The bytes of the table of docs/RECIPES.md, less element 41 and its bit.
func TestPackThePaymentInBCD(t *testing.T) {
	got, err := purchase(t, SpecBCD87).Pack()
	good(t, err)
	want := unhex(t, "0200 7220000100008000 16 4111111111111111 000000 000000001000 0102030405 000007 05 012345 383430")
	if !bytes.Equal(got, want) {
		t.Fatalf("got %x", got)
	}
}

func TestUnpackThePayment(t *testing.T) {
	message := NewMessage(SpecASCII87)
	good(t, message.Unpack([]byte(payment)))
	mti, err := message.GetMTI()
	good(t, err)
	if mti != "0200" {
		t.Fatalf("type %q", mti)
	}
	if got := message.Bitmap(); !reflect.DeepEqual(got, []int{2, 3, 4, 7, 11, 32, 49}) {
		t.Fatalf("elements %v", got)
	}
	want := map[int]string{0: "0200", 2: "4111111111111111", 3: "000000", 4: "000000001000", 7: "0102030405", 11: "000007",
		32: "12345", 49: "840", 41: ""}
	for id, value := range want {
		got, err := message.GetString(id)
		good(t, err)
		if got != value {
			t.Fatalf("element %d is %q", id, got)
		}
	}
	if message.Has(41) || !message.Has(49) {
		t.Fatal("what is set")
	}
}

func TestConvert(t *testing.T) {
	for _, row := range []struct {
		from, to   *Spec
		input, out []byte
	}{
		{SpecASCII87, SpecBCD87, []byte(echo), unhex(t, echoBCD)},
		{SpecBCD87, SpecASCII87, unhex(t, echoBCD), []byte(echo)},
		{SpecASCII87, SpecASCII87, []byte("0800022a000000000000010203040500000101020103"),
			[]byte("0800022A000000000000010203040500000101020103")},
	} {
		got, err := Convert(row.from, row.to, row.input)
		good(t, err)
		if !bytes.Equal(got, row.out) {
			t.Fatalf("got %x", got)
		}
	}
}

// Blanks behind a value are taken off and put on, and bytes are bytes.
func TestPaddingAndBytes(t *testing.T) {
	message := NewMessage(SpecASCII87)
	message.MTI("0200")
	good(t, message.Field(41, "TERM1"))
	good(t, message.BinaryField(52, unhex(t, "0123456789ABCDEF")))
	good(t, message.BinaryField(55, []byte{0x9f, 0x02, 0x00}))
	got, err := message.Pack()
	good(t, err)
	want := "0200" + "0000000000801200" + "TERM1   " + "0123456789ABCDEF" + "003\x9f\x02\x00"
	if string(got) != want {
		t.Fatalf("got %q", got)
	}
	again := NewMessage(SpecASCII87)
	good(t, again.Unpack(got))
	terminal, err := again.GetString(41)
	good(t, err)
	block, err := again.GetBytes(52)
	good(t, err)
	if terminal != "TERM1" || !bytes.Equal(block, unhex(t, "0123456789ABCDEF")) {
		t.Fatalf("got %q and %x", terminal, block)
	}
}

func TestDescribe(t *testing.T) {
	var lines bytes.Buffer
	good(t, Describe(purchase(t, SpecASCII87), &lines))
	want := "MTI=0200 1987 Financial Request Acquirer\nDE002=411111******1111\nDE003=000000\nDE004=000000001000\n" +
		"DE007=0102030405\nDE011=000007\nDE032=12345\nDE049=840\nUSED=82/82\n"
	if lines.String() != want {
		t.Fatalf("got %s", &lines)
	}
	wantFault(t, Describe(NewMessage(SpecASCII87), &lines), Fault{"BadType", 8, 0, 0})
}

func TestView(t *testing.T) {
	got, err := SpecASCII87.View([]byte(payment), 32)
	good(t, err)
	if string(got) != "12345" {
		t.Fatalf("got %q", got)
	}
	_, err = SpecASCII87.View([]byte(payment), 41)
	wantFault(t, err, Fault{"NoElement", 6, 41, 0})
	_, err = SpecASCII87.View([]byte(payment), 65)
	wantFault(t, err, Fault{"BadNumber", 601, 65, 0})
	_, err = SpecASCII87.View([]byte(payment), -1)
	wantFault(t, err, Fault{"BadNumber", 601, 0, 0})
}

// A clone shares no value, and what was lent or handed out is nobody else's.
func TestNothingIsShared(t *testing.T) {
	value := []byte("TERM1")
	message := NewMessage(SpecASCII87)
	message.MTI("0200")
	good(t, message.BinaryField(41, value))
	value[0] = 'X'
	clone, err := message.Clone()
	good(t, err)
	handed, err := clone.GetBytes(41)
	good(t, err)
	handed[0] = 'Y'
	good(t, message.Field(41, "OTHER"))
	message.UnsetField(41)
	message.MTI("0800")
	got, err := clone.GetString(41)
	good(t, err)
	mti, err := clone.GetMTI()
	good(t, err)
	if got != "TERM1" || mti != "0200" || message.Has(41) {
		t.Fatalf("got %q %q", got, mti)
	}
}

func TestSpecFromJSON(t *testing.T) {
	spec, err := SpecFromJSON(read(t, "tables/terminals.json"))
	good(t, err)
	message := NewMessage(spec)
	good(t, message.Unpack([]byte("08000000000000800000TERM1   ")))
	got, err := message.GetString(41)
	good(t, err)
	if got != "TERM1" {
		t.Fatalf("got %q", got)
	}
	good(t, spec.Close())
	good(t, spec.Close())
	_, err = message.Pack()
	wantFault(t, err, Fault{"EmptySlot", 2, 0, 0})
	good(t, SpecASCII87.Close())
	if _, err = purchase(t, SpecASCII87).Pack(); err != nil {
		t.Fatal("a built-in spec was closed")
	}
	_, err = SpecFromJSON(nil)
	wantFault(t, err, Fault{"NotJson", 401, 0, 0})
	_, err = SpecFromJSON([]byte(`{"profile":9}`))
	wantFault(t, err, Fault{"Profile", 409, 0, 0})
}

// What is refused when it is written: the rules of docs/FAULTS.md.
func TestPackRefuses(t *testing.T) {
	for _, row := range []struct {
		mti   string
		id    int
		value string
		want  Fault
	}{
		{"", 3, "000000", Fault{"BadType", 8, 0, 0}},
		{"02000", 3, "000000", Fault{"BadType", 8, 0, 0}},
		{"02x0", 3, "000000", Fault{"BadType", 8, 0, 0}},
		{"1200", 3, "000000", Fault{"WrongVersion", 301, 0, 0}},
		{"0200", 3, "00000", Fault{"WrongLength", 303, 3, 0}},
		{"0200", 3, "00000x", Fault{"NotInClass", 304, 3, 0}},
		{"0200", 41, "TERM ", Fault{"PadEnd", 305, 41, 0}},
		{"0200", 48, strings.Repeat("x", 1000), Fault{"WrongLength", 303, 48, 0}},
	} {
		message := NewMessage(SpecASCII87)
		message.MTI(row.mti)
		good(t, message.Field(row.id, row.value))
		_, err := message.Pack()
		wantFault(t, err, row.want)
	}
	for _, id := range []int{-1, 1, 65, 129, 1 << 40} {
		want := Fault{"BadNumber", 601, id, 0}
		if id < 0 {
			want.Element = 0
		}
		wantFault(t, NewMessage(SpecASCII87).Field(id, "0"), want)
		_, err := NewMessage(SpecASCII87).GetString(id)
		wantFault(t, err, want)
	}
}

// A message that is refused leaves what was there.
func TestUnpackRefuses(t *testing.T) {
	for _, row := range []struct {
		input string
		want  Fault
	}{
		{"", Fault{"Short", 101, 0, 0}},
		{"02x0", Fault{"BadMti", 102, 0, 0}},
		{"1200", Fault{"WrongVersion", 103, 0, 0}},
		{"0200400000000000000020", Fault{"LengthOver", 205, 2, 20}},
		{payment[:81], Fault{"Short", 101, 49, 79}},
		{payment[:38] + "0000O0" + payment[44:], Fault{"NotInClass", 202, 3, 38}},
		{payment + "\n", Fault{"TrailingBytes", 5, 0, 82}},
	} {
		message := purchase(t, SpecASCII87)
		wantFault(t, message.Unpack([]byte(row.input)), row.want)
		if got, err := message.Pack(); err != nil || string(got) != payment {
			t.Fatalf("%q changed the message: %q, %v", row.input, got, err)
		}
	}
	message := NewMessage(SpecASCII87)
	wantFault(t, message.Unpack(nil), Fault{"Short", 101, 0, 0})
	taken, err := message.UnpackFront([]byte(echo + payment))
	if err != nil || taken != 55 {
		t.Fatalf("took %d, %v", taken, err)
	}
}

// Without a spec each call is refused.
func TestNoSpec(t *testing.T) {
	want := Fault{"EmptySlot", 2, 0, 0}
	for _, spec := range []*Spec{nil, {}} {
		message := NewMessage(spec)
		message.MTI("0200")
		_, err := message.Pack()
		wantFault(t, err, want)
		wantFault(t, message.Unpack([]byte(payment)), want)
		_, err = Convert(spec, SpecASCII87, []byte(payment))
		wantFault(t, err, want)
		_, err = Convert(SpecASCII87, spec, []byte(payment))
		wantFault(t, err, want)
		_, err = spec.View([]byte(payment), 2)
		wantFault(t, err, want)
		good(t, spec.Close())
	}
}

// Any bytes are a message, which is packed to bytes that say the same, or a fault.
func TestAnyBytes(t *testing.T) {
	chance := rand.New(rand.NewSource(8583))
	specs := []*Spec{SpecASCII87, SpecBCD87}
	refused := 0
	for turn := 0; turn < 20000; turn++ {
		spec := specs[turn%2]
		var input []byte
		if turn%4 < 2 {
			input = make([]byte, chance.Intn(64))
			chance.Read(input)
		} else {
			input = []byte(payment)
			if spec == SpecBCD87 {
				input = unhex(t, echoBCD)
			}
			input[chance.Intn(len(input))] = byte(chance.Intn(256))
			input = input[:len(input)-chance.Intn(2)*chance.Intn(len(input))]
		}
		message := NewMessage(spec)
		taken, err := message.UnpackFront(input)
		var fault *Fault
		if errors.As(err, &fault) {
			if refused++; fault.Name == "" || fault.Offset > len(input) {
				t.Fatalf("%x: %v", input, fault)
			}
			continue
		}
		good(t, err)
		again := NewMessage(spec)
		packed, err := message.Pack()
		good(t, err)
		good(t, again.Unpack(packed))
		if taken > len(input) || !reflect.DeepEqual(message, again) {
			t.Fatalf("%x isn't what %x says", packed, input)
		}
	}
	if refused < 10000 {
		t.Fatalf("refused %d", refused)
	}
}

// Goroutines share a spec, convert in both directions, and specs are collected meanwhile.
func TestGoroutines(t *testing.T) {
	document := read(t, "tables/ascii87raw.json")
	var all sync.WaitGroup
	for worker := 0; worker < 4; worker++ {
		all.Add(1)
		go func(worker int) {
			defer all.Done()
			for turn := 0; turn < 200; turn++ {
				spec, err := SpecFromJSON(document)
				if err != nil {
					t.Error(err)
					return
				}
				from, to := SpecASCII87, spec
				if worker%2 == 1 {
					to = SpecBCD87
				}
				there, err := Convert(from, to, []byte(payment))
				if err != nil {
					t.Error(err)
					return
				}
				if back, err := Convert(to, from, there); err != nil || string(back) != payment {
					t.Errorf("got %q, %v", back, err)
					return
				}
			}
			runtime.GC()
		}(worker)
	}
	all.Wait()
}

func TestFrames(t *testing.T) {
	for _, row := range []struct {
		header Header
		frame  string
	}{{Binary2, "\x00\x040800"}, {ASCII4, "00040800"}, {BCD2, "\x00\x040800"}} {
		got, err := row.header.Frame([]byte("0800"))
		good(t, err)
		if string(got) != row.frame {
			t.Fatalf("got %q", got)
		}
		body, taken, err := row.header.Unframe([]byte(row.frame + "more"))
		good(t, err)
		if string(body) != "0800" || taken != len(row.frame) {
			t.Fatalf("got %q of %d", body, taken)
		}
		for cut := 0; cut < len(row.frame); cut++ {
			body, taken, err = row.header.Unframe([]byte(row.frame[:cut]))
			if body != nil || taken != 0 || err != nil {
				t.Fatalf("got %q of %d, %v", body, taken, err)
			}
		}
	}
	_, _, err := ASCII4.Unframe([]byte("00A4"))
	wantFault(t, err, Fault{"BadDigits", 502, 0, 0})
	_, err = ASCII4.Frame(make([]byte, 10000))
	wantFault(t, err, Fault{"TooLong", 501, 0, 0})
	_, err = Header(3).Frame(nil)
	wantFault(t, err, Fault{"NoSuchHeader", 9, 0, 0})
	_, _, err = Header(3).Unframe(nil)
	wantFault(t, err, Fault{"NoSuchHeader", 9, 0, 0})
	got, err := Binary2.Frame(nil)
	good(t, err)
	if string(got) != "\x00\x00" {
		t.Fatalf("got %q", got)
	}
}

// pieces hands out a stream a few bytes at a time.
type pieces struct {
	left []byte
	size int
}

func (stream *pieces) Read(to []byte) (int, error) {
	if len(stream.left) == 0 {
		return 0, io.EOF
	}
	if len(to) > stream.size {
		to = to[:stream.size]
	}
	count := copy(to, stream.left)
	stream.left = stream.left[count:]
	return count, nil
}

// The day of examples/ has eight frames, of which the last one is no message; README.md and docs/RECIPES.md show them.
func TestReadTheDay(t *testing.T) {
	day := read(t, "examples/day.txt")
	for _, size := range []int{1, 7, 100, 100000} {
		reader := NewFrameReader(&pieces{day, size}, ASCII4)
		var sizes []int
		var again bytes.Buffer
		for {
			body, err := reader.Next()
			if err == io.EOF {
				break
			}
			good(t, err)
			sizes = append(sizes, len(body))
			good(t, WriteFrame(&again, ASCII4, body))
		}
		if !reflect.DeepEqual(sizes, []int{82, 82, 82, 101, 101, 82, 70, 3}) || !bytes.Equal(again.Bytes(), day) {
			t.Fatalf("got %v", sizes)
		}
	}
	reader := NewFrameReader(&pieces{day[:100], 7}, ASCII4)
	_, err := reader.Next()
	good(t, err)
	if _, err = reader.Next(); err != io.ErrUnexpectedEOF {
		t.Fatalf("got %v", err)
	}
	reader = NewFrameReader(&pieces{[]byte("00x4"), 7}, ASCII4)
	for turn := 0; turn < 2; turn++ {
		_, err = reader.Next()
		wantFault(t, err, Fault{"BadDigits", 502, 0, 0})
	}
}
