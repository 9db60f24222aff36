package rumpadol

import (
	"bytes"
	"encoding/json"
	"fmt"
	"os"
	"strings"
	"testing"
)

// The rows of the command are what it has to tell of an input, written by hand: what `show`, `convert` and `check` tell of messages
// and documents is what the calls of this package have to give.

type row struct {
	Name   string                     `json:"name"`
	Words  []string                   `json:"words"`
	Files  map[string]json.RawMessage `json:"files"`
	Input  json.RawMessage            `json:"input"`
	Status int                        `json:"status"`
	Output json.RawMessage            `json:"output"`
	Faults json.RawMessage            `json:"faults"`
}

type document struct {
	Each  row                        `json:"each"`
	Files map[string]json.RawMessage `json:"files"`
	Texts map[string]json.RawMessage `json:"texts"`
	Rows  []row                      `json:"rows"`
}

// text is the bytes of a text as scripts/rows.py describes them.
func (document *document) text(t *testing.T, value json.RawMessage) []byte {
	t.Helper()
	value = bytes.TrimSpace(value)
	if len(value) == 0 {
		return nil
	}
	switch value[0] {
	case '{':
		var compact bytes.Buffer
		good(t, json.Compact(&compact, value))
		return compact.Bytes()
	case '[':
		var parts []json.RawMessage
		good(t, json.Unmarshal(value, &parts))
		var times int
		if len(parts) == 2 && json.Unmarshal(parts[1], &times) == nil {
			return bytes.Repeat(document.text(t, parts[0]), times)
		}
		var whole []byte
		for _, part := range parts {
			whole = append(whole, document.text(t, part)...)
		}
		return whole
	}
	var word string
	good(t, json.Unmarshal(value, &word))
	if strings.HasPrefix(word, "@") {
		return document.text(t, document.Texts[word[1:]])
	}
	var whole []byte
	for _, character := range word {
		whole = append(whole, byte(character))
	}
	return whole
}

// rowsOf is a document of rows with what all documents share.
func rowsOf(t *testing.T, name string) *document {
	t.Helper()
	var shared, own document
	good(t, json.Unmarshal(read(t, "crates/iso_cli/rows/shared.json"), &shared))
	good(t, json.Unmarshal(read(t, "crates/iso_cli/rows/"+name), &own))
	for name, text := range shared.Texts {
		if own.Texts == nil {
			own.Texts = map[string]json.RawMessage{}
		}
		if _, has := own.Texts[name]; !has {
			own.Texts[name] = text
		}
	}
	for name, text := range shared.Files {
		if own.Files == nil {
			own.Files = map[string]json.RawMessage{}
		}
		if _, has := own.Files[name]; !has {
			own.Files[name] = text
		}
	}
	return &own
}

// spec is the table that a word of a row names.
func (document *document) spec(t *testing.T, row row, word string) (*Spec, error) {
	t.Helper()
	switch word {
	case "ascii87":
		return SpecASCII87, nil
	case "bcd87":
		return SpecBCD87, nil
	}
	text, has := row.Files[word]
	if !has {
		text, has = document.Files[word]
	}
	if !has {
		return nil, os.ErrNotExist
	}
	return SpecFromJSON(document.text(t, text))
}

// line is a fault as the command tells it.
func line(kind string, fault *Fault) string {
	switch {
	case fault.Number == trailingBytes:
		return "refused: TrailingBytes\n"
	case kind == "unpack":
		return fmt.Sprintf("refused: unpack %s element %d at %d\n", fault.Name, fault.Element, fault.Offset)
	case fault.Element != 0:
		return fmt.Sprintf("refused: %s %s element %d\n", kind, fault.Name, fault.Element)
	}
	return fmt.Sprintf("refused: %s %s\n", kind, fault.Name)
}

// kindOf is the command's word for the library that refused.
func kindOf(fault *Fault) string {
	switch fault.Number / 100 {
	case 3:
		return "pack"
	case 4:
		return "table"
	}
	return "unpack"
}

// answer is what the command writes for these words.
func answer(words []string, specs []*Spec, input []byte) ([]byte, error) {
	switch words[0] {
	case "check":
		return nil, nil
	case "convert":
		return Convert(specs[0], specs[1], input)
	}
	message := NewMessage(specs[0])
	taken, err := message.UnpackFront(input)
	if err != nil {
		return nil, err
	}
	if len(words) == 3 { // --clear hides nothing: the lines of the values themselves
		return clear(message, taken, len(input)), nil
	}
	return specs[0].Describe(input)
}

// clear is the lines of a message but for the words of its type. Of an element of class B they have the digits, which the rows
// have where the value isn't text.
func clear(message *Message, taken, size int) []byte {
	var lines bytes.Buffer
	for _, id := range message.Bitmap() {
		value, _ := message.GetBytes(id)
		isText := true
		for _, character := range value {
			isText = isText && 0x20 <= character && character <= 0x7e
		}
		if isText {
			fmt.Fprintf(&lines, "DE%03d=%s\n", id, value)
		} else {
			fmt.Fprintf(&lines, "DE%03d=%X\n", id, value)
		}
	}
	fmt.Fprintf(&lines, "USED=%d/%d\n", taken, size)
	return lines.Bytes()
}

// isHeld tells whether the words are of a call that this package has, with tables that are here.
func (document *document) isHeld(row row) bool {
	if len(row.Words) < 2 || row.Status > 1 {
		return false
	}
	switch row.Words[0] {
	case "show":
		return len(row.Words) == 2 || len(row.Words) == 3 && row.Words[2] == "--clear"
	case "convert":
		return len(row.Words) == 3
	case "check":
		return len(row.Words) == 2
	}
	return false
}

func TestRows(t *testing.T) {
	files, err := os.ReadDir("../crates/iso_cli/rows")
	good(t, err)
	held := 0
	for _, file := range files {
		switch file.Name() {
		case "show.json", "convert.json", "check.json", "tables.json", "values.json":
		default:
			continue
		}
		document := rowsOf(t, file.Name())
		for _, row := range document.Rows {
			if len(row.Words) == 0 {
				row.Words = document.Each.Words
			}
			if !document.isHeld(row) {
				continue
			}
			held++
			t.Run(file.Name()+": "+row.Name, func(t *testing.T) { document.try(t, row) })
		}
	}
	if held < 80 {
		t.Fatalf("only %d rows", held)
	}
}

// try compares what the calls give with what a row says.
func (document *document) try(t *testing.T, row row) {
	names := row.Words[1:2]
	if row.Words[0] == "convert" {
		names = row.Words[1:3]
	}
	var specs []*Spec
	var got []byte
	var err error
	for _, name := range names {
		var spec *Spec
		if spec, err = document.spec(t, row, name); err == os.ErrNotExist {
			t.Skip("a file of the repository's own")
		}
		if err != nil {
			break
		}
		specs = append(specs, spec)
	}
	if err == nil {
		got, err = answer(row.Words, specs, document.text(t, row.Input))
	}
	want := string(document.text(t, row.Output))
	if err != nil {
		fault, is := err.(*Fault)
		if !is {
			t.Fatal(err)
		}
		if told, wanted := line(kindOf(fault), fault), string(document.text(t, row.Faults)); told != wanted {
			t.Fatalf("got %q, want %q", told, wanted)
		}
		return
	}
	if row.Status != 0 {
		t.Fatalf("got %q, want %q", got, document.text(t, row.Faults))
	}
	if row.Words[0] == "check" {
		return
	}
	if len(row.Words) == 3 && row.Words[0] == "show" {
		want = want[strings.Index(want, "\n")+1:]
	}
	if string(got) != want {
		t.Fatalf("got %q, want %q", got, want)
	}
}
