package main

import (
	"bytes"
	"errors"
	"fmt"
	"io"
	"unicode/utf16"
	"unicode/utf8"
)

// The place of an entry in a text, as it stands there: `["TIME","LINE"]`, or with metadata
// `["TIME","LINE",{"NAME":"VALUE"}]`.
type span struct {
	time             int64
	begin, end       uint32
	lineAt, lineEnds uint32
}

// Entries in rising time, and the text that they are in.
type part struct {
	text  []byte
	spans []span
}

func (it part) cut(from, to int) part { return part{it.text, it.spans[from:to]} }
func (it part) bytes() int            { return int(it.spans[len(it.spans)-1].end - it.spans[0].begin) }

// raw is the entry as it stands.
func (it part) raw(at int) []byte { return it.text[it.spans[at].begin:it.spans[at].end] }

// line is the line, with its escapes.
func (it part) line(at int) []byte { return it.text[it.spans[at].lineAt:it.spans[at].lineEnds] }

// metadata is an object, or nothing.
func (it part) metadata(at int) []byte {
	of := it.spans[at]
	if of.lineEnds+2 >= of.end {
		return nil
	}
	return it.text[of.lineEnds+2 : of.end-1]
}

// before is how many entries are older than a time.
func (it part) before(time int64) int {
	low, high := 0, len(it.spans)
	for low < high {
		if middle := (low + high) / 2; it.spans[middle].time < time {
			low = middle + 1
		} else {
			high = middle
		}
	}
	return low
}

var (
	errCut   = errors.New("the text ends in the middle")
	errShape = errors.New("the answer of the server has another shape")
)

const (
	valuesBegin = `{"values":[`
	valuesEnd   = `]}`
)

// scanEntry reads the entry that begins at a place. It fails with errCut where the text ends before the entry does.
func scanEntry(text []byte, begin int) (found span, err error) {
	at := begin + 2
	if at > len(text) {
		return found, errCut
	} else if text[begin] != '[' || text[begin+1] != '"' {
		return found, errShape
	}
	for ; at < len(text) && text[at] != '"'; at++ {
		digit := text[at] - '0'
		if digit > 9 {
			return found, errShape
		}
		found.time = found.time*10 + int64(digit)
	}
	if at+3 > len(text) {
		return found, errCut
	} else if text[at+1] != ',' || text[at+2] != '"' {
		return found, errShape
	}
	lineEnds := scanString(text, at+3)
	end, err := scanEnd(text, lineEnds)
	found.begin, found.end = uint32(begin), uint32(end)
	found.lineAt, found.lineEnds = uint32(at+3), uint32(lineEnds)
	return found, err
}

// scanString is the place of the quote that ends a string, or the length of the text.
func scanString(text []byte, at int) int {
	for at < len(text) {
		found := bytes.IndexByte(text[at:], '"')
		if found < 0 {
			return len(text)
		}
		quote := at + found
		escapes := quote
		for escapes > at && text[escapes-1] == '\\' {
			escapes--
		}
		if (quote-escapes)%2 == 0 {
			return quote
		}
		at = quote + 1
	}
	return at
}

// scanEnd is the place after an entry whose line ends at a quote.
func scanEnd(text []byte, quote int) (int, error) {
	at := quote + 1
	if at < len(text) && text[at] == ',' {
		for at++; at < len(text) && text[at] != '}'; at++ {
			if text[at] == '"' {
				at = scanString(text, at+1)
			}
		}
		at++
	}
	if at >= len(text) {
		return 0, errCut
	} else if text[at] != ']' {
		return 0, errShape
	}
	return at + 1, nil
}

// scanEntries reads the entries of a text from a place on, each but the first with a comma before it. It returns the
// place after the last whole one, and whether it is the end of the answer.
func scanEntries(text []byte, at int, spans []span) (found []span, next int, isEnd bool, err error) {
	for {
		begin := at
		if begin < len(text) && text[begin] == ',' {
			begin++
		}
		if begin+1 < len(text) && text[begin] == valuesEnd[0] && text[begin+1] == valuesEnd[1] {
			return spans, at, true, nil
		} else if begin+2 > len(text) {
			return spans, at, false, nil
		}
		entry, err := scanEntry(text, begin)
		if errors.Is(err, errCut) {
			return spans, at, false, nil
		} else if err != nil {
			return spans, at, false, fmt.Errorf("%w: %q", err, text[begin:min(len(text), begin+40)])
		}
		spans, at = append(spans, entry), int(entry.end)
	}
}

// A window slides over the entries of an answer that may be longer than what is held of it.
type window struct {
	from io.Reader
	// where the entries are that were found last
	text  []byte
	spans []span
	// how much of the text is behind these
	next int
	// whether the answer is over
	isEnd bool
}

// fill reads on behind what was found last, and fails at an answer that ends early. It finds at least an entry, unless
// the answer is over.
func (it *window) fill(size int) error {
	begin := len(valuesBegin)
	if it.next > 0 {
		rest := copy(it.text, it.text[it.next:])
		it.text, begin = it.text[:rest], 0
	}
	for {
		if cap(it.text)-len(it.text) <= size/2 {
			it.text = append(make([]byte, 0, len(it.text)+size), it.text...)
		}
		count, err := io.ReadFull(it.from, it.text[len(it.text):cap(it.text)])
		it.text = it.text[:len(it.text)+count]
		if err != nil && err != io.EOF && err != io.ErrUnexpectedEOF {
			return err
		}
		if len(it.text) < begin && err == nil {
			continue
		} else if begin > 0 && !bytes.HasPrefix(it.text, []byte(valuesBegin)) {
			return errShape
		}
		var fault error
		if it.spans, it.next, it.isEnd, fault = scanEntries(it.text, begin, it.spans[:0]); fault != nil {
			return fault
		}
		if it.isEnd || len(it.spans) > 0 {
			return nil
		} else if err != nil {
			return io.ErrUnexpectedEOF
		}
	}
}

// appendUnescaped appends what a string of JSON says.
func appendUnescaped(to, text []byte) []byte {
	for {
		at := bytes.IndexByte(text, '\\')
		if at < 0 || at+1 >= len(text) {
			return append(to, text...)
		}
		to = append(to, text[:at]...)
		switch next := text[at+1]; next {
		case 'b', 'f', 'n', 'r', 't':
			to = append(to, "\b\f\n\r\t"[bytes.IndexByte([]byte("bfnrt"), next)])
		case 'u':
			var size int
			to, size = appendCodeUnits(to, text[at:])
			text = text[at+size:]
			continue
		default:
			to = append(to, next)
		}
		text = text[at+2:]
	}
}

// appendCodeUnits appends the character of an escape `\u1234`, or of two that belong together, and returns how long
// these are.
func appendCodeUnits(to, text []byte) ([]byte, int) {
	first, size := hexUnit(text), 6
	if utf16.IsSurrogate(first) {
		first, size = utf16.DecodeRune(first, hexUnit(text[min(6, len(text)):])), 12
	}
	return utf8.AppendRune(to, first), min(size, len(text))
}

func hexUnit(text []byte) rune {
	found := rune(0)
	if len(text) < 6 {
		return utf8.RuneError
	}
	for _, it := range text[2:6] {
		digit := bytes.IndexByte([]byte(hexDigits), it|0x20)
		found = found<<4 | rune(digit&15)
	}
	return found
}
