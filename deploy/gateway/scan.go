package main

import (
	"bytes"
	"sync"
	"unicode/utf8"
)

// A scan goes once through a body of JSON, takes no memory, and finds whether the server reads it as Loki would: in
// Loki's form and no more, with each key once, and within the server's limits. Such a body is sent on as it came. Any
// other is left to decodeJSON: one with a number, a null, another key, a label without a value, or a body that is none
// at all.
type scan struct {
	body   []byte
	at     int
	counts counts
	most   int64
	// the names of the object that is read, as places in the body
	names [mostPairs]place
	count int
}

type place struct{ from, to int }

var scanPool = sync.Pool{New: func() any { return &scan{} }}

func scanJSON(body []byte, most int64) (counts, bool) {
	it := scanPool.Get().(*scan)
	defer scanPool.Put(it)
	it.body, it.at, it.counts, it.most = body, 0, counts{}, most
	isSo := len(body) <= mostBody && it.push() && it.counts.entries <= mostEntries && it.counts.messages <= most
	it.body = nil
	return it.counts, isSo
}

// space goes past white space, and returns the byte there, 0 at the end.
func (it *scan) space() byte {
	for ; it.at < len(it.body); it.at++ {
		switch next := it.body[it.at]; next {
		case ' ', '\t', '\n', '\r':
		default:
			return next
		}
	}
	return 0
}

// is goes past white space and this byte, if it is the next one.
func (it *scan) is(wanted byte) bool {
	if it.space() != wanted {
		return false
	}
	it.at++
	return true
}

// more is whether another element comes, of a list that `end` ends; and whether there is either.
func (it *scan) more(end byte) (goesOn, isSo bool) {
	switch it.space() {
	case ',':
		it.at++
		return true, true
	case end:
		it.at++
		return false, true
	}
	return false, false
}

// each reads the elements of a list or an object, of which there is one at least.
func (it *scan) each(begin, end byte, element func(*scan) bool) bool {
	if !it.is(begin) {
		return false
	}
	for goesOn, isSo := true, true; goesOn; {
		if !element(it) {
			return false
		}
		if goesOn, isSo = it.more(end); !isSo {
			return false
		}
	}
	return true
}

// begins is whether this key of an object is next.
func (it *scan) begins(quoted string) bool {
	it.space()
	return bytes.HasPrefix(it.body[it.at:], []byte(quoted))
}

// key reads this key of an object, and what stands between it and its value.
func (it *scan) key(quoted string) bool {
	if !it.begins(quoted) {
		return false
	}
	it.at += len(quoted)
	return it.is(':')
}

func (it *scan) push() bool {
	isSo := it.is('{') && it.key(`"streams"`) && it.each('[', ']', (*scan).stream) && it.is('}')
	it.space()
	return isSo && it.at == len(it.body)
}

func (it *scan) stream() bool {
	it.counts.messages++
	if !it.is('{') {
		return false
	}
	if it.begins(`"stream"`) {
		return it.key(`"stream"`) && it.labels() && it.is(',') && it.key(`"values"`) && it.values() && it.is('}')
	}
	return it.key(`"values"`) && it.values() && it.is(',') && it.key(`"stream"`) && it.labels() && it.is('}')
}

func (it *scan) labels() bool {
	it.count = 0
	return it.each('{', '}', (*scan).label) && it.count <= mostLabels
}

func (it *scan) label() bool {
	name, isSo := it.name()
	if !isSo || len(name) > mostName || !isLabelName(name) {
		return false
	}
	length, isSo := it.text()
	return isSo && 0 < length && length <= mostValue
}

func isLabelName(name []byte) bool {
	for at, it := range name {
		if !isLetter(it) && (at == 0 || !isDigit(it)) {
			return false
		}
	}
	return len(name) > 0
}

// name reads the name of a member, without escapes and unlike the others of its object, and what stands before its
// value.
func (it *scan) name() ([]byte, bool) {
	it.counts.messages++
	it.space()
	from := it.at + 1
	length, isSo := it.text()
	if !isSo || it.count == mostPairs || it.at != from+length+1 {
		return nil, false
	}
	name := it.body[from : it.at-1]
	for _, other := range it.names[:it.count] {
		if bytes.Equal(name, it.body[other.from:other.to]) {
			return nil, false
		}
	}
	it.names[it.count] = place{from, it.at - 1}
	it.count++
	return name, it.is(':')
}

func (it *scan) values() bool { return it.each('[', ']', (*scan).value) }

func (it *scan) value() bool {
	it.counts.messages++
	it.counts.entries++
	if !it.is('[') || !it.time() || !it.is(',') {
		return false
	}
	length, isSo := it.text()
	if !isSo || length > mostLine {
		return false
	}
	it.counts.bytes += int64(length)
	switch goesOn, isSo := it.more(']'); {
	case !isSo:
		return false
	case goesOn:
		return it.metadata() && it.is(']')
	}
	return true
}

// mostTime is 2^63 - 1.
const mostTime = "9223372036854775807"

func (it *scan) time() bool {
	if !it.is('"') {
		return false
	}
	from := it.at
	it.at = digitsEnd(it.body, from)
	time := it.body[from:it.at]
	if len(time) == 0 || time[0] == '0' && len(time) > 1 || it.at == len(it.body) || it.body[it.at] != '"' {
		return false
	}
	it.at++
	return len(time) < len(mostTime) || len(time) == len(mostTime) && string(time) <= mostTime
}

// (no metadata at all is the same as none)
func (it *scan) metadata() bool {
	it.count = 0
	before := it.at
	if it.is('{') && it.is('}') {
		return true
	}
	it.at = before
	return it.each('{', '}', (*scan).pair)
}

func (it *scan) pair() bool {
	name, isSo := it.name()
	if !isSo || len(name) == 0 || len(name) > mostKey {
		return false
	}
	length, isSo := it.text()
	it.counts.bytes += int64(len(name) + length)
	return isSo && length <= mostText
}

// text reads a text, and is how many bytes it has without its escapes.
func (it *scan) text() (length int, isSo bool) {
	if !it.is('"') {
		return 0, false
	}
	for from := it.at; ; {
		it.at = plainEnd(it.body, it.at)
		if it.at == len(it.body) {
			return 0, false
		}
		switch next := it.body[it.at]; {
		case next == '"':
			length += it.at - from
			it.at++
			return length, true
		case next == '\\':
			length += it.at - from
			more, isSo := it.escape()
			if !isSo {
				return 0, false
			}
			length, from = length+more, it.at
		case next < ' ':
			return 0, false
		default:
			found, bytes := utf8.DecodeRune(it.body[it.at:])
			if found == utf8.RuneError && bytes == 1 {
				return 0, false
			}
			it.at += bytes
		}
	}
}

// escape reads an escape, and is how many bytes it stands for.
func (it *scan) escape() (length int, isSo bool) {
	if it.at+1 == len(it.body) {
		return 0, false
	}
	switch it.body[it.at+1] {
	case '"', '\\', '/', 'b', 'f', 'n', 'r', 't':
		it.at += 2
		return 1, true
	case 'u':
		found, isSo := it.unit()
		switch {
		case 0xdc00 <= found && found < 0xe000:
			return 0, false
		case 0xd800 <= found && found < 0xdc00:
			// (a half of a pair alone stands for no character)
			low, isLow := it.unit()
			return 4, isSo && isLow && 0xdc00 <= low && low < 0xe000
		}
		return utf8.RuneLen(found), isSo
	}
	return 0, false
}

// unit reads an escape of four digits.
func (it *scan) unit() (found rune, isSo bool) {
	if it.at+6 > len(it.body) || it.body[it.at] != '\\' || it.body[it.at+1] != 'u' {
		return 0, false
	}
	for _, digit := range it.body[it.at+2 : it.at+6] {
		value, isDigit := hexValue(digit)
		if !isDigit {
			return 0, false
		}
		found = found<<4 | rune(value)
	}
	it.at += 6
	return found, true
}

func hexValue(digit byte) (byte, bool) {
	switch {
	case '0' <= digit && digit <= '9':
		return digit - '0', true
	case 'a' <= digit && digit <= 'f':
		return digit - 'a' + 10, true
	case 'A' <= digit && digit <= 'F':
		return digit - 'A' + 10, true
	}
	return 0, false
}
