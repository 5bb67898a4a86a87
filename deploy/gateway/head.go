package main

import (
	"bytes"
	"net/http"
)

// What the head of a push says. A field that isn't there is empty.
type head struct {
	tenant, kind, encoding string
	// -1 where it isn't said
	length int64
}

func headOf(from *http.Request) head {
	field := from.Header.Get
	return head{field("X-Scope-OrgID"), field("Content-Type"), field("Content-Encoding"), from.ContentLength}
}

// A pushHead reads the heads of the pushes of a connection, as shippers send them: this method, path and version, a
// length, one host, and no field that asks for more than an answer. It refuses nothing: any other head is net/http's.
type pushHead struct {
	said head
	// of the fields that may be there once, which were
	seen [fieldCount]bool
}

// The fields that are looked at.
const (
	hostField = iota
	lengthField
	kindField
	encodingField
	tenantField
	connectionField
	fieldCount
)

// (in small letters)
var fieldNames = [fieldCount]string{"host", "content-length", "content-type", "content-encoding", "x-scope-orgid", "connection"}

// With these net/http does more than to answer.
var otherFields = [...]string{"transfer-encoding", "expect", "trailer", "upgrade"}

const pushLine = "POST " + pushPath + " HTTP/1.1\r\n"

// read finds a whole head at the beginning of what came, and its length; of 0 if more has to come, for which there is
// room. Or it finds that this is no such head.
func (it *pushHead) read(text []byte) (length int, isUsual bool) {
	if len(text) < len(pushLine) {
		return 0, string(text) == pushLine[:len(text)]
	}
	if string(text[:len(pushLine)]) != pushLine {
		return 0, false
	}
	// (the end of the first line may be that of the head)
	end := bytes.Index(text[len(pushLine)-2:], []byte("\r\n\r\n"))
	if end < 0 {
		return 0, len(text) < shipperSpace
	}
	length = len(pushLine) - 2 + end + 4
	return length, it.fields(text[len(pushLine) : length-2])
}

// fields reads lines, each with its end.
func (it *pushHead) fields(lines []byte) bool {
	it.seen = [fieldCount]bool{}
	it.said.kind, it.said.encoding = "", ""
	for len(lines) > 0 {
		end := bytes.IndexByte(lines, '\n')
		colon := bytes.IndexByte(lines[:end+1], ':')
		if colon <= 0 || lines[end-1] != '\r' || !it.field(lines[:colon], trimmed(lines[colon+1:end-1])) {
			return false
		}
		lines = lines[end+1:]
	}
	if !it.seen[tenantField] {
		it.said.tenant = ""
	}
	return it.seen[hostField] && it.seen[lengthField]
}

func trimmed(text []byte) []byte {
	for len(text) > 0 && isBlank(text[0]) {
		text = text[1:]
	}
	for len(text) > 0 && isBlank(text[len(text)-1]) {
		text = text[:len(text)-1]
	}
	return text
}

func isBlank(it byte) bool { return it == ' ' || it == '\t' }

// field takes a field, and is whether it may be so.
func (it *pushHead) field(name, value []byte) bool {
	if !isEach(name, fieldLetter) || !isEach(value, valueLetter) {
		return false
	}
	for _, other := range otherFields {
		if isNamed(name, other) {
			return false
		}
	}
	for at, known := range fieldNames {
		if isNamed(name, known) {
			isTwice := it.seen[at]
			it.seen[at] = true
			return !isTwice && it.take(at, value)
		}
	}
	return true
}

func (it *pushHead) take(field int, value []byte) bool {
	switch field {
	case hostField:
		return isEach(value, hostLetter)
	case lengthField:
		return it.takeLength(value)
	case kindField:
		it.said.kind = interned(value)
	case encodingField:
		it.said.encoding = interned(value)
	case tenantField:
		// (which is nearly always the same on a connection)
		if string(value) != it.said.tenant {
			it.said.tenant = string(value)
		}
	case connectionField:
		return isNamed(value, "keep-alive")
	}
	return true
}

// (more digits than these are no length of a body)
const mostDigits = 18

func (it *pushHead) takeLength(digits []byte) bool {
	it.said.length = 0
	for _, digit := range digits {
		it.said.length = it.said.length*10 + int64(digit-'0')
	}
	return 0 < len(digits) && len(digits) <= mostDigits && isEach(digits, digitLetter)
}

// interned is a text, without taking memory for those that shippers send.
func interned(value []byte) string {
	switch string(value) {
	case jsonType:
		return jsonType
	case protobufType:
		return protobufType
	case "gzip":
		return "gzip"
	case "snappy":
		return "snappy"
	}
	return string(value)
}

// isNamed is whether a name is this one, which is in small letters.
func isNamed(name []byte, wanted string) bool {
	if len(name) != len(wanted) {
		return false
	}
	for at, it := range name {
		if 'A' <= it && it <= 'Z' {
			it += 'a' - 'A'
		}
		if it != wanted[at] {
			return false
		}
	}
	return true
}

// Of each byte what it may be in.
const (
	fieldLetter = 1 << iota
	hostLetter
	valueLetter
	digitLetter
)

var letters = lettersOf()

func lettersOf() (found [256]byte) {
	for at := range found {
		switch it := byte(at); {
		case isDigit(it):
			found[it] = fieldLetter | hostLetter | valueLetter | digitLetter
		case isLetter(it) || it == '-':
			found[it] = fieldLetter | hostLetter | valueLetter
		case it == '.' || it == ':' || it == '[' || it == ']':
			found[it] = hostLetter | valueLetter
		case ' ' <= it && it <= '~' || it == '\t':
			found[it] = valueLetter
		}
	}
	return found
}

func isEach(text []byte, wanted byte) bool {
	for _, it := range text {
		if letters[it]&wanted == 0 {
			return false
		}
	}
	return true
}
