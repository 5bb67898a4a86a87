package main

import (
	"fmt"
	"strconv"
	"strings"
	"unicode/utf8"
)

// A reader of labels as text, such as `{job="demo", host='a'}`, in the grammar by which Loki reads them: Prometheus'
// of a metric. So there may be a name in front, which is the label __name__, a comma at the end, comments, and texts
// in any of the three quotes.
type labelText struct {
	text string
	at   int
}

// (what is longer has labels that the server refuses, whatever escapes they have)
const mostLabelText = 1 << 20

func parseLabels(text string) ([]label, error) {
	if len(text) > mostLabelText {
		return nil, fmt.Errorf("more than %d bytes", mostLabelText)
	}
	it := labelText{text: text}
	labels, err := it.metric()
	if err == nil && it.skip() < len(text) {
		err = it.fault("unexpected %q after the labels", it.rune())
	}
	return labels, err
}

// fault is an error at this place, by its line and column from 1, as Prometheus tells it.
func (it *labelText) fault(format string, words ...any) error {
	before := it.text[:it.at]
	line := 1 + strings.Count(before, "\n")
	column := it.at - strings.LastIndex(before, "\n")
	return fmt.Errorf("%d:%d: parse error: %s", line, column, fmt.Sprintf(format, words...))
}

func (it *labelText) rune() rune {
	found, _ := utf8.DecodeRuneInString(it.text[it.at:])
	return found
}

// next is the byte at this place, or 0 at the end.
func (it *labelText) next() byte {
	if it.at < len(it.text) {
		return it.text[it.at]
	}
	return 0
}

// skip goes past spaces and comments, and returns the place.
func (it *labelText) skip() int {
	for it.at < len(it.text) {
		switch it.text[it.at] {
		case ' ', '\t', '\r', '\n':
			it.at++
		case '#':
			if end := strings.IndexByte(it.text[it.at:], '\n'); end >= 0 {
				it.at += end
			} else {
				it.at = len(it.text)
			}
		default:
			return it.at
		}
	}
	return it.at
}

func isLetter(it byte) bool { return it == '_' || 'a' <= it && it <= 'z' || 'A' <= it && it <= 'Z' }
func isDigit(it byte) bool  { return '0' <= it && it <= '9' }

// name is the name at this place, or an empty text. That of a metric may have colons.
func (it *labelText) name(colons bool) string {
	from := it.at
	for isLetter(it.next()) || it.next() == ':' && colons || it.at > from && isDigit(it.next()) {
		it.at++
	}
	return it.text[from:it.at]
}

func isName(text string) bool {
	it := labelText{text: text}
	return text != "" && it.name(false) == text
}

func (it *labelText) metric() ([]label, error) {
	it.skip()
	labels := addLabel(nil, "__name__", it.name(true))
	if it.skip(); it.next() != '{' {
		return labels, nil
	}
	it.at++
	for {
		if it.skip(); it.next() == '}' {
			it.at++
			return labels, nil
		}
		name, value, err := it.pair()
		if err != nil {
			return nil, err
		}
		labels = addLabel(labels, name, value)
		switch it.skip(); it.next() {
		case ',':
			it.at++
		case '}':
		default:
			return nil, it.unexpected(`"," or "}"`)
		}
	}
}

func (it *labelText) unexpected(wanted string) error {
	if it.at == len(it.text) {
		return it.fault("unexpected end of input inside braces, expected %s", wanted)
	}
	return it.fault("unexpected %q inside braces, expected %s", it.rune(), wanted)
}

func (it *labelText) pair() (name, value string, err error) {
	if name = it.name(false); name == "" {
		return "", "", it.unexpected(`a label name or "}"`)
	}
	if it.skip(); it.next() != '=' {
		return "", "", it.unexpected(`"="`)
	}
	it.at++
	switch it.skip(); it.next() {
	case '"', '\'':
		value, err = it.quoted()
	case '`':
		value, err = it.raw()
	default:
		err = it.unexpected("a quoted text")
	}
	return name, value, err
}

// quoted reads a text in single or double quotes, with Go's escapes. A \x or \377 gives a byte, which may be no UTF-8.
// Of a long text it keeps no more than the server needs to refuse it.
func (it *labelText) quoted() (string, error) {
	quote := it.next()
	it.at++
	var found strings.Builder
	for {
		switch next := it.next(); {
		case it.at == len(it.text) || next == '\n':
			return "", it.fault("unterminated quoted string")
		case next == quote:
			it.at++
			return found.String(), nil
		case next == '\\':
			if err := it.escape(quote, &found); err != nil {
				return "", err
			}
		default:
			rest := it.text[it.at:]
			if end := strings.IndexAny(rest, "\\\n"+string(rune(quote))); end >= 0 {
				rest = rest[:end]
			}
			if !utf8.ValidString(rest) {
				return "", it.fault("invalid UTF-8 rune")
			}
			if found.Len() <= mostValue {
				found.WriteString(cut(rest, mostValue))
			}
			it.at += len(rest)
		}
	}
}

func (it *labelText) escape(quote byte, found *strings.Builder) error {
	text, more, rest, err := strconv.UnquoteChar(it.text[it.at:], quote)
	if err != nil {
		return it.fault("unknown or unfinished escape sequence")
	}
	switch {
	case found.Len() > mostValue:
	case more:
		found.WriteRune(text)
	default:
		found.WriteByte(byte(text))
	}
	it.at = len(it.text) - len(rest)
	return nil
}

// raw reads a text between backquotes, which has no escapes.
func (it *labelText) raw() (string, error) {
	end := strings.IndexByte(it.text[it.at+1:], '`')
	if end < 0 {
		return "", it.fault("unterminated raw string")
	}
	found := it.text[it.at+1 : it.at+1+end]
	if !utf8.ValidString(found) {
		return "", it.fault("invalid UTF-8 rune")
	}
	it.at += end + 2
	return found, nil
}
