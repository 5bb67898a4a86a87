package main

import (
	"strconv"
	"strings"
)

const (
	second = int64(1_000_000_000)
	// a time that no line comes up to
	ever = int64(1<<63 - 1)
	// in place of a time that isn't known
	never = int64(-1)
)

// A stream, as a catalog lists it, and what a round finds of it. One worker at a time reads it.
type stream struct {
	tenant string
	// its labels, as the log writes them
	text  string
	shard int
	// about how many bytes its lines have in answers
	size int64
	// how many entries it has, where the catalog knows it, else never
	entries int64
	// a time that its newest line is not before
	reached int64
	// how many entries were ever removed of it, as was told before anything was read; never where that isn't known
	removed int64
	// the time before which it isn't asked for its end
	endsFrom int64

	// the newest time that was read, and the oldest one before and after this round
	newest, first, left int64
	// how many bytes of lines were read in this round
	bytes int64
	// what is kept elsewhere, and not removed as long as `removed` stays; all that the stream had below the bound is
	kept  tally
	bound int64
	// whether a removal, or the end, is due or on its way
	isTaking, isEnding bool
	// whether it is to be read again, once nothing of it is on its way, and what was said of `removed` then
	isAgain bool
	moved   int64
	// whether something of it was refused, or is left for the next round
	isRefused bool
	// the body to a Loki in which its last lines are
	sent *batch
}

func newStream(tenant, text string, shard int) *stream {
	return &stream{tenant: tenant, text: text, shard: shard, entries: never, removed: never, newest: never, first: never,
		left: never}
}

func (it *stream) String() string { return it.tenant + " " + it.text }

// oldest is the time of the oldest line that the server has after a round.
func (it *stream) oldest() int64 {
	if it.isRefused {
		return it.first
	}
	return it.left
}

// A label, and its value without escapes.
type label struct{ name, value string }

// labels reads the text, `{a="1", b="2"}` with `\\`, `\"` and `\n` in values.
func (it *stream) labels() []label {
	var found []label
	rest := strings.TrimPrefix(it.text, "{")
	for {
		name, after, isThere := strings.Cut(rest, `="`)
		if !isThere {
			return found
		}
		end := endOfString(after)
		found = append(found, label{strings.TrimLeft(name, ", "), unescapeLabel(after[:end])})
		if rest = ""; end < len(after) {
			rest = after[end+1:]
		}
	}
}

// endOfString is the place of the quote that ends a string, or the length of the text if there is none.
func endOfString(text string) int {
	for at := 0; at < len(text); at++ {
		switch text[at] {
		case '"':
			return at
		case '\\':
			at++
		}
	}
	return len(text)
}

var labelEscapes = strings.NewReplacer(`\\`, `\`, `\"`, `"`, `\n`, "\n")

func unescapeLabel(text string) string {
	if strings.IndexByte(text, '\\') < 0 {
		return text
	}
	return labelEscapes.Replace(text)
}

// appendObject appends labels as an object of JSON.
func appendObject(to []byte, labels []label) []byte {
	to = append(to, '{')
	for at, it := range labels {
		if at > 0 {
			to = append(to, ',')
		}
		to = append(appendQuoted(to, it.name), ':')
		to = appendQuoted(to, it.value)
	}
	return append(to, '}')
}

const hexDigits = "0123456789abcdef"

var jsonEscapes = map[byte]string{'"': `\"`, '\\': `\\`, '\b': `\b`, '\f': `\f`, '\n': `\n`, '\r': `\r`, '\t': `\t`}

// appendQuoted appends a string of JSON, with no escape that isn't needed.
func appendQuoted(to []byte, text string) []byte {
	to = append(to, '"')
	for at := 0; at < len(text); at++ {
		next := text[at]
		switch {
		case next >= ' ' && next != '"' && next != '\\':
			to = append(to, next)
		case jsonEscapes[next] != "":
			to = append(to, jsonEscapes[next]...)
		default:
			to = append(to, `\u00`...)
			to = append(to, hexDigits[next>>4], hexDigits[next&15])
		}
	}
	return append(to, '"')
}

// shownLabels is how Loki's answers name a stream.
func shownLabels(labels []label) string {
	shown := make([]string, len(labels))
	for at, it := range labels {
		shown[at] = it.name + "=" + strconv.Quote(it.value)
	}
	return "{" + strings.Join(shown, ", ") + "}"
}
