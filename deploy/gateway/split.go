package main

import (
	"strconv"
	"strings"
	"unicode/utf8"

	jsoniter "github.com/json-iterator/go"
)

// A span is the entries of a stream that are in a part: the stream's number in the body that came, and that of its
// first entry there.
type span struct{ stream, first int }

// A part of a push is a body that the server takes. Its spans stand in the order of its streams.
type part struct {
	body  []byte
	spans []span
}

// A splitter makes one part after another of the streams of a push, in their order.
type splitter struct {
	streams []stream
	// of the first of them, how many entries have gone
	gone int
	// of the part that is made
	out     *jsoniter.Stream
	part    part
	entries int
}

const (
	bodyEnd   = "]}"
	streamEnd = "]}"
)

// newSplitter leaves out streams without entries, as Loki does, and refuses those with two labels of one name, which
// the server's form can't have.
func newSplitter(streams []stream, refuse func(number int, why string)) *splitter {
	it := &splitter{}
	for _, next := range streams {
		if next.length == 0 {
			continue
		}
		if hasTwice(next.labels) {
			refuse(next.number, "label name twice")
			continue
		}
		it.streams = append(it.streams, next)
	}
	return it
}

func (it *splitter) done() bool { return len(it.streams) == 0 }

// next is the next part. A push without an entry has one, too, without a stream.
func (it *splitter) next() part {
	it.out = jsoniter.NewStream(jsoniter.ConfigDefault, nil, 0)
	it.part, it.entries = part{}, 0
	it.out.WriteRaw(`{"streams":[`)
	for !it.done() && it.addStream() {
		it.streams, it.gone = it.streams[1:], 0
	}
	it.out.WriteRaw(bodyEnd)
	it.part.body = it.out.Buffer()
	return it.part
}

// addStream adds what fits of the first stream, and says whether that was all of it.
func (it *splitter) addStream() bool {
	from, before := it.streams[0], it.out.Buffered()
	if len(it.part.spans) > 0 {
		it.out.WriteMore()
	}
	it.out.WriteRaw(`{"stream":`)
	writeLabels(it.out, from.labels)
	it.out.WriteRaw(`,"values":[`)
	first := it.gone
	for it.gone < from.length && it.addEntry(from.entry(it.gone), it.gone > first) {
		it.gone++
		it.entries++
	}
	if it.gone == first {
		it.cutTo(before)
		return false
	}
	it.out.WriteRaw(streamEnd)
	it.part.spans = append(it.part.spans, span{from.number, first})
	return it.gone == from.length
}

// addEntry adds an entry, if the part has room for it. (An empty part has: labels and entries are cut.)
func (it *splitter) addEntry(from entry, more bool) bool {
	if it.entries == mostEntries {
		return false
	}
	before := it.out.Buffered()
	if more {
		it.out.WriteMore()
	}
	writeEntry(it.out, from)
	if it.out.Buffered()+len(streamEnd)+len(bodyEnd) <= mostBody {
		return true
	}
	it.cutTo(before)
	return false
}

func (it *splitter) cutTo(length int) { it.out.SetBuffer(it.out.Buffer()[:length]) }

func writeEntry(out *jsoniter.Stream, from entry) {
	out.WriteRaw(`["`)
	out.SetBuffer(strconv.AppendInt(out.Buffer(), from.time, 10))
	out.WriteRaw(`",`)
	out.WriteString(valid(from.line))
	if len(from.metadata) > 0 {
		out.WriteMore()
		writeLabels(out, from.metadata)
	}
	out.WriteArrayEnd()
}

func writeLabels(out *jsoniter.Stream, labels []label) {
	out.WriteObjectStart()
	for at, it := range labels {
		if at > 0 {
			out.WriteMore()
		}
		out.WriteString(valid(it.name))
		out.WriteRaw(":")
		out.WriteString(valid(it.value))
	}
	out.WriteObjectEnd()
}

// valid has U+FFFD in the place of each byte that is no UTF-8, which JSON can't have.
func valid(text string) string {
	if utf8.ValidString(text) {
		return text
	}
	return strings.Map(func(it rune) rune { return it }, text)
}
