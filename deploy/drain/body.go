package main

import (
	"github.com/golang/snappy"
	"google.golang.org/protobuf/encoding/protowire"
)

// maxStreams is how many streams a body may have.
const maxStreams = bodyLines

// A room for bodies, which a worker has while it sends one.
type room struct {
	plain, packed, stream, entry, text []byte
}

// The numbers of the fields of Loki's messages: of PushRequest and of StreamAdapter, of EntryAdapter, of its time, of a
// pair of its metadata.
const (
	fieldStreams, fieldLabels, fieldEntries = 1, 1, 2
	fieldTime, fieldLine, fieldMetadata     = 1, 2, 3
	fieldSeconds, fieldNanoseconds          = 1, 2
	fieldName, fieldValue                   = 1, 2
)

// protobuf is a body as Loki's own shippers send one: Protobuf, in snappy's block format.
func (it *room) protobuf(pieces []piece) []byte {
	it.plain = it.plain[:0]
	for _, one := range pieces {
		it.stream = appendBytes(it.stream[:0], fieldLabels, one.of.text)
		for at := range one.spans {
			it.entry = it.appendEntry(it.entry[:0], one, at)
			it.stream = appendBytes(it.stream, fieldEntries, it.entry)
		}
		it.plain = appendBytes(it.plain, fieldStreams, it.stream)
	}
	if most := snappy.MaxEncodedLen(len(it.plain)); cap(it.packed) < most {
		it.packed = make([]byte, most)
	}
	return snappy.Encode(it.packed[:cap(it.packed)], it.plain)
}

func appendBytes[text string | []byte](to []byte, field protowire.Number, value text) []byte {
	to = protowire.AppendTag(to, field, protowire.BytesType)
	return append(protowire.AppendVarint(to, uint64(len(value))), value...)
}

func appendNumber(to []byte, field protowire.Number, value int64) []byte {
	return protowire.AppendVarint(protowire.AppendTag(to, field, protowire.VarintType), uint64(value))
}

func (it *room) appendEntry(to []byte, one piece, at int) []byte {
	time := one.spans[at].time
	it.text = appendNumber(appendNumber(it.text[:0], fieldSeconds, time/second), fieldNanoseconds, time%second)
	to = appendBytes(to, fieldTime, it.text)
	it.text = appendUnescaped(it.text[:0], one.line(at))
	to = appendBytes(to, fieldLine, it.text)
	for rest := one.metadata(at); len(rest) > 1; {
		var name, value []byte
		name, rest = nextString(rest)
		value, rest = nextString(rest)
		it.text = appendBytes(it.text[:0], fieldName, appendUnescaped(nil, name))
		it.text = appendBytes(it.text, fieldValue, appendUnescaped(nil, value))
		to = appendBytes(to, fieldMetadata, it.text)
	}
	return to
}

// nextString is the string of JSON that begins behind the next byte, and what is behind it.
func nextString(text []byte) (found, rest []byte) {
	end := scanString(text, 2)
	return text[2:end], text[end+1:]
}

// json is a body in Loki's other form, which a server of this kind takes.
func (it *room) json(pieces []piece) []byte {
	it.plain = append(it.plain[:0], `{"streams":[`...)
	for at, one := range pieces {
		if at > 0 {
			it.plain = append(it.plain, ',')
		}
		it.plain = append(append(append(it.plain, `{"stream":`...), one.labels...), `,"values":[`...)
		for entry := range one.spans {
			if entry > 0 {
				it.plain = append(it.plain, ',')
			}
			it.plain = append(it.plain, one.raw(entry)...)
		}
		it.plain = append(it.plain, `]}`...)
	}
	return append(it.plain, `]}`...)
}

// A batch has pieces of several streams of a tenant, with texts of its own.
type batch struct {
	key, tenant string
	pieces      []piece
	lines       int
	bytes       int
	// how many pieces it may have
	most int
	// whether somebody sends it, and when it was sent
	isTaken bool
	done    chan struct{}
	// why streams of it are not taken
	left map[*stream]error
}

func newBatch(key, tenant string) *batch {
	return &batch{key: key, tenant: tenant, most: maxStreams, done: make(chan struct{})}
}

// add copies a piece.
func (it *batch) add(one piece) {
	first, last := one.spans[0].begin, one.spans[len(one.spans)-1].end
	one.text = append([]byte(nil), one.text[first:last]...)
	spans := make([]span, len(one.spans))
	for at, of := range one.spans {
		spans[at] = span{of.time, of.begin - first, of.end - first, of.lineAt - first, of.lineEnds - first}
	}
	one.spans = spans
	it.pieces = append(it.pieces, one)
	it.lines += len(spans)
	it.bytes += len(one.text)
}

// split is a piece in two, of which the first has so many entries. What that is of the last time before the second
// stays until the second is kept too.
func (it piece) split(count int) (piece, piece) {
	first, second := it, it
	first.part, second.part = it.cut(0, count), it.cut(count, len(it.spans))
	first.bound = 0
	if last := first.spans[count-1].time; last < second.spans[0].time {
		first.bound = last + 1
	}
	return first, second
}

// bodies cuts a piece into those that one body has room for.
func (it piece) bodies() []piece {
	var found []piece
	for {
		count, bytes := 0, 0
		for count < len(it.spans) && count < bodyLines && (count == 0 || bytes < bodyBytes) {
			bytes += int(it.spans[count].end-it.spans[count].begin) + 1
			count++
		}
		if count == len(it.spans) {
			return append(found, it)
		}
		var first piece
		first, it = it.split(count)
		found = append(found, first)
	}
}

// linesOf counts the entries of pieces.
func linesOf(pieces []piece) int {
	count := 0
	for _, one := range pieces {
		count += len(one.spans)
	}
	return count
}
