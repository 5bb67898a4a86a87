package main

import (
	"math"

	"google.golang.org/protobuf/encoding/protowire"
	"google.golang.org/protobuf/proto"
)

// A shape is what a message may have: of which wire type a field is, and the shape of a message in it.
type shape map[protowire.Number]field

type field struct {
	kind  protowire.Type
	inner shape
}

var (
	timeShape  = shape{1: {kind: protowire.VarintType}, 2: {kind: protowire.VarintType}}
	pairShape  = shape{1: {kind: protowire.BytesType}, 2: {kind: protowire.BytesType}}
	entryShape = shape{
		1: {protowire.BytesType, timeShape},
		2: {kind: protowire.BytesType},
		3: {protowire.BytesType, pairShape},
		4: {kind: protowire.BytesType},
	}
	streamShape = shape{
		1: {kind: protowire.BytesType},
		2: {protowire.BytesType, entryShape},
		3: {kind: protowire.VarintType},
	}
	pushShape = shape{1: {protowire.BytesType, streamShape}}
)

// check goes through all fields of a message before any of it takes memory: whether lengths are true, and known fields
// of their type, which the generated code would take for unknown ones. It counts the messages.
func (it shape) check(body []byte, found *messages) error {
	for len(body) > 0 {
		number, kind, length := protowire.ConsumeTag(body)
		if length < 0 {
			return protowire.ParseError(length)
		}
		body = body[length:]
		if length = protowire.ConsumeFieldValue(number, kind, body); length < 0 {
			return protowire.ParseError(length)
		}
		known, isKnown := it[number]
		if isKnown && known.kind != kind {
			return badRequest("proto: wrong wireType = %d for field %d", kind, number)
		}
		if known.inner != nil {
			if err := found.add(); err != nil {
				return err
			}
			inner, _ := protowire.ConsumeBytes(body)
			if err := known.inner.checkInner(inner, found); err != nil {
				return err
			}
		}
		body = body[length:]
	}
	return nil
}

// (each takes some of the stack)
const mostDepth = 100

func (it shape) checkInner(body []byte, found *messages) error {
	if found.depth == mostDepth {
		return badRequest("more than %d messages in each other", mostDepth)
	}
	found.depth++
	defer func() { found.depth-- }()
	return it.check(body, found)
}

// decodeProtobuf reads a body as Loki's shippers make it.
func decodeProtobuf(body []byte, found *messages) ([]stream, error) {
	if err := pushShape.check(body, found); err != nil {
		return nil, asBadRequest(err)
	}
	var push Push
	if err := (proto.UnmarshalOptions{DiscardUnknown: true}).Unmarshal(body, &push); err != nil {
		return nil, asBadRequest(err)
	}
	streams := make([]stream, 0, len(push.Streams))
	for number, it := range push.Streams {
		next, err := it.stream(number)
		if err != nil {
			return nil, err
		}
		streams = append(streams, next)
	}
	return streams, nil
}

func asBadRequest(err error) error {
	if _, is := err.(*fault); is {
		return err
	}
	return badRequest("%s", err)
}

func (it *PushedStream) stream(number int) (stream, error) {
	labels, err := parseLabels(it.Labels)
	if err != nil {
		return stream{}, badRequest("couldn't parse labels of stream %d: %s", number, err)
	}
	for at, entry := range it.Entries {
		if entry.Timestamp == nil {
			continue
		}
		if err := entry.Timestamp.CheckValid(); err != nil {
			return stream{}, badRequest("stream %d entry %d: %s", number, at, err)
		}
	}
	found := func(at int) entry { return it.Entries[at].entry() }
	return stream{number, labels, len(it.Entries), found}, nil
}

func (it *PushedEntry) entry() entry {
	found := entry{time: nanoseconds(it.Timestamp.GetSeconds(), it.Timestamp.GetNanos()), line: string(cut(it.Line, mostLine))}
	for _, pair := range it.Metadata {
		found.metadata = addPair(found.metadata, string(cut(pair.Name, mostKey)), string(cut(pair.Value, mostText)))
	}
	return found
}

// nanoseconds since 1970, or the nearest time that the server's form has. It refuses both ends: too old, too new.
func nanoseconds(seconds int64, more int32) int64 {
	const each = 1_000_000_000
	switch {
	case seconds < 0:
		return 0
	case seconds >= math.MaxInt64/each:
		return math.MaxInt64
	}
	return seconds*each + int64(more)
}
