package main

import (
	"encoding/hex"
	"math"
	"time"
	"unicode/utf8"

	"google.golang.org/protobuf/encoding/protowire"
)

// The messages of OpenTelemetry's protocol, in the parts that are taken.
var (
	valueShape = shape{
		1: {kind: protowire.BytesType}, 2: {kind: protowire.VarintType}, 3: {kind: protowire.VarintType},
		4: {kind: protowire.Fixed64Type}, 7: {kind: protowire.BytesType},
	}
	attributeShape  = shape{1: {kind: protowire.BytesType}, 2: {protowire.BytesType, valueShape}}
	listShape       = shape{1: {protowire.BytesType, valueShape}}
	attributesShape = shape{1: {protowire.BytesType, attributeShape}}
	recordShape     = shape{
		1: {kind: protowire.Fixed64Type}, 2: {kind: protowire.VarintType}, 3: {kind: protowire.BytesType},
		5: {protowire.BytesType, valueShape}, 6: {protowire.BytesType, attributeShape}, 7: {kind: protowire.VarintType},
		8: {kind: protowire.Fixed32Type}, 9: {kind: protowire.BytesType}, 10: {kind: protowire.BytesType},
		11: {kind: protowire.Fixed64Type}, 12: {kind: protowire.BytesType},
	}
	scopeShape = shape{
		1: {kind: protowire.BytesType}, 2: {kind: protowire.BytesType}, 3: {protowire.BytesType, attributeShape},
		4: {kind: protowire.VarintType},
	}
	scopeLogsShape    = shape{1: {protowire.BytesType, scopeShape}, 2: {protowire.BytesType, recordShape}}
	resourceShape     = shape{1: {protowire.BytesType, attributeShape}}
	resourceLogsShape = shape{1: {protowire.BytesType, resourceShape}, 2: {protowire.BytesType, scopeLogsShape}}
	logsShape         = shape{1: {protowire.BytesType, resourceLogsShape}}
)

func init() {
	// (which have values in them again)
	valueShape[5] = field{protowire.BytesType, listShape}
	valueShape[6] = field{protowire.BytesType, attributesShape}
}

// A field of a message that was checked: its number and what it has, by its type.
type wireField struct {
	number protowire.Number
	value  uint64
	bytes  []byte
}

func eachField(message []byte, take func(wireField)) {
	for len(message) > 0 {
		number, kind, length := protowire.ConsumeTag(message)
		message = message[length:]
		found := wireField{number: number}
		switch kind {
		case protowire.VarintType:
			found.value, length = protowire.ConsumeVarint(message)
		case protowire.Fixed64Type:
			found.value, length = protowire.ConsumeFixed64(message)
		case protowire.Fixed32Type:
			var value uint32
			value, length = protowire.ConsumeFixed32(message)
			found.value = uint64(value)
		case protowire.BytesType:
			found.bytes, length = protowire.ConsumeBytes(message)
		default:
			length = protowire.ConsumeFieldValue(number, kind, message)
		}
		message = message[length:]
		take(found)
	}
}

// A record that is parsed once it is sent on, and what its scope and its resource give it.
type unparsed[T any] struct {
	from   T
	before []label
}

// decodeOTLP reads logs of Protobuf.
func decodeOTLP(body []byte, found *messages) (streams []stream, err error) {
	if err := logsShape.check(body, found); err != nil {
		return nil, asBadRequest(err)
	}
	arrival := time.Now()
	eachField(body, func(it wireField) {
		if it.number == 1 && err == nil {
			var next stream
			next, err = found.wireStream(len(streams), it.bytes, arrival)
			streams = append(streams, next)
		}
	})
	return streams, err
}

func (it *messages) wireStream(number int, resource []byte, arrival time.Time) (stream, error) {
	var attributes []attribute
	var scopes [][]byte
	eachField(resource, func(it wireField) {
		switch it.number {
		case 1:
			attributes = append(attributes, attributesOf(it.bytes, 1)...)
		case 2:
			scopes = append(scopes, it.bytes)
		}
	})
	labels, before := resourceLabels(attributes)
	var records []unparsed[[]byte]
	for _, each := range scopes {
		from := len(records)
		if records = addScope(records, each, before); len(records) == from {
			continue
		}
		if err := it.shares(len(records)-from, records[from].before); err != nil {
			return stream{}, err
		}
	}
	for at, each := range records {
		if _, err := readWireRecord(each.from); err != nil {
			return stream{}, badRequest("stream %d entry %d: %s", number, at, err)
		}
	}
	return stream{number, labels, len(records), func(at int) entry {
		found, _ := readWireRecord(records[at].from)
		return found.entry(arrival, records[at].before)
	}}, nil
}

// addScope adds the records of a scope.
func addScope(records []unparsed[[]byte], scope []byte, before []label) []unparsed[[]byte] {
	var name, version string
	var dropped uint64
	var attributes []attribute
	from := len(records)
	eachField(scope, func(it wireField) {
		if it.number == 2 {
			records = append(records, unparsed[[]byte]{from: it.bytes})
		}
		if it.number != 1 {
			return
		}
		attributes = append(attributes, attributesOf(it.bytes, 3)...)
		eachField(it.bytes, func(it wireField) {
			switch it.number {
			case 1:
				name = string(it.bytes)
			case 2:
				version = string(it.bytes)
			case 4:
				dropped = it.value
			}
		})
	})
	all := scopeMetadata(before, name, version, dropped, attributes)
	for at := range records[from:] {
		records[from+at].before = all
	}
	return records
}

// attributesOf are those that a message has as fields of this number.
func attributesOf(message []byte, number protowire.Number) (found []attribute) {
	eachField(message, func(it wireField) {
		if it.number == number {
			found = append(found, readAttribute(it.bytes))
		}
	})
	return found
}

func readAttribute(message []byte) (found attribute) {
	eachField(message, func(it wireField) {
		switch it.number {
		case 1:
			found.key = string(it.bytes)
		case 2:
			found.value = readValue(it.bytes)
		}
	})
	return found
}

func readValue(message []byte) (found any) {
	eachField(message, func(it wireField) {
		switch it.number {
		case 1:
			found = string(it.bytes)
		case 2:
			found = it.value != 0
		case 3:
			found = int64(it.value)
		case 4:
			found = math.Float64frombits(it.value)
		case 5:
			values := []any{}
			eachField(it.bytes, func(it wireField) {
				if it.number == 1 {
					values = append(values, readValue(it.bytes))
				}
			})
			found = values
		case 6:
			found = append([]attribute{}, attributesOf(it.bytes, 1)...)
		case 7:
			found = it.bytes
		}
	})
	return found
}

func readWireRecord(message []byte) (found record, err error) {
	eachField(message, func(it wireField) {
		switch it.number {
		case 1:
			found.time = it.value
		case 2:
			found.severity = it.value
		case 3:
			found.severityText = string(it.bytes)
		case 5:
			found.body = readValue(it.bytes)
		case 6:
			found.attributes = append(found.attributes, readAttribute(it.bytes))
		case 7:
			found.dropped = it.value
		case 8:
			found.flags = it.value
		case 9:
			found.traceID = idOf(it.bytes, traceBytes, &err)
		case 10:
			found.spanID = idOf(it.bytes, spanBytes, &err)
		case 11:
			found.observed = it.value
		case 12:
			found.eventName = string(it.bytes)
		}
	})
	return found, err
}

const traceBytes, spanBytes = 16, 8

// idOf is an id in digits, nothing for one that is all zero or not there. One of another length is an error.
func idOf(bytes []byte, length int, err *error) string {
	isSome := false
	for _, it := range bytes {
		isSome = isSome || it != 0
	}
	switch {
	case len(bytes) != 0 && len(bytes) != length:
		*err = badRequest("an id has %d bytes in place of %d", len(bytes), length)
	case isSome:
		return hex.EncodeToString(bytes)
	}
	return ""
}

// statusMessage is google.rpc.Status with a text alone.
func statusMessage(text string) []byte {
	if !utf8.ValidString(text) {
		return nil
	}
	return protowire.AppendString(protowire.AppendTag(nil, 2, protowire.BytesType), text)
}
