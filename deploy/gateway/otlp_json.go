package main

import (
	"bytes"
	"encoding/hex"
	"encoding/json"
	"strconv"
	"time"
)

// The JSON of OpenTelemetry's protocol: a number of 64 bits is a text or a number, an id is hexadecimal digits.
type (
	jsonLogs         struct{ ResourceLogs []jsonResourceLogs }
	jsonResourceLogs struct {
		Resource  struct{ Attributes []jsonAttribute }
		ScopeLogs []jsonScopeLogs
	}
	jsonScopeLogs struct {
		Scope struct {
			Name, Version          string
			Attributes             []jsonAttribute
			DroppedAttributesCount jsonCount
		}
		LogRecords []json.RawMessage
	}
	jsonRecord struct {
		TimeUnixNano, ObservedTimeUnixNano jsonCount
		SeverityNumber                     jsonCount
		DroppedAttributesCount, Flags      jsonCount
		SeverityText, EventName            string
		Body                               jsonValue
		Attributes                         []jsonAttribute
		TraceID                            string `json:"traceId"`
		SpanID                             string `json:"spanId"`
	}
	jsonAttribute struct {
		Key   string
		Value jsonValue
	}
	jsonValue struct {
		StringValue *string
		BoolValue   *bool
		IntValue    *jsonInteger
		DoubleValue *jsonDouble
		BytesValue  *[]byte
		ArrayValue  *struct{ Values []jsonValue }
		KvlistValue *struct{ Values []jsonAttribute }
	}
	jsonCount   uint64
	jsonInteger int64
	jsonDouble  float64
)

func unquoted(text []byte) string { return string(bytes.Trim(text, `"`)) }

// (a null leaves what is there)
func isNull(text []byte) bool { return string(text) == "null" }

func (it *jsonCount) UnmarshalJSON(text []byte) error {
	if isNull(text) {
		return nil
	}
	found, err := strconv.ParseUint(unquoted(text), 10, 64)
	*it = jsonCount(found)
	return err
}

func (it *jsonInteger) UnmarshalJSON(text []byte) error {
	found, err := strconv.ParseInt(unquoted(text), 10, 64)
	*it = jsonInteger(found)
	return err
}

func (it *jsonDouble) UnmarshalJSON(text []byte) error {
	found, err := strconv.ParseFloat(unquoted(text), 64)
	*it = jsonDouble(found)
	return err
}

// countJSON counts what takes memory in a body of JSON: what begins or parts its values.
func countJSON(body []byte, found *messages) error {
	isText := false
	for at := 0; at < len(body); at++ {
		switch next := body[at]; {
		case next == '"':
			isText = !isText
		case isText && next == '\\':
			at++
		case !isText && (next == '{' || next == '[' || next == ',' || next == ':'):
			if err := found.add(); err != nil {
				return err
			}
		}
	}
	return nil
}

// decodeJSONLogs reads logs of JSON.
func decodeJSONLogs(body []byte, found *messages) ([]stream, error) {
	if err := countJSON(body, found); err != nil {
		return nil, err
	}
	var logs jsonLogs
	if err := json.Unmarshal(body, &logs); err != nil {
		return nil, badRequest("body can't be read: %s", err)
	}
	streams, arrival := []stream{}, time.Now()
	for number := range logs.ResourceLogs {
		next, err := found.jsonStream(number, &logs.ResourceLogs[number], arrival)
		if err != nil {
			return nil, err
		}
		streams = append(streams, next)
	}
	return streams, nil
}

func (it *messages) jsonStream(number int, from *jsonResourceLogs, arrival time.Time) (stream, error) {
	labels, before := resourceLabels(attributesIn(from.Resource.Attributes))
	var records []unparsed[json.RawMessage]
	for _, each := range from.ScopeLogs {
		all := each.metadata(before)
		if err := it.shares(len(each.LogRecords), all); err != nil {
			return stream{}, err
		}
		for _, text := range each.LogRecords {
			records = append(records, unparsed[json.RawMessage]{text, all})
		}
	}
	for at, each := range records {
		if _, err := readJSONRecord(each.from); err != nil {
			return stream{}, badRequest("stream %d entry %d: %s", number, at, err)
		}
	}
	return stream{number, labels, len(records), func(at int) entry {
		found, _ := readJSONRecord(records[at].from)
		return found.entry(arrival, records[at].before)
	}}, nil
}

func (it *jsonScopeLogs) metadata(before []label) []label {
	scope := &it.Scope
	attributes, dropped := attributesIn(scope.Attributes), uint64(scope.DroppedAttributesCount)
	return scopeMetadata(before, scope.Name, scope.Version, dropped, attributes)
}

func readJSONRecord(text json.RawMessage) (record, error) {
	var from jsonRecord
	if err := json.Unmarshal(text, &from); err != nil {
		return record{}, err
	}
	found := record{
		time: uint64(from.TimeUnixNano), observed: uint64(from.ObservedTimeUnixNano), severity: uint64(from.SeverityNumber),
		dropped: uint64(from.DroppedAttributesCount), flags: uint64(from.Flags), severityText: from.SeverityText,
		eventName: from.EventName, body: from.Body.value(), attributes: attributesIn(from.Attributes),
	}
	trace, err := hex.DecodeString(from.TraceID)
	if err != nil {
		return found, err
	}
	span, err := hex.DecodeString(from.SpanID)
	if err != nil {
		return found, err
	}
	found.traceID = idOf(trace, traceBytes, &err)
	found.spanID = idOf(span, spanBytes, &err)
	return found, err
}

func attributesIn(given []jsonAttribute) []attribute {
	found := make([]attribute, 0, len(given))
	for _, it := range given {
		found = append(found, attribute{it.Key, it.Value.value()})
	}
	return found
}

func (it *jsonValue) value() any {
	switch {
	case it.StringValue != nil:
		return *it.StringValue
	case it.BoolValue != nil:
		return *it.BoolValue
	case it.IntValue != nil:
		return int64(*it.IntValue)
	case it.DoubleValue != nil:
		return float64(*it.DoubleValue)
	case it.BytesValue != nil:
		return *it.BytesValue
	case it.KvlistValue != nil:
		return attributesIn(it.KvlistValue.Values)
	case it.ArrayValue != nil:
		values := []any{}
		for at := range it.ArrayValue.Values {
			values = append(values, it.ArrayValue.Values[at].value())
		}
		return values
	}
	return nil
}
