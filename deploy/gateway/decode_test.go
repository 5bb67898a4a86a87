package main

import (
	"fmt"
	"math"
	"reflect"
	"strings"
	"testing"

	"google.golang.org/protobuf/encoding/protowire"
	"google.golang.org/protobuf/proto"
	"google.golang.org/protobuf/types/known/timestamppb"
)

// A stream with its entries, to be compared.
type plain struct {
	labels  []label
	entries []entry
}

func plainOf(streams []stream) (found []plain) {
	for _, it := range streams {
		next := plain{labels: it.labels}
		for at := 0; at < it.length; at++ {
			next.entries = append(next.entries, it.entry(at))
		}
		found = append(found, next)
	}
	return found
}

func plenty(most int64) *messages {
	return &messages{held: &held{of: newBudget(1 << 30)}, most: most}
}

func textOf(err error) string {
	if err == nil {
		return ""
	}
	return fmt.Sprintf("%d %s", err.(*fault).status, err)
}

func TestJSON(t *testing.T) {
	for body, wanted := range map[string][]plain{
		`{}`:   nil,
		`null`: nil,
		` {"streams":null,"more":[{"a":[1,2]}]} `: nil,
		`{"streams":[{}]}`:                        {{}},
		`{"a":1e5,"b":-0.0E-1,"d":123456789012345678901234567890,"e":[[],{"\u0000":""}],"streams":[{}]}`: {{}},
		`{"a":` + strings.Repeat("[", 9_000) + strings.Repeat("]", 9_000) + `,"streams":[{}]}`:           {{}},
		`{"Streams":[{"stream":{"a":"1","b":2.50,"c":true,"d":""},"values":[]}]}`: {
			{labels: []label{{"a", "1"}, {"b", "2.50"}, {"c", "true"}}},
		},
		`{"streams":[{"stream":{"a":"1","a":"2"},"values":null,"x":{"values":[1]}}]}`: {{labels: []label{{"a", "2"}}}},
		`{"streams":[{"values":[["1","é\ud83d\ude00\ud800\n"],null,["-5","",{"k":"v","l":"","k":"w"},7,[]],["007"],[]]}]}`: {
			{entries: []entry{
				{time: 1, line: "é\U0001F600\uFFFD\n"}, {metadata: []label{{"k", "w"}, {"l", ""}}}, {time: 7}, {},
			}},
		},
		"{\"streams\":[{\"values\":[[\"9223372036854775807\",\"\xff\"]]}]}": {
			{entries: []entry{{time: math.MaxInt64, line: "\xff"}}},
		},
		`{"streams":[{"stream":{"a":"1"},"values":[["1","a"]]},{"stream":{"a":"2"},"values":[["2","b",{}]]}]}`: {
			{[]label{{"a", "1"}}, []entry{{time: 1, line: "a"}}}, {[]label{{"a", "2"}}, []entry{{time: 2, line: "b"}}},
		},
	} {
		found, err := decodeJSON([]byte(body), plenty(100))
		if err != nil || !reflect.DeepEqual(plainOf(found), wanted) {
			t.Errorf("%s: %v, %v", body, plainOf(found), err)
		}
	}
}

func TestJSONFaults(t *testing.T) {
	value := func(text string) string { return `{"streams":[{"values":[["1","a"]]},{"values":[` + text + `]}]}` }
	for body, wanted := range map[string]string{
		``:                                       "400 body is not JSON: unexpected end of JSON input",
		`{"streams":[]`:                          "400 body is not JSON: unexpected end of JSON input",
		`{"streams":[]} x`:                       "400 body is not JSON: invalid character 'x' after top-level value",
		"{\"a\":\"\t\"}":                         `400 body is not JSON: invalid character '\t' in string literal`,
		`[]`:                                     "400 a push is not an object",
		`{"streams":{}}`:                         `400 "streams" is not an array`,
		`{"streams":[null]}`:                     "400 a stream is not an object",
		value(`["1","a"],"b"`):                   "400 stream 1: a value is not an array",
		value(`[1,"a"]`):                         "400 stream 1: a time is not a text",
		value(`["1",2]`):                         "400 stream 1: a line is not a text",
		value(`["1","",null]`):                   "400 stream 1: structured metadata is not an object",
		value(`["1","",{"a":1}]`):                "400 stream 1: a value of structured metadata is not a text",
		value(`["","a"]`):                        `400 stream 1: "" is no time in nanoseconds`,
		value(`["1.5","a"]`):                     `400 stream 1: "1.5" is no time in nanoseconds`,
		value(`["+5","a"]`):                      `400 stream 1: "+5" is no time in nanoseconds`,
		value(`["9223372036854775808","a"]`):     `400 stream 1: "9223372036854775808" is no time in nanoseconds`,
		`{"streams":[{"stream":{"a-b":"1"}}]}`:   `400 couldn't parse labels of stream 0: "a-b" is no label name`,
		`{"streams":[{"stream":{"":"1"}}]}`:      `400 couldn't parse labels of stream 0: "" is no label name`,
		`{"streams":[{"stream":{"a":null}}]}`:    "400 stream 0: the value of the label a is not a text",
		`{"streams":[{"stream":[]}]}`:            `400 stream 0: "stream" is not an object`,
		`{"streams":[{"values":{}}]}`:            `400 stream 0: "values" is not an array`,
		value(strings.Repeat("[],", 100) + "[]"): "413 more than 100 streams, entries and labels in a push",
		strings.Repeat(`[`, 20_000):              "400 body is not JSON: invalid character '[' exceeded max depth",
	} {
		if _, err := decodeJSON([]byte(body), plenty(100)); textOf(err) != wanted {
			t.Errorf("%.60s: %s", body, textOf(err))
		}
	}
}

// What is JSON, and can't be read by the library, is refused, and not left out.
func TestJSONUnread(t *testing.T) {
	found, err := decodeJSON([]byte(`{"more":1E999,"streams":[{}]}`), plenty(100))
	if !strings.HasPrefix(textOf(err), "400 body can't be read: ") {
		t.Errorf("%v, %s", plainOf(found), textOf(err))
	}
}

func push(streams ...*PushedStream) []byte {
	body, err := proto.Marshal(&Push{Streams: streams})
	if err != nil {
		panic(err)
	}
	return body
}

func TestProtobuf(t *testing.T) {
	at := func(seconds int64, more int32) *timestamppb.Timestamp {
		return &timestamppb.Timestamp{Seconds: seconds, Nanos: more}
	}
	pair := func(name, value string) *PushedPair { return &PushedPair{Name: []byte(name), Value: []byte(value)} }
	unknown := protowire.AppendTag(push(&PushedStream{Labels: `{a="1"}`}), 9, protowire.StartGroupType)
	unknown = protowire.AppendTag(unknown, 9, protowire.EndGroupType)
	for name, it := range map[string]struct {
		body   []byte
		wanted []plain
	}{
		"nothing":        {nil, nil},
		"unknown fields": {unknown, []plain{{labels: []label{{"a", "1"}}}}},
		"no labels":      {push(&PushedStream{}), []plain{{}}},
		"entries": {push(
			&PushedStream{Labels: `{a="1"}`, Entries: []*PushedEntry{
				{Timestamp: at(1, 5), Line: []byte("a\xff\n"), Metadata: []*PushedPair{pair("k", "v"), pair("k", "w"), pair("", "")}},
				{}, {Timestamp: &timestamppb.Timestamp{}},
			}},
			&PushedStream{Labels: `{b='2'}`, Entries: []*PushedEntry{{Timestamp: at(1795762800, 999_999_999)}}},
		), []plain{
			{[]label{{"a", "1"}}, []entry{{1_000_000_005, "a\xff\n", []label{{"k", "w"}, {"", ""}}}, {}, {}}},
			{[]label{{"b", "2"}}, []entry{{time: 1795762800999999999}}},
		}},
		"the ends of time": {push(&PushedStream{Entries: []*PushedEntry{
			{Timestamp: at(-62135596800, 0)}, {Timestamp: at(-1, 999_999_999)}, {Timestamp: at(9223372035, 999_999_999)},
			{Timestamp: at(9223372036, 0)}, {Timestamp: at(253402300799, 999_999_999)},
		}}), []plain{{entries: []entry{
			{}, {}, {time: 9223372035999999999}, {time: math.MaxInt64}, {time: math.MaxInt64},
		}}}},
	} {
		found, err := decodeProtobuf(it.body, plenty(100))
		if err != nil || !reflect.DeepEqual(plainOf(found), it.wanted) {
			t.Errorf("%s: %v, %v", name, plainOf(found), err)
		}
	}
}

func TestProtobufFaults(t *testing.T) {
	entry := func(seconds int64, more int32) []byte {
		at := &timestamppb.Timestamp{Seconds: seconds, Nanos: more}
		return push(&PushedStream{Entries: []*PushedEntry{{}, {Timestamp: at}}})
	}
	whole := entry(1, 1)
	for name, it := range map[string]struct {
		body   []byte
		wanted string
	}{
		"cut":                      {whole[:len(whole)-1], "400 unexpected EOF"},
		"a length's lie":           {[]byte{0x0a, 0xff, 0xff, 0xff, 0xff, 0x07}, "400 unexpected EOF"},
		"an endless tag":           {[]byte(strings.Repeat("\xff", 20)), "400 variable length integer overflow"},
		"field 0":                  {[]byte{0x02, 0x00}, "400 invalid field number"},
		"a wrong type":             {[]byte{0x08, 0x01}, "400 proto: wrong wireType = 0 for field 1"},
		"one inside":               {[]byte{0x0a, 0x02, 0x10, 0x01}, "400 proto: wrong wireType = 0 for field 2"},
		"the year 0":               {entry(-62135596801, 0), "400 before 0001-01-01"},
		"the year 10,000":          {entry(253402300800, 0), "400 after 9999-12-31"},
		"nanoseconds":              {entry(1, 1_000_000_000), "400 stream 0 entry 1: proto: timestamp"},
		"fewer than none":          {entry(1, -1), "400 out-of-range nanos"},
		"labels that are no UTF-8": {protowire.AppendBytes([]byte{0x0a, 0x03, 0x0a}, []byte("\xff")), "400 invalid UTF-8"},
		"labels": {push(&PushedStream{}, &PushedStream{Labels: `{a}`}),
			`400 couldn't parse labels of stream 1: 1:3: parse error: unexpected '}' inside braces, expected "="`},
		"too many entries": {push(&PushedStream{Entries: make([]*PushedEntry, 101)}), "413 more than 100 streams, entries and labels in a push"},
	} {
		_, err := decodeProtobuf(it.body, plenty(100))
		// (the library's own words have one space or another, so that nobody compares them whole)
		found := strings.ReplaceAll(textOf(err), "\u00a0", " ")
		status, words, _ := strings.Cut(it.wanted, " ")
		if !strings.HasPrefix(found, status) || !strings.Contains(found, words) {
			t.Errorf("%s: %s", name, found)
		}
	}
}

// However many messages a body has, none takes memory that the budget doesn't have.
func TestMessagesAreHeld(t *testing.T) {
	holding := &held{of: newBudget(10 * atATime * messageBytes)}
	body := push(&PushedStream{Entries: make([]*PushedEntry, 20*atATime)})
	if _, err := decodeProtobuf(body, &messages{held: holding, most: 1 << 20}); !strings.HasPrefix(textOf(err), "503 ") {
		t.Errorf("%s", textOf(err))
	}
	if holding.bytes != 10*atATime*messageBytes || holding.of.left.Load() != 0 {
		t.Errorf("%d held, %d left", holding.bytes, holding.of.left.Load())
	}
	if holding.release(); holding.of.left.Load() != 10*atATime*messageBytes {
		t.Errorf("%d left after all", holding.of.left.Load())
	}
}
