package main

import (
	"encoding/json"
	"fmt"
	"reflect"
	"strconv"
	"strings"
	"testing"
)

type sentStream struct {
	Stream map[string]string `json:"stream"`
	Values [][]any           `json:"values"`
}

type sentBody struct {
	Streams []sentStream `json:"streams"`
}

func streamOf(number int, labels []label, entries ...entry) stream {
	return stream{number, labels, len(entries), func(at int) entry { return entries[at] }}
}

// all is the parts of a push, and what they have together, each entry by its stream's number in the body that came.
func all(t *testing.T, streams []stream, refuse func(int, string)) (parts []part, found map[int][]entry) {
	found = map[int][]entry{}
	from := newSplitter(streams, refuse)
	for first := true; first || !from.done(); first = false {
		next := from.next()
		parts = append(parts, next)
		var body sentBody
		if err := json.Unmarshal(next.body, &body); err != nil {
			t.Fatalf("%v: %.100s", err, next.body)
		}
		if len(next.body) > mostBody || len(body.Streams) != len(next.spans) {
			t.Fatalf("%d bytes, %d streams, %d spans", len(next.body), len(body.Streams), len(next.spans))
		}
		count := 0
		for at, it := range body.Streams {
			count += len(it.Values)
			number, first := next.spans[at].stream, next.spans[at].first
			if first != len(found[number]) || len(it.Values) == 0 {
				t.Fatalf("stream %d goes on at %d of %d with %d", number, first, len(found[number]), len(it.Values))
			}
			for _, value := range it.Values {
				found[number] = append(found[number], entryIn(t, value))
			}
		}
		if count > mostEntries {
			t.Fatalf("%d entries", count)
		}
	}
	return parts, found
}

func entryIn(t *testing.T, value []any) entry {
	time, err := strconv.ParseInt(value[0].(string), 10, 64)
	if err != nil {
		t.Fatal(err)
	}
	found := entry{time: time, line: value[1].(string)}
	if len(value) > 2 {
		for name, text := range value[2].(map[string]any) {
			found.metadata = append(found.metadata, label{name, text.(string)})
		}
	}
	return found
}

func TestSplit(t *testing.T) {
	many := func(count, length int) (found []entry) {
		for at := 0; at < count; at++ {
			found = append(found, entry{time: int64(at), line: strings.Repeat("a", length)})
		}
		return found
	}
	one := []label{{"a", "1"}}
	large := []label{}
	for at := 0; at < 16; at++ {
		large = append(large, label{strings.Repeat("a", 1024) + fmt.Sprint(at), strings.Repeat("\x01", 2049)})
	}
	largest := entry{line: strings.Repeat("\x01", 262_145), metadata: large}
	for name, it := range map[string]struct {
		streams []stream
		parts   int
	}{
		"nothing":                           {nil, 1},
		"no entries":                        {[]stream{streamOf(0, one), streamOf(1, one)}, 1},
		"one":                               {[]stream{streamOf(0, one), streamOf(1, one, many(3, 5)...)}, 1},
		"as many as may be":                 {[]stream{streamOf(0, one, many(9_999, 1)...), streamOf(1, nil, many(1, 1)...)}, 1},
		"one more":                          {[]stream{streamOf(0, one, many(9_999, 1)...), streamOf(1, one, many(2, 1)...)}, 2},
		"many in a stream":                  {[]stream{streamOf(0, one, many(25_000, 1)...)}, 3},
		"many streams":                      {[]stream{streamOf(0, one, many(6_000, 1)...), streamOf(1, one, many(6_000, 1)...), streamOf(2, one, many(6_000, 1)...)}, 2},
		"long lines":                        {[]stream{streamOf(0, one, many(100, 262_144)...), streamOf(1, one, many(1, 1)...)}, 7},
		"the largest entries":               {[]stream{streamOf(0, large, largest, largest, largest)}, 2},
		"a stream that is left out between": {[]stream{streamOf(0, one, many(1, 1)...), streamOf(3, one), streamOf(7, one, many(1, 1)...)}, 1},
	} {
		parts, found := all(t, it.streams, nil)
		if len(parts) != it.parts {
			t.Errorf("%s: %d parts", name, len(parts))
		}
		for _, from := range it.streams {
			if len(found[from.number]) != from.length {
				t.Errorf("%s: stream %d has %d of %d", name, from.number, len(found[from.number]), from.length)
			}
			for at, is := range found[from.number] {
				if wanted := from.entry(at); is.time != wanted.time || is.line != wanted.line || len(is.metadata) != len(wanted.metadata) {
					t.Fatalf("%s: stream %d has another entry %d", name, from.number, at)
				}
			}
		}
	}
}

// The bytes that are sent, and streams that can't be.
func TestSent(t *testing.T) {
	var refused []string
	refuse := func(number int, why string) { refused = append(refused, fmt.Sprintf("%d %s", number, why)) }
	parts, _ := all(t, []stream{
		streamOf(0, []label{{"a", "1"}, {"b", "\xff\"<\u2028\x00"}},
			entry{5, "\n\t\\\xff\xfe\uFFFD", nil}, entry{6, "", []label{{"k", "v"}, {"l", "\xc3"}}}),
		streamOf(1, []label{{"a", "1"}, {"a", "1"}}, entry{7, "", nil}),
		streamOf(2, []label{{"a", "1"}, {"a", "1"}}),
		streamOf(3, nil, entry{7, "é", []label{}}),
	}, refuse)
	wanted := "{\"streams\":[{\"stream\":{\"a\":\"1\",\"b\":\"\uFFFD\\\"<\u2028\\u0000\"}," +
		"\"values\":[[\"5\",\"\\n\\t\\\\\uFFFD\uFFFD\uFFFD\"],[\"6\",\"\",{\"k\":\"v\",\"l\":\"\uFFFD\"}]]}," +
		"{\"stream\":{},\"values\":[[\"7\",\"é\"]]}]}"
	if string(parts[0].body) != wanted || !reflect.DeepEqual(refused, []string{"1 label name twice"}) {
		t.Errorf("%s\n%q", parts[0].body, refused)
	}
}

func TestPairs(t *testing.T) {
	var found []label
	for at := 0; at < 100_000; at++ {
		found = addPair(found, fmt.Sprint(at%50), strings.Repeat("a", 3000))
	}
	if len(found) != 17 || len(found[0].value) != 1025 {
		t.Errorf("%d pairs, %d", len(found), len(found[0].value))
	}
	if found = addPair(nil, strings.Repeat("a", 3000), ""); len(found[0].name) != 257 {
		t.Errorf("%d", len(found[0].name))
	}
}
