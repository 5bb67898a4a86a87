package main

import (
	"encoding/json"
	"fmt"
	"strconv"
	"strings"

	jsoniter "github.com/json-iterator/go"
)

// A reader of Loki's JSON form, by Loki's rules: keys that it doesn't know and what a value has after its third element
// are read over, and null stands for nothing.
type jsonBody struct {
	*jsoniter.Iterator
	found   *messages
	streams []stream
	// whether it is in a stream, which is the next of them
	isInside bool
	// the first fault, which ends the reading
	err error
}

func decodeJSON(body []byte, found *messages) ([]stream, error) {
	if !json.Valid(body) {
		var it json.RawMessage
		return nil, badRequest("body is not JSON: %s", json.Unmarshal(body, &it))
	}
	it := jsonBody{Iterator: jsoniter.ParseBytes(jsoniter.ConfigDefault, body), found: found}
	it.object("a push", func(key string) {
		if strings.EqualFold(key, "streams") {
			it.array(`"streams"`, func() { it.stream() })
		} else {
			it.Skip()
		}
	})
	// (what jsoniter doesn't take though it is JSON would be lost without a word)
	if it.Error != nil {
		it.fail(badRequest("body can't be read: %s", it.Error))
	}
	return it.streams, it.err
}

func (it *jsonBody) fail(err error) {
	if it.err == nil {
		it.err = err
	}
}

// is looks whether the next value is of this kind. Otherwise it fails.
func (it *jsonBody) is(kind jsoniter.ValueType, what, wanted string) bool {
	if it.WhatIsNext() == kind {
		return true
	}
	where := ""
	if it.isInside {
		where = fmt.Sprintf("stream %d: ", len(it.streams))
	}
	it.fail(badRequest("%s%s is not %s", where, what, wanted))
	return false
}

func (it *jsonBody) object(what string, each func(key string)) {
	if it.WhatIsNext() == jsoniter.NilValue {
		it.Skip()
	} else if it.is(jsoniter.ObjectValue, what, "an object") {
		it.ReadMapCB(func(_ *jsoniter.Iterator, key string) bool {
			each(key)
			return it.err == nil && it.Error == nil
		})
	}
}

func (it *jsonBody) array(what string, each func()) {
	if it.WhatIsNext() == jsoniter.NilValue {
		it.Skip()
	} else if it.is(jsoniter.ArrayValue, what, "an array") {
		it.ReadArrayCB(func(*jsoniter.Iterator) bool {
			each()
			return it.err == nil && it.Error == nil
		})
	}
}

func (it *jsonBody) count() bool {
	if err := it.found.add(); err != nil {
		it.fail(err)
	}
	return it.err == nil
}

func (it *jsonBody) stream() {
	if !it.count() || !it.is(jsoniter.ObjectValue, "a stream", "an object") {
		return
	}
	next, entries := stream{number: len(it.streams)}, []entry(nil)
	it.isInside = true
	it.object("a stream", func(key string) {
		switch key {
		case "stream":
			next.labels = it.labels()
		case "values":
			it.array(`"values"`, func() { entries = it.entry(entries) })
		default:
			it.Skip()
		}
	})
	next.length, next.entry = len(entries), func(at int) entry { return entries[at] }
	it.streams, it.isInside = append(it.streams, next), false
}

func (it *jsonBody) labels() (found []label) {
	it.object(`"stream"`, func(name string) {
		if !it.count() {
			return
		}
		if !isName(name) {
			it.fail(badRequest("couldn't parse labels of stream %d: %q is no label name", len(it.streams), name))
			return
		}
		found = setLabel(found, name, it.labelValue(name))
	})
	return found
}

// labelValue is a text, or the text of a number or of a truth value, which Loki takes as well.
func (it *jsonBody) labelValue(name string) string {
	switch it.WhatIsNext() {
	case jsoniter.StringValue:
		return it.ReadString()
	case jsoniter.NumberValue, jsoniter.BoolValue:
		return string(it.SkipAndReturnBytes())
	}
	it.is(jsoniter.StringValue, "the value of the label "+name, "a text")
	return ""
}

func (it *jsonBody) entry(entries []entry) []entry {
	if it.WhatIsNext() == jsoniter.NilValue {
		it.Skip()
		return entries
	}
	if !it.count() {
		return entries
	}
	next, at := entry{}, 0
	it.array("a value", func() {
		switch at {
		case 0:
			next.time = it.time()
		case 1:
			next.line = cut(it.text("a line"), mostLine)
		case 2:
			next.metadata = it.metadata()
		default:
			it.Skip()
		}
		at++
	})
	return append(entries, next)
}

func (it *jsonBody) text(what string) string {
	if !it.is(jsoniter.StringValue, what, "a text") {
		return ""
	}
	return it.ReadString()
}

// time is in nanoseconds since 1970. One before 1970, which the server's form doesn't have, is too old as 1970 is.
func (it *jsonBody) time() int64 {
	text := it.text("a time")
	found, err := strconv.ParseInt(text, 10, 64)
	if err != nil || text[0] == '+' {
		it.fail(badRequest("stream %d: %q is no time in nanoseconds", len(it.streams), cut(text, 40)))
	}
	if found < 0 {
		return 0
	}
	return found
}

func (it *jsonBody) metadata() (found []label) {
	if !it.is(jsoniter.ObjectValue, "structured metadata", "an object") {
		return nil
	}
	it.object("structured metadata", func(name string) {
		if it.count() {
			found = addPair(found, name, it.text("a value of structured metadata"))
		}
	})
	return found
}
