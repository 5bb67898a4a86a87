package main

import (
	"bytes"
	"encoding/json"
	"errors"
	"io"
	"math/rand"
	"reflect"
	"strconv"
	"strings"
	"testing"
)

// An entry as another reader of JSON has it.
type judged struct {
	time     int64
	line     string
	metadata map[string]string
}

var pieces = []string{"a", `"`, `\`, "\n", "\t", "\b", "\f", "\r", "\x01", "ö", "\U0001F600",
	`["`, `"]`, `]}`, `{"`, ",", "é"}

func drawText(draw *rand.Rand, most int) string {
	var found strings.Builder
	for count := draw.Intn(most); count > 0; count-- {
		found.WriteString(pieces[draw.Intn(len(pieces))])
	}
	return found.String()
}

func drawEntries(draw *rand.Rand, count int) (found []judged) {
	at := draw.Int63n(1000)
	for ; count > 0; count-- {
		at += draw.Int63n(3)
		one := judged{time: at, line: drawText(draw, 30)}
		for more := draw.Intn(3); more > 0; more-- {
			if one.metadata == nil {
				one.metadata = map[string]string{}
			}
			one.metadata[drawText(draw, 4)+strconv.Itoa(more)] = drawText(draw, 6)
		}
		found = append(found, one)
	}
	return found
}

// answerOf writes entries as the server does, or with an escape for each character that may have one.
func answerOf(given []judged, isEscaped bool) []byte {
	if text := plainAnswer(given); text != nil && !isEscaped {
		return text
	}
	values := [][]any{}
	for _, one := range given {
		value := []any{strconv.FormatInt(one.time, 10), one.line}
		if one.metadata != nil {
			value = append(value, one.metadata)
		}
		values = append(values, value)
	}
	var to bytes.Buffer
	coder := json.NewEncoder(&to)
	coder.SetEscapeHTML(isEscaped)
	coder.Encode(map[string]any{"values": values})
	text := bytes.TrimSpace(to.Bytes())
	if isEscaped {
		text = bytes.ReplaceAll(text, []byte("\U0001F600"), []byte(`\ud83d\ude00`))
		text = bytes.ReplaceAll(text, []byte("ö"), []byte(`\u00F6`))
	}
	return text
}

// plainAnswer is the answer of lines that need no escapes and have no metadata, in less time; nothing of others.
func plainAnswer(given []judged) []byte {
	size := 20
	for _, one := range given {
		for at := 0; at < len(one.line); at++ {
			if it := one.line[at]; it < ' ' || it > '~' || it == '"' || it == '\\' {
				return nil
			}
		}
		if size += len(one.line) + 30; one.metadata != nil {
			return nil
		}
	}
	text := append(make([]byte, 0, size), valuesBegin...)
	for at, one := range given {
		if at > 0 {
			text = append(text, ',')
		}
		text = strconv.AppendInt(append(text, `["`...), one.time, 10)
		text = append(append(append(text, `","`...), one.line...), `"]`...)
	}
	return append(text, valuesEnd...)
}

func entriesOf(t *testing.T, of part) (found []judged) {
	for at := range of.spans {
		one := judged{time: of.spans[at].time, line: string(appendUnescaped(nil, of.line(at)))}
		for rest := of.metadata(at); len(rest) > 1; {
			if one.metadata == nil {
				one.metadata = map[string]string{}
			}
			var name, value []byte
			name, rest = nextString(rest)
			value, rest = nextString(rest)
			one.metadata[string(appendUnescaped(nil, name))] = string(appendUnescaped(nil, value))
		}
		var value []any
		if err := json.Unmarshal(of.raw(at), &value); err != nil || value[1] != one.line {
			t.Fatalf("%s is read as %q: %v", of.raw(at), one.line, err)
		}
		found = append(found, one)
	}
	return found
}

// readThrough reads an answer by a window of some size.
func readThrough(t *testing.T, from io.Reader, size int) (found []judged, err error) {
	over := &window{from: from}
	for !over.isEnd {
		if err := over.fill(size); err != nil {
			return found, err
		}
		found = append(found, entriesOf(t, part{over.text, over.spans})...)
	}
	return found, nil
}

func TestEntriesAreReadAsTheyWereWritten(t *testing.T) {
	for seed := int64(0); seed < 300; seed++ {
		draw := rand.New(rand.NewSource(seed))
		due := drawEntries(draw, draw.Intn(20))
		text := answerOf(due, seed%2 == 0)
		found, err := readThrough(t, bytes.NewReader(text), 1+draw.Intn(200))
		if err != nil || !reflect.DeepEqual(found, due) {
			t.Fatalf("seed %d: %v\n%s\n%v\n%v", seed, err, text, due, found)
		}
	}
}

func TestAnswersThatAreCutAreNoAnswers(t *testing.T) {
	text := answerOf(drawEntries(rand.New(rand.NewSource(1)), 5), false)
	for end := range text {
		if _, err := readThrough(t, bytes.NewReader(text[:end]), 64); err == nil {
			t.Fatalf("%d of %d bytes are an answer: %s", end, len(text), text[:end])
		}
	}
}

func TestAnswersOfAnotherShapeAreRefused(t *testing.T) {
	for _, text := range []string{`{"value":[]}        `, `{"values":[[1,"x"]]}`, `{"values":[["1x","x"]]}`,
		`{"values":[["1","x"}]}`,
		`{"values":[["1",{}]]}`, `{"values":[{"1":"x"}]}`} {
		if _, err := readThrough(t, strings.NewReader(text), 64); !errors.Is(err, errShape) {
			t.Errorf("%s: %v", text, err)
		}
	}
}

func TestLabels(t *testing.T) {
	rows := []struct{ text, object, shown string }{
		{`{a="1"}`, `{"a":"1"}`, `{a="1"}`},
		{`{a="1", b="x=\"{},\\"}`, `{"a":"1","b":"x=\"{},\\"}`, `{a="1", b="x=\"{},\\"}`},
		{"{a=\"of\ttwo\\nlines\x01ö\"}", `{"a":"of\ttwo\nlines\u0001ö"}`, `{a="of\ttwo\nlines\x01ö"}`},
	}
	for _, row := range rows {
		of := newStream("t", row.text, 0)
		if found := string(appendObject(nil, of.labels())); found != row.object {
			t.Errorf("%s is %s in JSON", row.text, found)
		}
		if found := shownLabels(of.labels()); found != row.shown {
			t.Errorf("%s is shown as %s", row.text, found)
		}
	}
}
