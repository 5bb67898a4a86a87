package main

import (
	"bytes"
	"encoding/json"
	"fmt"
	"math/rand"
	"os"
	"reflect"
	"strconv"
	"strings"
	"testing"

	"google.golang.org/protobuf/encoding/protowire"
)

// How many bodies of each form the fast ways are tried with, beside the slow ones: GATEWAY_BODIES, or fewer.
func bodiesToTry() int {
	if count, err := strconv.Atoi(os.Getenv("GATEWAY_BODIES")); err == nil {
		return count
	}
	return 2_000
}

const mostTried = 200

// sentOf is what the slow way sends for some streams, if that is one part and refuses nothing.
func sentOf(streams []stream) ([]byte, bool) {
	isWhole := true
	parts := newSplitter(streams, func(int, string) { isWhole = false })
	found := parts.next()
	return found.body, isWhole && parts.done()
}

// valueOf is the value of a body of the server's form: keys in an order, none of them twice, no empty metadata.
func valueOf(t *testing.T, body []byte) any {
	from := json.NewDecoder(bytes.NewReader(body))
	from.UseNumber()
	found := nextValue(t, from, body)
	for _, stream := range found.(map[string]any)["streams"].([]any) {
		for at, value := range stream.(map[string]any)["values"].([]any) {
			if it := value.([]any); len(it) == 3 && len(it[2].(map[string]any)) == 0 {
				stream.(map[string]any)["values"].([]any)[at] = it[:2]
			}
		}
	}
	return found
}

func nextValue(t *testing.T, from *json.Decoder, body []byte) any {
	token, err := from.Token()
	if err != nil {
		t.Fatalf("%v: %q", err, body)
	}
	switch token {
	case json.Delim('{'):
		found := map[string]any{}
		for from.More() {
			name := nextValue(t, from, body).(string)
			if _, is := found[name]; is {
				t.Fatalf("%q twice: %q", name, body)
			}
			found[name] = nextValue(t, from, body)
		}
		from.Token()
		return found
	case json.Delim('['):
		found := []any{}
		for from.More() {
			found = append(found, nextValue(t, from, body))
		}
		from.Token()
		return found
	}
	return token
}

// sizeOf is how many bytes lines and metadata have, as they are sent.
func sizeOf(streams []stream) (entries, bytes int64) {
	for _, from := range streams {
		for at := 0; at < from.length; at++ {
			it := from.entry(at)
			entries, bytes = entries+1, bytes+int64(len(it.line))
			for _, pair := range it.metadata {
				bytes += int64(len(pair.name) + len(pair.value))
			}
		}
	}
	return entries, bytes
}

// checkJSON holds the scan of a body against the slow way, and returns whether it lets the body through.
func checkJSON(t *testing.T, body []byte) bool {
	found, isSo := scanJSON(body, mostTried)
	if !isSo {
		return false
	}
	counted := plenty(mostTried)
	streams, err := decodeJSON(body, counted)
	sent, isWhole := sentOf(streams)
	if err != nil || !isWhole || !reflect.DeepEqual(valueOf(t, body), valueOf(t, sent)) {
		t.Fatalf("%v, %q is let through in place of %q", err, body, sent)
	}
	entries, bytes := sizeOf(streams)
	if found != (counts{counted.count, entries, bytes}) {
		t.Fatalf("%v and not %d messages, %d entries, %d bytes: %q", found, counted.count, entries, bytes, body)
	}
	return true
}

// checkProtobuf does the same for a translation.
func checkProtobuf(t *testing.T, body []byte, cache *labelCache) bool {
	holding := &held{of: newBudget(1 << 30)}
	defer holding.release()
	out, found, err := translate(body, mostTried, holding, cache)
	if err != nil {
		t.Fatalf("%v: %q", err, body)
	}
	if out == nil {
		return false
	}
	counted := plenty(mostTried)
	streams, err := decodeProtobuf(body, counted)
	sent, isWhole := sentOf(streams)
	if err != nil || !isWhole || !reflect.DeepEqual(valueOf(t, out.bytes), valueOf(t, sent)) {
		t.Fatalf("%v, %q is %q in place of %q", err, body, out.bytes, sent)
	}
	entries, bytes := sizeOf(streams)
	if found != (counts{counted.count, entries, bytes}) {
		t.Fatalf("%v and not %d messages, %d entries, %d bytes: %q", found, counted.count, entries, bytes, body)
	}
	return true
}

// A drawing makes bodies, some of them as a shipper would not.
type drawing struct{ *rand.Rand }

func (it drawing) one(texts ...string) string { return texts[it.Intn(len(texts))] }

// seldom is whether something odd is done, once in so many times; never for odds of 0.
func (it drawing) seldom(odds int) bool { return odds > 0 && it.Intn(odds) == 0 }

func (it drawing) many(most int, one func(at int) string) string {
	var all []string
	for at, count := 0, it.Intn(most+1); at < count; at++ {
		all = append(all, one(at))
	}
	return strings.Join(all, it.one(",", ",", ", ", " ,\n"))
}

func (it drawing) text(odds int) string {
	found := ""
	for at, count := 0, it.Intn(6); at < count; at++ {
		found += it.one("a", "level=info ", "0", "é", "\U0001F600", "\u2028", " ", "{}", `\n`, `\"`, `\\`, `\u0000`, `\u00e9`,
			`\ud83d\ude00`, `\/`, "\x7f", strings.Repeat("x", it.Intn(30)), "ÿ\U0010FFFF")
		if it.seldom(odds) {
			found += it.one(`\ud800`, `\udc00`, `\ud800\ud800`, "\xff", "\xc3", "\xed\xa0\x80", "\x00", "\n", `\x`, `\u12`, `"`,
				`\`, "\u0010", `\u00g0`, "\\u\x10\x10\x10\x10", strings.Repeat("x", 300), strings.Repeat("é", 1100))
		}
	}
	return `"` + found + `"`
}

func (it drawing) member(name, value string) string {
	return `"` + name + `"` + it.one("", "", " ") + ":" + it.one("", "", "\t") + value
}

func (it drawing) odd() string {
	return it.one("null", "1", "1.50", "true", "{}", "[]", `""`, `{"a":null}`, `[["1","a"]]`, `{"a":"1","a":"2"}`, "", "x")
}

func (it drawing) labels(odds int) string {
	found := it.many(4, func(at int) string {
		name, value := fmt.Sprintf("l%d", at), `"v`+it.text(odds)[1:]
		if it.seldom(odds) {
			name = it.one("l0", "l1", "", "a-b", "é", `\u0061`, "9", "a b", "__name__", strings.Repeat("n", 1030))
		}
		if it.seldom(odds) {
			value = it.odd()
		}
		return it.member(name, value)
	})
	if found == "" {
		found = `"a":"1"`
	}
	return "{" + found + "}"
}

func (it drawing) pairs(odds int) string {
	return "{" + it.many(4, func(at int) string {
		name, value := fmt.Sprintf("p%d %s", at, it.one("", "é", " ")), it.text(odds)
		if it.seldom(odds) {
			name = it.one("p0", "p1", "", `\u0061`, `p\n`, "p0 ", strings.Repeat("n", 260))
		}
		if it.seldom(odds) {
			value = it.odd()
		}
		return it.member(name, value)
	}) + "}"
}

func (it drawing) value(odds int) string {
	time := fmt.Sprint(it.Int63() >> it.Intn(63))
	if it.seldom(odds) {
		time = it.one("007", "0", "-5", "+5", "", "1e3", "9223372036854775807", "9223372036854775808", " 1", "1 ", `\u0031`,
			"00000000000000000001", "99999999999999999999")
	}
	found := `"` + time + `"` + it.one(",", " , ") + it.text(odds)
	if it.Intn(3) == 0 {
		found += "," + it.pairs(odds)
	}
	if it.seldom(odds) {
		found += "," + it.odd()
	}
	return "[" + found + "]"
}

func (it drawing) stream(odds int) string {
	values := it.many(5, func(int) string {
		if it.seldom(odds) {
			return it.odd()
		}
		return it.value(odds)
	})
	if values == "" {
		values = `["1","a"]`
	}
	members := []string{it.member("stream", it.labels(odds)), it.member("values", "["+values+"]")}
	if it.seldom(odds) {
		members = append(members, it.member(it.one("stream", "values", "more", "Stream"), it.odd()))
	}
	if it.seldom(odds) {
		members = members[:1]
	}
	it.Shuffle(len(members), func(one, other int) { members[one], members[other] = members[other], members[one] })
	return "{" + strings.Join(members, ",") + "}"
}

func (it drawing) json(odds int) []byte {
	streams := it.many(4, func(int) string { return it.stream(odds) })
	if streams == "" {
		streams = it.stream(odds)
	}
	name := "streams"
	if it.seldom(odds) {
		name = it.one("Streams", "streams ", "")
	}
	found := it.member(name, "["+streams+"]")
	if it.seldom(odds) {
		found += "," + it.member(it.one("streams", "more", "STREAMS"), it.odd())
	}
	return []byte(it.one("", " ", "\n") + "{" + found + "}" + it.one("", "", " \n"))
}

// spoilt is a body of which some bytes are others, gone, or there twice.
func (it drawing) spoilt(body []byte) []byte {
	for count := it.Intn(4); count > 0 && len(body) > 0; count-- {
		at := it.Intn(len(body))
		end := at + 1 + it.Intn(smallest(20, len(body)-at))
		switch it.Intn(4) {
		case 0:
			body[at] = byte(it.Intn(256))
		case 1:
			body = append(body[:at:at], body[end:]...)
		case 2:
			body = append(body[:end:end], body[at:]...)
		case 3:
			body = append(append(body[:at:at], it.one(`"`, "{", "}", ",", ":", "[", "]", "\\", "\xff", "0", "\x00")...), body[at:]...)
		}
	}
	return body
}

func smallest(one, other int) int { return int(smaller(int64(one), int64(other))) }

// What a scan lets through has the same value by the slow way, and what a shipper sends is let through.
func TestScannedAndDecoded(t *testing.T) {
	draw, through := drawing{rand.New(rand.NewSource(1))}, 0
	for at := 0; at < bodiesToTry(); at++ {
		odds := []int{0, 3, 20, 60}[at%4]
		body := draw.json(odds)
		if odds == 0 && !checkJSON(t, body) {
			t.Fatalf("is not let through: %s", body)
		}
		if at%3 == 0 {
			body = draw.spoilt(body)
		}
		if checkJSON(t, body) {
			through++
		}
	}
	if through < bodiesToTry()/4 {
		t.Errorf("%d were let through", through)
	}
}

// A message that is written field by field, some of them as no shipper would.
func (it drawing) field(to []byte, number protowire.Number, content []byte, odds int) []byte {
	if it.seldom(odds) {
		switch it.Intn(4) {
		case 0:
			return protowire.AppendVarint(protowire.AppendTag(to, number, protowire.VarintType), 5)
		case 1:
			to = it.field(to, number, content, 0)
		case 2:
			to = protowire.AppendBytes(protowire.AppendTag(to, protowire.Number(1+it.Intn(6)), protowire.BytesType), []byte("more"))
		case 3:
			// (a length of one byte that is written by two)
			if len(content) < 128 {
				to = append(protowire.AppendTag(to, number, protowire.BytesType), byte(len(content))|0x80, 0)
				return append(to, content...)
			}
		}
	}
	return protowire.AppendBytes(protowire.AppendTag(to, number, protowire.BytesType), content)
}

func (it drawing) raw(odds int) []byte {
	found := it.text(0)
	if text, err := strconv.Unquote(strings.ReplaceAll(found, `\/`, "/")); err == nil {
		found = text
	}
	if it.seldom(odds) {
		found += it.one("\xff", "\xed\xa0\x80", "\xc3", strings.Repeat("x", 300), strings.Repeat("é", 1100))
	}
	return []byte(found)
}

func (it drawing) timestamp(odds int) (found []byte) {
	seconds, more := uint64(it.Int63n(9_223_372_035)), uint64(it.Intn(1_000_000_000))
	if it.seldom(odds) {
		seconds = [...]uint64{0, 9_223_372_036, 9_223_372_037, 1 << 63, 1<<64 - 1, 1<<64 - 62_135_596_801}[it.Intn(6)]
	}
	if it.seldom(odds) {
		more = [...]uint64{1_000_000_000, 1 << 31, 1<<64 - 1, 1 << 33}[it.Intn(4)]
	}
	found = protowire.AppendVarint(protowire.AppendTag(nil, 1, protowire.VarintType), seconds)
	if it.Intn(4) > 0 {
		found = protowire.AppendVarint(protowire.AppendTag(found, 2, protowire.VarintType), more)
	}
	if it.seldom(odds) {
		found = protowire.AppendVarint(protowire.AppendTag(found, 1, protowire.VarintType), 7)
	}
	return found
}

func (it drawing) wirePair(at, odds int) (found []byte) {
	name := fmt.Sprintf("p%d", at)
	if it.seldom(odds) {
		name = it.one("p0", "p1", "", "\xff", strings.Repeat("n", 260))
	}
	found = it.field(found, 1, []byte(name), odds)
	if it.Intn(4) > 0 {
		found = it.field(found, 2, it.raw(odds), odds)
	}
	return found
}

func (it drawing) wireEntry(odds int) (found []byte) {
	if it.Intn(8) > 0 {
		found = it.field(found, 1, it.timestamp(odds), odds)
	}
	if it.Intn(8) > 0 {
		found = it.field(found, 2, it.raw(odds), odds)
	}
	if it.Intn(3) == 0 {
		count := it.Intn(4)
		if it.seldom(odds) {
			count = 20
		}
		for at := 0; at < count; at++ {
			found = it.field(found, 3, it.wirePair(at, odds), odds)
		}
	}
	if it.seldom(10) {
		found = it.field(found, 4, []byte("parsed"), odds)
	}
	return found
}

func (it drawing) protobuf(odds int) (found []byte) {
	for count := it.Intn(4); count > 0; count-- {
		labels := it.one(`{a="1"}`, `{a="1", b='2'}`, "{a=`é`,}", `n{a="\x41\u00e9"}`, ` {a = "1"} # more`, `{a="\"\n",b=""}`)
		if it.seldom(odds) {
			labels = it.one("", "{}", "{a}", `{a="\xff"}`, `{a="1",a="2"}`, "{a=\"\xff\"}", `{a=""}`, `{a="`+strings.Repeat("x", 3000)+`"}`,
				"{"+strings.Repeat(`a="1",`, 20)+"}")
		}
		stream := it.field(nil, 1, []byte(labels), odds)
		for entries := 1 + it.Intn(5); entries > 0; entries-- {
			stream = it.field(stream, 2, it.wireEntry(odds), odds)
		}
		if it.seldom(odds) {
			stream = it.field(nil, 1, []byte(labels), odds)
		}
		if it.Intn(3) == 0 {
			stream = protowire.AppendVarint(protowire.AppendTag(stream, 3, protowire.VarintType), it.Uint64())
		}
		found = it.field(found, 1, stream, odds)
	}
	return found
}

// What is translated has the same value by the slow way, and what a shipper sends is translated.
func TestTranslatedAndDecoded(t *testing.T) {
	draw, through := drawing{rand.New(rand.NewSource(1))}, 0
	cache := newLabelCache(1 << 16)
	for at := 0; at < bodiesToTry(); at++ {
		odds := []int{0, 5, 40, 100}[at%4]
		body := draw.protobuf(odds)
		if odds == 0 && !checkProtobuf(t, body, cache) {
			t.Fatalf("is not translated: %q", body)
		}
		if at%3 == 0 {
			body = draw.spoilt(body)
		}
		if checkProtobuf(t, body, cache) {
			through++
		}
	}
	if through < bodiesToTry()/4 {
		t.Errorf("%d were translated", through)
	}
}

func FuzzJSON(f *testing.F) {
	draw := drawing{rand.New(rand.NewSource(2))}
	for at := 0; at < 100; at++ {
		f.Add(draw.json(at % 10))
	}
	f.Fuzz(func(t *testing.T, body []byte) { checkJSON(t, body) })
}

func FuzzProtobuf(f *testing.F) {
	draw := drawing{rand.New(rand.NewSource(2))}
	for at := 0; at < 100; at++ {
		f.Add(draw.protobuf(at % 10))
	}
	cache := newLabelCache(1 << 16)
	f.Fuzz(func(t *testing.T, body []byte) { checkProtobuf(t, body, cache) })
}

// However many texts there are, the cache has no more bytes than it may, and the same JSON for each of them.
func TestLabelCache(t *testing.T) {
	cache := newLabelCache(1 << 18)
	for at := 0; at < 20_000; at++ {
		text := fmt.Sprintf(`{n="%d", m='%s'}`, at%7_000, strings.Repeat("é", at%700))
		wanted, _ := json.Marshal(map[string]string{"n": fmt.Sprint(at % 7_000), "m": strings.Repeat("é", at%700)})
		found := cache.get([]byte(text))
		if at%700 == 0 {
			wanted = []byte(fmt.Sprintf(`{"n":"%d"}`, at%7_000))
		}
		if len(found) != len(wanted) || found[:6] != fmt.Sprintf(`{"n":"%d"`, at%7_000)[:6] {
			t.Fatalf("%s: %s", text, found)
		}
	}
	total := 0
	for at := range cache.shares {
		for _, each := range []map[string]string{cache.shares[at].newer, cache.shares[at].older} {
			for text, found := range each {
				total += len(text) + len(found) + cacheBytes
			}
		}
	}
	if total > 1<<18 || total < 1<<16 {
		t.Errorf("%d bytes", total)
	}
}
