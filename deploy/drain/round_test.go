package main

import (
	"compress/gzip"
	"encoding/json"
	"fmt"
	"io"
	"net/http"
	"net/http/httptest"
	"os"
	"path/filepath"
	"reflect"
	"strings"
	"sync"
	"testing"
	"time"

	"github.com/golang/snappy"
	"google.golang.org/protobuf/encoding/protowire"
)

// A pageCatalog lists streams in pages of ten.
type pageCatalog struct{ left []*stream }

func (it *pageCatalog) next() ([]*stream, error) {
	count := min(10, len(it.left))
	page := it.left[:count]
	it.left = it.left[count:]
	return page, nil
}

// fillStreams makes streams of two tenants: small ones, some that are longer than a piece, one of a single line. It
// returns what the server lets go of them.
func fillStreams(now int64) (kept map[string][]judged, listed []*stream, due map[string][]string) {
	kept, due = map[string][]judged{}, map[string][]string{}
	for number := 0; number < 60; number++ {
		tenant, count, length := fmt.Sprint("tenant-", number%2), 20, 100
		if number%20 == 7 {
			count, length = 3000, 400
		}
		key := fmt.Sprintf("%s %d", tenant, number)
		for at := 0; at < count; at++ {
			time := now - int64(count-at)*7200*second/int64(count)
			line := fmt.Sprintf("%d \"quoted\" of %s ", at, key) + strings.Repeat("x", length)
			kept[key] = append(kept[key], judged{time, line, nil})
			if time < kept[key][0].time+3600*second-7200*second/int64(count) {
				due[key] = append(due[key], line)
			}
		}
		of := newStream(tenant, fmt.Sprintf(`{a="%d"}`, number), number%4)
		of.size = int64(count * (length + 60))
		listed = append(listed, of)
	}
	return kept, listed, due
}

func runOver(t *testing.T, server *fakeServer, listed []*stream, to place) *round {
	now := newRound(to, windowTrim{3600 * second}, nil, newMemory(), true, newVoice(false))
	connections := make([]*connection, workers)
	for at := range connections {
		connections[at] = server.connection(t)
	}
	now.run(&pageCatalog{listed}, connections, func(*round) {})
	return now
}

// hold fails unless just the lines that were due are there, each once and in order, and the server has the others.
func hold(t *testing.T, now *round, server *fakeServer, found, due map[string][]string, all map[string][]judged) {
	if now.fault != nil || now.errors > 0 {
		t.Fatalf("the round ends with %d errors: %v", now.errors, now.fault)
	}
	for key, lines := range due {
		if !reflect.DeepEqual(found[key], lines) {
			t.Errorf("%s: %d lines, and not %d", key, len(found[key]), len(lines))
		}
		if left := len(server.streams[key]); left+len(lines) != len(all[key]) {
			t.Errorf("%s: %d lines are left, and %d were taken of %d", key, left, len(lines), len(all[key]))
		}
	}
}

func copyOf(all map[string][]judged) map[string][]judged {
	found := map[string][]judged{}
	for key, lines := range all {
		found[key] = append([]judged(nil), lines...)
	}
	return found
}

func TestARoundToFiles(t *testing.T) {
	all, listed, due := fillStreams(time.Now().UnixNano())
	server := startServer(t, copyOf(all))
	server.closes = 17
	folder := t.TempDir()
	now := runOver(t, server, listed, newFiles(folder))
	found := map[string][]string{}
	paths, _ := filepath.Glob(folder + "/*/*.gz")
	for _, path := range paths {
		file, _ := os.Open(path)
		unpacked, err := gzip.NewReader(file)
		if err != nil {
			t.Fatal(err)
		}
		for lines := json.NewDecoder(unpacked); ; {
			var one struct {
				Stream map[string]string
				Line   string
			}
			if err := lines.Decode(&one); err == io.EOF {
				break
			} else if err != nil {
				t.Fatal(err)
			}
			key := filepath.Base(filepath.Dir(path)) + " " + one.Stream["a"]
			found[key] = append(found[key], one.Line)
		}
	}
	hold(t, now, server, found, due, all)
}

// A fakeLoki takes what it doesn't answer otherwise.
type fakeLoki struct {
	lock  sync.Mutex
	lines map[string][]string
	// what it answers to a push, before it takes it; and how many it got
	answer func(number int, labels []string) (status int, text string)
	pushes int
}

func (it *fakeLoki) ServeHTTP(to http.ResponseWriter, got *http.Request) {
	packed, _ := io.ReadAll(got.Body)
	body, err := snappy.Decode(nil, packed)
	it.lock.Lock()
	defer it.lock.Unlock()
	it.pushes++
	if err != nil {
		http.Error(to, err.Error(), http.StatusBadRequest)
		return
	}
	streams := fieldsOf(body, fieldStreams)
	labels := make([]string, len(streams))
	for at, one := range streams {
		labels[at] = string(fieldsOf(one, fieldLabels)[0])
	}
	if status, text := it.answer(it.pushes, labels); status != 0 {
		http.Error(to, text, status)
		return
	}
	for at, one := range streams {
		key := got.Header.Get("X-Scope-OrgID") + " " + strings.Trim(labels[at], `{a="}`)
		for _, entry := range fieldsOf(one, fieldEntries) {
			it.lines[key] = append(it.lines[key], string(fieldsOf(entry, fieldLine)[0]))
		}
	}
	to.WriteHeader(http.StatusNoContent)
}

func fieldsOf(message []byte, wanted protowire.Number) (found [][]byte) {
	for len(message) > 0 {
		number, kind, size := protowire.ConsumeTag(message)
		message = message[size:]
		length := protowire.ConsumeFieldValue(number, kind, message)
		if number == wanted && kind == protowire.BytesType {
			value, _ := protowire.ConsumeBytes(message)
			found = append(found, value)
		}
		message = message[length:]
	}
	return found
}

// waysOfLokis are how some answer pushes, before they take them.
func waysOfLokis() map[string]func(number int, labels []string) (int, string) {
	limited := map[string]int{}
	return map[string]func(number int, labels []string) (int, string){
		"one that takes all": func(int, []string) (int, string) { return 0, "" },
		"one that fails at times": func(number int, _ []string) (int, string) {
			if number%5 == 0 {
				return http.StatusServiceUnavailable, "not now"
			}
			return 0, ""
		},
		"one that limits two streams at first": func(_ int, labels []string) (int, string) {
			for _, one := range labels {
				if limited[one]++; (one == `{a="3"}` || one == `{a="27"}`) && limited[one] < 3 {
					return http.StatusTooManyRequests, "Per stream rate limit exceeded for stream: " + one
				}
			}
			return 0, ""
		},
		"one that takes few streams": func(_ int, labels []string) (int, string) {
			if len(labels) > 3 {
				return http.StatusRequestEntityTooLarge, "too large"
			}
			return 0, ""
		},
	}
}

func TestARoundToALoki(t *testing.T) {
	for name, answer := range waysOfLokis() {
		t.Run(name, func(t *testing.T) {
			all, listed, due := fillStreams(time.Now().UnixNano())
			server := startServer(t, copyOf(all))
			to := &fakeLoki{lines: map[string][]string{}, answer: answer}
			serving := httptest.NewServer(to)
			defer serving.Close()
			at := address{route: serving.URL + "/loki/api/v1/push"}
			now := runOver(t, server, listed, newLoki(t.TempDir(), at, 10*time.Second, 30*time.Second))
			hold(t, now, server, to.lines, due, all)
			if to.pushes > 200 {
				t.Errorf("%d pushes", to.pushes)
			}
		})
	}
}

func TestWhatAnAnswerRefuses(t *testing.T) {
	of := newStream("t", `{a="1", b="x"}`, 0)
	var some part
	for time := int64(1); time <= 10; time++ {
		some.spans = append(some.spans, span{time: time * 1000 * second})
	}
	one := piece{of: of, part: some}
	rows := []struct {
		text string
		due  int
	}{
		{"entry too far behind", 0},
		{"total ignored: 10 out of 10 for stream: {a=\"1\", b=\"x\"}", 10},
		{"total ignored: 3 out of 10 for stream: {a=\"1\", b=\"x\"}", 0},
		{"total ignored: 9 out of 9 for stream: {a=\"1\", b=\"x\"}", 0},
		{"has timestamp too old: 1970-01-01T00:16:40Z, oldest acceptable timestamp is: 1970-01-01T01:00:00Z", 3},
		{"oldest acceptable timestamp is: 1970-01-01T00:00:00Z", 0},
		{"oldest acceptable timestamp is: now", 0},
	}
	for _, row := range rows {
		if found := refusedFirst(row.text, one); found != row.due {
			t.Errorf("%s: %d are refused, and not %d", row.text, found, row.due)
		}
	}
	found, others := namedStreams(`for stream: {a="1", b="x"}`, []piece{one, {of: newStream("t", `{a="1"}`, 0)}})
	if len(found) != 1 || len(others) != 1 || found[0].of != of {
		t.Errorf("%d are named, and %d are not", len(found), len(others))
	}
}
