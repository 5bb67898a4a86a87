package main

import (
	"encoding/json"
	"fmt"
	"io"
	"math/rand"
	"net/http"
	"net/http/httptest"
	"net/url"
	"sort"
	"strconv"
	"strings"
	"sync"
	"testing"
	"time"
)

// A server in memory, which counts what it is asked. It has streams by tenant and their label `a`.
type fakeServer struct {
	lock    sync.Mutex
	streams map[string][]judged
	// the highest time of a stream, where it isn't that of its last line, and how many lines were removed
	highest, removed map[string]int64
	// how long the window is that it keeps, and whether it counts trims; what it says where it doesn't
	window int64
	counts bool
	says   string
	// reads, bytes of their answers, and bytes of the longest one but those of a short range
	reads, asked, longest int
	// each how many answers the connection is closed
	closes, answers int
	// answers by route and status
	statuses map[string]int
	// the last read, and its answer
	lastOf   string
	lastText []byte
	// done to a stream before a request is answered, and whether the connection is cut then in place of that
	before func(route, key string)
	cuts   func(route, key string) bool
	*httptest.Server
}

func newServer(streams map[string][]judged) *fakeServer {
	return &fakeServer{streams: streams, highest: map[string]int64{}, removed: map[string]int64{},
		window: 3600 * second, statuses: map[string]int{}}
}

func startServer(t testing.TB, streams map[string][]judged) *fakeServer {
	it := newServer(streams)
	it.Server = httptest.NewServer(it)
	t.Cleanup(it.Close)
	return it
}

func (it *fakeServer) connection(t testing.TB) *connection {
	found, err := url.Parse(it.URL)
	if err != nil {
		t.Fatal(err)
	}
	port, _ := strconv.Atoi(found.Port())
	return newConnection(port, 10*time.Second)
}

// behave ends what it does beside answering.
func (it *fakeServer) behave() {
	it.lock.Lock()
	defer it.lock.Unlock()
	it.before, it.cuts = nil, nil
}

// list lists the streams as walcat does.
func (it *fakeServer) list(to io.Writer) {
	for key, lines := range it.streams {
		tenant, name, _ := strings.Cut(key, " ")
		fmt.Fprintf(to, "append %s {a=\"%s\"} entries %d\n", tenant, name, 1+len(lines))
	}
}

type askedFor struct {
	Stream           map[string]string
	From, To, Bound  string
	Entries, Removed string
	Line             string
}

func (it *fakeServer) ServeHTTP(to http.ResponseWriter, got *http.Request) {
	var asked askedFor
	it.lock.Lock()
	defer it.lock.Unlock()
	if it.answers++; it.closes > 0 && it.answers%it.closes == 0 {
		to.Header().Set("Connection", "close")
	}
	switch got.URL.Path {
	case "/ready":
		fmt.Fprint(to, "ready")
		return
	case "/streams":
		it.list(to)
		return
	}
	json.NewDecoder(got.Body).Decode(&asked)
	key := got.Header.Get("X-Scope-OrgID") + " " + asked.Stream["a"]
	if it.before != nil {
		it.before(got.URL.Path, key)
	}
	status, text := it.answer(got.URL.Path, key, asked)
	it.statuses[fmt.Sprintf("%s %d", got.URL.Path, status)]++
	if it.cuts != nil && it.cuts(got.URL.Path, key) {
		cut, _, _ := to.(http.Hijacker).Hijack()
		cut.Close()
		return
	}
	to.Header().Set("Content-Length", strconv.Itoa(len(text)))
	to.WriteHeader(status)
	to.Write(text)
}

func (it *fakeServer) answer(route, key string, asked askedFor) (int, []byte) {
	status, text := 0, ""
	switch isCounted := asked.Entries != ""; {
	case route == "/ingester/v1/read":
		return 200, it.read(key, number(asked.From), number(asked.To))
	case !it.counts && (isCounted || route == endRoute):
		if text = it.says; text == "" {
			text = "501 counted trims and ends need NEEDLEAZURE_LAYOUT=3"
		}
		return int(number(text[:3])), []byte(text[4:])
	case route == endRoute:
		status, text = it.end(key)
	case route != trimRoute:
		return 404, []byte("not found")
	case isCounted:
		status, text = it.take(key, number(asked.Bound), number(asked.Entries), number(asked.Removed))
	default:
		status, text = it.trim(key, number(asked.Bound))
	}
	return status, []byte(text)
}

func number(text string) int64 {
	found, _ := strconv.ParseInt(text, 10, 64)
	return found
}

func (it *fakeServer) read(key string, low, high int64) []byte {
	kept := it.streams[key]
	first, last := it.below(key, low), it.below(key, high)
	of := fmt.Sprint(key, " ", first, " ", last)
	text := it.lastText
	if it.lastOf != of || text == nil {
		text = answerOf(kept[first:max(first, last)], false)
		it.lastOf, it.lastText = of, text
	}
	it.reads, it.asked = it.reads+1, it.asked+len(text)
	if high-low > narrow && len(text) > it.longest {
		it.longest = len(text)
	}
	return text
}

// below is how many lines are older than a time.
func (it *fakeServer) below(key string, time int64) int64 {
	kept := it.streams[key]
	return int64(sort.Search(len(kept), func(at int) bool { return kept[at].time >= time }))
}

func (it *fakeServer) highestOf(key string) int64 {
	if kept := it.streams[key]; len(kept) > 0 {
		return max(it.highest[key], kept[len(kept)-1].time)
	}
	return it.highest[key]
}

// remove removes the first lines.
func (it *fakeServer) remove(key string, count int64) {
	it.lastText = nil
	it.highest[key] = it.highestOf(key)
	it.removed[key] += count
	it.streams[key] = append([]judged(nil), it.streams[key][count:]...)
}

func (it *fakeServer) isThere(key string) bool {
	_, isThere := it.streams[key]
	return isThere
}

const noSuchStream = "no such stream"

func (it *fakeServer) trim(key string, bound int64) (int, string) {
	if !it.isThere(key) {
		return 404, noSuchStream
	} else if bound > it.highestOf(key)-it.window {
		return 400, "stream 0: trim bound is above the oldest accepted time"
	}
	count := it.below(key, bound)
	it.remove(key, count)
	return 200, fmt.Sprintf(`{"trimmed":%d}`, count)
}

func (it *fakeServer) take(key string, bound, entries, removed int64) (int, string) {
	count := int64(0)
	switch {
	case !it.isThere(key):
		return 404, noSuchStream
	case bound > it.highestOf(key)+1:
		return 400, "stream 0: bound is more than one above the highest time"
	case it.removed[key] != removed:
		return 409, fmt.Sprintf("stream 0: removed so far: %d", it.removed[key])
	}
	if count = it.below(key, bound); count != entries {
		return 409, fmt.Sprintf("stream 0: entries below the bound: %d", count)
	}
	it.remove(key, count)
	return 200, fmt.Sprintf(`{"trimmed":%d}`, count)
}

func (it *fakeServer) end(key string) (int, string) {
	switch {
	case !it.isThere(key):
		return 404, noSuchStream
	case len(it.streams[key]) > 0:
		return 409, "stream 0: stream has entries"
	case it.highestOf(key) >= time.Now().UnixNano()-it.window-600*second:
		return 409, "stream 0: stream is not old enough"
	}
	delete(it.streams, key)
	delete(it.highest, key)
	delete(it.removed, key)
	return 200, `{"ended":true}`
}

// store stores a line as a push does, behind those of its time. Whether it was taken.
func (it *fakeServer) store(key string, line judged) bool {
	if it.isThere(key) && line.time < it.highestOf(key)-it.window {
		return false
	}
	it.lastText = nil
	kept := it.streams[key]
	at := it.below(key, line.time+1)
	kept = append(kept, judged{})
	copy(kept[at+1:], kept[at:])
	kept[at] = line
	it.streams[key] = kept
	return true
}

// drawTimes are times of lines: spread, in bursts, of one nanosecond, far back, or ahead of the clock.
func drawTimes(draw *rand.Rand, now int64) (found []int64) {
	ends := []int64{0, 0, -30, -3000, -1_000_000, -1_000_000_000, 500, 3000}
	spans := []int64{1, 1000, second, 60 * second, 7200 * second, 720_000 * second}
	end, span := now+ends[draw.Intn(len(ends))]*second, spans[draw.Intn(len(spans))]
	for count := []int{1, 5, 100, 1000}[draw.Intn(4)]; count > 0; count-- {
		found = append(found, end-draw.Int63n(span))
	}
	for bursts := draw.Intn(3); bursts > 0; bursts-- {
		at := end - draw.Int63n(span)
		for count := []int{1, 50, 300}[draw.Intn(3)]; count > 0; count-- {
			found = append(found, at)
		}
	}
	if draw.Intn(4) == 0 {
		found = append(found, []int64{0, 1, end - 500_000_000*second}[draw.Intn(3)])
	}
	sort.Slice(found, func(one, other int) bool { return found[one] < found[other] })
	return found
}

// Each read finds what a whole read would: the newest line, all lines of a range in order, and the first line after it.
// No answer is used that is longer than a piece but that of a narrow range, and what is asked for in vain stays within
// bounds.
func TestRangesFindAll(t *testing.T) {
	const most = 4000
	for seed := int64(0); seed < 400; seed++ {
		draw, now := rand.New(rand.NewSource(seed)), time.Now().UnixNano()
		var lines []judged
		for number, at := range drawTimes(draw, now) {
			lines = append(lines, judged{at, fmt.Sprintf("line %d ", number) + strings.Repeat("x", draw.Intn(40)), nil})
		}
		server := startServer(t, map[string][]judged{"t 1": lines})
		whole := len(answerOf(lines, false))
		of := newStream("t", `{a="1"}`, 0)
		of.size = int64(float64(whole) * []float64{0.1, 1, 1, 3}[draw.Intn(4)])
		if draw.Intn(2) == 0 {
			of.reached = lines[draw.Intn(len(lines))].time
		}
		from := newReading(server.connection(t), of)
		last := lines[len(lines)-1].time
		if newest, err := from.newest(); err != nil || newest != last {
			t.Fatalf("seed %d: newest is %d, and not %d: %v", seed, newest, last, err)
		}
		bound := max(0, last-[]int64{0, 1, second, 3600 * second}[draw.Intn(4)])
		checkPieces(t, from, lines, times{0, bound}, most)
		due := lines[sort.Search(len(lines), func(at int) bool { return lines[at].time >= bound })].time
		if oldest, err := from.oldest(bound, last); err != nil || oldest != due {
			t.Fatalf("seed %d: oldest is %d, and not %d: %v", seed, oldest, due, err)
		}
		if pages := whole/most + 40; server.asked > 25*(whole+10*most+10*lookBytes) || server.reads > 40*pages {
			t.Fatalf("seed %d: %d reads of %d bytes for %d", seed, server.reads, server.asked, whole)
		}
		from.by.close()
		server.Close()
	}
}

func checkPieces(t *testing.T, from *reading, lines []judged, over times, most int64) {
	next, reached := 0, int64(0)
	err := from.pieces(over, lines[len(lines)-1].time, most, func(found part, bound int64) error {
		for _, one := range entriesOf(t, found) {
			if one.line != lines[next].line || one.time < reached || bound > 0 && one.time >= bound {
				t.Fatalf("line %d is %v, behind %d and before %d", next, one, reached, bound)
			}
			next++
		}
		reached = max(reached, bound)
		return nil
	})
	due := sort.Search(len(lines), func(at int) bool { return lines[at].time >= over.high })
	if err != nil || next != due || reached != over.high {
		t.Fatalf("%d of %d lines below %d up to %d: %v", next, due, over.high, reached, err)
	}
}

// A range that is read by one answer comes in parts that are no longer than they have to be, and goes on where it was
// cut.
func TestLongAnswersComeInParts(t *testing.T) {
	var lines []judged
	for number := 0; number < 9000; number++ {
		lines = append(lines, judged{1000 + int64(number/3000), strings.Repeat("x", 300) + strconv.Itoa(number), nil})
	}
	server := startServer(t, map[string][]judged{"t 1": lines})
	from, count, parts := newReading(server.connection(t), newStream("t", `{a="1"}`, 0)), 0, 0
	err := from.stream(times{0, 2000}, func(found part, bound int64) error {
		if len(found.text) > 4*pieceBytes || bound != 0 && found.spans[len(found.spans)-1].time >= bound {
			t.Errorf("a part of %d bytes up to %d", len(found.text), bound)
		}
		for _, one := range entriesOf(t, found) {
			if one.line != lines[count].line {
				t.Fatalf("line %d is %s", count, one.line)
			}
			count++
		}
		parts++
		return nil
	})
	if err != nil || count != len(lines) || parts < 5 {
		t.Fatalf("%d lines in %d parts: %v", count, parts, err)
	}
}
