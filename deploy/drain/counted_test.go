package main

import (
	"compress/gzip"
	"encoding/json"
	"fmt"
	"io"
	"math/rand"
	"net/http"
	"net/http/httptest"
	"os"
	"path/filepath"
	"reflect"
	"sort"
	"strings"
	"testing"
	"time"
)

// A life is a server that counts trims, and rounds over it one after another, as of one process.
type life struct {
	t      *testing.T
	server *fakeServer
	to     place
	memory *memory
	delay  int64
	isOnly bool
	last   *round
	// whether its streams are listed with what the server knows of them
	tells bool
}

func newLife(t *testing.T, server *fakeServer, to place) *life {
	server.counts = true
	return &life{t: t, server: server, to: to, memory: newMemory(), delay: 10 * second, isOnly: true}
}

// listed lists the streams of a server, in pages.
func (it *life) listed() *pageCatalog {
	it.server.lock.Lock()
	defer it.server.lock.Unlock()
	found := &pageCatalog{}
	for key, lines := range it.server.streams {
		tenant, name, _ := strings.Cut(key, " ")
		of := newStream(tenant, fmt.Sprintf(`{a="%s"}`, name), 0)
		if it.tells {
			of.entries, of.reached, of.removed = int64(len(lines)), it.server.highestOf(key), it.server.removed[key]
		} else {
			of.size = int64(len(answerOf(lines, false)))
		}
		found.left = append(found.left, of)
	}
	sort.Slice(found.left, func(one, other int) bool { return found.left[one].text < found.left[other].text })
	return found
}

func (it *life) round() *round {
	counted := &countedTrim{delay: it.delay, endsAfter: it.server.window + 601*second, now: time.Now().UnixNano()}
	window := windowTrim{it.server.window}
	now := newRound(it.to, window, counted, it.memory, it.isOnly, newVoice(false))
	connections := make([]*connection, workers)
	for at := range connections {
		connections[at] = it.server.connection(it.t)
	}
	now.run(it.listed(), connections, func(*round) {})
	it.last = now
	return now
}

// good is a round that has to end well.
func (it *life) good() {
	it.t.Helper()
	if now := it.round(); now.fault != nil || now.errors > 0 {
		it.t.Fatalf("a round ends with %d errors: %v", now.errors, now.fault)
	}
}

// linesIn are the lines in files below a folder, by tenant and stream, in their order.
func linesIn(t *testing.T, folder string) map[string][]string {
	found := map[string][]string{}
	paths, _ := filepath.Glob(folder + "/*/*.gz")
	sort.Strings(paths)
	for _, path := range paths {
		file, _ := os.Open(path)
		defer file.Close()
		unpacked, err := gzip.NewReader(file)
		if err == io.EOF {
			continue
		} else if err != nil {
			t.Fatal(err)
		}
		for lines := json.NewDecoder(unpacked); ; {
			var one struct {
				Stream map[string]string
				Line   string
			}
			if err := lines.Decode(&one); err == io.EOF {
				break
			} else if err != nil {
				t.Fatal(err)
			}
			key := filepath.Base(filepath.Dir(path)) + " " + one.Stream["a"]
			found[key] = append(found[key], one.Line)
		}
	}
	return found
}

func linesOfAll(all map[string][]judged) map[string][]string {
	found := map[string][]string{}
	for key, lines := range all {
		for _, one := range lines {
			found[key] = append(found[key], one.line)
		}
	}
	return found
}

// All lines but the youngest are taken, of short and of long streams, each once and in its order; and with no removal
// that is refused.
func TestACountedRound(t *testing.T) {
	now := time.Now().UnixNano()
	all, _, _ := fillStreams(now - 60*second)
	due := linesOfAll(all)
	for key := range all {
		all[key] = append(all[key], judged{now - second, "young", nil}, judged{now + 5*second, "younger", nil})
	}
	folder := t.TempDir()
	it := newLife(t, startServer(t, all), newFiles(folder))
	it.server.closes = 17
	it.good()
	if found := linesIn(t, folder); !reflect.DeepEqual(found, due) {
		t.Errorf("%d streams are written, and not %d, or others", len(found), len(due))
	}
	for key, lines := range it.server.streams {
		if len(lines) != 2 || lines[0].line != "young" || it.server.removed[key] != int64(len(due[key])) {
			t.Errorf("%s: %d lines are left, %d were removed", key, len(lines), it.server.removed[key])
		}
	}
	if it.server.statuses[trimRoute+" 400"]+it.server.statuses[trimRoute+" 409"] > 0 {
		t.Errorf("answers: %v", it.server.statuses)
	}
	it.delay = -60 * second
	it.good()
	for key := range all {
		if due[key] = append(due[key], "young", "younger"); len(it.server.streams[key]) > 0 {
			t.Errorf("%s has lines", key)
		}
	}
	if found := linesIn(t, folder); !reflect.DeepEqual(found, due) {
		t.Error("then the young ones aren't written once")
	}
}

// A server that counts no trims is drained by its window, which is said once.
func TestAServerThatCountsNoTrims(t *testing.T) {
	for _, says := range []string{"501 counted trims and ends need NEEDLEAZURE_LAYOUT=3", "400 wrong shape", "404 not found"} {
		all, _, due := fillStreams(time.Now().UnixNano())
		folder := t.TempDir()
		it := newLife(t, startServer(t, copyOf(all)), newFiles(folder))
		it.server.counts, it.server.says = false, says
		it.good()
		hold(t, it.last, it.server, linesIn(t, folder), due, all)
		if isSaid := it.last.voice.said; len(isSaid) != 1 {
			t.Errorf("said: %v", isSaid)
		}
		if it.good(); len(it.last.voice.said) != 0 {
			t.Errorf("said again: %v", it.last.voice.said)
		}
	}
}

// Answers to trims are lost, and lines come late between a read and its trim: each line is written once.
func TestNothingIsLostOrDoubled(t *testing.T) {
	for seed := int64(0); seed < 40; seed++ {
		t.Run(fmt.Sprint("seed ", seed), func(t *testing.T) { lateAndLost(t, rand.New(rand.NewSource(seed))) })
	}
}

func lateAndLost(t *testing.T, draw *rand.Rand) {
	now := time.Now().UnixNano()
	all := map[string][]judged{}
	for stream := 0; stream < 12; stream++ {
		key := fmt.Sprintf("t %d", stream)
		for at, length := 0, []int{20, 20, 2000, 20000}[draw.Intn(4)]; at < []int{1, 30, 300}[draw.Intn(3)]; at++ {
			all[key] = append(all[key], judged{now - 3000*second + int64(at/3)*second, fmt.Sprint("first ", at, strings.Repeat("x", length)), nil})
		}
	}
	folder := t.TempDir()
	it := newLife(t, startServer(t, copyOf(all)), newFiles(folder))
	if draw.Intn(3) == 0 {
		// (most trims are of few lines then)
		it.to = &flushed{files: it.to.(*files)}
	}
	late := 0
	it.server.before = func(route, key string) {
		if _, isOld := all[key]; route != trimRoute || !isOld || late > 200 || draw.Intn(3) > 0 {
			return
		}
		late++
		line := judged{now - int64(1000+draw.Intn(2500))*second, fmt.Sprint("late ", late), nil}
		if draw.Intn(2) == 0 {
			line.time = all[key][draw.Intn(len(all[key]))].time
		}
		if it.server.store(key, line) {
			all[key] = append(all[key], line)
		}
	}
	it.server.cuts = func(route, key string) bool { return route == trimRoute && draw.Intn(6) == 0 }
	for rounds := 0; rounds < 6; rounds++ {
		it.good()
	}
	it.server.behave()
	it.good()
	compare(t, linesIn(t, folder), linesOfAll(all))
	for key, lines := range it.server.streams {
		if len(lines) > 0 {
			t.Errorf("%s has %d lines left", key, len(lines))
		}
	}
}

// flushed are files that are written after each piece.
type flushed struct{ *files }

func (it *flushed) put(one piece) error {
	if err := it.files.put(one); err != nil {
		return err
	}
	return it.flush()
}

// compare fails unless just these lines are there, each once.
func compare(t *testing.T, found, due map[string][]string) {
	t.Helper()
	for key, lines := range due {
		count := map[string]int{}
		for _, one := range lines {
			count[one]++
		}
		lost, twice := len(lines), 0
		for _, one := range found[key] {
			if count[one] == 1 {
				lost--
			} else if count[one] == 0 {
				t.Errorf("%s: a line of nobody", key)
			}
			if count[one]++; count[one] > 2 {
				twice++
			}
		}
		if lost > 0 || twice > 0 {
			t.Errorf("%s: %d lines are lost and %d there twice, of %d", key, lost, twice, len(lines))
		}
	}
}

// Somebody else removes lines between a read and its trim: nothing is lost, and what wasn't removed is written once.
func TestLinesThatOthersRemoved(t *testing.T) {
	for seed := int64(0); seed < 40; seed++ {
		draw, now := rand.New(rand.NewSource(seed)), time.Now().UnixNano()
		all, theirs := map[string][]judged{}, map[string]bool{}
		for at := 0; at < 100; at++ {
			all["t 1"] = append(all["t 1"], judged{now - 1000*second + int64(at/3)*second, fmt.Sprint("line ", at), nil})
		}
		folder := t.TempDir()
		it := newLife(t, startServer(t, copyOf(all)), newFiles(folder))
		it.server.before = func(route, key string) {
			kept := it.server.streams[key]
			if route != trimRoute || len(kept) < 10 || draw.Intn(3) == 0 {
				return
			}
			bound := kept[draw.Intn(len(kept)/2)].time
			for count := it.server.below(key, bound); count > 0; count-- {
				theirs[it.server.streams[key][0].line] = true
				it.server.remove(key, 1)
			}
			line := judged{now - int64(900+draw.Intn(100))*second, fmt.Sprint("late ", len(all[key])), nil}
			if draw.Intn(2) == 0 && it.server.store(key, line) {
				all[key] = append(all[key], line)
			}
		}
		it.good()
		it.server.behave()
		it.good()
		found := linesIn(t, folder)["t 1"]
		seen := map[string]int{}
		for _, one := range found {
			seen[one]++
		}
		for _, one := range all["t 1"] {
			if seen[one.line] == 0 && !theirs[one.line] || seen[one.line] > 1 {
				t.Fatalf("seed %d: %s is written %d times, removed by others: %v", seed, one.line, seen[one.line], theirs[one.line])
			}
		}
		if len(it.server.streams["t 1"]) > 0 {
			t.Fatalf("seed %d: lines are left", seed)
		}
	}
}

// A server that goes away after it got a trim: the next round of the process knows what is written.
func TestTheNextRoundKnowsWhatIsWritten(t *testing.T) {
	for _, isTaken := range []bool{true, false} {
		all, _, _ := fillStreams(time.Now().UnixNano() - 60*second)
		folder := t.TempDir()
		it := newLife(t, startServer(t, copyOf(all)), newFiles(folder))
		trims := 0
		isCut := func(route, key string) bool {
			if _, isOld := all[key]; route == trimRoute && isOld && it.server.removed[key] > 0 == isTaken {
				trims++
			}
			return trims > 10
		}
		if it.server.cuts = isCut; !isTaken {
			it.server.before = func(route, key string) {
				if route == trimRoute && trims > 10 {
					panic(http.ErrAbortHandler)
				}
			}
		}
		if now := it.round(); now.errors == 0 {
			t.Fatal("a round over a server that goes away ends well")
		}
		it.server.behave()
		it.good()
		if found := linesIn(t, folder); !reflect.DeepEqual(sortedOf(found), sortedOf(linesOfAll(all))) {
			compare(t, found, linesOfAll(all))
		}
	}
}

func sortedOf(of map[string][]string) map[string][]string {
	for _, lines := range of {
		sort.Strings(lines)
	}
	return of
}

// Streams without lines end once they are old enough, and no others.
func TestStreamsEnd(t *testing.T) {
	now := time.Now().UnixNano()
	all := map[string][]judged{}
	for stream := 0; stream < 40; stream++ {
		age := int64(100) * second
		if stream%2 == 0 {
			age = 9000 * second
		}
		all[fmt.Sprintf("t %d", stream)] = []judged{{now - age, "line", nil}}
	}
	folder := t.TempDir()
	it := newLife(t, startServer(t, copyOf(all)), newFiles(folder))
	it.good()
	it.good()
	if count := len(it.server.streams); count != 20 {
		t.Errorf("%d streams are left, and not 20: %v", count, it.server.statuses)
	}
	it.good()
	compare(t, linesIn(t, folder), linesOfAll(all))
	if asked := it.server.statuses[endRoute+" 409"]; asked > 0 {
		t.Errorf("%d streams are asked too early", asked)
	}
	// (one that a new process knows nothing of is asked once)
	it.memory = newMemory()
	for rounds := 0; rounds < 3; rounds++ {
		it.good()
	}
	if asked := it.server.statuses[endRoute+" 409"]; asked != 20 {
		t.Errorf("%d ends are refused: %v", asked, it.server.statuses)
	}
	// and begins anew
	it.server.store("t 0", judged{now - 8000*second, "again", nil})
	it.good()
	if found := linesIn(t, folder)["t 0"]; !reflect.DeepEqual(found, []string{"line", "again"}) {
		t.Errorf("a stream that begins anew has %v", found)
	}
}

// A catalog that knows how many entries a stream has, and had, spares all requests but those that are needed.
func TestACatalogThatKnowsMore(t *testing.T) {
	now := time.Now().UnixNano()
	all, _, _ := fillStreams(now - 60*second)
	due := linesOfAll(all)
	for stream := 100; stream < 200; stream++ {
		all[fmt.Sprintf("t %d", stream)] = nil
	}
	folder := t.TempDir()
	it := newLife(t, startServer(t, all), newFiles(folder))
	for stream := 100; stream < 200; stream++ {
		it.server.highest[fmt.Sprintf("t %d", stream)] = now - int64(stream%2)*9000*second
	}
	it.tells = true
	it.good()
	if found := linesIn(t, folder); !reflect.DeepEqual(found, due) {
		t.Error("not each line is written once")
	}
	answers := it.server.statuses
	if len(it.server.streams) != 110 || answers[endRoute+" 200"] != 50 || answers[endRoute+" 409"] > 0 {
		t.Errorf("%d streams are left: %v", len(it.server.streams), answers)
	}
	long := 3
	if reads, trims := it.server.reads, answers[trimRoute+" 200"]; reads > 60+40*long || trims > 61+20*long {
		t.Errorf("%d reads, and %v", reads, answers)
	}
	// (a server that counts is asked by a stream that isn't there)
	before := it.server.reads
	if it.good(); it.server.reads != before || answers[trimRoute+" 404"] != 2 {
		t.Errorf("a round with nothing to do reads %d times: %v", it.server.reads-before, answers)
	}
}

// newLokiLife is a life over a Loki.
func newLokiLife(t *testing.T, all map[string][]judged, patience time.Duration) (*life, *fakeLoki) {
	to := &fakeLoki{lines: map[string][]string{}, answer: func(int, []string) (int, string) { return 0, "" }}
	serving := httptest.NewServer(to)
	t.Cleanup(serving.Close)
	at := address{route: serving.URL + "/loki/api/v1/push"}
	it := newLife(t, startServer(t, copyOf(all)), newLoki(t.TempDir(), at, 10*time.Second, patience))
	it.isOnly = false
	return it, to
}

func smallStreams(count int) map[string][]judged {
	now, all := time.Now().UnixNano(), map[string][]judged{}
	for stream := 0; stream < count; stream++ {
		key := fmt.Sprintf("t %d", stream)
		for at := int64(0); at < 50; at++ {
			all[key] = append(all[key], judged{now - 3000*second + at*second, fmt.Sprint("line ", at), nil})
		}
	}
	return all
}

// One stream of twenty that is answered 429, or fails with all of its body, holds up no other; and nothing is sent twice.
func TestAStreamWaitsAlone(t *testing.T) {
	for _, status := range []int{http.StatusTooManyRequests, http.StatusInternalServerError} {
		status := status
		t.Run(fmt.Sprint(status), func(t *testing.T) {
			t.Parallel()
			oneWaits(t, status)
		})
	}
}

func oneWaits(t *testing.T, status int) {
	const bad = `{a="7"}`
	all := smallStreams(20)
	it, to := newLokiLife(t, all, 30*time.Second)
	isBad, tries := true, 0
	to.answer = func(_ int, labels []string) (int, string) {
		for _, one := range labels {
			if one == bad && isBad {
				if tries++; status == http.StatusTooManyRequests {
					return status, "Per stream rate limit exceeded for stream: " + bad
				}
				return status, "at least 2 live replicas required"
			}
		}
		return 0, ""
	}
	began := time.Now()
	it.good()
	if found := len(to.lines); found != 19 || time.Since(began) > 10*time.Second {
		t.Errorf("%d: %d streams are sent after %v", status, found, time.Since(began))
	}
	for key := range all {
		if left := len(it.server.streams[key]); left > 0 != (key == "t 7") {
			t.Errorf("%d: %s has %d lines left", status, key, left)
		}
	}
	for until := time.Now().Add(1500 * time.Millisecond); time.Now().Before(until); time.Sleep(200 * time.Millisecond) {
		it.good()
	}
	if tries > 16 {
		t.Errorf("%d: it is tried %d times", status, tries)
	}
	to.lock.Lock()
	isBad = false
	to.lock.Unlock()
	for rounds := 0; len(to.lines["t 7"]) == 0 && rounds < 60; rounds++ {
		time.Sleep(200 * time.Millisecond)
		it.good()
	}
	if !reflect.DeepEqual(to.lines, linesOfAll(all)) {
		t.Errorf("%d: not each line is sent once", status)
	}
}

// What a Loki took of one body is removed though it then fails: it is sent once.
func TestWhatWasTakenIsRemovedAtOnce(t *testing.T) {
	now, all := time.Now().UnixNano(), map[string][]judged{}
	for at := int64(0); at < 40_000; at++ {
		all["t 1"] = append(all["t 1"], judged{now - 3000*second + at*second/20, fmt.Sprint("line ", at), nil})
	}
	it, to := newLokiLife(t, all, time.Second)
	isAway := true
	to.answer = func(number int, _ []string) (int, string) {
		if number > 3 && isAway {
			return http.StatusBadGateway, "away"
		}
		return 0, ""
	}
	it.round()
	if sent, left := len(to.lines["t 1"]), len(it.server.streams["t 1"]); sent == 0 || sent+left != 40_000 {
		t.Fatalf("%d lines are sent, and %d left", sent, left)
	}
	to.lock.Lock()
	isAway = false
	to.lock.Unlock()
	for rounds := 0; len(it.server.streams["t 1"]) > 0 && rounds < 60; rounds++ {
		time.Sleep(100 * time.Millisecond)
		it.round()
	}
	if !reflect.DeepEqual(to.lines, linesOfAll(all)) {
		t.Errorf("%d lines are sent of 40000", len(to.lines["t 1"]))
	}
}

// A Loki that is away ends a round of its own after its patience, and keeps nobody busy meanwhile.
func TestALokiThatIsAway(t *testing.T) {
	t.Parallel()
	all := smallStreams(500)
	it, to := newLokiLife(t, all, 2*time.Second)
	it.isOnly = true
	to.answer = func(int, []string) (int, string) { return http.StatusServiceUnavailable, "away" }
	began := time.Now()
	now := it.round()
	if now.fault == nil || !strings.Contains(now.fault.Error(), "does not take lines: 503 away") {
		t.Errorf("the round ends with %v", now.fault)
	}
	if took := time.Since(began); took > 15*time.Second || to.pushes > 60 {
		t.Errorf("after %v and %d pushes", took, to.pushes)
	}
	to.lock.Lock()
	to.answer = func(int, []string) (int, string) { return 0, "" }
	to.lock.Unlock()
	time.Sleep(4 * time.Second)
	it.good()
	if !reflect.DeepEqual(to.lines, linesOfAll(all)) {
		t.Error("then not each line is sent once")
	}
}
