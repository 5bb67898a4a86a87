package main

import (
	"bytes"
	"fmt"
	"io"
	"math/rand"
	"net/http"
	"net/http/httptest"
	"os"
	"os/exec"
	"path/filepath"
	"reflect"
	"strings"
	"syscall"
	"testing"
	"time"
)

// This program is also the drain, where DRAIN_IS says so, a walcat that lists what is at DRAIN_LISTS, if it has that
// name, and a server with a Loki for benchmarks.
func TestMain(m *testing.M) {
	switch {
	case filepath.Base(os.Args[0]) == "walcat":
		got, err := http.Get(os.Getenv("DRAIN_LISTS"))
		if err != nil {
			os.Exit(1)
		}
		io.Copy(os.Stdout, got.Body)
	case os.Getenv("DRAIN_IS") == "drain":
		main()
	case os.Getenv("DRAIN_IS") == "server":
		serveForBenchmarks()
	default:
		os.Exit(m.Run())
	}
}

// A log of one shard whose streams a server in memory has.
type fakeLog struct {
	folder string
	server *fakeServer
}

func newLog(t *testing.T, server *fakeServer) *fakeLog {
	it := &fakeLog{t.TempDir(), server}
	for _, name := range []string{"shard-00-0.wal", "shard-00-1.wal"} {
		if err := os.WriteFile(filepath.Join(it.folder, name), nil, 0o666); err != nil {
			t.Fatal(err)
		}
	}
	program, err := os.Executable()
	if err == nil {
		err = os.Symlink(program, filepath.Join(it.folder, "walcat"))
	}
	if err != nil {
		t.Fatal(err)
	}
	return it
}

// drain starts a drain of this log.
func (it *fakeLog) drain(t *testing.T, to string, settings ...string) (*exec.Cmd, *bytes.Buffer) {
	_, port, _ := strings.Cut(strings.TrimPrefix(it.server.URL, "http://"), ":")
	program, _ := os.Executable()
	running, said := exec.Command(program, it.folder, port, "1", to), &bytes.Buffer{}
	running.Stderr = said
	running.Env = append(os.Environ(), "DRAIN_IS=drain", "DRAIN_LISTS="+it.server.URL+"/streams",
		"PATH="+it.folder+":"+os.Getenv("PATH"), "STATE_DIRECTORY="+it.folder+"/state", "NEEDLEAZURE_DRAIN_TIMEOUT=30s")
	running.Env = append(running.Env, settings...)
	if err := running.Start(); err != nil {
		t.Fatal(err)
	}
	return running, said
}

// Drains that are killed at any moment, over a server that loses answers, lose no line, and keep each stream's order.
func TestKilledAtAnyMoment(t *testing.T) {
	for _, what := range []string{"files", "a Loki"} {
		t.Run(what, func(t *testing.T) { killAgain(t, what == "files", 25) })
	}
}

func killAgain(t *testing.T, isToFiles bool, kills int) {
	server, draw := startServer(t, map[string][]judged{}), rand.New(rand.NewSource(time.Now().UnixNano()))
	server.counts = true
	log, all := newLog(t, server), map[string][]string{}
	loki := &fakeLoki{lines: map[string][]string{}, answer: func(int, []string) (int, string) { return 0, "" }}
	serving := httptest.NewServer(loki)
	defer serving.Close()
	to := log.folder + "/lines"
	if !isToFiles {
		to = serving.URL + "/loki/api/v1/push"
	}
	stamp := time.Now().UnixNano() - 3000*second
	push := func(count int) {
		server.lock.Lock()
		defer server.lock.Unlock()
		for ; count > 0; count-- {
			stamp += second / 1000
			key, line := fmt.Sprintf("t %d", draw.Intn(30)), fmt.Sprint("line ", stamp, strings.Repeat("x", 100))
			if !server.store(key, judged{stamp, line, nil}) {
				t.Error("a line is refused")
			}
			all[key] = append(all[key], line)
		}
	}
	server.cuts = func(route, key string) bool { return route == trimRoute && rand.Intn(50) == 0 }
	for ; kills > 0; kills-- {
		push(3000)
		running, _ := log.drain(t, to)
		for until := time.Now().Add(time.Duration(draw.Intn(250)) * time.Millisecond); time.Now().Before(until); {
			push(20)
			time.Sleep(5 * time.Millisecond)
		}
		running.Process.Kill()
		running.Wait()
	}
	server.behave()
	running, said := log.drain(t, to)
	if err := running.Wait(); err != nil || said.Len() > 0 {
		t.Errorf("the last run: %v: %s", err, said)
	}
	found := loki.lines
	if isToFiles {
		found = linesIn(t, to)
	}
	twice := 0
	for key, lines := range all {
		first := withoutRepeats(found[key])
		if twice += len(found[key]) - len(first); !reflect.DeepEqual(first, lines) {
			t.Errorf("%s: %d of %d lines are there, or in another order", key, len(first), len(lines))
		}
		if left := len(server.streams[key]); left > 0 {
			t.Errorf("%s has %d lines left", key, left)
		}
	}
	t.Logf("%d lines are there twice, of %d", twice, (stamp-time.Now().UnixNano()+3000*second)/(second/1000))
}

func withoutRepeats(lines []string) (found []string) {
	seen := map[string]bool{}
	for _, one := range lines {
		if !seen[one] {
			seen[one] = true
			found = append(found, one)
		}
	}
	return found
}

// A drain takes at most 64 MB of memory, however much a stream holds, and however many lines of it are of one time.
func TestMemoryIsBounded(t *testing.T) {
	const most = 64_000_000
	if isRaced || testing.Short() {
		t.Skip("Go's race detector takes memory of its own; and answers of 80 MB take long on a busy machine")
	}
	for what, step := range map[string]int64{"spread": second / 100, "dense": 300, "of one time": 0} {
		now := time.Now().UnixNano() - 3000*second
		lines := make([]judged, 80_000)
		for at := range lines {
			lines[at] = judged{now + int64(at)*step, fmt.Sprint(at, strings.Repeat(" y", 500)), nil}
		}
		server := startServer(t, map[string][]judged{"t 1": lines})
		server.counts = true
		log := newLog(t, server)
		running, said := log.drain(t, log.folder+"/lines")
		used, ended := int64(0), make(chan error, 1)
		go func() { ended <- running.Wait() }()
		err := error(nil)
		for isOver := false; !isOver; {
			select {
			case err = <-ended:
				isOver = true
			case <-time.After(5 * time.Millisecond):
				used = max(used, memoryOf(running.Process.Pid))
			}
		}
		if err != nil || said.Len() > 0 || len(server.streams["t 1"]) > 0 || used > most {
			t.Errorf("%s: %d bytes of memory, %d lines left: %v %s", what, used, len(server.streams["t 1"]), err, said)
		}
		if count := len(linesIn(t, log.folder+"/lines")["t 1"]); count != len(lines) {
			t.Errorf("%s: %d lines are written", what, count)
		}
		t.Logf("%s: %d MB", what, used/1_000_000)
	}
}

// memoryOf is how much memory a process has had at most, 0 once it has ended. (What is told at its end is that of the
// process which started it, if that has more.)
func memoryOf(process int) int64 {
	text, _ := os.ReadFile(fmt.Sprintf("/proc/%d/status", process))
	_, found, _ := strings.Cut(string(text), "VmHWM:")
	digits, _, _ := strings.Cut(found, "kB")
	return number(strings.TrimSpace(digits)) << 10
}

// What a server is filled with for a benchmark: streams of lines of 200 bytes.
const benchedLine = 200

type load struct{ streams, lines int }

func (it load) text(stream int) string { return fmt.Sprintf("pod-%d", stream) }

// fill makes the answers of a server.
func (it load) fill(to *fakeServer) {
	now := time.Now().UnixNano() - 60*second
	for stream := 0; stream < it.streams; stream++ {
		lines := make([]judged, it.lines)
		for at := range lines {
			line := fmt.Sprintf(`10.0.%d.%d - - [01/Dec/2026:12:%02d:%02d +0000] "GET /api/v1/orders/%d?page=%d HTTP/1.1" 200 %d `,
				at%250, at*7%251, at/60%60, at%60, at*7919%100_003, at%90, at*31%5000)
			line += `"-" "Mozilla/5.0 (X11; Linux x86_64; rv:140.0) Gecko/20100101 Firefox/140.0" ` + strings.Repeat("0", benchedLine)
			lines[at] = judged{now - int64(it.lines-at)*second/1000, line[:benchedLine], nil}
		}
		to.streams["t "+it.text(stream)] = lines
	}
}

// serveForBenchmarks serves as a server and as a Loki that takes all and reads nothing.
func serveForBenchmarks() {
	server := newServer(map[string][]judged{})
	server.counts = true
	var of load
	fmt.Sscan(os.Getenv("DRAIN_LOAD"), &of.streams, &of.lines)
	answers := http.NewServeMux()
	answers.HandleFunc("/fill", func(http.ResponseWriter, *http.Request) {
		server.lock.Lock()
		defer server.lock.Unlock()
		server.removed, server.highest = map[string]int64{}, map[string]int64{}
		of.fill(server)
	})
	answers.HandleFunc("/loki/api/v1/push", func(to http.ResponseWriter, got *http.Request) {
		io.Copy(io.Discard, got.Body)
		to.WriteHeader(http.StatusNoContent)
	})
	answers.Handle("/", server)
	fmt.Println(httptest.NewServer(answers).URL)
	select {}
}

// processor is how many seconds of a processor this process has had.
func processor() float64 {
	var used syscall.Rusage
	syscall.Getrusage(syscall.RUSAGE_SELF, &used)
	return float64(used.Utime.Nano()+used.Stime.Nano()) / float64(second)
}
