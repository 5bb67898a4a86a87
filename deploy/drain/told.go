package main

import (
	"fmt"
	"os"
	"path/filepath"
	"sort"
	"strings"
	"time"

	"golang.org/x/sys/unix"
)

// What rounds did, as deploy/metrics reads it: names with numbers, times in seconds. Rounds of a service count
// together, as long as nobody has looked at them, which is about a minute.
type told struct {
	place   place
	path    string
	began   time.Time
	before  counts
	errors  int64
	streams []*stream
	// the exit status of a run
	status int
	// when lines were refused, and how many, since those are told for longer
	refused []refusedThen
}

type refusedThen struct {
	at    time.Time
	lines int64
}

func newTold(of place) *told {
	return &told{place: of, path: filepath.Join(of.folder(), ".last-run"), began: time.Now()}
}

// take adds a round. One that was cut short has one error more.
func (it *told) take(of *round, isWhole bool) {
	it.streams = nil
	if of != nil {
		of.lock.Lock()
		it.streams, it.errors = of.streams, it.errors+of.errors
		of.lock.Unlock()
	}
	if !isWhole {
		it.errors++
	}
	if it.errors > 0 {
		it.status = 1
	}
}

func (it *told) lastGood() string {
	text, _ := os.ReadFile(it.path)
	for _, line := range strings.Split(string(text), "\n") {
		if strings.HasPrefix(line, "good ") {
			return strings.TrimSpace(line[5:])
		}
	}
	return "0"
}

// write leaves what there is to tell, and begins anew.
func (it *told) write(seconds time.Duration) {
	now := shown(time.Now().UnixNano())
	good := now
	if it.errors > 0 {
		good = it.lastGood()
	}
	did := it.place.counts()
	lines := []string{"ended " + now, "good " + good, "seconds " + shown(int64(seconds)),
		fmt.Sprintf("streams %d", len(it.streams)), fmt.Sprintf("lines %d", did.lines-it.before.lines),
		fmt.Sprintf("bytes %d", did.bytes-it.before.bytes), fmt.Sprintf("refused %d", it.refusedLately(did.refused)),
		fmt.Sprintf("errors %d", it.errors)}
	text := strings.Join(append(lines, it.oldest()...), "\n") + "\n"
	if err := writeWhole(it.path, text); err != nil {
		fmt.Fprintf(os.Stderr, "cannot write %s: %s\n", it.path, cause(err))
	}
	it.before, it.errors, it.began = did, 0, time.Now()
}

// refusedLately is how many lines were refused in the last quarter of an hour, or in this run.
func (it *told) refusedLately(all int64) int64 {
	if lines := all - it.before.refused; lines > 0 {
		it.refused = append(it.refused, refusedThen{time.Now(), lines})
	}
	sum := int64(0)
	for _, one := range it.refused {
		if time.Since(one.at) < 15*time.Minute {
			sum += one.lines
		}
	}
	return sum
}

// oldest has the oldest line that is left: of all, of those that are not the newest of their stream, and of each shard.
func (it *told) oldest() []string {
	const all, takeable = "oldest", "takeable"
	found := map[string]int64{}
	note := func(name string, time int64) {
		if known, isThere := found[name]; !isThere || time < known {
			found[name] = time
		}
	}
	for _, one := range it.streams {
		oldest := one.oldest()
		if oldest == never {
			continue
		}
		note(all, oldest)
		note(fmt.Sprintf("oldest-%02d", one.shard), oldest)
		// (nothing takes the newest line of a stream)
		if oldest < one.newest {
			note(takeable, oldest)
		}
	}
	var lines []string
	for name, time := range found {
		lines = append(lines, name+" "+shown(time))
	}
	sort.Strings(lines)
	return lines
}

func shown(nanoseconds int64) string {
	return fmt.Sprintf("%d.%09d", nanoseconds/second, nanoseconds%second)
}

// progress is a line on a terminal that says where a round is.
func progress(began time.Time) func(of *round, end string) {
	if _, err := unix.IoctlGetTermios(int(os.Stderr.Fd()), unix.TCGETS); err != nil {
		return func(*round, string) {}
	}
	return func(of *round, end string) {
		text := fmt.Sprintf("%d of %d streams read, %d lines written, %d trims to do, %.0f s", len(of.streams)-len(of.queue),
			len(of.streams), of.place.counts().lines, len(of.trims), time.Since(began).Seconds())
		fmt.Fprintf(os.Stderr, "\r\033[K%s%s", text, end)
	}
}
