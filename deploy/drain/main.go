// needleazure-drain takes lines out of a running server, into files or to a Loki. Its manual page has its words, and
// says what it leaves where.
package main

import (
	"errors"
	"fmt"
	"io"
	"log"
	"os"
	"os/signal"
	"path/filepath"
	"runtime"
	"runtime/debug"
	"sync"
	"syscall"
	"time"
)

const (
	// the memory above which it looks for what it can do without, and how much garbage it has before it looks anyway
	memoryBytes, garbage = 44 << 20, 100
	// (more would take longer for the same: it waits most of the time)
	processors = 2
	// how long the rounds of a service count together
	toldTogether = time.Minute
)

func main() {
	// (in which Go's library says of its own what a Loki does wrong)
	log.SetOutput(io.Discard)
	debug.SetMemoryLimit(memoryBytes)
	debug.SetGCPercent(garbage)
	runtime.GOMAXPROCS(processors)
	given, err := readWords(os.Args[1:])
	if err != nil {
		fmt.Fprintln(os.Stderr, err)
		os.Exit(2)
	}
	to := given.place()
	if err := os.MkdirAll(to.folder(), 0o777); err != nil {
		fmt.Fprintf(os.Stderr, "cannot write to %s: %s\n", to.folder(), cause(err))
		os.Exit(1)
	}
	it := &drain{words: given, to: to, did: newTold(to), voice: newVoice(given.every > 0), memory: newMemory()}
	go it.endBySignal()
	if given.every > 0 {
		it.serve()
	}
	os.Exit(it.once())
}

// A drain makes rounds.
type drain struct {
	words
	to   place
	lock sync.Mutex
	did  *told
	// the round under way
	now    *round
	began  time.Time
	voice  *voice
	memory *memory
}

// endBySignal ends the process. A round that it cuts short is told.
func (it *drain) endBySignal() {
	signals := make(chan os.Signal, 1)
	signal.Notify(signals, syscall.SIGTERM, syscall.SIGINT)
	number := (<-signals).(syscall.Signal)
	it.lock.Lock()
	if it.now != nil {
		it.did.take(it.now, false)
		it.did.write(time.Since(it.began))
	}
	os.Exit(128 + int(number))
}

// once makes one round, and returns the exit status.
func (it *drain) once() int {
	held, err := lockFolder(it.to.folder())
	if err != nil {
		fmt.Fprintln(os.Stderr, err)
		return 1
	}
	defer held.Close()
	it.begin()
	if err := it.round(true); err != nil {
		fmt.Fprintln(os.Stderr, err)
	}
	it.did.write(time.Since(it.began))
	return it.did.status
}

// serve makes rounds until the process ends. Between them others may use the folder.
func (it *drain) serve() {
	for written := (time.Time{}); ; {
		it.begin()
		held, err := lockFolder(it.to.folder())
		if err == nil {
			err = it.round(false)
			if time.Since(written) >= toldTogether {
				it.did.write(time.Since(it.began))
				written = time.Now()
			}
			held.Close()
		}
		if err != nil {
			it.voice.say(err.Error())
		}
		time.Sleep(it.every - time.Since(it.began))
	}
}

func (it *drain) begin() {
	it.lock.Lock()
	defer it.lock.Unlock()
	it.began = time.Now()
}

// round makes a round, and returns what ended it before its end.
func (it *drain) round(isOnly bool) error {
	connections := make([]*connection, workers)
	for at := range connections {
		connections[at] = newConnection(it.port, it.patience)
	}
	counted := newCountedTrim(it.delay, it.window, it.grace)
	now := newRound(it.to, windowTrim{int64(it.window)}, counted, it.memory, isOnly, it.voice)
	it.lock.Lock()
	it.now = now
	it.lock.Unlock()
	show := progress(it.began)
	now.run(&slotCatalog{folder: it.log, shards: it.shards}, connections, func(of *round) { show(of, "") })
	show(now, "\n")
	it.lock.Lock()
	defer it.lock.Unlock()
	it.now = nil
	it.did.take(now, now.fault == nil)
	return now.fault
}

// lockFolder keeps other runs away until the file is closed, or this process ends.
func lockFolder(folder string) (*os.File, error) {
	file, err := os.Create(filepath.Join(folder, ".lock"))
	if err != nil {
		return nil, fmt.Errorf("cannot write to %s: %s", folder, cause(err))
	}
	err = syscall.Flock(int(file.Fd()), syscall.LOCK_EX|syscall.LOCK_NB)
	if errors.Is(err, syscall.EWOULDBLOCK) {
		err = fmt.Errorf("another drain is at %s", folder)
	}
	if err != nil {
		file.Close()
		return nil, err
	}
	return file, nil
}
