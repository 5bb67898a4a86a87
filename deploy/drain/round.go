package main

import (
	"context"
	"errors"
	"fmt"
	"sync"
	"time"
)

const (
	// connections to the server, each with a worker
	workers = 8
	// a stream that is about as small is read whole, together with others
	smallBytes = 16 << 10
	// how many streams are read, or trimmed, by requests that are sent at once
	readTogether, trimTogether = 32, 64
	// how many lines a round says of one kind of fault
	mostFaults = 10
	// how often a round reads streams again that change meanwhile
	mostPasses = 5
	// for how long a round waits for a stream though another round comes
	shortPause = 2 * time.Second
)

// A piece is entries of a stream, in rising time, and the bound below which nothing of the stream is left out; 0 where
// more of its last time comes.
type piece struct {
	of *stream
	part
	// its labels as JSON
	labels []byte
	bound  int64
}

// A place keeps lines elsewhere. Several workers use it.
type place interface {
	// put takes a piece, and may keep it back. It doesn't use its text afterwards. One without entries says that there are
	// no others below its bound. A refusal is of that stream alone; any other error ends the round.
	put(it piece) error
	// flush returns once all that was put is kept, refused, or waits.
	flush() error
	// waits is how long a stream has to wait until it may be put, and why; the error is a refusal where that is for too
	// long.
	waits(of *stream) (time.Duration, error)
	// begin tells whom to tell what is kept.
	begin(told keeper)
	// folder is where the state of the drain lies.
	folder() string
	counts() counts
}

// counts are lines and bytes that are kept, and lines that are in files of their own since nobody else takes them.
type counts struct{ lines, bytes, refused int64 }

// A keeper is told what became of what was put.
type keeper interface {
	// keep says that these entries are kept for good: with those before, all that the stream has below the bound, if it
	// isn't 0.
	keep(of *stream, these tally, bound int64)
	// refuse says why a stream is left for the next round.
	refuse(of *stream, why error)
	// wait is for a stream that is to be read again, from what is kept on, once it needn't wait.
	wait(of *stream)
	// over is done once something has ended the round.
	over() context.Context
}

// A round takes the lines of all streams once. Its workers, each with a connection, take streams, put their lines, and
// have those removed that are kept elsewhere.
type round struct {
	place place
	// how entries are removed, once the server was asked: by counts if it can
	by       taker
	counted  *countedTrim
	hasAsked bool
	asking   sync.Mutex
	memory   *memory
	// whether no other round comes, so that it waits for streams that a Loki limits
	isOnly bool

	lock   sync.Mutex
	change *sync.Cond
	// all streams, those that nobody has read yet, those that wait, those that are to be read again, and those of which
	// something is to be removed, or that are to end
	streams, queue, waiting, again, trims []*stream
	busy, able, passes                    int
	isOver, hasFlushed                    bool
	errors                                int64
	voice                                 *voice
	said                                  map[string]int
	order                                 []string
	fault                                 error
	inTime                                context.Context
	cancel                                context.CancelFunc
	running                               sync.WaitGroup
}

// newRound is one by counts, if the server can and `counted` is given, else by a window.
func newRound(to place, window windowTrim, counted *countedTrim, from *memory, isOnly bool, says *voice) *round {
	it := &round{place: to, by: window, counted: counted, memory: from, isOnly: isOnly, voice: says, said: map[string]int{}}
	it.change = sync.NewCond(&it.lock)
	it.inTime, it.cancel = context.WithCancel(context.Background())
	to.begin(it)
	return it
}

// run lists streams, and returns once all were read, and what is kept elsewhere is removed, or nobody can do it.
func (it *round) run(from catalog, connections []*connection, tell func(*round)) {
	it.able = len(connections)
	it.running.Add(len(connections))
	for _, one := range connections {
		go it.work(one)
	}
	it.list(from)
	for it.settle(tell) {
		it.end(it.place.flush())
		if !it.settle(tell) || !it.wake() {
			break
		}
	}
	it.lock.Lock()
	it.isOver = true
	it.change.Broadcast()
	it.lock.Unlock()
	it.running.Wait()
	it.countUndone()
	it.memory.note(it.streams)
}

// ask asks the server once whether it counts trims.
func (it *round) ask(by *connection) error {
	it.asking.Lock()
	defer it.asking.Unlock()
	if it.hasAsked || it.counted == nil {
		return nil
	}
	says, err := it.counted.canCount(by)
	if err != nil {
		return err
	}
	if it.hasAsked = true; says == "" {
		it.by = it.counted
		return nil
	}
	it.memory.hasSaid.Do(func() {
		it.voice.say(fmt.Sprintf("the server counts no trims (%s), so the last window of each stream stays", says))
	})
	return nil
}

func (it *round) over() context.Context { return it.inTime }

// list takes page after page, each once the one before is read.
func (it *round) list(from catalog) {
	for {
		page, err := from.next()
		for _, one := range page {
			it.memory.recall(one)
		}
		it.lock.Lock()
		it.streams, it.queue = append(it.streams, page...), append(it.queue, page...)
		it.change.Broadcast()
		for err == nil && len(page) > 0 && len(it.queue) > readTogether*workers && it.fault == nil && it.able > 0 {
			it.change.Wait()
		}
		isOver := err != nil || len(page) == 0 || it.fault != nil || it.able == 0
		it.lock.Unlock()
		if isOver {
			it.end(err)
			return
		}
	}
}

// end notes what ends the round, if anything does.
func (it *round) end(err error) {
	if err == nil {
		return
	}
	it.lock.Lock()
	defer it.lock.Unlock()
	if it.fault == nil {
		it.fault = err
		it.cancel()
	}
	it.change.Broadcast()
}

// settle waits until nothing is left to do. It returns false where nobody can do it.
func (it *round) settle(tell func(*round)) bool {
	ticks := time.NewTicker(200 * time.Millisecond)
	isDone := make(chan struct{})
	defer close(isDone)
	defer ticks.Stop()
	go func() {
		for {
			select {
			case <-ticks.C:
				it.change.Broadcast()
			case <-isDone:
				return
			}
		}
	}()
	it.lock.Lock()
	defer it.lock.Unlock()
	for it.fault == nil && it.able > 0 && (it.busy > 0 || len(it.trims) > 0 || len(it.queue) > 0) {
		it.change.Wait()
		tell(it)
	}
	return it.fault == nil && it.able > 0
}

// wake queues streams that are to be read again, and those that have waited, after it has waited for the first of them.
// It returns false where none is left. (Nothing is on its way of any stream now.)
func (it *round) wake() bool {
	if it.readAgain() {
		return true
	}
	for {
		it.lock.Lock()
		waiting, soonest := it.waiting, time.Duration(ever)
		it.waiting = nil
		it.lock.Unlock()
		for _, one := range waiting {
			if pause, err := it.place.waits(one); err != nil || pause == 0 {
				it.requeue(one)
				soonest = 0
			} else if it.isOnly || pause <= shortPause {
				it.wait(one)
				soonest = time.Duration(least(int64(soonest), int64(pause)))
			} else {
				it.leave(one)
			}
		}
		if soonest == time.Duration(ever) {
			return false
		} else if soonest == 0 {
			return true
		}
		select {
		case <-time.After(soonest):
		case <-it.inTime.Done():
			return false
		}
	}
}

// readAgain queues streams that have changed while they were read. After some times they are left for the next round.
func (it *round) readAgain() bool {
	it.lock.Lock()
	again := it.again
	if it.again = nil; len(again) > 0 {
		it.passes++
	}
	waits := it.waiting[:0]
	for _, one := range it.waiting {
		if !one.isAgain {
			waits = append(waits, one)
		}
	}
	it.waiting = waits
	it.lock.Unlock()
	for _, one := range again {
		if one.isAgain, one.bound = false, 0; one.moved != never {
			one.kept = keptAfter(one.kept, one.removed, one.moved)
			one.removed = max(0, one.moved)
		}
		if it.passes > mostPasses {
			it.leave(one)
			continue
		}
		it.requeue(one)
	}
	return len(again) > 0 && it.passes <= mostPasses
}

// requeue has a stream read of which nothing is on its way.
func (it *round) requeue(one *stream) {
	it.lock.Lock()
	defer it.lock.Unlock()
	one.sent = nil
	it.queue = append(it.queue, one)
	it.change.Broadcast()
}

func (it *round) wait(one *stream) {
	it.lock.Lock()
	defer it.lock.Unlock()
	it.waiting = append(it.waiting, one)
}

// leave has the next round take what a stream has left.
func (it *round) leave(one *stream) {
	it.lock.Lock()
	defer it.lock.Unlock()
	one.isRefused = true
}

func (it *round) work(by *connection) {
	err := by.wait()
	if err == nil {
		err = it.ask(by)
	}
	for err == nil {
		err = it.step(by)
	}
	var away *unreachable
	switch {
	case errors.As(err, &away):
		it.say("connections", fmt.Sprintf("a connection to the server is given up: %s", err), 0, 1)
	case !errors.Is(err, errEnough):
		it.end(err)
	}
	by.close()
	defer it.running.Done()
	it.lock.Lock()
	it.able--
	it.change.Broadcast()
	it.lock.Unlock()
}

// step does what is next. It fails with errEnough at the end.
func (it *round) step(by *connection) error {
	it.lock.Lock()
	for len(it.trims) == 0 && len(it.queue) == 0 && !it.isOver && it.fault == nil {
		it.change.Wait()
	}
	if it.isOver || it.fault != nil {
		it.lock.Unlock()
		return errEnough
	}
	it.busy++
	var err error
	if len(it.trims) > 0 {
		jobs := it.nextTrims()
		it.lock.Unlock()
		err = it.trim(by, jobs)
	} else {
		jobs := it.nextStreams()
		it.lock.Unlock()
		err = it.collect(by, jobs)
	}
	it.lock.Lock()
	it.busy--
	it.change.Broadcast()
	it.lock.Unlock()
	return err
}

// isLong is whether a stream has too many lines for one answer, as far as is known.
func (it *round) isLong(of *stream) bool {
	if it.by.needsNewest() {
		return of.size > smallBytes
	}
	return of.size > pieceBytes
}

// nextStreams are streams that aren't long, or one that is. (The first ones come alone, so that no others are put until
// the server has let them go.)
func (it *round) nextStreams() []*stream {
	count := 1
	if sum := it.queue[0].size; !it.isLong(it.queue[0]) {
		most := min(readTogether, 1+len(it.queue)/workers)
		for count < most && !it.isLong(it.queue[count]) && sum+it.queue[count].size <= pieceBytes {
			sum += it.queue[count].size
			count++
		}
	}
	jobs := it.queue[:count:count]
	it.queue = it.queue[count:]
	return jobs
}

func (it *round) nextTrims() []*stream {
	count := min(trimTogether, 1+len(it.trims)/workers)
	jobs := it.trims[:count:count]
	it.trims = it.trims[count:]
	return jobs
}

// keep is told by the place. (Of one stream a removal at a time is under way, since each has to know of those before.)
func (it *round) keep(of *stream, these tally, bound int64) {
	it.lock.Lock()
	defer it.lock.Unlock()
	of.kept, of.bound = of.kept.with(these), max(of.bound, bound)
	it.takeMore(of)
}

// takeMore has removed what a stream has below its bound.
func (it *round) takeMore(of *stream) {
	if of.isTaking || of.isAgain || of.bound == 0 || of.kept.below(of.bound) == 0 {
		return
	}
	of.isTaking = true
	it.trims = append(it.trims, of)
	it.change.Broadcast()
}

// endOf has a stream without lines end, where it is old enough.
func (it *round) endOf(of *stream) {
	if !it.by.counts() || !it.counted.mayEnd(of) {
		return
	}
	it.lock.Lock()
	defer it.lock.Unlock()
	of.isEnding = true
	it.trims = append(it.trims, of)
	it.change.Broadcast()
}

func (it *round) refuse(of *stream, why error) {
	it.lock.Lock()
	of.isRefused = true
	it.lock.Unlock()
	it.say("not drained: "+why.Error(), fmt.Sprintf("not drained: %s: %s", of, why), 1, mostFaults)
}

// trim has entries of several streams removed, or streams ended.
func (it *round) trim(by *connection, jobs []*stream) error {
	asked, due := make([]request, len(jobs)), make([]taking, len(jobs))
	it.lock.Lock()
	for at, one := range jobs {
		if due[at] = (taking{one.bound, one.kept.below(one.bound)}); one.isEnding {
			asked[at] = it.counted.toEnd(one)
		} else {
			asked[at] = it.by.request(one, due[at])
		}
	}
	it.lock.Unlock()
	done := 0
	err := by.exchange(asked, func(at int, got *answer) (err error) {
		if jobs[at].isEnding {
			err = it.ended(jobs[at], got)
		} else {
			err = it.settled(jobs[at], due[at], got)
		}
		if err == nil {
			done = at + 1
		}
		return err
	})
	it.lock.Lock()
	defer it.lock.Unlock()
	it.trims = append(it.trims, jobs[done:]...)
	return err
}

// settled is for the answer to a removal. What it fails with ends the round, or the connection.
func (it *round) settled(of *stream, due taking, got *answer) error {
	count, err := it.by.removed(of, got)
	var said *refusal
	var changed *moved
	isChanged := errors.As(err, &changed)
	if err != nil && !isChanged && !errors.As(err, &said) {
		return err
	}
	it.lock.Lock()
	of.isTaking = false
	switch {
	case err == nil || isChanged && changed.removed == of.removed+due.entries:
		// (or the answer to the same removal was lost: what was removed is no less than what stood below the bound, and
		// so just that)
		if isChanged {
			count = due.entries
		}
		if of.kept = of.kept.from(due.bound); it.by.counts() {
			of.removed += count
		}
		it.takeMore(of)
	case isChanged:
		of.isAgain, of.moved = true, changed.removed
		it.again = append(it.again, of)
	default:
		of.isRefused = true
	}
	it.lock.Unlock()
	if said != nil {
		it.say("not trimmed: "+said.Error(), fmt.Sprintf("not trimmed: %s: %s", of, said), 1, mostFaults)
	}
	return nil
}

// ended is for the answer to an end.
func (it *round) ended(of *stream, got *answer) error {
	again, err := it.counted.ended(got)
	it.lock.Lock()
	if of.isEnding, of.endsFrom = false, again; err == nil && again == 0 {
		of.removed, of.kept = never, tally{}
	}
	it.lock.Unlock()
	if err != nil {
		it.say("not ended: "+err.Error(), fmt.Sprintf("not ended: %s: %s", of, err), 1, mostFaults)
	}
	return nil
}

// say says a fault on standard error, unless there were many of its kind.
func (it *round) say(kind, text string, errors int64, most int) {
	it.lock.Lock()
	defer it.lock.Unlock()
	it.errors += errors
	if it.said[kind] == 0 {
		it.order = append(it.order, kind)
	}
	if it.said[kind]++; it.said[kind] <= most {
		it.voice.say(text)
	}
}

// countUndone makes an error of each stream that nobody read or trimmed.
func (it *round) countUndone() {
	for _, one := range it.trims {
		one.isRefused = true
	}
	if undone := len(it.queue) + len(it.trims); undone > 0 && it.fault == nil {
		it.errors += int64(undone)
		it.voice.say(fmt.Sprintf("the server doesn't answer: %d streams are not read, %d not trimmed",
			len(it.queue), len(it.trims)))
	}
	for _, kind := range it.order {
		if count := it.said[kind]; count > mostFaults {
			it.voice.say(fmt.Sprintf("in all %d streams: %s", count, kind))
		}
	}
}
