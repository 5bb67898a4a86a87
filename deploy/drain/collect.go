package main

import (
	"errors"
	"os"
)

var (
	// of a stream whose lines are not taken at the moment
	errWaits = errors.New("a stream waits")
	// of one of which that, or why it is refused, was told before
	errTold = errors.New("a stream is left")
)

// collect puts the lines of streams that the server lets go: of several by one answer each, or of a long one.
func (it *round) collect(by *connection, jobs []*stream) error {
	jobs, err := it.learn(by, it.ready(jobs))
	if err != nil {
		return it.goOn(jobs, err)
	}
	if len(jobs) == 0 {
		return nil
	}
	if len(jobs) == 1 && it.isLong(jobs[0]) {
		return it.goOn(jobs, it.collectLong(by, jobs[0]))
	}
	asked, done := make([]request, len(jobs)), 0
	readings := make([]*reading, len(jobs))
	for at, one := range jobs {
		readings[at] = newReading(by, one)
		asked[at] = readings[at].request(0, it.highOf(one))
	}
	err = by.exchange(asked, func(at int, got *answer) error {
		err := it.collectWhole(readings[at], got)
		var cut *broken
		if !errors.As(err, &cut) && !errors.Is(err, os.ErrDeadlineExceeded) {
			done = at + 1
			err = it.note(jobs[at], err)
		}
		return err
	})
	return it.goOn(jobs[done:], err)
}

// highOf is up to which time a stream is read by one answer: to the limit, but to the end where that costs little, which
// says what is left.
func (it *round) highOf(of *stream) int64 {
	if it.by.needsNewest() || of.size <= smallBytes {
		return ever
	}
	return it.by.limit(of)
}

// learn asks how many entries were ever removed of streams, before they are read, where that is to be known. It returns
// those of which it is.
func (it *round) learn(by *connection, jobs []*stream) ([]*stream, error) {
	var todo, known []*stream
	for _, one := range jobs {
		switch {
		case it.by.counts() && one.entries == 0 && one.kept.entries == 0:
			it.endOf(one)
		case it.by.counts() && one.removed == never:
			todo = append(todo, one)
		default:
			known = append(known, one)
		}
	}
	if len(todo) == 0 {
		return known, nil
	}
	asked, done := make([]request, len(todo)), 0
	for at, one := range todo {
		asked[at] = it.by.request(one, taking{})
	}
	err := by.exchange(asked, func(at int, got *answer) error {
		_, err := it.by.removed(todo[at], got)
		var said *refusal
		var changed *moved
		switch {
		case err == nil:
			todo[at].removed = 0
		case errors.As(err, &changed) && changed.removed == gone:
			todo[at].entries = 0
		case errors.As(err, &changed) && changed.removed != never:
			todo[at].removed = changed.removed
		case changed != nil || errors.As(err, &said):
			it.refuse(todo[at], &refusal{err.Error()})
		default:
			return err
		}
		if done = at + 1; todo[at].removed != never {
			known = append(known, todo[at])
		}
		return nil
	})
	if err != nil {
		return append(known, todo[done:]...), err
	}
	return known, nil
}

// ready leaves out the streams that have to wait, or are refused.
func (it *round) ready(jobs []*stream) []*stream {
	found := jobs[:0:0]
	for _, one := range jobs {
		pause, err := it.place.waits(one)
		switch {
		case err != nil:
			it.refuse(one, err)
		case pause > 0:
			it.wait(one)
		default:
			found = append(found, one)
		}
	}
	return found
}

// goOn notes what came of streams. Those that weren't read since the server doesn't answer are left to others.
func (it *round) goOn(jobs []*stream, err error) error {
	var away *unreachable
	if !errors.As(err, &away) {
		if len(jobs) > 0 {
			return it.note(jobs[0], err)
		}
		return err
	}
	it.lock.Lock()
	defer it.lock.Unlock()
	it.queue = append(append([]*stream(nil), jobs...), it.queue...)
	return err
}

// note is for what came of one stream. It returns what ends the round.
func (it *round) note(of *stream, err error) error {
	var said *refusal
	switch {
	case errors.Is(err, errWaits):
		it.wait(of)
	case errors.Is(err, errTold):
	case errors.As(err, &said):
		it.refuse(of, err)
	default:
		return err
	}
	return nil
}

// sieveOf leaves out what is kept elsewhere and not removed.
func (it *round) sieveOf(of *stream) *sieve {
	it.lock.Lock()
	defer it.lock.Unlock()
	of.bytes = 0
	return newSieve(of.kept)
}

// seen notes the newest line of a stream, after which it has to be quiet for some time before it may end.
func (it *round) seen(of *stream, newest int64) {
	if of.newest = newest; it.by.counts() {
		of.endsFrom = newest + it.counted.endsAfter
	}
}

// collectWhole puts the lines of a stream that come by one answer.
func (it *round) collectWhole(from *reading, got *answer) error {
	of := from.of
	found, isWhole, err := from.by.take(got, pieceBytes)
	if err != nil {
		return err
	} else if !isWhole {
		of.size = max(got.length, pieceBytes+1)
		it.requeue(of)
		return nil
	}
	count := len(found.spans)
	if count == 0 && it.highOf(of) != ever {
		// (it has fewer lines than was guessed, or only young ones)
		of.size = 0
		it.requeue(of)
		return nil
	} else if count == 0 {
		it.endOf(of)
		return nil
	}
	over := it.sieveOf(of)
	it.seen(of, found.spans[count-1].time)
	of.first, of.left = found.spans[0].time, never
	limit := it.by.limit(of)
	below := found.before(limit)
	if below < count {
		of.left = found.spans[below].time
	} else if it.highOf(of) != ever {
		of.left = limit
	}
	taken := found.cut(0, below)
	bound := it.by.bound(taken, limit)
	of.bytes = int64(len(found.text))
	return it.put(piece{of, over.leave(taken), from.labels, bound})
}

// collectLong puts the lines of a stream by ranges of time.
func (it *round) collectLong(by *connection, of *stream) error {
	from := newReading(by, of)
	newest, err := from.newest()
	if err != nil {
		return err
	} else if newest == never {
		it.endOf(of)
		return nil
	}
	over := it.sieveOf(of)
	it.seen(of, newest)
	of.first = never
	limit := it.by.limit(of)
	err = from.pieces(times{0, limit}, newest, pieceBytes, func(found part, until int64) error {
		if len(found.spans) == 0 {
			return nil
		} else if of.first == never {
			of.first = found.spans[0].time
		}
		of.bytes += int64(found.bytes())
		bound := it.by.bound(found, until)
		return it.put(piece{of, over.leave(found), from.labels, bound})
	})
	if err != nil {
		return err
	}
	if of.left, err = from.oldest(limit, newest); of.first == never {
		of.first = of.left
	}
	return err
}

// put gives a piece to the place. (The first one is flushed at once: if the server doesn't let it go, no others are put
// twice.)
func (it *round) put(one piece) error {
	it.lock.Lock()
	isOver, hasKept, isFirst := one.of.isAgain, one.of.kept.entries > 0, !it.hasFlushed
	it.hasFlushed = it.hasFlushed || len(one.spans) > 0
	it.lock.Unlock()
	switch {
	case isOver:
		return errTold
	case len(one.spans) == 0 && (!hasKept || one.bound == 0):
		return nil
	}
	if err := it.place.put(one); err != nil {
		return err
	}
	if isFirst && len(one.spans) > 0 {
		return it.place.flush()
	}
	return nil
}
