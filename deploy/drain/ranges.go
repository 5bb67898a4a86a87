package main

import (
	"errors"
	"math"
	"strconv"
	"time"
)

const (
	// bytes of an answer; more is asked for by shorter ranges of time
	pieceBytes = 512 << 10
	// of one that is read for its first or last time alone
	lookBytes = 64 << 10
	// a shorter range of time is not cut in two, and few lines are as much older than the newest
	narrow  = second / 1000
	longAgo = 48 * 3600 * second
	// how far ahead of the clock lines are looked for first
	ahead = 1200 * second
)

var errEnough = errors.New("enough was read")

// A reading of a stream by answers of a bounded length.
type reading struct {
	by *connection
	of *stream
	// its labels as JSON
	labels []byte
	// about how many bytes are still to be read
	rest int64
}

func newReading(by *connection, of *stream) *reading {
	return &reading{by, of, appendObject(nil, of.labels()), of.size}
}

func (it *reading) request(low, high int64) request {
	body := append(append(make([]byte, 0, len(it.labels)+80), `{"stream":`...), it.labels...)
	body = strconv.AppendInt(append(body, `,"from":"`...), low, 10)
	body = append(strconv.AppendInt(append(body, `","to":"`...), high, 10), `"}`...)
	return request{"/ingester/v1/read", it.of.tenant, body}
}

// read returns the lines from a time on and before another one, or false where their answer has more than so many
// bytes.
func (it *reading) read(low, high, most int64) (found part, isWhole bool, err error) {
	err = it.by.exchange([]request{it.request(low, high)}, func(_ int, got *answer) (err error) {
		found, isWhole, err = it.by.take(got, most)
		return err
	})
	return found, isWhole, err
}

// newest is the newest time, or never. It looks ever farther back from the clock, and where that is too much, in
// halves.
func (it *reading) newest() (int64, error) {
	now := time.Now().UnixNano()
	low, high, floor := max(now-second, it.of.reached), ever, never
	for high > 0 {
		most := int64(pieceBytes)
		if low == floor || high-low <= narrow {
			most = ever
		}
		found, isWhole, err := it.lastOf(low, high, most)
		switch {
		case err != nil:
			return never, err
		case found != never:
			return found, nil
		case !isWhole:
			floor = low
		default:
			high = low
		}
		if floor == never {
			low = now - 4*(now-low)
			if high > it.of.reached {
				low = max(low, it.of.reached)
			}
			low = max(low, 0)
		} else {
			low = floor + (least(high, max(now, floor)+ahead)-floor)/2
		}
	}
	return never, nil
}

// lastOf is the last time of a range, or never; or false where the answer is too long.
func (it *reading) lastOf(low, high, most int64) (last int64, isWhole bool, err error) {
	last = never
	err = it.by.exchange([]request{it.request(low, high)}, func(_ int, got *answer) error {
		if err := got.refused(); err != nil || got.length > most {
			return err
		}
		isWhole = true
		over := it.by.begin(got)
		defer it.by.keep(over)
		for !over.isEnd {
			if err := over.fill(pieceBytes); err != nil {
				return readFault(err)
			}
			if count := len(over.spans); count > 0 {
				last = over.spans[count-1].time
			}
		}
		return nil
	})
	return last, isWhole, err
}

// guess is about how many bytes the answer for a range has, where lines are spread evenly.
func (it *reading) guess(low, high, newest int64) int64 {
	low = max(low, newest-longAgo)
	if high <= low {
		return 0
	}
	return int64(float64(it.rest) * float64(high-low) / float64(newest+1-low))
}

// A range of times, from the first one on and before the second.
type times struct{ low, high int64 }

// pieces reads the lines of a range in rising time, by answers of at most so many bytes. It has each used with the
// bound below which nothing of the range is left, or with 0 where its last time has more.
func (it *reading) pieces(over times, newest, most int64, use func(found part, bound int64) error) error {
	todo := []times{over}
	for len(todo) > 0 {
		next := todo[len(todo)-1]
		if todo = todo[:len(todo)-1]; next.low >= next.high {
			continue
		}
		if next.high-next.low <= narrow {
			if err := it.stream(next, use); err != nil {
				return err
			}
			continue
		}
		found, isWhole, err := part{}, false, error(nil)
		if it.guess(next.low, next.high, newest) <= most {
			found, isWhole, err = it.read(next.low, next.high, most)
		}
		if err != nil {
			return err
		} else if !isWhole {
			middle := middleOf(next, newest)
			todo = append(todo, times{middle, next.high}, times{next.low, middle})
			continue
		}
		if len(found.spans) > 0 {
			it.rest = max(0, it.rest-int64(found.bytes()))
		}
		if err := use(found, next.high); err != nil {
			return err
		}
	}
	return nil
}

// middleOf is where to cut a range in two: by the ages of its ends where these are far apart, else in halves.
func middleOf(of times, newest int64) int64 {
	oldest, youngest := newest+1-of.low, newest+1-of.high
	if youngest > 0 && oldest/4 > youngest {
		middle := newest + 1 - int64(math.Sqrt(float64(oldest)*float64(youngest)))
		return least(max(middle, of.low+1), of.high-1)
	}
	return of.low + (of.high-of.low)/2
}

// stream reads a range by one answer, however long it is, in parts. A connection that breaks goes on at the last bound.
func (it *reading) stream(over times, use func(found part, bound int64) error) error {
	for {
		wasUsed, began := it.by.line != nil, over.low
		_, err := it.by.tryOnce([]request{it.request(over.low, over.high)}, func(_ int, got *answer) error {
			return it.parts(got, over.high, func(found part, bound int64) error {
				over.low = max(over.low, bound)
				return use(found, bound)
			})
		})
		if err == nil {
			return nil
		}
		if err = it.by.judge(err, wasUsed || over.low > began); err != nil {
			return err
		}
	}
}

// parts has the entries of an answer used, as many at a time as there is room for. Those of one time are not parted,
// unless they have more.
func (it *reading) parts(got *answer, high int64, use func(found part, bound int64) error) error {
	if err := got.refused(); err != nil {
		return err
	}
	from := it.by.begin(got)
	defer it.by.keep(from)
	for !from.isEnd {
		if err := from.fill(pieceBytes); err != nil {
			return readFault(err)
		}
		found, bound := part{from.text, from.spans}, high
		if !from.isEnd {
			found, bound = from.holdBack()
		}
		if err := use(found, bound); err != nil {
			return err
		}
	}
	return nil
}

// holdBack leaves the entries of the last time for the next part. Where these are all, it leaves none, and the bound is
// 0.
func (it *window) holdBack() (part, int64) {
	last := it.spans[len(it.spans)-1]
	found := part{it.text, it.spans}
	kept := found.before(last.time)
	if kept == 0 {
		return found, 0
	}
	it.next = int(it.spans[kept-1].end)
	return found.cut(0, kept), last.time
}

// oldest is the oldest time from a time on, or never.
func (it *reading) oldest(low, newest int64) (int64, error) {
	found := never
	err := it.pieces(times{low, newest + 1}, newest, lookBytes, func(it part, _ int64) error {
		if len(it.spans) == 0 {
			return nil
		}
		found = it.spans[0].time
		return errEnough
	})
	if err == errEnough {
		err = nil
	}
	return found, err
}
