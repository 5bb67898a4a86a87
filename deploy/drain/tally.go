package main

import "encoding/binary"

// A tally says how many entries there are of each time, in rising time: two to five bytes for most entries. One that
// is copied stays as it is, whatever becomes of the other.
type tally struct {
	// of each time but the last one, how far it is behind the one before, twice, and one more where it has several
	// entries, whose number follows
	text []byte
	// the time before the last one; the last one, and its entries
	before, last, lastCount int64
	// of all times
	entries int64
}

// add notes entries of a time that is not before the last one.
func (it *tally) add(time, count int64) {
	if it.entries > 0 && time > it.last {
		it.text = appendPair(it.text, it.last-it.before, it.lastCount)
		it.before, it.lastCount = it.last, 0
	}
	it.last = time
	it.lastCount += count
	it.entries += count
}

func appendPair(to []byte, behind, count int64) []byte {
	if count == 1 {
		return binary.AppendUvarint(to, uint64(behind)<<1)
	}
	return binary.AppendUvarint(binary.AppendUvarint(to, uint64(behind)<<1|1), uint64(count))
}

// tallyOf counts the entries of a part.
func tallyOf(of part) tally {
	found := tally{}
	for _, one := range of.spans {
		found.add(one.time, 1)
	}
	return found
}

// A step over a tally is at a time and how many entries that has; with none at the end.
type step struct {
	rest           []byte
	time, count    int64
	last           int64
	lastCount      int64
	isAtLast, isIn bool
}

func (it tally) begin() step {
	found := step{rest: it.text, last: it.last, lastCount: it.lastCount, isIn: it.entries > 0}
	found.next()
	return found
}

// next goes on to the next time. It returns false at the end.
func (it *step) next() bool {
	switch {
	case len(it.rest) > 0:
		behind, size := binary.Uvarint(it.rest)
		it.rest, it.time, it.count = it.rest[size:], it.time+int64(behind>>1), 1
		if behind&1 == 1 {
			count, size := binary.Uvarint(it.rest)
			it.rest, it.count = it.rest[size:], int64(count)
		}
	case it.isIn && !it.isAtLast:
		it.time, it.count, it.isAtLast = it.last, it.lastCount, true
	default:
		it.count, it.isIn = 0, false
	}
	return it.isIn
}

// with has the entries of both.
func (it tally) with(other tally) tally {
	switch {
	case other.entries == 0:
		return it
	case it.entries == 0:
		return other
	}
	found := tally{}
	one, two := it.begin(), other.begin()
	if first := two.time; first >= it.last {
		// (as nearly always; what is behind the text of the other one is its own)
		found = it
		found.text = it.text[:len(it.text):len(it.text)]
		for ; two.isIn; two.next() {
			found.add(two.time, two.count)
		}
		return found
	}
	for one.isIn || two.isIn {
		next := &one
		if !one.isIn || two.isIn && two.time < one.time {
			next = &two
		}
		found.add(next.time, next.count)
		next.next()
	}
	return found
}

// below is how many entries are older than a time.
func (it tally) below(time int64) (count int64) {
	if it.entries > 0 && it.last < time {
		return it.entries
	}
	for over := it.begin(); over.isIn && over.time < time; over.next() {
		count += over.count
	}
	return count
}

// from has the entries of a time and later.
func (it tally) from(time int64) tally {
	found := tally{}
	if it.last < time {
		return found
	}
	for over := it.begin(); over.isIn; over.next() {
		if over.time >= time {
			found.add(over.time, over.count)
		}
	}
	return found
}

// without leaves out the first times that have at most so many entries together.
func (it tally) without(first int64) tally {
	found, sum := tally{}, int64(0)
	for over := it.begin(); over.isIn; over.next() {
		if sum += over.count; sum > first {
			found.add(over.time, over.count)
		}
	}
	return found
}

// A sieve leaves out of what is read, in rising time, as many entries of each time as a tally has, the first ones.
type sieve struct {
	over step
	time int64
	left int64
}

func newSieve(of tally) *sieve { return &sieve{over: of.begin(), time: never} }

// leave is what of a part stays. It uses the spans of the part.
func (it *sieve) leave(of part) part {
	if !it.over.isIn && it.left == 0 {
		return of
	}
	found := of.spans[:0]
	for _, one := range of.spans {
		if one.time != it.time {
			for it.over.isIn && it.over.time < one.time {
				it.over.next()
			}
			it.time, it.left = one.time, 0
			if it.over.isIn && it.over.time == one.time {
				it.left = it.over.count
			}
		}
		if it.left > 0 {
			it.left--
			continue
		}
		found = append(found, one)
	}
	return part{of.text, found}
}
