package main

import (
	"math/rand"
	"reflect"
	"sort"
	"testing"
)

// timesOf lists the times of a tally, each as often as it has entries.
func timesOf(of tally) []int64 {
	found := []int64{}
	for over := of.begin(); over.isIn; over.next() {
		for count := over.count; count > 0; count-- {
			found = append(found, over.time)
		}
	}
	return found
}

func drawSorted(draw *rand.Rand) []int64 {
	found := make([]int64, draw.Intn(30))
	for at := range found {
		found[at] = []int64{draw.Int63n(40), draw.Int63n(40), ever - draw.Int63n(3)}[draw.Intn(3)]
	}
	sort.Slice(found, func(one, other int) bool { return found[one] < found[other] })
	return found
}

func tallyOfTimes(times []int64) tally {
	found := tally{}
	for _, one := range times {
		found.add(one, 1)
	}
	return found
}

func chosen(times []int64, isIn func(at int, time int64) bool) []int64 {
	found := []int64{}
	for at, one := range times {
		if isIn(at, one) {
			found = append(found, one)
		}
	}
	return found
}

// What a tally says is what a list of times says.
func TestTallies(t *testing.T) {
	for seed := int64(0); seed < 3000; seed++ {
		draw := rand.New(rand.NewSource(seed))
		one, other := drawSorted(draw), drawSorted(draw)
		of, bound, first := tallyOfTimes(one), draw.Int63n(45), draw.Int63n(31)
		both := append(append([]int64{}, one...), other...)
		sort.Slice(both, func(one, other int) bool { return both[one] < both[other] })
		copied := of.with(tallyOfTimes(other))
		copied.add(ever, 1)
		// (whole times alone: what has more entries than are left out stays)
		rest := chosen(one, func(_ int, time int64) bool {
			return int64(sort.Search(len(one), func(at int) bool { return one[at] > time })) > first
		})
		rows := []struct{ found, due any }{
			{timesOf(of), one},
			{timesOf(of.with(tallyOfTimes(other))), both},
			{of.below(bound), int64(len(chosen(one, func(_ int, time int64) bool { return time < bound })))},
			{timesOf(of.from(bound)), chosen(one, func(_ int, time int64) bool { return time >= bound })},
			{timesOf(of.without(first)), rest},
			{of.entries, int64(len(one))},
		}
		for at, row := range rows {
			if !reflect.DeepEqual(row.found, row.due) {
				t.Fatalf("seed %d, row %d of %v: %v, and not %v", seed, at, one, row.found, row.due)
			}
		}
	}
}

// A sieve leaves out the first entries of each time, in whichever parts they come.
func TestSieves(t *testing.T) {
	for seed := int64(0); seed < 3000; seed++ {
		draw := rand.New(rand.NewSource(seed))
		all, kept := drawSorted(draw), map[int64]int64{}
		var out, due []int64
		for _, time := range all {
			if draw.Intn(2) == 0 {
				out = append(out, time)
				kept[time]++
			}
		}
		for _, time := range all {
			if kept[time]--; kept[time] < 0 {
				due = append(due, time)
			}
		}
		over, found := newSieve(tallyOfTimes(out)), []int64(nil)
		for at := 0; at < len(all); {
			next := at + 1 + draw.Intn(len(all)-at)
			of := part{}
			for _, time := range all[at:next] {
				of.spans = append(of.spans, span{time: time})
			}
			for _, one := range over.leave(of).spans {
				found = append(found, one.time)
			}
			at = next
		}
		if !reflect.DeepEqual(found, due) {
			t.Fatalf("seed %d: of %v without %v are left %v, and not %v", seed, all, out, found, due)
		}
	}
}

func TestATallyIsShort(t *testing.T) {
	found := tally{}
	for at := int64(0); at < 100_000; at++ {
		found.add(1_800_000_000*second+at*20_000_000, 1)
	}
	if len(found.text) > 450_000 {
		t.Errorf("100000 entries take %d bytes", len(found.text))
	}
}
