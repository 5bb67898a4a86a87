package main

import (
	"hash/maphash"
	"sort"
	"sync"
)

const (
	// about how many bytes an entry has in an answer
	usualEntry = 300
	// how many streams are remembered, and how many bytes of tallies
	mostKnown   = 50_000
	mostTallies = 4 << 20
)

// A memory has what a round leaves for the next one of the same process. Without it nothing is lost: a stream is asked
// how many of its entries were removed, and what was written and not removed is written again.
type memory struct {
	seed  maphash.Seed
	known map[uint64]known
	// when streams without lines are asked for their end
	ends map[uint64]int64
	// whether it was said that the server counts no trims
	hasSaid sync.Once
}

type known struct {
	removed, size int64
	kept          tally
}

func newMemory() *memory {
	return &memory{seed: maphash.MakeSeed(), known: map[uint64]known{}, ends: map[uint64]int64{}}
}

func (it *memory) keyOf(of *stream) uint64 {
	var hash maphash.Hash
	hash.SetSeed(it.seed)
	hash.WriteString(of.tenant)
	hash.WriteByte(' ')
	hash.WriteString(of.text)
	return hash.Sum64()
}

// recall says of a stream what is remembered of it. What its catalog says counts more.
func (it *memory) recall(of *stream) {
	key := it.keyOf(of)
	if of.endsFrom = it.ends[key]; of.size == 0 && of.entries > 0 {
		of.size = of.entries * usualEntry
	}
	found, isKnown := it.known[key]
	if !isKnown {
		return
	}
	if of.kept = found.kept; of.removed == never {
		of.removed = found.removed
	} else {
		of.kept = keptAfter(of.kept, found.removed, of.removed)
	}
	if of.entries == never {
		of.size = found.size
	}
}

// keptAfter is what of a tally is still there for sure, once other numbers of entries were removed. Removals take the
// oldest entries, so what they took is among the first ones.
func keptAfter(of tally, before, after int64) tally {
	if after < before {
		return tally{}
	}
	return of.without(after - before)
}

// note remembers what a round leaves, in place of what was.
func (it *memory) note(streams []*stream) {
	it.known, it.ends = map[uint64]known{}, map[uint64]int64{}
	var large []uint64
	size := 0
	for _, of := range streams {
		key := it.keyOf(of)
		if of.endsFrom > 0 {
			it.ends[key] = of.endsFrom
		}
		hasMore := of.kept.entries > 0
		if of.removed == never || len(it.known) >= mostKnown && !hasMore {
			continue
		}
		it.known[key] = known{of.removed, sizeAgain(of), of.kept}
		if hasMore {
			large, size = append(large, key), size+len(of.kept.text)
		}
	}
	sort.Slice(large, func(one, other int) bool {
		return len(it.known[large[one]].kept.text) > len(it.known[large[other]].kept.text)
	})
	for _, key := range large {
		if size <= mostTallies {
			break
		}
		of := it.known[key]
		size -= len(of.kept.text)
		of.kept = tally{}
		it.known[key] = of
	}
}

// sizeAgain is about how many bytes a stream has in the next round.
func sizeAgain(of *stream) int64 { return of.bytes + of.bytes/2 }
