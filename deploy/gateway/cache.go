package main

import (
	"hash/maphash"
	"sync"
	"unicode/utf8"
)

// A labelCache has the JSON of labels by Loki's text of them: shippers send the same few again and again. It has at
// most so many bytes, in shares with a lock each. A share has two maps: once the newer one is full, it is the older
// one, and what was in that is forgotten if nobody has asked for it since.
type labelCache struct {
	seed   maphash.Seed
	most   int
	shares [cacheShares]cacheShare
}

type cacheShare struct {
	mutex        sync.Mutex
	newer, older map[string]string
	bytes        int
}

const (
	cacheShares = 16
	// (a longer text is not kept)
	mostCached = 8_192
	// what a map takes for a text beside its bytes, at most
	cacheBytes = 128
)

func newLabelCache(bytes int64) *labelCache {
	// (half of a share for each of its maps)
	it := &labelCache{seed: maphash.MakeSeed(), most: int(bytes / cacheShares / 2)}
	for at := range it.shares {
		it.shares[at].newer = map[string]string{}
	}
	return it
}

// get is the JSON of labels that the server may take. Of others it is empty: they are looked at once more, by what
// answers them.
func (it *labelCache) get(text []byte) string {
	share := &it.shares[maphash.Bytes(it.seed, text)%cacheShares]
	share.mutex.Lock()
	defer share.mutex.Unlock()
	if found, is := share.newer[string(text)]; is {
		return found
	}
	found, is := share.older[string(text)]
	if !is {
		if found = labelsJSON(text); found == "" {
			return ""
		}
	}
	it.put(share, string(text), found)
	return found
}

func (it *labelCache) put(share *cacheShare, text, found string) {
	bytes := len(text) + len(found) + cacheBytes
	if bytes > mostCached || bytes > it.most {
		return
	}
	if share.bytes+bytes > it.most {
		share.older, share.newer, share.bytes = share.newer, map[string]string{}, 0
	}
	share.newer[text], share.bytes = found, share.bytes+bytes
}

// labelsJSON is the JSON of labels with names of their own, which the server would not refuse for their number or
// lengths.
func labelsJSON(text []byte) string {
	if !utf8.Valid(text) {
		return ""
	}
	labels, err := parseLabels(string(text))
	if err != nil || len(labels) == 0 || len(labels) > mostLabels || hasTwice(labels) {
		return ""
	}
	to := []byte{'{'}
	for at, it := range labels {
		if len(it.name) > mostName || len(it.value) > mostValue {
			return ""
		}
		if at > 0 {
			to = append(to, ',')
		}
		to = append(appendText(to, []byte(it.name)), ':')
		to = appendText(to, []byte(it.value))
	}
	return string(append(to, '}'))
}
