package main

import (
	"regexp"
	"strconv"
	"strings"
	"time"
)

var (
	// a line of a server of this kind
	named = regexp.MustCompile(`^stream ([0-9]+)(?: entry ([0-9]+))?: (.*)$`)
	// what a Loki says of the entries of a stream, and of times
	ignored    = regexp.MustCompile(`total ignored: ([0-9]+) out of ([0-9]+) for stream: `)
	acceptable = regexp.MustCompile(`oldest acceptable timestamp is: ([0-9TZ:.+-]+)`)
)

// A place of an entry: of a piece, and in it; -1 stands for all of the piece.
type entryPlace struct{ piece, entry int }

// namedEntries are the entries that an answer of a server of this kind names, with why; none where the text is another
// one. What it doesn't name it has stored.
func namedEntries(text string) map[entryPlace]string {
	found := map[entryPlace]string{}
	for _, line := range strings.Split(strings.TrimSpace(text), "\n") {
		parts := named.FindStringSubmatch(line)
		if parts == nil {
			return nil
		}
		at := entryPlace{0, -1}
		at.piece, _ = strconv.Atoi(parts[1])
		if parts[2] != "" {
			at.entry, _ = strconv.Atoi(parts[2])
		}
		found[at] = parts[3]
	}
	return found
}

// namedStreams parts pieces into those whose streams a Loki's answer names, and the others.
func namedStreams(text string, pieces []piece) (found, others []piece) {
	for _, one := range pieces {
		if strings.Contains(text, shownLabels(one.of.labels())) {
			found = append(found, one)
		} else {
			others = append(others, one)
		}
	}
	return found, others
}

// refusedFirst is how many entries of a piece an answer that is about it alone refuses for sure: all, or those that are
// older than the time that it says; 0 if it doesn't say.
func refusedFirst(text string, of piece) int {
	count := len(of.spans)
	if count == 1 {
		return 1
	}
	if all := ignored.FindStringSubmatch(text); all != nil && all[1] == all[2] && all[2] == strconv.Itoa(count) {
		return count
	}
	if said := acceptable.FindStringSubmatch(text); said != nil {
		if oldest, err := time.Parse(time.RFC3339, said[1]); err == nil {
			return of.before(oldest.UnixNano())
		}
	}
	return 0
}
