package main

import (
	"fmt"
	"net/http"
	"strconv"
	"strings"
	"time"
)

// A taker has the server remove entries that are kept elsewhere.
type taker interface {
	// limit is the time below which entries of a stream are taken. Its newest line is known where `needsNewest`.
	limit(of *stream) int64
	needsNewest() bool
	// bound is the time below which a part is all of a stream, where it is so below another one.
	bound(of part, below int64) int64
	// counts is whether it has to know how many entries were ever removed of a stream before that is read.
	counts() bool
	// request asks for the removal of these entries of a stream.
	request(of *stream, due taking) request
	// removed is how many entries the answer says were removed. What it fails with as a fault ends the round.
	removed(of *stream, got *answer) (int64, error)
}

// A taking says that all entries of a stream below a time are kept elsewhere, and how many these are.
type taking struct {
	bound, entries int64
}

// moved is why a stream has to be read again: it has more entries than were counted, or others of it were removed. It
// has how many were ever removed then, or never if as many as before, or gone.
type moved struct {
	text    string
	removed int64
}

// (there is no such stream any more)
const gone = int64(-2)

func (it *moved) Error() string { return it.text }

const (
	trimRoute, endRoute = "/ingester/v1/trim", "/ingester/v1/end"
	noStream            = "no such stream"
)

// trimBody begins the body of a trim.
func trimBody(of *stream, bound int64) []byte {
	body := append([]byte(`{"stream":`), appendObject(nil, of.labels())...)
	return append(strconv.AppendInt(append(body, `,"bound":"`...), bound, 10), '"')
}

// numberTrimmed reads the answer of a trim.
func numberTrimmed(got *answer) (int64, error) {
	number := strings.TrimSuffix(strings.TrimPrefix(got.said(), `{"trimmed":`), "}")
	count, err := strconv.ParseInt(number, 10, 64)
	if err != nil {
		return 0, &broken{errShape}
	}
	return count, nil
}

// A windowTrim removes what is older than the window before a stream's newest line. No line comes below that any more:
// the server refuses it. So it need not know how many entries that are.
type windowTrim struct {
	window int64
}

func (it windowTrim) limit(of *stream) int64          { return max(0, of.newest-it.window) }
func (it windowTrim) needsNewest() bool               { return true }
func (it windowTrim) bound(_ part, below int64) int64 { return below }
func (it windowTrim) counts() bool                    { return false }
func (it windowTrim) request(of *stream, due taking) request {
	return request{trimRoute, of.tenant, append(trimBody(of, due.bound), '}')}
}

func (it windowTrim) removed(of *stream, got *answer) (int64, error) {
	if got.status != http.StatusOK {
		said := got.refused()
		if strings.Contains(said.Error(), "above the oldest accepted") {
			return 0, fmt.Errorf("not trimmed: %s: %s: the server keeps more than %g s before a stream's newest line. "+
				"Give the drain the server's NEEDLEAZURE_MAX_CHUNK_AGE", of, said, float64(it.window)/float64(second))
		}
		return 0, said
	}
	return numberTrimmed(got)
}

// A countedTrim removes all entries below a time if they are as many as were read, and as many were ever removed as
// before that. So it takes none that came meanwhile, and needs no window. What is younger than `delay` is left, since
// more of its time may come.
type countedTrim struct {
	delay int64
	// how long after its newest line a stream without lines is ended
	endsAfter int64
	// the limit of a round, once it is known
	now int64
}

func (it *countedTrim) limit(of *stream) int64 {
	limit := it.now - it.delay
	if of.newest != never {
		limit = least(limit, of.newest+1)
	}
	return max(0, limit)
}

func (it *countedTrim) needsNewest() bool { return false }
func (it *countedTrim) counts() bool      { return true }

// (the server allows none that is more than one above the newest time, and the lower it is the fewer lines come below it
// meanwhile)
func (it *countedTrim) bound(of part, below int64) int64 {
	if below == 0 || len(of.spans) == 0 {
		return 0
	}
	return least(below, of.spans[len(of.spans)-1].time+1)
}

func (it *countedTrim) request(of *stream, due taking) request {
	body := append(trimBody(of, due.bound), `,"entries":"`...)
	body = append(strconv.AppendInt(body, due.entries, 10), `","removed":"`...)
	body = append(strconv.AppendInt(body, max(0, of.removed), 10), `"}`...)
	return request{trimRoute, of.tenant, body}
}

const (
	saysRemoved, saysBelow = "removed so far: ", "entries below the bound: "
	saysNotOld             = "stream is not old enough"
	saysEntries            = "stream has entries"
)

func (it *countedTrim) removed(of *stream, got *answer) (int64, error) {
	if got.status == http.StatusOK {
		return numberTrimmed(got)
	}
	text := got.said()
	said := &refusal{fmt.Sprintf("%d %s", got.status, text)}
	if got.status == http.StatusNotFound && strings.Contains(text, noStream) {
		// (somebody took its lines and ended it)
		return 0, &moved{said.text, gone}
	} else if got.status != http.StatusConflict {
		return 0, said
	}
	if number, isSaid := numberAfter(text, saysRemoved); isSaid {
		return 0, &moved{said.text, number}
	} else if _, isSaid := numberAfter(text, saysBelow); isSaid {
		return 0, &moved{said.text, never}
	}
	return 0, said
}

func numberAfter(text, mark string) (int64, bool) {
	_, digits, isThere := strings.Cut(text, mark)
	end := 0
	for end < len(digits) && '0' <= digits[end] && digits[end] <= '9' {
		end++
	}
	number, err := strconv.ParseInt(digits[:end], 10, 64)
	return number, isThere && err == nil
}

// toEnd asks for the end of a stream.
func (it *countedTrim) toEnd(of *stream) request {
	body := append(append([]byte(`{"stream":`), appendObject(nil, of.labels())...), '}')
	return request{endRoute, of.tenant, body}
}

// mayEnd is whether a stream without lines is old enough, as far as is known.
func (it *countedTrim) mayEnd(of *stream) bool {
	reached := max(of.reached, of.newest)
	return it.now > of.endsFrom && (reached <= 0 || it.now-reached > it.endsAfter)
}

// ended judges the answer to an end. It returns when to ask again, where it is too early.
func (it *countedTrim) ended(got *answer) (again int64, err error) {
	text := got.said()
	switch {
	case got.status == http.StatusOK, got.status == http.StatusNotFound && strings.Contains(text, noStream):
		return 0, nil
	case got.status == http.StatusConflict && strings.Contains(text, saysNotOld):
		return it.now + max(60*second, it.endsAfter/8), nil
	case got.status == http.StatusConflict && strings.Contains(text, saysEntries):
		return it.now, nil
	}
	return 0, &refusal{fmt.Sprintf("%d %s", got.status, text)}
}

// asked is a stream that nobody writes, by which a server says whether it counts trims.
var asked = newStream("needleazure-drain", `{job="needleazure-drain"}`, 0)

// canCount asks a server whether it counts trims: what it says where it doesn't.
func (it *countedTrim) canCount(by *connection) (says string, err error) {
	probe := it.request(asked, taking{})
	err = by.exchange([]request{probe}, func(_ int, got *answer) error {
		text := got.said()
		isOther := got.status == http.StatusNotFound && !strings.Contains(text, noStream)
		switch got.status {
		case http.StatusNotImplemented, http.StatusBadRequest, http.StatusMethodNotAllowed:
			isOther = true
		}
		if isOther {
			says = fmt.Sprintf("%d %s", got.status, text)
		}
		return nil
	})
	return says, err
}

func newCountedTrim(delay, window, grace time.Duration) *countedTrim {
	// (a second more, since the server's clock is read later)
	return &countedTrim{delay: int64(delay), endsAfter: int64(window+grace) + second, now: time.Now().UnixNano()}
}
