package main

import (
	"net/http"
	"sync"
	"sync/atomic"
)

// A budget is how many bytes all requests together may hold. Nobody waits for it, so that no request holds some of it
// while it waits for more: one that finds too little is answered 503, and shippers send it again.
type budget struct{ left atomic.Int64 }

func newBudget(bytes int64) *budget {
	it := &budget{}
	it.left.Store(bytes)
	return it
}

// What one request holds of a budget, its buffers among it.
type held struct {
	of      *budget
	bytes   int64
	buffers []*buffer
}

var heldPool = sync.Pool{New: func() any { return &held{} }}

func newHeld(of *budget) *held {
	it := heldPool.Get().(*held)
	it.of = of
	return it
}

func (it *held) take(bytes int64) error {
	if it.of.left.Add(-bytes) < 0 {
		it.of.left.Add(bytes)
		return &fault{http.StatusServiceUnavailable, "gateway busy: no memory left for this push, send it again"}
	}
	it.bytes += bytes
	return nil
}

func (it *held) give(bytes int64) {
	it.of.left.Add(bytes)
	it.bytes -= bytes
}

// release gives all of it back.
func (it *held) release() {
	for _, each := range it.buffers {
		each.keep()
	}
	it.buffers = it.buffers[:0]
	it.give(it.bytes)
}

// buffer is an empty one with room for this many bytes.
func (it *held) buffer(length int64) (*buffer, error) {
	size := sizeFor(length)
	if err := it.take(size); err != nil {
		return nil, err
	}
	found := newBuffer(size)
	it.buffers = append(it.buffers, found)
	return found, nil
}

// grow gives a buffer room for this many bytes in all.
func (it *held) grow(given *buffer, length int64) error {
	size := sizeFor(length)
	if err := it.take(size); err != nil {
		return err
	}
	larger := newBuffer(size)
	larger.bytes = append(larger.bytes, given.bytes...)
	*given, *larger = *larger, *given
	it.give(int64(len(larger.space)))
	larger.keep()
	return nil
}

// drop gives a buffer back before the rest.
func (it *held) drop(given *buffer) {
	for at, each := range it.buffers {
		if each == given {
			it.buffers = append(it.buffers[:at], it.buffers[at+1:]...)
			it.give(int64(len(given.space)))
			given.keep()
			return
		}
	}
}

// How many bytes a message of a body takes in memory beside its own text, at most.
const messageBytes = 128

// Messages are the streams, entries and pairs of a body, which are counted before they take memory.
type messages struct {
	held        *held
	count, most int64
	// how many are around the one that is read
	depth int
	// bytes that some have from others
	shared int64
}

// (the budget is asked for many at a time)
const atATime = 1024

func (it *messages) add() error {
	if it.count++; it.count > it.most {
		return tooLarge("more than %d streams, entries and labels in a push", it.most)
	}
	if it.count%atATime != 1 {
		return nil
	}
	return it.held.take(atATime * messageBytes)
}
