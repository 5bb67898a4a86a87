package main

import (
	"io"
	"math/bits"
	"sync"
)

const (
	// Space before the bytes of a buffer, so that the head of a request can stand there and both go out by one write.
	headSpace = 1_024
	// The sizes that are used again, as powers of two. A larger buffer is left to Go.
	leastSize = 14
	mostSize  = 20
)

// A buffer has bytes, with space before them. What it has room for is taken out of a budget by `held`.
type buffer struct {
	space []byte
	// in `space`, from headSpace on
	bytes []byte
}

var bufferPools [mostSize - leastSize + 1]sync.Pool

// sizeFor is the size of a buffer with room for this many bytes.
func sizeFor(length int64) int64 {
	size := length + headSpace
	switch power := bits.Len64(uint64(size - 1)); {
	case power <= leastSize:
		return 1 << leastSize
	case power <= mostSize:
		return 1 << power
	}
	return size
}

func newBuffer(size int64) *buffer {
	if power := bits.Len64(uint64(size - 1)); power <= mostSize {
		if found, is := bufferPools[power-leastSize].Get().(*buffer); is {
			return found
		}
	}
	it := &buffer{space: make([]byte, size)}
	it.bytes = it.space[headSpace:headSpace]
	return it
}

// keep leaves a buffer to others, who overwrite it.
func (it *buffer) keep() {
	if power := bits.Len(uint(len(it.space) - 1)); power <= mostSize {
		it.bytes = it.space[headSpace:headSpace]
		bufferPools[power-leastSize].Put(it)
	}
}

func (it *buffer) room() int64 { return int64(cap(it.bytes) - len(it.bytes)) }

// Once a buffer is full, it grows to what was announced, but to no more than so many times of what came.
const mostGrowth = 16

// readAll reads to the end, if that is at most this many bytes. What is held grows with what came, and not with what
// was announced.
func (it *held) readAll(from io.Reader, announced, most int64) (*buffer, error) {
	found, err := it.buffer(0)
	if err != nil {
		return nil, err
	}
	for {
		if found.room() == 0 {
			if err := it.grow(found, smaller(nextLength(int64(len(found.bytes)), announced), most+1)); err != nil {
				return nil, err
			}
		}
		more, err := from.Read(found.bytes[len(found.bytes):cap(found.bytes)])
		found.bytes = found.bytes[:len(found.bytes)+more]
		switch {
		case int64(len(found.bytes)) > most:
			return nil, errTooLarge(most)
		case err == io.EOF:
			return found, nil
		case err != nil:
			return nil, err
		}
	}
}

func nextLength(length, announced int64) int64 {
	if announced >= 2*length {
		return smaller(announced+1, mostGrowth*length)
	}
	return 2 * length
}

func smaller(one, other int64) int64 {
	if one < other {
		return one
	}
	return other
}
