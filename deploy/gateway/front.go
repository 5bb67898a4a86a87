package main

import (
	"context"
	"errors"
	"log"
	"net"
	"net/http"
	"sync"
	"sync/atomic"
	"time"
)

// A front has the connections of all shippers.
type front struct {
	gateway  *gateway
	others   *others
	mutex    sync.Mutex
	shippers map[*shipper]struct{}
	running  sync.WaitGroup
	isEnding atomic.Bool
}

func newFront(of *gateway, at net.Addr) *front {
	return &front{
		gateway:  of,
		others:   &others{address: at, lines: make(chan net.Conn), ended: make(chan struct{})},
		shippers: map[*shipper]struct{}{},
	}
}

const (
	// how long it waits where a connection can't be taken, as net/http does
	leastPause, mostPause = 5 * time.Millisecond, time.Second
)

// accept takes connections until there can be no more, and says why.
func (it *front) accept(listening net.Listener) error {
	for pause := leastPause; ; {
		found, err := listening.Accept()
		if err == nil {
			it.take(found)
			pause = leastPause
			continue
		}
		var passing interface{ Temporary() bool }
		if !errors.As(err, &passing) || !passing.Temporary() {
			return err
		}
		log.Printf("a connection can't be taken: %s", err)
		time.Sleep(pause)
		if pause *= 2; pause > mostPause {
			pause = mostPause
		}
	}
}

func (it *front) take(given net.Conn) {
	found := newShipper(it, given)
	if found == nil {
		go it.others.give(given)
		return
	}
	it.mutex.Lock()
	defer it.mutex.Unlock()
	if it.isEnding.Load() {
		given.Close()
		return
	}
	it.shippers[found] = struct{}{}
	it.running.Add(1)
	go func() {
		defer it.leave(found)
		found.serve()
	}()
}

func (it *front) leave(given *shipper) {
	it.mutex.Lock()
	defer it.mutex.Unlock()
	delete(it.shippers, given)
	it.running.Done()
}

// end ends connections that ask for nothing, and waits for those that do.
func (it *front) end(in context.Context) error {
	it.mutex.Lock()
	it.isEnding.Store(true)
	for each := range it.shippers {
		if !each.isBusy.Load() {
			each.SetReadDeadline(time.Unix(1, 0))
		}
	}
	it.mutex.Unlock()
	ended := make(chan struct{})
	go func() {
		it.running.Wait()
		close(ended)
	}()
	select {
	case <-ended:
		return nil
	case <-in.Done():
		return in.Err()
	}
}

// The others are the connections that are left to net/http, which has them as a listener's.
type others struct {
	address net.Addr
	lines   chan net.Conn
	once    sync.Once
	ended   chan struct{}
}

func (it *others) Addr() net.Addr { return it.address }

func (it *others) Accept() (net.Conn, error) {
	select {
	case found := <-it.lines:
		return found, nil
	case <-it.ended:
		return nil, http.ErrServerClosed
	}
}

func (it *others) Close() error {
	it.once.Do(func() { close(it.ended) })
	return nil
}

func (it *others) give(given net.Conn) {
	select {
	case it.lines <- given:
	case <-it.ended:
		given.Close()
	}
}

// take leaves a shipper's connection to net/http, from what came and is not read yet.
func (it *others) take(given *shipper) {
	given.SetDeadline(time.Time{})
	before := append([]byte(nil), given.space[given.begin:given.end]...)
	it.give(&begun{given.TCPConn, before})
}

// A connection of which something was read already.
type begun struct {
	*net.TCPConn
	before []byte
}

func (it *begun) Read(to []byte) (int, error) {
	if len(it.before) == 0 {
		return it.TCPConn.Read(to)
	}
	count := copy(to, it.before)
	it.before = it.before[count:]
	return count, nil
}
