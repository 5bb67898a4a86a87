package main

import (
	"context"
	"crypto/tls"
	"net"
	"net/url"
	"sync"
	"time"
)

// The connections to the server that no push uses. There are no more in all than pushes at a time, for each of which
// the gateway has a place.
type keptConnections struct {
	address string
	// nil without TLS
	secure *tls.Config
	mutex  sync.Mutex
	// the one that was used last stands at the end
	idle    []*connection
	closing *time.Timer
}

func newKept(address string) *keptConnections {
	to, err := url.Parse(address)
	if err != nil {
		panic(err) // (readWords has read it)
	}
	it := &keptConnections{address: to.Host}
	port := "80"
	if to.Scheme == "https" {
		it.secure, port = &tls.Config{ServerName: to.Hostname()}, "443"
	}
	if to.Port() == "" {
		it.address = net.JoinHostPort(to.Hostname(), port)
	}
	return it
}

// (within which an end comes as well after a look as before it)
const leastIdle = time.Millisecond

// take is a connection that nothing else uses.
func (it *keptConnections) take(in context.Context) (*connection, error) {
	for {
		found := it.pop()
		if found == nil {
			return it.dial(in)
		}
		since := time.Since(found.lastUse)
		if since < leastIdle || since < idleTime && found.isOpen() {
			return found, nil
		}
		found.Close()
	}
}

func (it *keptConnections) pop() *connection {
	it.mutex.Lock()
	defer it.mutex.Unlock()
	last := len(it.idle) - 1
	if last < 0 {
		return nil
	}
	found := it.idle[last]
	it.idle = it.idle[:last]
	return found
}

func (it *keptConnections) dial(in context.Context) (*connection, error) {
	dialer := net.Dialer{Timeout: dialTime}
	below, err := dialer.DialContext(in, "tcp", it.address)
	if err != nil || it.secure == nil {
		if err != nil {
			return nil, err
		}
		return newConnection(below, below)
	}
	above := tls.Client(below, it.secure)
	in, end := context.WithTimeout(in, dialTime)
	defer end()
	if err := above.HandshakeContext(in); err != nil {
		below.Close()
		return nil, err
	}
	return newConnection(below, above)
}

// keep leaves a connection to the next push.
func (it *keptConnections) keep(given *connection) {
	given.lastUse, given.in = time.Now(), nil
	it.mutex.Lock()
	defer it.mutex.Unlock()
	it.idle = append(it.idle, given)
	if it.closing == nil {
		it.closing = time.AfterFunc(idleTime, it.closeIdle)
	}
}

// closeIdle closes what was not used for a while, and looks again as long as there is any.
func (it *keptConnections) closeIdle() {
	it.mutex.Lock()
	defer it.mutex.Unlock()
	count := 0
	for count < len(it.idle) && time.Since(it.idle[count].lastUse) >= idleTime {
		it.idle[count].Close()
		count++
	}
	it.idle = append(it.idle[:0], it.idle[count:]...)
	it.closing = nil
	if len(it.idle) > 0 {
		it.closing = time.AfterFunc(idleTime-time.Since(it.idle[0].lastUse), it.closeIdle)
	}
}
