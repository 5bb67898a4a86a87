package main

import (
	"context"
	"errors"
	"io"
	"log"
	"net"
	"net/http"
	"runtime/debug"
	"strconv"
	"sync/atomic"
	"syscall"
	"time"
)

const (
	// room for the head of a push and a small body, which come by one read then
	shipperSpace = 4_096
	// so much that is left of a body is read past, and after more the connection ends, as net/http has it
	mostLeft = 256 << 10
	// before a connection ends whose shipper may still be sending, so that it gets its answer
	lastTime = 500 * time.Millisecond
	// (to set a time takes longer than to leave one that is near enough)
	idleSlack = keptTime / 4
)

// A shipper is a connection of one. Pushes with a usual head are read and answered here, by one goroutine for each
// connection. Anything else is left to net/http, with all that follows it on the connection.
type shipper struct {
	*net.TCPConn
	front  *front
	in     present
	isBusy atomic.Bool
	// what came and is not read yet is space[begin:end], and so much is still to come of a body
	space      [shipperSpace]byte
	begin, end int
	rest       int64
	// when reads and writes end, as far as that was told
	readUntil, writeUntil time.Time
	head                  pushHead
	push                  pushed
	out                   []byte
}

// newShipper is nil where the connection is none of TCP.
func newShipper(of *front, given net.Conn) *shipper {
	line, is := given.(*net.TCPConn)
	if !is {
		return nil
	}
	handle, err := line.SyscallConn()
	if err != nil {
		return nil
	}
	it := &shipper{TCPConn: line, front: of, in: present{context.Background(), handle}}
	it.readBefore(time.Now().Add(headTime), 0)
	return it
}

// A present is what a push of a shipper's connection waits in. Nothing watches whether the shipper has gone: that is
// looked at when somebody asks.
type present struct {
	context.Context
	handle syscall.RawConn
}

func (it *present) Err() error {
	var count int
	var err error
	look := func(handle uintptr) {
		count, _, err = syscall.Recvfrom(int(handle), make([]byte, 1), syscall.MSG_PEEK|syscall.MSG_DONTWAIT)
	}
	isClosed := it.handle.Control(look) != nil
	if isClosed || count <= 0 && !errors.Is(err, syscall.EAGAIN) && !errors.Is(err, syscall.EINTR) {
		return context.Canceled
	}
	return nil
}

// serve answers one push after another, until the connection ends or is left to net/http.
func (it *shipper) serve() {
	defer func() {
		if found := recover(); found != nil {
			log.Printf("a fault in a push: %v\n%s", found, debug.Stack())
			it.Close()
		}
	}()
	for it.next() {
		it.isBusy.Store(false)
		it.readBefore(time.Now().Add(keptTime), idleSlack)
		// (in this order, as front.end does it the other way round)
		if it.front.isEnding.Load() {
			it.Close()
			return
		}
	}
}

// readBefore has reads end at a time, or by this much earlier.
func (it *shipper) readBefore(at time.Time, slack time.Duration) {
	if it.readUntil.After(at) || at.Sub(it.readUntil) > slack {
		it.readUntil = at
		it.SetReadDeadline(at)
	}
}

// next reads and answers a push, and is whether the connection stays here.
func (it *shipper) next() bool {
	for {
		length, isUsual := it.head.read(it.space[it.begin:it.end])
		if !isUsual || length > 0 && !it.accept() {
			it.front.others.take(it)
			return false
		}
		if length > 0 {
			it.isBusy.Store(true)
			it.begin += length
			return it.answer()
		}
		if err := it.more(); err != nil {
			it.Close()
			return false
		}
	}
}

// more waits until more of a head has come. There is room for it.
func (it *shipper) more() error {
	if it.begin == it.end {
		it.begin, it.end = 0, 0
	} else {
		it.end = copy(it.space[:], it.space[it.begin:it.end])
		it.begin = 0
		it.isBusy.Store(true)
		it.readBefore(time.Now().Add(headTime), headTime)
	}
	count, err := it.TCPConn.Read(it.space[it.end:])
	it.end += count
	if count > 0 {
		return nil
	}
	return err
}

// accept is whether a push may come that has the head which was read. One that may not is answered by net/http.
func (it *shipper) accept() bool {
	it.push.begin(it.front.gateway, &it.in)
	if it.push.accept(it.head.said, readHead) != nil {
		it.push.end()
		return false
	}
	return true
}

// answer reads the body of a push, answers it, and is whether the connection goes on.
func (it *shipper) answer() bool {
	it.rest = it.head.said.length
	if it.rest > int64(it.end-it.begin) {
		it.readBefore(it.push.began.Add(it.front.gateway.within), 0)
	}
	found, err := it.ask()
	more := ""
	if err != nil {
		its := faultOf(err)
		found, more = answer{its.status, textType, its.text + "\n"}, "X-Content-Type-Options: nosniff\r\n"
	}
	goesOn := it.finish() && !it.front.isEnding.Load()
	if !goesOn {
		more += "Connection: close\r\n"
	}
	goesOn = it.tell(found, more) == nil && goesOn
	it.front.gateway.metrics.answered(it.push.form, found.status, it.push.began)
	if !goesOn {
		it.hangUp()
	}
	return goesOn
}

func (it *shipper) ask() (answer, error) {
	defer it.push.end()
	return it.push.answer(it)
}

// Read is for what reads the body of a push.
func (it *shipper) Read(to []byte) (count int, err error) {
	to = to[:smaller(int64(len(to)), it.rest)]
	switch {
	case it.rest == 0:
	case it.begin < it.end:
		count = copy(to, it.space[it.begin:it.end])
		it.begin += count
	default:
		count, err = it.TCPConn.Read(to)
	}
	it.rest -= int64(count)
	if it.rest == 0 {
		return count, io.EOF
	}
	return count, asUnexpected(err)
}

// finish reads what is left of a body, and is whether that is over.
func (it *shipper) finish() bool {
	if it.rest > mostLeft {
		return false
	}
	if it.rest > 0 {
		io.Copy(io.Discard, struct{ io.Reader }{it})
	}
	return it.rest == 0
}

// hangUp ends a connection so that the shipper gets the last answer, though it may still be sending.
func (it *shipper) hangUp() {
	if it.rest > 0 {
		it.CloseWrite()
		time.Sleep(lastTime)
	}
	it.Close()
}

// tell writes an answer, by one call.
func (it *shipper) tell(found answer, more string) error {
	now := time.Now()
	out := append(it.out[:0], "HTTP/1.1 "...)
	if found.status == http.StatusNoContent {
		out = append(out, "204 No Content\r\n"...)
	} else {
		out = appendStatus(out, found)
	}
	out = append(append(out, more...), "Date: "...)
	out = append(append(out, dateAt(now)...), "\r\n\r\n"...)
	if it.out = out[:0]; found.status != http.StatusNoContent {
		out = append(out, found.text...)
	}
	if it.writeUntil.Sub(now) < pushTime {
		it.writeUntil = now.Add(pushTime + answerTime)
		it.SetWriteDeadline(it.writeUntil)
	}
	_, err := it.Write(out)
	return err
}

// appendStatus adds the beginning of an answer with a text.
func appendStatus(to []byte, found answer) []byte {
	words := http.StatusText(found.status)
	if words == "" {
		words = "status code " + strconv.Itoa(found.status)
	}
	to = append(strconv.AppendInt(to, int64(found.status), 10), ' ')
	to = append(append(to, words...), "\r\n"...)
	kind := found.kind
	if kind == "" {
		kind = http.DetectContentType([]byte(found.text))
	}
	to = append(append(append(to, "Content-Type: "...), kind...), "\r\nContent-Length: "...)
	return append(strconv.AppendInt(to, int64(len(found.text)), 10), "\r\n"...)
}

// A day and time as the head of an answer has it, which is the same for a second.
type date struct {
	second int64
	text   string
}

var lastDate atomic.Pointer[date]

func dateAt(now time.Time) string {
	found := lastDate.Load()
	if found == nil || found.second != now.Unix() {
		found = &date{now.Unix(), now.UTC().Format(http.TimeFormat)}
		lastDate.Store(found)
	}
	return found.text
}
