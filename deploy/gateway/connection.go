package main

import (
	"bufio"
	"bytes"
	"context"
	"errors"
	"io"
	"net"
	"net/http/httputil"
	"os"
	"strconv"
	"strings"
	"syscall"
	"time"
)

const (
	// of the head of an answer
	mostAnswerHead = 16_384
	// so often a push that waits for its answer looks whether its client is still there
	lookTime = 500 * time.Millisecond
	// a body for which a write may have to wait
	leastWritten = 65_536
)

// A connection to the server is kept from one push to the next. One push at a time uses it: an answer of 500, or its
// end, would take the answers of those behind it along.
type connection struct {
	net.Conn
	// what it is below TLS, and whether bytes may come that are no answer
	handle syscall.RawConn
	isTLS  bool
	// what came and is not read yet is space[begin:end]
	space      []byte
	begin, end int
	headSpace  [headSpace]byte
	lastUse    time.Time
	// how the push that is under way ends without an answer
	in    context.Context
	until time.Time
	// when a read ends that nothing came to, and whether there is such a time for writes
	look        time.Time
	isWriteTime bool
}

func newConnection(below, above net.Conn) (*connection, error) {
	handle, err := below.(syscall.Conn).SyscallConn()
	if err != nil {
		return nil, err
	}
	return &connection{Conn: above, handle: handle, isTLS: below != above, space: make([]byte, 4096)}, nil
}

// isOpen is whether the server has neither ended an idle connection nor said anything on it.
func (it *connection) isOpen() bool {
	isOpen := false
	err := it.handle.Control(func(handle uintptr) {
		count, _, err := syscall.Recvfrom(int(handle), it.space[:1], syscall.MSG_PEEK|syscall.MSG_DONTWAIT)
		isOpen = errors.Is(err, syscall.EAGAIN) || it.isTLS && err == nil && count > 0
	})
	return err == nil && isOpen
}

// ask sends a request, and is the answer to it, and whether the connection may be used again.
func (it *connection) ask(head []byte, body *buffer) (answer, bool, error) {
	// (less than that finds room in the system, since all that was sent before is answered)
	if it.isWriteTime || len(body.bytes) > leastWritten {
		it.SetWriteDeadline(it.until)
		it.isWriteTime = true
	}
	unsent := it.send(head, body)
	// (an answer that came before the whole body was read counts)
	found, isKept, err := it.answer()
	if err != nil && unsent != nil {
		err = unsent
	}
	return found, isKept && unsent == nil && it.begin == it.end, err
}

// send writes a head and a body, by one call where the body has space for the head before it.
func (it *connection) send(head []byte, body *buffer) error {
	if len(head) <= headSpace && body.space != nil {
		from := headSpace - len(head)
		copy(body.space[from:], head)
		_, err := it.Write(body.space[from : headSpace+len(body.bytes)])
		return err
	}
	both := net.Buffers{head, body.bytes}
	_, err := both.WriteTo(it.Conn)
	return err
}

// Read is for what reads a body by pieces.
func (it *connection) Read(to []byte) (int, error) {
	if it.begin == it.end {
		if err := it.more(); err != nil {
			return 0, err
		}
	}
	count := copy(to, it.space[it.begin:it.end])
	it.begin += count
	return count, nil
}

// more waits until more has come.
func (it *connection) more() error {
	if it.begin == it.end {
		it.begin, it.end = 0, 0
	}
	if it.end == len(it.space) {
		it.space = append(it.space, make([]byte, len(it.space))...)
	}
	for {
		it.setLook()
		count, err := it.Conn.Read(it.space[it.end:])
		it.end += count
		switch {
		case count > 0:
			return nil
		case !errors.Is(err, os.ErrDeadlineExceeded):
			return asUnexpected(err)
		case it.in.Err() != nil:
			return it.in.Err()
		case !time.Now().Before(it.until):
			return err
		}
	}
}

// setLook has the next read end in time. It leaves a time that is near enough, since a new one takes longer than a
// look.
func (it *connection) setLook() {
	now := time.Now()
	if it.look.Sub(now) > lookTime/2 && !it.until.Before(it.look) {
		return
	}
	if it.look = now.Add(lookTime); it.until.Before(it.look) {
		it.look = it.until
	}
	it.SetReadDeadline(it.look)
}

func asUnexpected(err error) error {
	if err == io.EOF {
		return io.ErrUnexpectedEOF
	}
	return err
}

// stored is what the server answers to nearly all pushes.
var stored = []byte("HTTP/1.1 204 No Content\r\n\r\n")

var errAnswer = errors.New("the server's answer is not of HTTP/1.1")

// answer reads the next answer, and is whether the connection goes on after it.
func (it *connection) answer() (answer, bool, error) {
	for {
		head, err := it.head()
		if err != nil {
			return answer{}, false, err
		}
		if bytes.Equal(head, stored) {
			return answer{status: 204}, true, nil
		}
		found, err := readAnswerHead(string(head))
		switch {
		case err != nil:
			return answer{}, false, err
		case found.status >= 200:
			isKept, err := it.body(&found)
			return found.answer, isKept, err
		case found.status == 101:
			return answer{}, false, errAnswer
		}
	}
}

// head is the next head, to its empty line.
func (it *connection) head() ([]byte, error) {
	for {
		if length := bytes.Index(it.space[it.begin:it.end], []byte("\r\n\r\n")); length >= 0 {
			from := it.begin
			it.begin += length + 4
			return it.space[from:it.begin], nil
		}
		if it.end-it.begin > mostAnswerHead {
			return nil, errAnswer
		}
		if err := it.more(); err != nil {
			return nil, err
		}
	}
}

// The head of an answer, and what it says of the body: how long it is, -1 where it says nothing.
type answerHead struct {
	answer
	length              int64
	isChunked, isClosed bool
}

func readAnswerHead(text string) (found answerHead, err error) {
	lines := strings.Split(strings.TrimSuffix(text, "\r\n\r\n"), "\r\n")
	version, rest, _ := strings.Cut(lines[0], " ")
	status, _, _ := strings.Cut(rest, " ")
	if found.status, err = strconv.Atoi(status); err != nil || len(status) != 3 || found.status < 100 {
		return found, errAnswer
	}
	if version != "HTTP/1.1" && version != "HTTP/1.0" {
		return found, errAnswer
	}
	found.length, found.isClosed = -1, version == "HTTP/1.0"
	for _, line := range lines[1:] {
		name, value, isField := strings.Cut(line, ":")
		if !isField || !found.take(strings.ToLower(name), strings.Trim(value, " \t")) {
			return found, errAnswer
		}
	}
	return found, nil
}

// take takes a field, and says whether it may be so.
func (it *answerHead) take(name, value string) bool {
	switch name {
	case "content-type":
		it.kind = value
	case "content-length":
		length, err := strconv.ParseUint(value, 10, 62)
		if err != nil || it.length >= 0 && it.length != int64(length) {
			return false
		}
		it.length = int64(length)
	case "transfer-encoding":
		it.isChunked = strings.EqualFold(value, "chunked")
		return it.isChunked
	case "connection":
		it.isClosed = it.isClosed || strings.EqualFold(value, "close")
	}
	return name != "" && !strings.ContainsAny(name, " \t")
}

// body reads the text of an answer, and is whether the connection goes on after it.
func (it *connection) body(found *answerHead) (bool, error) {
	var from io.Reader
	length := found.length
	switch {
	case found.status == 204 || found.status == 304:
		return !found.isClosed, nil
	case found.isChunked:
		return it.chunks(found)
	case length < 0:
		from, length = untilEnd{it}, mostAnswer
	default:
		from, length = it, smaller(length, mostAnswer)
	}
	text, err := io.ReadAll(io.LimitReader(from, length))
	if err == nil && int64(len(text)) < found.length && len(text) < mostAnswer {
		err = io.ErrUnexpectedEOF
	}
	found.text = string(text)
	return int64(len(text)) == found.length && !found.isClosed, err
}

// untilEnd is a body that ends where the connection does.
type untilEnd struct{ *connection }

func (it untilEnd) Read(to []byte) (int, error) {
	count, err := it.connection.Read(to)
	if err == io.ErrUnexpectedEOF {
		err = io.EOF
	}
	return count, err
}

// chunks reads a body in chunks, and the fields behind it, which say nothing here.
func (it *connection) chunks(found *answerHead) (bool, error) {
	from := bufio.NewReader(it)
	text, err := io.ReadAll(io.LimitReader(httputil.NewChunkedReader(from), mostAnswer+1))
	if err != nil {
		return false, asUnexpected(err)
	}
	found.text = string(text[:smaller(int64(len(text)), mostAnswer)])
	if len(text) > mostAnswer {
		return false, nil
	}
	for line := []byte(nil); string(line) != "\r\n"; {
		if line, err = from.ReadSlice('\n'); err != nil {
			return false, asUnexpected(err)
		}
	}
	return !found.isClosed && from.Buffered() == 0, nil
}
